//! Rings, boards and counters whose words and bodies are in a file, or in other memory that outlives them.
use crate::board::Transmitter;
use crate::counters::Counters;
use crate::error::Error;
use crate::handle::done;
use crate::raw;
use crate::ring::{made_by, Consumer, Producer};
use std::ffi::c_void;
use std::fs::{self, File, OpenOptions};
use std::os::fd::AsRawFd;
use std::path::Path;
use std::{fmt, io, mem, ptr};

/// The reason why a structure was not made in a file.
#[derive(Debug)]
#[non_exhaustive]
pub enum InFileError {
    /// The library refused the call.
    Refused(Error),
    /// The file could not be made or mapped.
    File(io::Error),
}

impl fmt::Display for InFileError {
    fn fmt(&self, f: &mut fmt::Formatter<'_>) -> fmt::Result {
        match self {
            InFileError::Refused(_) => f.write_str("the structure was not made"),
            InFileError::File(_) => f.write_str("the file was not made or mapped"),
        }
    }
}

impl std::error::Error for InFileError {
    fn source(&self) -> Option<&(dyn std::error::Error + 'static)> {
        match self {
            InFileError::Refused(reason) => Some(reason),
            InFileError::File(reason) => Some(reason),
        }
    }
}

impl From<Error> for InFileError {
    fn from(reason: Error) -> InFileError {
        InFileError::Refused(reason)
    }
}

impl From<io::Error> for InFileError {
    fn from(reason: io::Error) -> InFileError {
        InFileError::File(reason)
    }
}

extern "C" {
    fn mmap(at: *mut c_void, length: usize, protection: i32, flags: i32, file: i32, offset: i64) -> *mut c_void;
    fn munmap(at: *mut c_void, length: usize) -> i32;
    fn posix_fallocate(file: i32, offset: i64, length: i64) -> i32;
}

const PROT_READ: i32 = 1;
const PROT_WRITE: i32 = 2;
const MAP_SHARED: i32 = 1;
const EINTR: i32 = 4;

/// Makes a file this long, with all its blocks. So if the disk is full, this is an error, and no store to the memory of
/// the file is a fault later.
fn reserve(file: &File, length: usize) -> io::Result<()> {
    let size = i64::try_from(length).map_err(io::Error::other)?;
    loop {
        // SAFETY: the file is open.
        match unsafe { posix_fallocate(file.as_raw_fd(), 0, size) } {
            0 => return Ok(()),
            // (a signal came: again)
            EINTR => {}
            why => return Err(io::Error::from_raw_os_error(why)),
        }
    }
}

/// A new file that is mapped. If it is dropped, the file is unmapped and removed.
struct Mapped<'a> {
    memory: *mut u8,
    length: usize,
    path: &'a Path,
}

impl Mapped<'_> {
    fn create(path: &Path, length: usize) -> io::Result<Mapped<'_>> {
        let file = OpenOptions::new().read(true).write(true).create_new(true).open(path)?;
        let mut mapped = Mapped { memory: ptr::null_mut(), length, path };
        reserve(&file, length)?;
        let (protection, any) = (PROT_READ | PROT_WRITE, ptr::null_mut());
        // SAFETY: the file is open, and has this length.
        let at = unsafe { mmap(any, length, protection, MAP_SHARED, file.as_raw_fd(), 0) };
        if at as isize == -1 {
            return Err(io::Error::last_os_error());
        }
        mapped.memory = at.cast();
        Ok(mapped)
    }
}

impl Drop for Mapped<'_> {
    fn drop(&mut self) {
        if !self.memory.is_null() {
            // SAFETY: no structure is in the memory.
            unsafe { munmap(self.memory.cast(), self.length) };
        }
        // (a drop cannot return an error)
        let _ = fs::remove_file(self.path);
    }
}

/// Makes a file of this length, and a structure in it. The library unmaps the file after the last handle was freed.
fn in_file<T>(
    path: &Path,
    length: usize,
    make: impl FnOnce(*mut u8, usize) -> Result<T, Error>,
) -> Result<T, InFileError> {
    let mapped = Mapped::create(path, length)?;
    let made = make(mapped.memory, length)?;
    // SAFETY: the memory was mapped with this length, and from now on only the library unmaps it.
    done(unsafe { raw::felter_unmap_at_end(mapped.memory, length) })?;
    mem::forget(mapped);
    Ok(made)
}

/// Returns the number that one of the calls about lengths writes.
fn length_by(call: unsafe extern "C" fn(u32, *mut usize) -> i32, capacity: u32) -> Result<usize, Error> {
    let mut length = 0;
    // SAFETY: the number is ours.
    done(unsafe { call(capacity, &mut length) })?;
    Ok(length)
}

/// Returns how many bytes of memory a ring of either kind needs.
///
/// Errors: [`Error::BadCapacity`].
pub fn ring_memory(capacity: u32) -> Result<usize, Error> {
    length_by(raw::felter_ring_memory, capacity)
}

/// Makes a new file, and a many-to-one ring in it. Positions begin at 0. The words and the bodies of the ring are in
/// the file, so the messages survive the death of the process. The file is unmapped after the last handle of the ring
/// was dropped. The file itself stays.
///
/// Another process can map the file and look at it.
///
/// Errors: [`InFileError::Refused`] with the errors of [`many_to_one`](crate::many_to_one), and [`InFileError::File`],
/// for example if the file exists. After an error there is no new file.
///
/// # Safety
///
/// As long as a handle of the ring exists, only the calls of its handles write to the file, and no process makes the
/// file shorter. Otherwise a call can access other memory of the process. Other code of this process must keep this
/// rule too.
///
/// ```
/// let path = std::env::temp_dir().join(format!("felter-{}", std::process::id()));
/// // SAFETY: no other code knows of the file.
/// let (mut producer, mut consumer) = unsafe { felter::many_to_one_in_file(&path, 1024)? };
/// producer.write(7, b"hello")?;
/// assert_eq!(&std::fs::read(&path)?[..8], b"FELTERIM");
/// assert_eq!(consumer.read_owned()?.map(|message| message.body), Some(b"hello".to_vec()));
/// std::fs::remove_file(&path)?;
/// # Ok::<(), Box<dyn std::error::Error>>(())
/// ```
///
/// The compiler cannot know who writes to a file, so the call is unsafe. This does not compile:
///
/// ```compile_fail,E0133
/// let ring = felter::many_to_one_in_file("ring", 1024);
/// ```
pub unsafe fn many_to_one_in_file(path: impl AsRef<Path>, capacity: u32) -> Result<(Producer, Consumer), InFileError> {
    let length = ring_memory(capacity)?;
    // SAFETY: the memory is a new file, which the library unmaps. The caller says that nothing else writes to it.
    in_file(path.as_ref(), length, |at, length| unsafe { many_to_one_in_memory(at, length, capacity) })
}

/// Makes a one-to-one ring in a new file, as [`many_to_one_in_file`] makes a many-to-one ring.
///
/// # Safety
///
/// The same as for [`many_to_one_in_file`].
pub unsafe fn one_to_one_in_file(path: impl AsRef<Path>, capacity: u32) -> Result<(Producer, Consumer), InFileError> {
    let length = ring_memory(capacity)?;
    // SAFETY: the memory is a new file, which the library unmaps. The caller says that nothing else writes to it.
    in_file(path.as_ref(), length, |at, length| unsafe { one_to_one_in_memory(at, length, capacity) })
}

/// Makes a many-to-one ring in memory of the caller, which must begin at a multiple of 64 bytes. Positions begin at 0.
/// What was in the memory before is lost. After an error the memory is as it was.
///
/// Errors, in this order: [`Error::NullPointer`], [`Error::BadCapacity`], [`Error::BadMemory`], [`Error::OutOfMemory`].
///
/// # Safety
///
/// - The `length` bytes at `memory` can be read and written, and stay at their address, until each handle of the ring
///   was dropped.
/// - Until then no other code writes to these bytes, and no other structure is made in them.
pub unsafe fn many_to_one_in_memory(
    memory: *mut u8,
    length: usize,
    capacity: u32,
) -> Result<(Producer, Consumer), Error> {
    // SAFETY: the caller says so. Nothing else has the number, and both handles are empty.
    made_by(|number, producer, consumer| unsafe {
        raw::felter_many_to_one_new_in_numbered(number, memory, length, capacity, producer, consumer)
    })
}

/// Makes a one-to-one ring in memory of the caller, as [`many_to_one_in_memory`] makes a many-to-one ring.
///
/// # Safety
///
/// The same as for [`many_to_one_in_memory`].
pub unsafe fn one_to_one_in_memory(
    memory: *mut u8,
    length: usize,
    capacity: u32,
) -> Result<(Producer, Consumer), Error> {
    // SAFETY: the caller says so. Nothing else has the number, and both handles are empty.
    made_by(|number, producer, consumer| unsafe {
        raw::felter_one_to_one_new_in_numbered(number, memory, length, capacity, producer, consumer)
    })
}

impl Transmitter {
    /// Returns how many bytes of memory a board needs.
    ///
    /// Errors: [`Error::BadCapacity`].
    pub fn memory(capacity: u32) -> Result<usize, Error> {
        length_by(raw::felter_board_memory, capacity)
    }

    /// Makes a new file, and a board in it, as [`many_to_one_in_file`] does for a ring.
    ///
    /// # Safety
    ///
    /// The same as for [`many_to_one_in_file`].
    pub unsafe fn in_file(path: impl AsRef<Path>, capacity: u32) -> Result<Transmitter, InFileError> {
        let length = Transmitter::memory(capacity)?;
        // SAFETY: the memory is a new file, which the library unmaps. The caller says that nothing else writes to it.
        in_file(path.as_ref(), length, |at, length| unsafe { Transmitter::in_memory(at, length, capacity) })
    }

    /// Makes a board in memory of the caller, as [`many_to_one_in_memory`] does for a ring.
    ///
    /// # Safety
    ///
    /// The same as for [`many_to_one_in_memory`].
    pub unsafe fn in_memory(memory: *mut u8, length: usize, capacity: u32) -> Result<Transmitter, Error> {
        // SAFETY: the caller says so. Nothing else has the number, and the handle is empty.
        Transmitter::made_by(|number, handle| unsafe {
            raw::felter_board_new_in_numbered(number, memory, length, capacity, handle)
        })
    }
}

impl Counters {
    /// Returns how many bytes of memory this many counters need.
    ///
    /// Errors: [`Error::BadCount`].
    pub fn memory(count: u32) -> Result<usize, Error> {
        length_by(raw::felter_counters_memory, count)
    }

    /// Makes a new file, and counters in it, as [`many_to_one_in_file`] does for a ring. The value records and the
    /// metadata are in the file.
    ///
    /// # Safety
    ///
    /// The same as for [`many_to_one_in_file`].
    ///
    /// ```
    /// let path = std::env::temp_dir().join(format!("felter-counters-{}", std::process::id()));
    /// // SAFETY: no other code knows of the file.
    /// let mut counters = unsafe { felter::Counters::in_file(&path, 8, 0)? };
    /// let id = counters.allocate(0, 1, b"", b"requests", 0)?;
    /// counters.add(id, 3)?;
    /// assert_eq!(std::fs::read(&path)?[128], 3);
    /// std::fs::remove_file(&path)?;
    /// # Ok::<(), Box<dyn std::error::Error>>(())
    /// ```
    pub unsafe fn in_file(path: impl AsRef<Path>, count: u32, reuse_ms: u32) -> Result<Counters, InFileError> {
        let length = Counters::memory(count)?;
        // SAFETY: the memory is a new file, which the library unmaps. The caller says that nothing else writes to it.
        in_file(path.as_ref(), length, |at, length| unsafe { Counters::in_memory(at, length, count, reuse_ms) })
    }

    /// Makes counters in memory of the caller, as [`many_to_one_in_memory`] does for a ring.
    ///
    /// # Safety
    ///
    /// The same as for [`many_to_one_in_memory`].
    pub unsafe fn in_memory(memory: *mut u8, length: usize, count: u32, reuse_ms: u32) -> Result<Counters, Error> {
        // SAFETY: the caller says so. Nothing else has the number, and the handle is empty.
        Counters::made_by(|number, handle| unsafe {
            raw::felter_counters_new_in_numbered(number, memory, length, count, reuse_ms, handle)
        })
    }
}
