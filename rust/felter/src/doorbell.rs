//! A doorbell for event loops. Writers ring a doorbell. Readers wait until the doorbell is rung, for example by epoll.
use std::fs::File;
use std::io::{self, ErrorKind, Read, Write};
use std::os::fd::{AsFd, AsRawFd, BorrowedFd, FromRawFd, RawFd};
use std::time::{Duration, Instant};

/// An eventfd of Linux. The descriptor becomes readable when the doorbell is rung, and stays readable until the
/// doorbell is cleared.
///
/// Writers ring the doorbell after they have written, since a write does not ring a doorbell. The reader clears the
/// doorbell first, and then reads until no message is there. So no message is missed.
///
/// ```
/// let (mut producer, mut consumer) = felter::one_to_one(1024)?;
/// let bell = felter::Doorbell::new()?;
/// std::thread::scope(|scope| {
///     scope.spawn(|| {
///         producer.write(7, b"hello").expect("there is room");
///         bell.ring().expect("it is open");
///     });
///     assert!(bell.wait(None)?);
///     bell.clear()?;
///     let mut room = [0; 128];
///     assert_eq!(consumer.read(&mut room)?.map(|message| message.type_id), Some(7));
///     Ok::<(), Box<dyn std::error::Error>>(())
/// })?;
/// # Ok::<(), Box<dyn std::error::Error>>(())
/// ```
#[derive(Debug)]
pub struct Doorbell {
    file: File,
}

#[repr(C)]
struct PollFd {
    fd: i32,
    events: i16,
    revents: i16,
}

extern "C" {
    fn eventfd(initial: u32, flags: i32) -> i32;
    fn poll(fds: *mut PollFd, count: u64, timeout: i32) -> i32;
}

const CLOEXEC_NONBLOCK: i32 = 0o2_000_000 | 0o4_000;
const POLLIN: i16 = 1;

impl Doorbell {
    /// Makes a doorbell that is not rung.
    ///
    /// Errors: those of the system, for example if the process can open no more files.
    pub fn new() -> io::Result<Doorbell> {
        // SAFETY: the call takes only numbers.
        let fd = unsafe { eventfd(0, CLOEXEC_NONBLOCK) };
        if fd < 0 {
            return Err(io::Error::last_os_error());
        }
        // SAFETY: the file was just opened, and is ours.
        Ok(Doorbell { file: unsafe { File::from_raw_fd(fd) } })
    }

    /// Rings the doorbell. Any thread may call this.
    pub fn ring(&self) -> io::Result<()> {
        match (&self.file).write(&1u64.to_ne_bytes()) {
            // (the count is full, so the doorbell is rung already)
            Err(error) if error.kind() == ErrorKind::WouldBlock => Ok(()),
            other => other.map(|_| ()),
        }
    }

    /// Clears the doorbell, and returns whether it was rung.
    pub fn clear(&self) -> io::Result<bool> {
        match (&self.file).read(&mut [0; 8]) {
            Err(error) if error.kind() == ErrorKind::WouldBlock => Ok(false),
            other => other.map(|_| true),
        }
    }

    /// Waits until the doorbell is rung, or until the timeout. Returns whether the doorbell was rung. Without a timeout
    /// the call waits for ever. A signal does not end the wait.
    pub fn wait(&self, timeout: Option<Duration>) -> io::Result<bool> {
        // (a timeout that is too long for a deadline is longer than any wait)
        let deadline = timeout.and_then(|it| Instant::now().checked_add(it));
        loop {
            let left = deadline.map(|it| it.saturating_duration_since(Instant::now()));
            match self.wait_once(left) {
                Ok(false) if left != Some(Duration::ZERO) => {}
                Err(error) if error.kind() == ErrorKind::Interrupted => {}
                other => return other,
            }
        }
    }

    /// Waits as `wait` does, but for less time if a signal comes, or if the timeout is longer than poll can wait.
    fn wait_once(&self, timeout: Option<Duration>) -> io::Result<bool> {
        let millis = timeout.map_or(-1, |it| it.as_nanos().div_ceil(1_000_000).min(i32::MAX as u128) as i32);
        let mut it = PollFd { fd: self.file.as_raw_fd(), events: POLLIN, revents: 0 };
        // SAFETY: the call gets one element that is ours.
        match unsafe { poll(&mut it, 1, millis) } {
            -1 => Err(io::Error::last_os_error()),
            count => Ok(count > 0),
        }
    }
}

impl AsRawFd for Doorbell {
    fn as_raw_fd(&self) -> RawFd {
        self.file.as_raw_fd()
    }
}

impl AsFd for Doorbell {
    fn as_fd(&self) -> BorrowedFd<'_> {
        self.file.as_fd()
    }
}
