//! Handles that free themselves, and the numbers that say which structure a handle belongs to.
use crate::error::Error;
use crate::raw::{self, Raw};
use std::fmt;
use std::sync::atomic::{AtomicU64, Ordering};

/// The size of a ring or a board.
#[derive(Clone, Copy, Debug, PartialEq, Eq)]
pub struct Sizes {
    /// The size of the buffer, in bytes.
    pub capacity: u32,
    /// The length of the longest message, which is an eighth of the capacity.
    pub max_message: u32,
}

/// A handle.
pub(crate) struct Handle {
    raw: Raw,
}

// SAFETY: the library proves that its handles may go to another thread. A value that is moved to another thread is
// moved after all earlier calls with it.
unsafe impl Send for Handle {}

// SAFETY: a shared handle cannot be used, because each call takes its handle by `&mut`.
unsafe impl Sync for Handle {}

impl Handle {
    /// Returns an empty handle.
    pub(crate) const fn empty() -> Handle {
        Handle { raw: Raw::EMPTY }
    }

    /// Returns the sizes of the ring or board of this handle.
    pub(crate) fn sizes(&mut self) -> Result<Sizes, Error> {
        let (mut capacity, mut max_message) = (0, 0);
        // SAFETY: the handle and the numbers are ours.
        done(unsafe { raw::felter_capacity(&mut self.raw, &mut capacity, &mut max_message) })?;
        Ok(Sizes { capacity, max_message })
    }

    /// Returns the number that a call writes.
    pub(crate) fn said<T: Default>(&mut self, call: unsafe extern "C" fn(*mut Raw, *mut T) -> i32) -> Result<T, Error> {
        let mut number = T::default();
        // SAFETY: the handle and the number are ours.
        done(unsafe { call(&mut self.raw, &mut number) })?;
        Ok(number)
    }

    /// Returns the pointer for a call of the library, which does not use it after the call.
    pub(crate) fn raw(&mut self) -> *mut Raw {
        &mut self.raw
    }
}

impl Drop for Handle {
    fn drop(&mut self) {
        // SAFETY: the handle is ours, and no other call uses it.
        unsafe { raw::felter_free(&mut self.raw) }
    }
}

impl fmt::Debug for Handle {
    fn fmt(&self, f: &mut fmt::Formatter<'_>) -> fmt::Result {
        f.write_str("..")
    }
}

/// Turns the code of a call into a result.
pub(crate) fn done(code: i32) -> Result<(), Error> {
    match code {
        raw::OK => Ok(()),
        refused => Err(Error::of(refused)),
    }
}

/// The number of a ring, a board, counters or a conductor. Each handle has the number of its structure. No two
/// structures of a process have the same number. So the header for C counts from 1 on, this crate from 2^62, and the
/// Python module from 2^63.
#[derive(Clone, Copy, Debug, PartialEq, Eq)]
pub(crate) struct Number(u64);

impl Number {
    /// Returns the next number.
    pub(crate) fn next() -> Number {
        static NEXT: AtomicU64 = AtomicU64::new(1 << 62);
        Number(NEXT.fetch_add(1, Ordering::Relaxed))
    }

    /// Returns the number for a call that makes a structure.
    pub(crate) fn raw(self) -> u64 {
        self.0
    }

    /// Refuses a handle of another structure.
    pub(crate) fn must_be(self, other: Number) -> Result<(), Error> {
        if self == other {
            Ok(())
        } else {
            Err(Error::OtherRing)
        }
    }
}
