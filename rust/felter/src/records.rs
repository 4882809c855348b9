//! Calls that read the record of a counter. Counters and conductors share these calls, and pass different functions of
//! the library to them.
use crate::counters::{MAX_KEY, MAX_LABEL};
use crate::error::Error;
use crate::handle::{done, Handle};
use crate::raw::Raw;

impl Handle {
    /// Returns a number of a record.
    pub(crate) fn number<T: Default>(
        &mut self,
        id: u32,
        call: unsafe extern "C" fn(*mut Raw, u32, *mut T) -> i32,
    ) -> Result<T, Error> {
        let mut number = T::default();
        // SAFETY: the handle and the number are ours.
        done(unsafe { call(self.raw(), id, &mut number) })?;
        Ok(number)
    }

    /// Returns the label of a record.
    pub(crate) fn label(
        &mut self,
        id: u32,
        call: unsafe extern "C" fn(*mut Raw, u32, *mut usize, *mut u8, usize) -> i32,
    ) -> Result<Vec<u8>, Error> {
        let (mut label, mut len) = (vec![0; MAX_LABEL], 0);
        // SAFETY: the handle and the number are ours, and pointer and length are those of a vector.
        done(unsafe { call(self.raw(), id, &mut len, label.as_mut_ptr(), MAX_LABEL) })?;
        label.truncate(len);
        Ok(label)
    }

    /// Returns the key of a record.
    pub(crate) fn key(
        &mut self,
        id: u32,
        call: unsafe extern "C" fn(*mut Raw, u32, *mut u8, usize) -> i32,
    ) -> Result<[u8; MAX_KEY], Error> {
        let mut key = [0; MAX_KEY];
        // SAFETY: the handle is ours, and pointer and length are those of an array.
        done(unsafe { call(self.raw(), id, key.as_mut_ptr(), MAX_KEY) })?;
        Ok(key)
    }

    /// Returns the lowest id in use with this type id and registration id.
    pub(crate) fn find(
        &mut self,
        type_id: i32,
        registration: u64,
        call: unsafe extern "C" fn(*mut Raw, i32, u64, *mut u32) -> i32,
    ) -> Result<Option<u32>, Error> {
        let mut id = 0;
        // SAFETY: the handle and the number are ours.
        match done(unsafe { call(self.raw(), type_id, registration, &mut id) }) {
            Ok(()) => Ok(Some(id)),
            Err(Error::NotAllocated) => Ok(None),
            Err(other) => Err(other),
        }
    }
}
