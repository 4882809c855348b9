//! Counters.
use crate::error::{Error, Refused};
use crate::handle::{done, Handle, Number};
use crate::raw::{self, Raw};

/// The length of the longest label, in bytes.
pub(crate) const MAX_LABEL: usize = 380;

/// The length of a key, in bytes.
pub const MAX_KEY: usize = 112;

/// Counters, whose ids begin at 0.
///
/// ```
/// let mut counters = felter::Counters::new(8, 0)?;
/// let id = counters.allocate(0, 1, b"", b"requests", 0)?;
/// counters.add(id, 3)?;
/// assert_eq!(counters.value(id)?, 3);
/// # Ok::<(), felter::Error>(())
/// ```
#[derive(Debug)]
pub struct Counters {
    handle: Handle,
    number: Number,
}

impl Counters {
    /// Makes counters with the ids below `count`, which must be from 1 to 4096. A freed id is not allocated again for
    /// `reuse_ms` milliseconds.
    ///
    /// Errors: [`Error::BadCount`], [`Error::OutOfMemory`].
    pub fn new(count: u32, reuse_ms: u32) -> Result<Counters, Error> {
        // SAFETY: nothing else has the number, and the handle is empty.
        Counters::made_by(|number, handle| unsafe {
            raw::felter_counters_new_numbered(number, count, reuse_ms, handle)
        })
    }

    /// Makes counters by a call that takes a new number and an empty handle.
    pub(crate) fn made_by(call: impl FnOnce(u64, *mut Raw) -> i32) -> Result<Counters, Error> {
        let (number, mut handle) = (Number::next(), Handle::empty());
        done(call(number.raw(), handle.raw()))?;
        Ok(Counters { handle, number })
    }

    /// Allocates a counter with the value 0 at the moment `now`, and returns its id.
    ///
    /// Errors: [`Error::KeyTooLong`], [`Error::LabelTooLong`], [`Error::LabelNotAscii`], [`Error::NoFreeCounter`].
    pub fn allocate(
        &mut self,
        now: u64,
        type_id: i32,
        key: &[u8],
        label: &[u8],
        registration: u64,
    ) -> Result<u32, Error> {
        self.allocate_owned(now, type_id, key, label, registration, 0)
    }

    /// Allocates a counter with an owner. Otherwise the call is the same as [`allocate`](Counters::allocate). The owner
    /// 0 means that the counter has no owner.
    pub fn allocate_owned(
        &mut self,
        now: u64,
        type_id: i32,
        key: &[u8],
        label: &[u8],
        registration: u64,
        owner: u64,
    ) -> Result<u32, Error> {
        let (key_at, key_len) = (key.as_ptr(), key.len());
        let (label_at, label_len) = (label.as_ptr(), label.len());
        let handle = self.handle.raw();
        let mut id = 0;
        // SAFETY: the handle and the number are ours, and pointers and lengths are those of slices.
        done(unsafe {
            raw::felter_counter_allocate_owned(
                handle,
                now,
                type_id,
                key_at,
                key_len,
                label_at,
                label_len,
                registration,
                owner,
                &mut id,
            )
        })?;
        Ok(id)
    }

    /// Frees a counter at the moment `now`.
    ///
    /// Errors: [`Error::BadId`], [`Error::NotAllocated`], [`Error::BadMoment`].
    pub fn free(&mut self, now: u64, id: u32) -> Result<(), Error> {
        // SAFETY: the handle is ours.
        done(unsafe { raw::felter_counter_free(self.handle.raw(), now, id) })
    }

    /// Does the same as [`free`](Counters::free). This is the name of the call in C++ and Python.
    pub fn release(&mut self, now: u64, id: u32) -> Result<(), Error> {
        self.free(now, id)
    }

    /// Sets a counter's value.
    ///
    /// Errors: [`Error::BadId`], [`Error::NotAllocated`].
    pub fn set(&mut self, id: u32, value: i64) -> Result<(), Error> {
        // SAFETY: the handle is ours.
        done(unsafe { raw::felter_counter_set(self.handle.raw(), id, value) })
    }

    /// Adds `delta` to a counter's value, and returns the value before the addition. A sum that does not fit in 64 bits
    /// wraps.
    ///
    /// Errors: [`Error::BadId`], [`Error::NotAllocated`].
    pub fn add(&mut self, id: u32, delta: i64) -> Result<i64, Error> {
        let mut before = 0;
        // SAFETY: the handle and the number are ours.
        done(unsafe { raw::felter_counter_add(self.handle.raw(), id, delta, &mut before) })?;
        Ok(before)
    }

    /// Adds 1 to a counter's value, and returns the value before the addition. A sum that does not fit in 64 bits
    /// wraps.
    ///
    /// Errors: [`Error::BadId`], [`Error::NotAllocated`].
    pub fn increment(&mut self, id: u32) -> Result<i64, Error> {
        self.handle.number(id, raw::felter_counter_increment)
    }

    /// Subtracts 1 from a counter's value, and returns the value before the subtraction. A difference that does not fit
    /// in 64 bits wraps.
    ///
    /// Errors: [`Error::BadId`], [`Error::NotAllocated`].
    pub fn decrement(&mut self, id: u32) -> Result<i64, Error> {
        self.handle.number(id, raw::felter_counter_decrement)
    }

    /// Sets a counter's value, and returns the value before the call.
    ///
    /// Errors: [`Error::BadId`], [`Error::NotAllocated`].
    pub fn get_and_set(&mut self, id: u32, value: i64) -> Result<i64, Error> {
        let mut before = 0;
        // SAFETY: the handle and the number are ours.
        done(unsafe { raw::felter_counter_get_and_set(self.handle.raw(), id, value, &mut before) })?;
        Ok(before)
    }

    /// Raises a counter's value to `value` if the old value was less. Returns whether the value was raised.
    ///
    /// Errors: [`Error::BadId`], [`Error::NotAllocated`].
    pub fn propose_max(&mut self, id: u32, value: i64) -> Result<bool, Error> {
        let mut raised = 0;
        // SAFETY: the handle and the number are ours.
        done(unsafe { raw::felter_counter_propose_max(self.handle.raw(), id, value, &mut raised) })?;
        Ok(raised == 1)
    }

    /// Sets a counter's value to `value` if the old value is `expected`. Returns whether the value was set.
    ///
    /// Errors: [`Error::BadId`], [`Error::NotAllocated`].
    pub fn compare_and_set(&mut self, id: u32, expected: i64, value: i64) -> Result<bool, Error> {
        let mut was_set = 0;
        // SAFETY: the handle and the number are ours.
        done(unsafe { raw::felter_counter_compare_and_set(self.handle.raw(), id, expected, value, &mut was_set) })?;
        Ok(was_set == 1)
    }

    /// Returns the state of an id. The state is 0 if the id was never used, 1 if its counter is in use, and -1 if its
    /// counter was freed.
    ///
    /// Errors: [`Error::BadId`].
    pub fn state(&mut self, id: u32) -> Result<i32, Error> {
        self.handle.number(id, raw::felter_counter_state)
    }

    /// Returns the moment from which an id may be allocated again. If the id was never used, this moment is 0. If its
    /// counter is in use, the moment is 2^63 - 1.
    ///
    /// Errors: [`Error::BadId`].
    pub fn deadline(&mut self, id: u32) -> Result<u64, Error> {
        self.handle.number(id, raw::felter_counter_deadline)
    }

    /// Returns a counter's value.
    ///
    /// Errors: [`Error::BadId`], [`Error::NotAllocated`].
    pub fn value(&mut self, id: u32) -> Result<i64, Error> {
        self.handle.number(id, raw::felter_counter_value)
    }

    /// Returns a counter's type id. The errors are those of [`value`](Counters::value).
    pub fn type_id(&mut self, id: u32) -> Result<i32, Error> {
        self.handle.number(id, raw::felter_counter_type_id)
    }

    /// Returns a counter's registration id. The errors are those of [`value`](Counters::value).
    pub fn registration(&mut self, id: u32) -> Result<u64, Error> {
        self.handle.number(id, raw::felter_counter_registration)
    }

    /// Returns a counter's owner, or 0 if the counter has no owner. The errors are those of [`value`](Counters::value).
    pub fn owner(&mut self, id: u32) -> Result<u64, Error> {
        self.handle.number(id, raw::felter_counter_owner)
    }

    /// Returns a counter's label.
    ///
    /// Errors: [`Error::BadId`], [`Error::NotAllocated`].
    pub fn label(&mut self, id: u32) -> Result<Vec<u8>, Error> {
        self.handle.label(id, raw::felter_counter_label)
    }

    /// Returns a counter's key, which is filled up to 112 bytes with zeros.
    ///
    /// Errors: [`Error::BadId`], [`Error::NotAllocated`].
    pub fn key(&mut self, id: u32) -> Result<[u8; MAX_KEY], Error> {
        self.handle.key(id, raw::felter_counter_key)
    }

    /// Returns the lowest id in use with this type id and registration id, or `None` if there is no such id.
    pub fn find(&mut self, type_id: i32, registration: u64) -> Result<Option<u32>, Error> {
        self.handle.find(type_id, registration, raw::felter_counter_find)
    }

    /// Returns the number of ids, whether they are in use or not.
    pub fn count(&mut self) -> Result<u32, Error> {
        self.handle.said(raw::felter_counters_count)
    }

    /// Returns the number of counters that can be allocated at the moment `now`. A freed id is counted from its
    /// [`deadline`](Counters::deadline) on.
    pub fn available(&mut self, now: u64) -> Result<u32, Error> {
        let mut available = 0;
        // SAFETY: the handle and the number are ours.
        done(unsafe { raw::felter_counters_available(self.handle.raw(), now, &mut available) })?;
        Ok(available)
    }

    /// Returns the ids in use, in rising order.
    pub fn ids(&mut self) -> Result<Vec<u32>, Error> {
        let count = self.count()?;
        Ok((0..count).filter(|&id| self.type_id(id).is_ok()).collect())
    }

    /// Frees each counter of an owner at the moment `now`, and returns how many counters were freed.
    ///
    /// Errors: [`Error::BadOwner`], [`Error::BadMoment`].
    pub fn close_owner(&mut self, now: u64, owner: u64) -> Result<u32, Error> {
        let mut freed = 0;
        // SAFETY: the handle and the number are ours.
        done(unsafe { raw::felter_counters_close_owner(self.handle.raw(), now, owner, &mut freed) })?;
        Ok(freed)
    }

    /// Makes a reader of the counters' values, for another thread. The reader gets one of the counters' 65,536 shares.
    /// If the reader is dropped, this share is lost. [`join`](Counters::join) gives the share back.
    ///
    /// Errors: [`Error::NoShares`], [`Error::OutOfMemory`].
    pub fn reader(&mut self) -> Result<Reader, Error> {
        let mut reader = Handle::empty();
        // SAFETY: both handles are ours, and the second one is empty.
        done(unsafe { raw::felter_counters_reader(self.handle.raw(), reader.raw()) })?;
        Ok(Reader { handle: reader, counters: self.number })
    }

    /// Takes back a reader of these counters with its share.
    ///
    /// Errors: [`Error::OtherRing`] if the reader belongs to other counters, or to a conductor. The error gives the
    /// reader back.
    ///
    /// ```
    /// let mut counters = felter::Counters::new(8, 0)?;
    /// let reader = counters.reader()?;
    /// let refused = felter::Counters::new(8, 0)?.join(reader).unwrap_err();
    /// assert_eq!(refused.reason, felter::Error::OtherRing);
    /// counters.join(refused.back)?;
    /// # Ok::<(), felter::Error>(())
    /// ```
    pub fn join(&mut self, mut reader: Reader) -> Result<(), Refused<Reader>> {
        let joined = self.number.must_be(reader.counters).and_then(|()| {
            // SAFETY: both handles are of one set of counters, as their numbers show.
            done(unsafe { raw::felter_counters_join(self.handle.raw(), reader.handle.raw()) })
        });
        joined.map_err(|reason| Refused { reason, back: reader })
    }
}

/// Loads the values of counters on another thread.
///
/// ```
/// let mut counters = felter::Counters::new(8, 0)?;
/// let id = counters.allocate(0, 1, b"", b"requests", 0)?;
/// let mut reader = counters.reader()?;
/// counters.set(id, 5)?;
/// let seen = std::thread::spawn(move || reader.value(id)).join().expect("it does not panic");
/// assert_eq!(seen, Ok(5));
/// # Ok::<(), felter::Error>(())
/// ```
#[derive(Debug)]
pub struct Reader {
    pub(crate) handle: Handle,
    /// The number of the counters, or of the conductor that owns them.
    pub(crate) counters: Number,
}

impl Reader {
    /// Loads a value. The value of an id that was never used is 0. The value of a freed id is its last value.
    ///
    /// Errors: [`Error::BadId`].
    pub fn value(&mut self, id: u32) -> Result<i64, Error> {
        let mut value = 0;
        // SAFETY: the handle and the number are ours.
        done(unsafe { raw::felter_reader_value(self.handle.raw(), id, &mut value) })?;
        Ok(value)
    }
}
