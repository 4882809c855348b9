//! Calls that read a conductor's counters, on the thread that uses the conductor.
use crate::conductor::Conductor;
use crate::counters::MAX_KEY;
use crate::error::Error;
use crate::raw;

impl Conductor {
    /// Returns a counter's value.
    ///
    /// Errors: [`Error::BadId`], [`Error::NotAllocated`].
    pub fn value(&mut self, id: u32) -> Result<i64, Error> {
        self.handle.number(id, raw::felter_conductor_value)
    }

    /// Returns a counter's type id.
    ///
    /// Errors: [`Error::BadId`], [`Error::NotAllocated`].
    pub fn type_id(&mut self, id: u32) -> Result<i32, Error> {
        self.handle.number(id, raw::felter_conductor_type_id)
    }

    /// Returns a counter's registration id.
    ///
    /// Errors: [`Error::BadId`], [`Error::NotAllocated`].
    pub fn registration(&mut self, id: u32) -> Result<u64, Error> {
        self.handle.number(id, raw::felter_conductor_registration)
    }

    /// Returns a counter's owner, or 0 if the counter has no owner.
    ///
    /// Errors: [`Error::BadId`], [`Error::NotAllocated`].
    pub fn owner(&mut self, id: u32) -> Result<u64, Error> {
        self.handle.number(id, raw::felter_conductor_owner)
    }

    /// Returns the state of an id. The state is 0 if the id was never used, 1 if its counter is in use, and -1 if its
    /// counter was freed.
    ///
    /// Errors: [`Error::BadId`].
    pub fn state(&mut self, id: u32) -> Result<i32, Error> {
        self.handle.number(id, raw::felter_conductor_state)
    }

    /// Returns the moment from which an id may be allocated again. If the id was never used, this moment is 0. If its
    /// counter is in use, the moment is 2^63 - 1.
    ///
    /// Errors: [`Error::BadId`].
    pub fn deadline(&mut self, id: u32) -> Result<u64, Error> {
        self.handle.number(id, raw::felter_conductor_deadline)
    }

    /// Returns a counter's label.
    ///
    /// Errors: [`Error::BadId`], [`Error::NotAllocated`].
    pub fn label(&mut self, id: u32) -> Result<Vec<u8>, Error> {
        self.handle.label(id, raw::felter_conductor_label)
    }

    /// Returns a counter's key, which is filled up to 112 bytes with zeros.
    ///
    /// Errors: [`Error::BadId`], [`Error::NotAllocated`].
    pub fn key(&mut self, id: u32) -> Result<[u8; MAX_KEY], Error> {
        self.handle.key(id, raw::felter_conductor_key)
    }

    /// Returns the lowest id in use with this type id and registration id, or `None` if there is no such id.
    pub fn find(&mut self, type_id: i32, registration: u64) -> Result<Option<u32>, Error> {
        self.handle.find(type_id, registration, raw::felter_conductor_find)
    }

    /// Returns the number of ids, whether they are in use or not.
    pub fn count(&mut self) -> Result<u32, Error> {
        self.handle.said(raw::felter_conductor_count)
    }
}
