//! Shared counters.
use crate::error::{Error, Refused};
use crate::handle::{done, Handle, Number};
use crate::raw;

/// Adds to a shared counter, which is one number to which any thread can add. Each thread adds with an adder of its
/// own. The value is the sum of all amounts that were added with all adders. A sum that does not fit in 64 bits wraps.
///
/// ```
/// let mut adder = felter::Adder::new()?;
/// let threads = [adder.split()?, adder.split()?].map(|mut its| {
///     std::thread::spawn(move || {
///         for _ in 0..1000 {
///             its.add(3)?;
///         }
///         Ok::<_, felter::Error>(its)
///     })
/// });
/// for thread in threads {
///     adder.join(thread.join().expect("it does not panic")?)?;
/// }
/// assert_eq!(adder.value()?, 6000);
/// # Ok::<(), felter::Error>(())
/// ```
#[derive(Debug)]
pub struct Adder {
    handle: Handle,
    number: Number,
}

impl Adder {
    /// Makes a shared counter with the value 0, and returns its first adder. This adder holds all 65,536 shares of the
    /// shared counter.
    ///
    /// Errors: [`Error::OutOfMemory`].
    pub fn new() -> Result<Adder, Error> {
        let (number, mut handle) = (Number::next(), Handle::empty());
        // SAFETY: a number that nothing else has, and an empty handle.
        done(unsafe { raw::felter_adder_new_numbered(number.raw(), handle.raw()) })?;
        Ok(Adder { handle, number })
    }

    /// Makes another adder of the same shared counter, for another thread, with one share. If the new adder is dropped,
    /// the amounts that it added stay in the value, and its share is lost. [`join`](Adder::join) gives the share back.
    ///
    /// Errors: [`Error::NoShares`] if this adder has one share, [`Error::OutOfMemory`].
    pub fn split(&mut self) -> Result<Adder, Error> {
        let mut other = Handle::empty();
        // SAFETY: two handles, the second empty.
        done(unsafe { raw::felter_adder_split(self.handle.raw(), other.raw()) })?;
        Ok(Adder { handle: other, number: self.number })
    }

    /// Joins another adder of the same shared counter to this one. This adder gets the shares of the other one.
    ///
    /// Errors: [`Error::OtherRing`] if the other adder is of another shared counter. The error gives the other adder
    /// back.
    ///
    /// ```
    /// let mut adder = felter::Adder::new()?;
    /// let other = adder.split()?;
    /// let refused = felter::Adder::new()?.join(other).unwrap_err();
    /// assert_eq!(refused.reason, felter::Error::OtherRing);
    /// adder.join(refused.back)?;
    /// # Ok::<(), felter::Error>(())
    /// ```
    pub fn join(&mut self, mut other: Adder) -> Result<(), Refused<Adder>> {
        let joined = self.number.must_be(other.number).and_then(|()| {
            // SAFETY: two handles of one shared counter, as their numbers show.
            done(unsafe { raw::felter_adder_join(self.handle.raw(), other.handle.raw()) })
        });
        joined.map_err(|reason| Refused { reason, back: other })
    }

    /// Adds `delta` to the value, and returns the value before the addition. A sum that does not fit in 64 bits wraps.
    pub fn add(&mut self, delta: i64) -> Result<i64, Error> {
        let mut before = 0;
        // SAFETY: our handle, and a number of ours.
        done(unsafe { raw::felter_adder_add(self.handle.raw(), delta, &mut before) })?;
        Ok(before)
    }

    /// Loads the value. If this adder holds all 65,536 shares, no other adder exists. The value is then exactly the sum
    /// of the amounts that were added with this adder and with the adders that were joined to it.
    pub fn value(&mut self) -> Result<i64, Error> {
        self.handle.said(raw::felter_adder_value)
    }

    /// Returns how many of the 65,536 shares this adder holds.
    pub fn shares(&mut self) -> Result<u32, Error> {
        self.handle.said(raw::felter_adder_shares)
    }
}
