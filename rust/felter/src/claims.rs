//! Claims. A claim is room in a ring for a message. The bytes of the message are put into the claim later. After that
//! the claim is committed or aborted.
use crate::error::{Error, Refused};
use crate::handle::{done, Number};
use crate::raw::{self, Raw};
use crate::ring::Producer;
use std::io::{self, Write};

/// Room in a ring for one message. A claim that is dropped is aborted, and the consumer then skips it. A claim that is
/// forgotten (`mem::forget`) stays open until its producer is dropped.
///
/// [`put`](Claim::put) and the calls of [`Write`] copy bytes into the message. No call lends the bytes of a claim as a
/// slice, since between two calls no handle owns the bytes of a ring.
#[derive(Debug)]
#[must_use = "a claim that is dropped is aborted: commit or keep it"]
pub struct Claim<'a> {
    producer: &'a mut Producer,
    number: u64,
    len: usize,
    /// The number of bytes that the calls of `Write` have put.
    written: usize,
    is_open: bool,
}

impl<'a> Claim<'a> {
    /// Returns the open claim of a producer that has this number and this length.
    pub(crate) fn of(producer: &'a mut Producer, number: u64, len: usize) -> Claim<'a> {
        Claim { producer, number, len, written: 0, is_open: true }
    }

    /// Returns the length of the message, in bytes.
    pub fn len(&self) -> usize {
        self.len
    }

    /// Returns whether the message has no bytes.
    pub fn is_empty(&self) -> bool {
        self.len == 0
    }

    /// Puts bytes into the message, from the byte at `offset` on.
    ///
    /// Errors: [`Error::PutRange`].
    pub fn put(&mut self, offset: usize, bytes: &[u8]) -> Result<(), Error> {
        let raw = self.producer.handle.raw();
        // SAFETY: the handle is our producer's, and pointer and length are those of a slice.
        done(unsafe { raw::felter_put(raw, self.number, offset, bytes.as_ptr(), bytes.len()) })
    }

    /// Commits the claim, so that the consumer is shown the message.
    pub fn commit(mut self) {
        // SAFETY: the handle is our producer's.
        let code = unsafe { raw::felter_commit(self.producer.handle.raw(), self.number) };
        debug_assert_eq!(code, raw::OK);
        self.is_open = false;
        self.producer.end.wake();
    }

    /// Keeps the claim open without a borrow of its producer, so that several claims can be open at once.
    ///
    /// ```
    /// let (mut producer, mut consumer) = felter::many_to_one(256)?;
    /// let first = producer.claim(1, 2)?.keep();
    /// let second = producer.claim(2, 2)?.keep();
    /// second.put(&mut producer, 0, b"22")?;
    /// first.put(&mut producer, 0, b"11")?;
    /// second.commit(&mut producer)?;
    /// let mut room = [0; 32];
    /// assert_eq!(consumer.read(&mut room)?, None);
    /// first.commit(&mut producer)?;
    /// assert_eq!(consumer.read(&mut room)?.map(|message| message.body), Some(&b"11"[..]));
    /// assert_eq!(consumer.read(&mut room)?.map(|message| message.body), Some(&b"22"[..]));
    /// # Ok::<(), felter::Error>(())
    /// ```
    pub fn keep(mut self) -> KeptClaim {
        self.is_open = false;
        KeptClaim { number: self.number, ring: self.producer.ring }
    }
}

/// A claim that stays open until it is committed or aborted. If its producer is dropped, the claim is aborted. The
/// consumer does not pass an open claim.
///
/// The calls of a claim need the producer that made the claim, or the producer to which that one was
/// [joined](Producer::join). With another producer of the same ring they return [`Error::NoClaim`]. With a producer of
/// another ring they return [`Error::OtherRing`].
#[derive(Debug)]
#[must_use = "the consumer passes no open claim: commit or abort it"]
pub struct KeptClaim {
    number: u64,
    ring: Number,
}

impl KeptClaim {
    /// Puts bytes into the message, from the byte at `offset` on.
    ///
    /// Errors: [`Error::PutRange`] if the bytes are not inside the claim. If `producer` is another producer, the call
    /// returns [`Error::NoClaim`] or [`Error::OtherRing`], as [`KeptClaim`] describes.
    pub fn put(&self, producer: &mut Producer, offset: usize, bytes: &[u8]) -> Result<(), Error> {
        self.ring.must_be(producer.ring)?;
        let raw = producer.handle.raw();
        // SAFETY: the handle is a producer's, and pointer and length are those of a slice.
        done(unsafe { raw::felter_put(raw, self.number, offset, bytes.as_ptr(), bytes.len()) })
    }

    /// Commits the claim, so that the consumer is shown the message.
    ///
    /// Errors: [`Error::NoClaim`] or [`Error::OtherRing`] if `producer` is another producer, as [`KeptClaim`]
    /// describes. The error gives the claim back.
    pub fn commit(self, producer: &mut Producer) -> Result<(), Refused<KeptClaim>> {
        // SAFETY: the handle is a producer's.
        self.settle(producer, |raw, number| unsafe { raw::felter_commit(raw, number) })
    }

    /// Aborts the claim, so that the consumer skips it.
    ///
    /// Errors: [`Error::NoClaim`] or [`Error::OtherRing`] if `producer` is another producer, as [`KeptClaim`]
    /// describes. The error gives the claim back.
    pub fn abort(self, producer: &mut Producer) -> Result<(), Refused<KeptClaim>> {
        // SAFETY: the handle is a producer's.
        self.settle(producer, |raw, number| unsafe { raw::felter_abort(raw, number) })
    }

    fn settle(
        self,
        producer: &mut Producer,
        call: impl FnOnce(*mut Raw, u64) -> i32,
    ) -> Result<(), Refused<KeptClaim>> {
        let settled = self.ring.must_be(producer.ring).and_then(|()| done(call(producer.handle.raw(), self.number)));
        producer.end.wake();
        settled.map_err(|reason| Refused { reason, back: self })
    }
}

/// Puts bytes one after another, from the first byte of the message on. After the last byte of the message a write
/// returns 0, so `write_all` and `write!` then return an error of the kind `WriteZero`. A [`put`](Claim::put) does not
/// move the place of the next write.
///
/// ```
/// use std::io::Write;
///
/// let (mut producer, mut consumer) = felter::one_to_one(256)?;
/// let mut claim = producer.claim(1, 7)?;
/// write!(claim, "{}:{}", 12, 3456)?;
/// assert!(write!(claim, "more").is_err());
/// claim.commit();
/// assert_eq!(consumer.read_owned()?.map(|message| message.body), Some(b"12:3456".to_vec()));
/// # Ok::<(), Box<dyn std::error::Error>>(())
/// ```
impl Write for Claim<'_> {
    fn write(&mut self, bytes: &[u8]) -> io::Result<usize> {
        let count = bytes.len().min(self.len - self.written);
        self.put(self.written, &bytes[..count]).map_err(io::Error::other)?;
        self.written += count;
        Ok(count)
    }

    fn flush(&mut self) -> io::Result<()> {
        Ok(())
    }
}

impl Drop for Claim<'_> {
    fn drop(&mut self) {
        if self.is_open {
            // SAFETY: the handle is our producer's.
            let code = unsafe { raw::felter_abort(self.producer.handle.raw(), self.number) };
            debug_assert_eq!(code, raw::OK);
            // (the consumer can then pass the claim, and may find a message after it)
            self.producer.end.wake();
        }
    }
}
