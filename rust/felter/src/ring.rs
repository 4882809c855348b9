//! Rings, which are many-to-one or one-to-one.
use crate::claims::Claim;
use crate::ends::{Bed, End};
use crate::error::{Error, Refused};
use crate::handle::{done, Handle, Number, Sizes};
use crate::message::{message_of, Batch, Message};
use crate::raw::{self, Raw};
use crate::room::Room;
use std::io::IoSlice;

/// Makes a ring for any number of producers, and returns its first producer and its consumer. A ring has 65,536 shares,
/// and each producer holds at least one of them. The first producer begins with all shares.
///
/// Errors: [`Error::BadCapacity`], [`Error::OutOfMemory`].
pub fn many_to_one(capacity: u32) -> Result<(Producer, Consumer), Error> {
    many_to_one_at(capacity, 0)
}

/// Makes a ring as [`many_to_one`] does, with positions that begin at `start`.
///
/// Errors: [`Error::BadCapacity`], [`Error::BadStart`], [`Error::OutOfMemory`].
pub fn many_to_one_at(capacity: u32, start: u64) -> Result<(Producer, Consumer), Error> {
    // SAFETY: nothing else has the number, and both handles are empty.
    made_by(|number, producer, consumer| unsafe {
        raw::felter_many_to_one_new_at_numbered(number, capacity, start, producer, consumer)
    })
}

/// Makes a one-to-one ring. The producer of this ring cannot be [split](Producer::split).
///
/// Errors: [`Error::BadCapacity`], [`Error::OutOfMemory`].
pub fn one_to_one(capacity: u32) -> Result<(Producer, Consumer), Error> {
    one_to_one_at(capacity, 0)
}

/// Makes a ring as [`one_to_one`] does, with positions that begin at `start`.
///
/// Errors: [`Error::BadCapacity`], [`Error::BadStart`], [`Error::OutOfMemory`].
pub fn one_to_one_at(capacity: u32, start: u64) -> Result<(Producer, Consumer), Error> {
    // SAFETY: nothing else has the number, and both handles are empty.
    made_by(|number, producer, consumer| unsafe {
        raw::felter_one_to_one_new_at_numbered(number, capacity, start, producer, consumer)
    })
}

/// Makes a ring by a call that takes a new number and two empty handles.
pub(crate) fn made_by(call: impl FnOnce(u64, *mut Raw, *mut Raw) -> i32) -> Result<(Producer, Consumer), Error> {
    let (ring, mut producer, mut consumer) = (Number::next(), Handle::empty(), Handle::empty());
    done(call(ring.raw(), producer.raw(), consumer.raw()))?;
    let (writes, reads) = End::pair();
    let sizes = producer.sizes()?;
    let producer = Producer { handle: producer, ring, end: writes, sizes, room: Room::default() };
    Ok((producer, Consumer { handle: consumer, ring, end: reads, sizes }))
}

/// The head and the tail of a ring, in bytes. Neither position ever falls.
#[derive(Clone, Copy, Debug, PartialEq, Eq)]
pub struct Positions {
    /// The position at which the next read begins.
    pub head: u64,
    /// The position at which the next claim begins.
    pub tail: u64,
}

/// Writes messages into a ring.
///
/// If a producer is dropped, its open claims are aborted, and the ring can end without this producer. But the shares of
/// the producer are lost. A ring has 65,536 shares, and [`join`](Producer::join) gives the shares of a producer back.
#[derive(Debug)]
pub struct Producer {
    pub(crate) handle: Handle,
    pub(crate) ring: Number,
    pub(crate) end: End,
    sizes: Sizes,
    pub(crate) room: Room,
}

impl Producer {
    /// Returns the capacity of the ring, and the length of its longest message.
    pub fn sizes(&self) -> Result<Sizes, Error> {
        Ok(self.sizes)
    }

    /// Returns whether the consumer was dropped. Messages that are written afterwards are never read.
    ///
    /// ```
    /// let (mut producer, consumer) = felter::many_to_one(128)?;
    /// assert!(!producer.is_abandoned());
    /// drop(consumer);
    /// assert!(producer.is_abandoned() && producer.split()?.is_abandoned());
    /// # Ok::<(), felter::Error>(())
    /// ```
    pub fn is_abandoned(&self) -> bool {
        self.end.is_abandoned()
    }

    /// Tries once to write a message.
    ///
    /// Errors: [`Error::BadType`], [`Error::TooLong`], [`Error::PositionLimit`], [`Error::InsufficientCapacity`], and
    /// for a many-to-one ring [`Error::Contended`].
    pub fn write(&mut self, type_id: i32, body: &[u8]) -> Result<(), Error> {
        // SAFETY: the handle is ours, and pointer and length are those of a slice.
        done(unsafe { raw::felter_write(self.handle.raw(), type_id, body.as_ptr(), body.len()) })?;
        self.end.wake();
        Ok(())
    }

    /// Tries once to claim room for a message of `len` bytes. Each byte is 0 until [`put`](Claim::put) stores it. The
    /// consumer does not pass an open claim.
    ///
    /// Errors: those of [`write`](Producer::write). The call also returns [`Error::OutOfMemory`] if there is no memory
    /// for one more claim. In this case the call did not try to make the claim.
    ///
    /// ```
    /// let (mut producer, mut consumer) = felter::many_to_one(128)?;
    /// let mut claim = producer.claim(3, 5)?;
    /// claim.put(0, b"never")?;
    /// drop(claim); // which aborts it
    /// let mut claim = producer.claim(4, 5)?;
    /// claim.put(1, b"bc")?;
    /// claim.commit();
    /// let mut room = [0; 16];
    /// assert_eq!(consumer.read(&mut room)?.map(|message| message.body), Some(&b"\0bc\0\0"[..]));
    /// # Ok::<(), felter::Error>(())
    /// ```
    ///
    /// A claim borrows its producer, so no other call can use the producer as long as the claim exists. To have several
    /// claims open at once, [`keep`](Claim::keep) them. This does not compile:
    ///
    /// ```compile_fail,E0499
    /// let (mut producer, _consumer) = felter::many_to_one(128).expect("a power of two");
    /// let claim = producer.claim(1, 8).expect("there is room");
    /// producer.write(2, b"beside it").expect("there is room");
    /// claim.commit();
    /// ```
    pub fn claim(&mut self, type_id: i32, len: usize) -> Result<Claim<'_>, Error> {
        let mut number = 0;
        // SAFETY: the handle and the number are ours.
        done(unsafe { raw::felter_claim(self.handle.raw(), type_id, len, &mut number) })?;
        Ok(Claim::of(self, number, len))
    }

    /// Tries once to write a message whose bytes are in several slices. The call claims room, puts the slices into it
    /// one after another, and commits the claim.
    ///
    /// Errors: those of [`claim`](Producer::claim).
    ///
    /// ```
    /// use std::io::IoSlice;
    ///
    /// let (mut producer, mut consumer) = felter::one_to_one(256)?;
    /// producer.write_vectored(7, &[IoSlice::new(b"head "), IoSlice::new(b""), IoSlice::new(b"body")])?;
    /// assert_eq!(consumer.read_owned()?.map(|message| message.body), Some(b"head body".to_vec()));
    /// # Ok::<(), felter::Error>(())
    /// ```
    pub fn write_vectored(&mut self, type_id: i32, parts: &[IoSlice<'_>]) -> Result<(), Error> {
        // (one slice may be in the list often, so the sum may be more than a length can be)
        let len = parts.iter().fold(0_usize, |len, part| len.saturating_add(part.len()));
        let mut claim = self.claim(type_id, len)?;
        let mut at = 0;
        for part in parts {
            claim.put(at, part)?;
            at += part.len();
        }
        claim.commit();
        Ok(())
    }

    /// Makes another producer of a many-to-one ring, with one share. Claims that were kept stay with this producer.
    ///
    /// Errors: [`Error::NoShares`], [`Error::OutOfMemory`], and [`Error::WrongHandle`] if the ring is one-to-one.
    pub fn split(&mut self) -> Result<Producer, Error> {
        let mut other = Handle::empty();
        // SAFETY: both handles are ours, and the second one is empty.
        done(unsafe { raw::felter_split(self.handle.raw(), other.raw()) })?;
        let end = self.end.other(true);
        Ok(Producer { handle: other, ring: self.ring, end, sizes: self.sizes, room: Room::default() })
    }

    /// Joins another producer of the same ring to this one. This producer gets the shares and the kept claims of the
    /// other one.
    ///
    /// Errors, in this order: [`Error::WrongHandle`] if one of the two rings is one-to-one, [`Error::OtherRing`], and
    /// [`Error::OutOfMemory`]. After an error both producers are as they were.
    pub fn join(&mut self, mut other: Producer) -> Result<(), Refused<Producer>> {
        // SAFETY: both handles are ours. No two rings have the same number, so the library refuses handles of two
        // rings.
        let joined = done(unsafe { raw::felter_join(self.handle.raw(), other.handle.raw()) });
        joined.map_err(|reason| Refused { reason, back: other })
    }

    /// Loads the head of the ring, and then its tail.
    pub fn positions(&mut self) -> Result<Positions, Error> {
        let (mut head, mut tail) = (0, 0);
        // SAFETY: the handle and the numbers are ours.
        done(unsafe { raw::felter_positions(self.handle.raw(), &mut head, &mut tail) })?;
        Ok(Positions { head, tail })
    }

    /// Returns how many bytes of the ring are claimed and not yet read. The call loads the positions once.
    ///
    /// ```
    /// let (mut producer, mut consumer) = felter::one_to_one(128)?;
    /// assert!(producer.is_empty()? && producer.available()? == 128);
    /// producer.write(1, b"sixteen bytes...")?;
    /// assert_eq!((producer.used()?, producer.available()?), (24, 104));
    /// consumer.read(&mut [0; 16])?;
    /// assert!(producer.is_empty()?);
    /// # Ok::<(), felter::Error>(())
    /// ```
    pub fn used(&mut self) -> Result<u64, Error> {
        // (the head is loaded first, so the tail may be more than a capacity above it by then)
        let Positions { head, tail } = self.positions()?;
        Ok((tail - head).min(u64::from(self.sizes.capacity)))
    }

    /// Returns how many bytes are free. A message also takes some of these bytes for its header, and possibly for
    /// padding.
    pub fn available(&mut self) -> Result<u64, Error> {
        Ok(u64::from(self.sizes.capacity) - self.used()?)
    }

    /// Returns whether everything that was claimed was read.
    pub fn is_empty(&mut self) -> Result<bool, Error> {
        Ok(self.used()? == 0)
    }

    /// Draws the ring's next correlation id.
    pub fn next_id(&mut self) -> Result<u64, Error> {
        self.handle.said(raw::felter_next_id)
    }

    /// Loads the heartbeat that the consumer stored last. The heartbeat is 0 before the consumer stores one.
    pub fn heartbeat(&mut self) -> Result<u64, Error> {
        self.handle.said(raw::felter_heartbeat)
    }

    /// Returns how many of the ring's 65,536 shares this producer holds.
    pub fn shares(&mut self) -> Result<u32, Error> {
        self.handle.said(raw::felter_shares)
    }
}

/// Reads messages from a ring.
#[derive(Debug)]
pub struct Consumer {
    pub(crate) handle: Handle,
    pub(crate) ring: Number,
    end: End,
    sizes: Sizes,
}

impl Consumer {
    /// Returns the capacity of the ring, and the length of its longest message.
    pub fn sizes(&self) -> Result<Sizes, Error> {
        Ok(self.sizes)
    }

    /// Returns whether every producer was dropped, or given to [`close`](Consumer::close). Nothing more will then be
    /// written, but messages that were written before can still be read. So call this first, and then read until a read
    /// returns `None`.
    pub fn is_abandoned(&self) -> bool {
        self.end.is_abandoned()
    }

    /// Reads the next message into a buffer. Returns `None` if no message is there yet.
    ///
    /// Errors: [`Error::ShortBuffer`] if the message is longer than the buffer. The message then stays in the ring. A
    /// buffer of an eighth of the capacity is always long enough.
    pub fn read<'a>(&mut self, buffer: &'a mut [u8]) -> Result<Option<Message<'a>>, Error> {
        let (mut type_id, mut len) = (0, 0);
        let (at, room) = (buffer.as_mut_ptr(), buffer.len());
        // SAFETY: the handle and the numbers are ours, and pointer and length are those of a slice.
        let code = unsafe { raw::felter_read(self.handle.raw(), &mut type_id, &mut len, at, room) };
        message_of(code, type_id, len, buffer)
    }

    /// Reads up to `limit` messages into a buffer. The batch is empty if no message is there. The call can return fewer
    /// messages than are in the ring.
    ///
    /// A message takes 16 bytes of the buffer, plus the bytes of its body, rounded up to a multiple of 8. A message for
    /// which the buffer has no room stays in the ring.
    ///
    /// Errors: [`Error::ShortBuffer`] if the buffer has no room for the first message. The field `wanted` is then 0,
    /// and [`read`](Consumer::read) returns the length of the message.
    ///
    /// ```
    /// let (mut producer, mut consumer) = felter::one_to_one(1024)?;
    /// for (type_id, body) in [(1, "one"), (2, ""), (3, "three")] {
    ///     producer.write(type_id, body.as_bytes())?;
    /// }
    /// let mut room = [0; 512];
    /// let batch = consumer.read_batch(100, &mut room)?;
    /// assert_eq!(batch.len(), 3);
    /// for (message, type_id) in batch.zip(1..) {
    ///     assert_eq!(message.type_id, type_id);
    /// }
    /// assert_eq!(consumer.read_batch(100, &mut room)?.len(), 0);
    /// # Ok::<(), felter::Error>(())
    /// ```
    pub fn read_batch<'a>(&mut self, limit: u32, buffer: &'a mut [u8]) -> Result<Batch<'a>, Error> {
        let (mut count, mut used) = (0, 0);
        let (at, room) = (buffer.as_mut_ptr(), buffer.len());
        // SAFETY: the handle and the numbers are ours, and pointer and length are those of a slice.
        let code = unsafe { raw::felter_read_batch(self.handle.raw(), limit, &mut count, &mut used, at, room) };
        match done(code) {
            Ok(()) | Err(Error::NoMessage) => Ok(Batch::new(count, &buffer[..used])),
            Err(other) => Err(other),
        }
    }

    /// Returns the place at which the consumer sleeps until a producer wakes it.
    pub(crate) fn bed(&self) -> Bed {
        self.end.bed()
    }

    /// Stores the heartbeat that producers load.
    pub fn set_heartbeat(&mut self, value: u64) -> Result<(), Error> {
        // SAFETY: the handle is ours.
        done(unsafe { raw::felter_set_heartbeat(self.handle.raw(), value) })
    }

    /// Closes the ring with its last producer, which must have no open claim. Nothing can be written afterwards. The
    /// messages in the ring can still be read. Before this call, all other producers must have been joined or dropped.
    ///
    /// Errors, in this order: [`Error::OtherRing`], [`Error::ClaimsOpen`], and [`Error::ProducersOut`] if another
    /// producer exists. After an error the consumer and the producer are as they were.
    ///
    /// ```
    /// use felter::Error;
    ///
    /// let (mut producer, mut consumer) = felter::many_to_one(1024)?;
    /// let mut other = producer.split()?;
    /// producer.write(1, b"first")?;
    /// other.write(2, b"second")?;
    /// let refused = consumer.close(producer).unwrap_err();
    /// assert_eq!(refused.reason, Error::ProducersOut);
    /// producer = refused.back;
    /// producer.join(other)?;
    /// consumer.close(producer)?;
    /// let mut room = [0; 128];
    /// assert_eq!(consumer.read(&mut room)?.map(|message| message.body), Some(&b"first"[..]));
    /// assert_eq!(consumer.finish()?, 1);
    /// # Ok::<(), felter::Error>(())
    /// ```
    pub fn close(&mut self, mut producer: Producer) -> Result<(), Refused<Producer>> {
        let closed = self.ring.must_be(producer.ring).and_then(|()| {
            // SAFETY: both handles are of one ring, as their numbers show.
            done(unsafe { raw::felter_close(self.handle.raw(), producer.handle.raw()) })
        });
        closed.map_err(|reason| Refused { reason, back: producer })
    }

    /// Ends a ring that was [closed](Consumer::close), or whose producers were all dropped. Returns how many committed
    /// messages were left unread.
    ///
    /// Errors: [`Error::ProducersOut`] if the ring was not closed and a producer still exists. The error gives the
    /// consumer back, and the caller can go on using the consumer.
    ///
    /// ```
    /// let (producer, mut consumer) = felter::one_to_one(128)?;
    /// let refused = consumer.finish().unwrap_err();
    /// assert_eq!(refused.reason, felter::Error::ProducersOut);
    /// consumer = refused.back;
    /// consumer.close(producer)?;
    /// assert_eq!(consumer.finish()?, 0);
    /// # Ok::<(), felter::Error>(())
    /// ```
    pub fn finish(mut self) -> Result<u64, Refused<Consumer>> {
        self.handle.said(raw::felter_finish).map_err(|reason| Refused { reason, back: self })
    }
}
