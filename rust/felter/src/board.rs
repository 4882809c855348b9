//! Boards, which are broadcast buffers. A board has one transmitter, and receivers that learn when they missed
//! something.
use crate::ends::{Bed, End};
use crate::error::{Error, Refused};
use crate::handle::{done, Handle, Number, Sizes};
use crate::message::{message_of, Message};
use crate::raw::{self, Raw};
use crate::room::Room;

/// Transmits messages on a board. A transmitter never waits. A receiver that is too slow is overtaken, and learns this
/// from [`Error::Lapped`].
///
/// ```
/// let mut transmitter = felter::Transmitter::new(4096)?;
/// let mut receiver = transmitter.subscribe()?;
/// transmitter.transmit(3, b"to all")?;
/// let mut room = [0; 4096 / 8];
/// let message = receiver.receive(&mut room)?.expect("it was transmitted");
/// assert_eq!((message.type_id, message.body), (3, &b"to all"[..]));
/// assert_eq!(receiver.receive(&mut room)?, None);
/// # Ok::<(), felter::Error>(())
/// ```
#[derive(Debug)]
pub struct Transmitter {
    handle: Handle,
    board: Number,
    end: End,
    sizes: Sizes,
}

impl Transmitter {
    /// Makes a board, and returns its transmitter. The capacity is a power of two from 256 to 2^24.
    ///
    /// Errors: [`Error::BadCapacity`], [`Error::OutOfMemory`].
    pub fn new(capacity: u32) -> Result<Transmitter, Error> {
        Transmitter::new_at(capacity, 0)
    }

    /// Makes a board as [`new`](Transmitter::new) does, with positions that begin at `start`.
    ///
    /// Errors: [`Error::BadCapacity`], [`Error::BadStart`], [`Error::OutOfMemory`].
    pub fn new_at(capacity: u32, start: u64) -> Result<Transmitter, Error> {
        // SAFETY: nothing else has the number, and the handle is empty.
        Transmitter::made_by(|number, handle| unsafe {
            raw::felter_board_new_at_numbered(number, capacity, start, handle)
        })
    }

    /// Makes a board by a call that takes a new number and an empty handle.
    pub(crate) fn made_by(call: impl FnOnce(u64, *mut Raw) -> i32) -> Result<Transmitter, Error> {
        let (board, mut handle) = (Number::next(), Handle::empty());
        done(call(board.raw(), handle.raw()))?;
        let sizes = handle.sizes()?;
        Ok(Transmitter { handle, board, end: End::writer(), sizes })
    }

    /// Returns the capacity of the board, and the length of its longest message.
    pub fn sizes(&self) -> Result<Sizes, Error> {
        Ok(self.sizes)
    }

    /// Transmits a message.
    ///
    /// Errors: [`Error::BadType`], [`Error::TooLong`], [`Error::PositionLimit`].
    pub fn transmit(&mut self, type_id: i32, body: &[u8]) -> Result<(), Error> {
        // SAFETY: the handle is ours, and pointer and length are those of a slice.
        done(unsafe { raw::felter_transmit(self.handle.raw(), type_id, body.as_ptr(), body.len()) })?;
        self.end.wake();
        Ok(())
    }

    /// Makes a receiver, which starts with the message that was transmitted last. The receiver gets one of the board's
    /// 65,536 shares. If the receiver is dropped, this share is lost, and the board can end without the receiver.
    /// [`join`](Transmitter::join) gives the share back.
    ///
    /// Errors: [`Error::NoShares`], [`Error::OutOfMemory`].
    pub fn subscribe(&mut self) -> Result<Receiver, Error> {
        let mut handle = Handle::empty();
        // SAFETY: both handles are ours, and the second one is empty.
        done(unsafe { raw::felter_subscribe(self.handle.raw(), handle.raw()) })?;
        Receiver::of(handle, self.board, self.end.other(false))
    }

    /// Makes a raw receiver, which returns each record without its body. Otherwise the call is the same as
    /// [`subscribe`](Transmitter::subscribe).
    ///
    /// ```
    /// let mut transmitter = felter::Transmitter::new(4096)?;
    /// let mut receiver = transmitter.subscribe_raw()?;
    /// transmitter.transmit(3, b"looked at")?;
    /// let record = receiver.receive_next()?.expect("it was transmitted");
    /// assert_eq!((record.type_id, record.len), (3, 9));
    /// let mut body = vec![0; record.len];
    /// receiver.load_body(&mut body)?;
    /// assert!(receiver.validate()?);
    /// assert_eq!(body, b"looked at");
    /// # Ok::<(), felter::Error>(())
    /// ```
    pub fn subscribe_raw(&mut self) -> Result<RawReceiver, Error> {
        let mut handle = Handle::empty();
        // SAFETY: both handles are ours, and the second one is empty.
        done(unsafe { raw::felter_subscribe_raw(self.handle.raw(), handle.raw()) })?;
        Ok(RawReceiver { handle, board: self.board, end: self.end.other(false), sizes: self.sizes })
    }

    /// Takes back a receiver of this board, with its share.
    ///
    /// Errors: [`Error::OtherRing`] if the receiver belongs to another board, or to a conductor. The error gives the
    /// receiver back.
    pub fn join(&mut self, mut receiver: Receiver) -> Result<(), Refused<Receiver>> {
        let joined = self.board.must_be(receiver.board).and_then(|()| {
            // SAFETY: both handles are of one board, as their numbers show.
            done(unsafe { raw::felter_board_join(self.handle.raw(), receiver.handle.raw()) })
        });
        joined.map_err(|reason| Refused { reason, back: receiver })
    }

    /// Takes back a raw receiver of this board, with its share.
    ///
    /// Errors: [`Error::OtherRing`] if the receiver belongs to another board. The error gives the receiver back.
    ///
    /// ```
    /// let mut transmitter = felter::Transmitter::new(256)?;
    /// let raw = transmitter.subscribe_raw()?;
    /// let refused = felter::Transmitter::new(256)?.join_raw(raw).unwrap_err();
    /// assert_eq!(refused.reason, felter::Error::OtherRing);
    /// transmitter.join_raw(refused.back)?;
    /// # Ok::<(), felter::Error>(())
    /// ```
    pub fn join_raw(&mut self, mut receiver: RawReceiver) -> Result<(), Refused<RawReceiver>> {
        let joined = self.board.must_be(receiver.board).and_then(|()| {
            // SAFETY: both handles are of one board, as their numbers show.
            done(unsafe { raw::felter_board_join_raw(self.handle.raw(), receiver.handle.raw()) })
        });
        joined.map_err(|reason| Refused { reason, back: receiver })
    }

    /// Ends a board whose receivers of both kinds were all taken back or dropped. Returns the tail, which is the
    /// position at which the last transmission ended.
    ///
    /// Errors: [`Error::ReceiversOut`] while a receiver exists. The error gives the transmitter back. The caller can go
    /// on using the transmitter, and can close it later.
    ///
    /// ```
    /// use felter::{Error, Transmitter};
    ///
    /// let mut transmitter = Transmitter::new(256)?;
    /// let receiver = transmitter.subscribe()?;
    /// transmitter.transmit(3, b"to all")?;
    /// let refused = transmitter.close().unwrap_err();
    /// assert_eq!(refused.reason, Error::ReceiversOut);
    /// transmitter = refused.back;
    /// transmitter.join(receiver)?;
    /// // A record has a header of 8 bytes, and begins at a multiple of 8.
    /// assert_eq!(transmitter.close()?, 16);
    /// # Ok::<(), felter::Error>(())
    /// ```
    pub fn close(mut self) -> Result<u64, Refused<Transmitter>> {
        self.handle.said(raw::felter_board_close).map_err(|reason| Refused { reason, back: self })
    }
}

/// The positions at which a receiver was lapped.
#[derive(Clone, Copy, Debug, PartialEq, Eq)]
pub struct Lap {
    /// The position, in bytes, at which the receiver looked for a message.
    pub place: u64,
    /// The intent that showed that the receiver was lapped. This is the position up to which the transmitter had begun
    /// to write.
    pub intent: u64,
}

impl Lap {
    /// Returns the positions at which a receiver was lapped last. `call` is the call of the library for this kind of
    /// receiver.
    fn of(
        handle: &mut Handle,
        call: unsafe extern "C" fn(*mut Raw, *mut u64, *mut u64) -> i32,
    ) -> Result<Option<Lap>, Error> {
        let (mut place, mut intent) = (0, 0);
        // SAFETY: the handle and the numbers are ours.
        match done(unsafe { call(handle.raw(), &mut place, &mut intent) }) {
            Ok(()) => Ok(Some(Lap { place, intent })),
            Err(Error::NoMessage) => Ok(None),
            Err(other) => Err(other),
        }
    }
}

/// Returns the error of a receiver that was just lapped. The receiver goes on from `place`.
fn lapped_now(count: u64, lap: Result<Option<Lap>, Error>, place: Result<u64, Error>) -> Error {
    let missed_bytes = match (lap, place) {
        (Ok(Some(lap)), Ok(place)) => place - lap.place,
        _ => 0,
    };
    Error::Lapped { count, missed_bytes }
}

/// Receives the messages that are transmitted on a board.
#[derive(Debug)]
pub struct Receiver {
    pub(crate) handle: Handle,
    /// The number of the board, or of the conductor that transmits on it.
    pub(crate) board: Number,
    pub(crate) end: End,
    sizes: Sizes,
    /// The buffer of `receive_owned`, which is empty until then.
    pub(crate) room: Room,
}

impl Receiver {
    /// Returns a receiver of a board or a conductor, from its handle.
    pub(crate) fn of(mut handle: Handle, board: Number, end: End) -> Result<Receiver, Error> {
        let sizes = handle.sizes()?;
        Ok(Receiver { handle, board, end, sizes, room: Room::default() })
    }

    /// Returns the capacity of the board, and the length of its longest message.
    pub fn sizes(&self) -> Result<Sizes, Error> {
        Ok(self.sizes)
    }

    /// Returns the length of the longest message.
    pub(crate) fn longest(&self) -> usize {
        self.sizes.max_message as usize
    }

    /// Returns the position, in bytes, at which the next call looks for a message.
    pub fn place(&mut self) -> Result<u64, Error> {
        self.handle.said(raw::felter_receiver_place)
    }

    /// Returns the positions at which the receiver was lapped last, or `None` if it never was.
    pub fn lap(&mut self) -> Result<Option<Lap>, Error> {
        Lap::of(&mut self.handle, raw::felter_receiver_lap)
    }

    /// Returns whether the transmitter, or the conductor that transmits, was dropped or ended. After that no message is
    /// transmitted, but earlier messages can still be received.
    ///
    /// ```
    /// let mut transmitter = felter::Transmitter::new(256)?;
    /// let receiver = transmitter.subscribe()?;
    /// assert!(!receiver.is_abandoned());
    /// drop(transmitter);
    /// assert!(receiver.is_abandoned());
    /// # Ok::<(), felter::Error>(())
    /// ```
    pub fn is_abandoned(&self) -> bool {
        self.end.is_abandoned()
    }

    /// Copies the next message into a buffer. Returns `None` if no message is there yet.
    ///
    /// Errors:
    ///
    /// - [`Error::Lapped`] if the transmitter overtook the receiver. The next call goes on with the message that was
    ///   transmitted last.
    /// - [`Error::ShortBuffer`] if the buffer is shorter than an eighth of the capacity, even if the message is short.
    ///   No message is then taken. [`receive_owned`](Receiver::receive_owned) needs no buffer, and a [`RawReceiver`]
    ///   needs one that is as long as the message.
    pub fn receive<'a>(&mut self, buffer: &'a mut [u8]) -> Result<Option<Message<'a>>, Error> {
        let (mut type_id, mut len, mut lapped) = (0, 0, 0);
        let (at, room) = (buffer.as_mut_ptr(), buffer.len());
        // SAFETY: the handle and the numbers are ours, and pointer and length are those of a slice.
        let code = unsafe { raw::felter_receive(self.handle.raw(), &mut type_id, &mut len, &mut lapped, at, room) };
        match message_of(code, type_id, len, buffer) {
            Err(Error::Lapped { .. }) => Err(lapped_now(lapped, self.lap(), self.place())),
            answer => answer,
        }
    }

    /// Returns the place at which the receiver sleeps until the transmitter wakes it.
    pub(crate) fn bed(&self) -> Bed {
        self.end.bed()
    }

    /// Returns how often the receiver was lapped.
    pub fn lapped_count(&mut self) -> Result<u64, Error> {
        self.handle.said(raw::felter_lapped_count)
    }
}

/// A record that a raw receiver returned. Its body was not copied.
#[derive(Clone, Copy, Debug, PartialEq, Eq)]
pub struct RawRecord {
    /// The type id of the record, at least 1.
    pub type_id: i32,
    /// The length of the record's body.
    pub len: usize,
}

/// Receives records that are transmitted on a board, without their bodies.
#[derive(Debug)]
pub struct RawReceiver {
    handle: Handle,
    board: Number,
    end: End,
    sizes: Sizes,
}

impl RawReceiver {
    /// Returns the capacity of the board, and the length of its longest message.
    pub fn sizes(&self) -> Result<Sizes, Error> {
        Ok(self.sizes)
    }

    /// Returns the position, in bytes, at which the next call looks for a message.
    pub fn place(&mut self) -> Result<u64, Error> {
        self.handle.said(raw::felter_raw_receiver_place)
    }

    /// Returns the positions at which the receiver was lapped last, or `None` if it never was.
    pub fn lap(&mut self) -> Result<Option<Lap>, Error> {
        Lap::of(&mut self.handle, raw::felter_raw_receiver_lap)
    }

    /// Returns whether the transmitter was dropped, or closed.
    pub fn is_abandoned(&self) -> bool {
        self.end.is_abandoned()
    }

    /// Returns the type id of the next record and the length of its body, and moves past the record. Returns `None` if
    /// no record is there yet.
    ///
    /// Errors: [`Error::Lapped`] if the transmitter overtook the receiver. The next call goes on with the record that
    /// was transmitted last.
    pub fn receive_next(&mut self) -> Result<Option<RawRecord>, Error> {
        let (mut type_id, mut len, mut lapped) = (0, 0, 0);
        // SAFETY: the handle and the numbers are ours.
        let code = unsafe { raw::felter_receive_next(self.handle.raw(), &mut type_id, &mut len, &mut lapped) };
        match done(code) {
            Ok(()) => Ok(Some(RawRecord { type_id, len })),
            Err(Error::NoMessage) => Ok(None),
            Err(Error::Lapped { .. }) => Err(lapped_now(lapped, self.lap(), self.place())),
            Err(other) => Err(other),
        }
    }

    /// Copies the body of the record that was returned last to the front of a buffer. The bytes are certain to be those
    /// of this record only if [`validate`](RawReceiver::validate) then returns true.
    ///
    /// Errors: [`Error::NoMessage`] if no record was returned yet. [`Error::ShortBuffer`] if the buffer is too short.
    /// Its field `wanted` is 0, since [`RawRecord::len`] is the length of the body.
    pub fn load_body(&mut self, buffer: &mut [u8]) -> Result<(), Error> {
        // SAFETY: the handle is ours, and pointer and length are those of a slice.
        done(unsafe { raw::felter_load_body(self.handle.raw(), buffer.as_mut_ptr(), buffer.len()) })
    }

    /// Returns true if the record that was returned last was not overwritten, and false if it may have been
    /// overwritten. If the result is true, each copy of the body that was made before is the body that was transmitted.
    ///
    /// Errors: [`Error::NoMessage`] if no record was returned yet.
    pub fn validate(&mut self) -> Result<bool, Error> {
        // SAFETY: the handle is ours.
        match done(unsafe { raw::felter_validate(self.handle.raw()) }) {
            Ok(()) => Ok(true),
            Err(Error::Lapped { .. }) => Ok(false),
            Err(other) => Err(other),
        }
    }

    /// Returns how often [`receive_next`](RawReceiver::receive_next) returned [`Error::Lapped`].
    pub fn lapped_count(&mut self) -> Result<u64, Error> {
        self.handle.said(raw::felter_raw_lapped_count)
    }
}
