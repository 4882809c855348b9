//! Clients of a conductor.
use crate::ends::End;
use crate::error::Error;
use crate::handle::{done, Handle, Number};
use crate::raw::{self, Raw};

/// Sends commands to a conductor, and receives the replies.
///
/// Each call that sends a command tries once, and returns the correlation id that was drawn for the command. The reply
/// says whether the conductor applied or refused the command. [`poll`](Client::poll) returns the reply after the
/// conductor has transmitted it.
///
/// Errors of each call that sends a command:
///
/// - [`Error::TooLong`] if the command takes more than 520 bytes, or more than an eighth of the ring's capacity.
/// - [`Error::PositionLimit`], [`Error::InsufficientCapacity`] or [`Error::Contended`], in the same cases as for
///   [`Producer::write`](crate::Producer::write).
///
/// After an error the command was not sent, and the next try draws another id.
///
/// [`Conductor::join`](crate::Conductor::join) takes a client back.
#[derive(Debug)]
pub struct Client {
    pub(crate) handle: Handle,
    pub(crate) conductor: Number,
    pub(crate) end: End,
}

/// The reply to a command.
#[derive(Clone, Copy, Debug, PartialEq, Eq)]
#[non_exhaustive]
pub enum Reply {
    /// A counter was allocated.
    Allocated {
        /// The id of the counter.
        id: u32,
    },
    /// The counter was freed or set.
    Done,
    /// The conductor did nothing.
    Refused {
        /// The reason for the refusal.
        reason: Error,
    },
    /// The owner's counters were freed.
    Closed {
        /// The number of counters that were freed.
        freed: u32,
    },
}

impl Reply {
    fn of(kind: i32, number: i64) -> Result<Reply, Error> {
        match kind {
            101 => Ok(Reply::Allocated { id: number as u32 }),
            102 => Ok(Reply::Done),
            103 => Ok(Reply::Refused { reason: Error::of(number as i32) }),
            104 => Ok(Reply::Closed { freed: number as u32 }),
            other => Err(Error::Unknown(other)),
        }
    }
}

/// The results of [`Client::poll`].
#[derive(Clone, Copy, Debug, PartialEq, Eq)]
pub enum Polled {
    /// The reply to the command.
    Answered(Reply),
    /// The reply to another command, of this client or of another one. The client skips this message, so poll again.
    Another,
    /// No message is there yet.
    Nothing,
}

impl Client {
    /// Returns whether the conductor was dropped, or has finished. No further reply will then come.
    pub fn is_abandoned(&self) -> bool {
        self.end.is_abandoned()
    }

    /// Asks the conductor to allocate a counter with the value 0, a type id, a key and a label. The registration id of
    /// the counter is the correlation id of the command. The command takes 20 bytes, plus the bytes of the key and the
    /// label.
    ///
    /// The reply is [`Reply::Allocated`], or [`Reply::Refused`] with [`Error::KeyTooLong`], [`Error::LabelTooLong`],
    /// [`Error::LabelNotAscii`] or [`Error::NoFreeCounter`].
    pub fn allocate(&mut self, type_id: i32, key: &[u8], label: &[u8]) -> Result<u64, Error> {
        let (key_at, key_len) = (key.as_ptr(), key.len());
        let (label_at, label_len) = (label.as_ptr(), label.len());
        // SAFETY: the handle and the number are ours, and pointers and lengths are those of slices.
        self.sent(|handle, id| unsafe {
            raw::felter_send_allocate(handle, type_id, key_at, key_len, label_at, label_len, id)
        })
    }

    /// Asks the conductor to allocate a counter with an owner. Otherwise the call is the same as
    /// [`allocate`](Client::allocate). The owner 0 means that the counter has no owner. The command takes 8 bytes more.
    pub fn allocate_owned(&mut self, type_id: i32, owner: u64, key: &[u8], label: &[u8]) -> Result<u64, Error> {
        let (key_at, key_len) = (key.as_ptr(), key.len());
        let (label_at, label_len) = (label.as_ptr(), label.len());
        // SAFETY: the handle and the number are ours, and pointers and lengths are those of slices.
        self.sent(|handle, id| unsafe {
            raw::felter_send_allocate_owned(handle, type_id, owner, key_at, key_len, label_at, label_len, id)
        })
    }

    /// Asks the conductor to free a counter. The reply is [`Reply::Done`], or [`Reply::Refused`] with [`Error::BadId`]
    /// or [`Error::NotAllocated`].
    pub fn free(&mut self, counter: u32) -> Result<u64, Error> {
        // SAFETY: the handle and the number are ours.
        self.sent(|handle, id| unsafe { raw::felter_send_free(handle, counter, id) })
    }

    /// Does the same as [`free`](Client::free). This is the name of the call in C++ and Python.
    pub fn release(&mut self, counter: u32) -> Result<u64, Error> {
        self.free(counter)
    }

    /// Asks the conductor to set a counter's value. The replies are those of [`free`](Client::free).
    pub fn set(&mut self, counter: u32, value: i64) -> Result<u64, Error> {
        // SAFETY: the handle and the number are ours.
        self.sent(|handle, id| unsafe { raw::felter_send_set(handle, counter, value, id) })
    }

    /// Asks the conductor to free each counter of an owner. The reply is [`Reply::Closed`], or [`Reply::Refused`] with
    /// [`Error::BadOwner`].
    pub fn close_owner(&mut self, owner: u64) -> Result<u64, Error> {
        // SAFETY: the handle and the number are ours.
        self.sent(|handle, id| unsafe { raw::felter_send_close_owner(handle, owner, id) })
    }

    /// Returns the correlation id that a call writes through its last parameter.
    fn sent(&mut self, call: impl FnOnce(*mut Raw, *mut u64) -> i32) -> Result<u64, Error> {
        let mut id = 0;
        done(call(self.handle.raw(), &mut id))?;
        Ok(id)
    }

    /// Takes the next message of the board. `correlation` is the id of the command whose reply the caller waits for.
    /// The conductor replies to the commands of a client in the order in which they were sent. So poll for the replies
    /// in that order.
    ///
    /// Errors: [`Error::Lapped`] if the conductor overtook the client. The next call goes on with the reply that was
    /// transmitted last. The client does not learn the results of the commands that had no reply yet.
    pub fn poll(&mut self, correlation: u64) -> Result<Polled, Error> {
        let (mut kind, mut number, mut lapped) = (0, 0, 0);
        // SAFETY: the handle and the numbers are ours.
        let code = unsafe { raw::felter_poll(self.handle.raw(), correlation, &mut kind, &mut number, &mut lapped) };
        match done(code) {
            Ok(()) => Ok(Polled::Answered(Reply::of(kind, number)?)),
            Err(Error::OtherReply) => Ok(Polled::Another),
            Err(Error::NoMessage) => Ok(Polled::Nothing),
            Err(Error::Lapped { .. }) => Err(Error::Lapped { count: lapped, missed_bytes: 0 }),
            Err(other) => Err(other),
        }
    }

    /// Loads the heartbeat that the conductor stored last. The heartbeat is 0 before the conductor stores one.
    pub fn heartbeat(&mut self) -> Result<u64, Error> {
        self.handle.said(raw::felter_client_heartbeat)
    }
}
