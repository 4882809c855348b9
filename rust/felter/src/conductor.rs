//! Conductors, which own counters and change them as their clients command.
use crate::board::Receiver;
use crate::client::Client;
use crate::counters::Reader;
use crate::ends::End;
use crate::error::{Error, Refused};
use crate::handle::{done, Handle, Number};
use crate::raw;

/// Owns counters, and applies the commands of its clients to the counters. A conductor transmits one reply to each
/// command on a board.
///
/// Clients, receivers of the replies and readers of the counters' values can be used on other threads. If a client or a
/// receiver is dropped, its shares are lost, and the conductor can finish without it.
///
/// ```
/// use felter::{Conductor, Polled, Reply, Work, WorkStop};
///
/// let mut conductor = Conductor::new(1024, 4096, 8, 0)?;
/// let mut client = conductor.client()?;
/// let command = client.allocate(1, b"", b"requests")?;
/// assert_eq!(conductor.work(0, u32::MAX)?, Work { messages: 1, stopped: WorkStop::Unpublished });
/// assert_eq!(client.poll(command)?, Polled::Answered(Reply::Allocated { id: 0 }));
/// conductor.join(client)?;
/// let finished = conductor.finish()?;
/// assert_eq!((finished.received, finished.left), (1, 0));
/// # Ok::<(), felter::Error>(())
/// ```
///
/// Only one thread at a time can use a conductor, a client, a receiver or a reader. This does not compile:
///
/// ```compile_fail,E0596
/// let mut conductor = felter::Conductor::new(128, 256, 1, 0).expect("sizes");
/// let client = conductor.client().expect("a share");
/// std::thread::scope(|scope| {
///     scope.spawn(|| { let shared = &client; shared.free(0) });
/// });
/// ```
#[derive(Debug)]
pub struct Conductor {
    pub(crate) handle: Handle,
    number: Number,
    end: End,
}

/// The result of one call of [`Conductor::work`].
#[derive(Clone, Copy, Debug, PartialEq, Eq)]
pub struct Work {
    /// The number of commands that were taken. It may be 0.
    pub messages: u64,
    /// The reason why the call stopped.
    pub stopped: WorkStop,
}

/// The reasons why a call of [`Conductor::work`] stops.
#[derive(Clone, Copy, Debug, PartialEq, Eq, Hash)]
#[non_exhaustive]
pub enum WorkStop {
    /// The limit was reached.
    Limit,
    /// The end of the ring's buffer was reached. The next call goes on after it.
    Block,
    /// No further command was there.
    Unpublished,
    /// A reply might end above 2^62 on the board. The command stays in the ring, and is not applied.
    BoardEnd,
}

impl WorkStop {
    fn of(number: i32) -> Result<WorkStop, Error> {
        match number {
            0 => Ok(WorkStop::Limit),
            1 => Ok(WorkStop::Block),
            2 => Ok(WorkStop::Unpublished),
            3 => Ok(WorkStop::BoardEnd),
            other => Err(Error::Unknown(other)),
        }
    }
}

/// The counts of commands at the end of a conductor.
#[derive(Clone, Copy, Debug, PartialEq, Eq)]
pub struct Finished {
    /// The number of commands that the conductor received in all.
    pub received: u64,
    /// The number of commands that were still in the ring. These commands get no reply.
    pub left: u64,
}

impl Conductor {
    /// Makes a conductor.
    ///
    /// - The ring for commands has `capacity` bytes, which must be a power of two from 128 to 2^24.
    /// - The board for replies has `replies` bytes, which must be a power of two from 256 to 2^24.
    /// - The ids of the counters are below `counters`, which must be from 1 to 4096. A freed id is not allocated again
    ///   for `reuse_ms` milliseconds.
    ///
    /// Errors: [`Error::BadCapacity`], [`Error::BadCount`], [`Error::OutOfMemory`].
    pub fn new(capacity: u32, replies: u32, counters: u32, reuse_ms: u32) -> Result<Conductor, Error> {
        let (number, mut handle) = (Number::next(), Handle::empty());
        let (own, raw) = (number.raw(), handle.raw());
        // SAFETY: nothing else has this number, and the handle is empty.
        done(unsafe { raw::felter_conductor_new_numbered(own, capacity, replies, counters, reuse_ms, raw) })?;
        Ok(Conductor { handle, number, end: End::writer() })
    }

    /// Makes a client, which starts with the reply that was transmitted last. The ring and the board have 65,536 shares
    /// each, and the client gets one share of each.
    ///
    /// Errors: [`Error::NoShares`], [`Error::OutOfMemory`]. After an error no share is lost.
    pub fn client(&mut self) -> Result<Client, Error> {
        let mut handle = Handle::empty();
        // SAFETY: both handles are ours, and the second one is empty.
        done(unsafe { raw::felter_conductor_client(self.handle.raw(), handle.raw()) })?;
        Ok(Client { handle, conductor: self.number, end: self.end.other(false) })
    }

    /// Makes a receiver, which receives every reply as a message of the board. The receiver starts with the reply that
    /// was transmitted last, and gets one of the board's shares.
    ///
    /// Errors: [`Error::NoShares`], [`Error::OutOfMemory`].
    pub fn subscribe(&mut self) -> Result<Receiver, Error> {
        let mut handle = Handle::empty();
        // SAFETY: both handles are ours, and the second one is empty.
        done(unsafe { raw::felter_conductor_subscribe(self.handle.raw(), handle.raw()) })?;
        Receiver::of(handle, self.number, self.end.other(false))
    }

    /// Makes a reader of the counters' values, for another thread. The reader gets one of the counters' 65,536 shares.
    /// If the reader is dropped, this share is lost, and the conductor can finish without the reader.
    ///
    /// Errors: [`Error::NoShares`], [`Error::OutOfMemory`].
    pub fn reader(&mut self) -> Result<Reader, Error> {
        let mut handle = Handle::empty();
        // SAFETY: both handles are ours, and the second one is empty.
        done(unsafe { raw::felter_conductor_reader(self.handle.raw(), handle.raw()) })?;
        Ok(Reader { handle, counters: self.number })
    }

    /// Takes up to `limit` commands. Each command is applied at the moment `now`, in milliseconds, and the reply to it
    /// is transmitted.
    ///
    /// Errors: [`Error::BadMoment`]. No command is then taken.
    pub fn work(&mut self, now: u64, limit: u32) -> Result<Work, Error> {
        let (mut messages, mut stopped) = (0, 0);
        // SAFETY: the handle and the numbers are ours.
        done(unsafe { raw::felter_conductor_work(self.handle.raw(), now, limit, &mut messages, &mut stopped) })?;
        self.end.wake();
        Ok(Work { messages, stopped: WorkStop::of(stopped)? })
    }

    /// Stores the heartbeat that clients load.
    pub fn set_heartbeat(&mut self, value: u64) -> Result<(), Error> {
        // SAFETY: the handle is ours.
        done(unsafe { raw::felter_conductor_set_heartbeat(self.handle.raw(), value) })
    }

    /// Takes back a client of this conductor with its shares.
    ///
    /// Errors: [`Error::OtherRing`] if the client belongs to another conductor. The error gives the client back.
    pub fn join(&mut self, mut client: Client) -> Result<(), Refused<Client>> {
        let joined = self.number.must_be(client.conductor).and_then(|()| {
            // SAFETY: both handles are of one conductor, as their numbers show.
            done(unsafe { raw::felter_conductor_join(self.handle.raw(), client.handle.raw()) })
        });
        joined.map_err(|reason| Refused { reason, back: client })
    }

    /// Takes back a receiver of this conductor with its share.
    ///
    /// Errors: [`Error::OtherRing`] if the receiver belongs to another conductor, or to a board. The error gives the
    /// receiver back.
    pub fn join_receiver(&mut self, mut receiver: Receiver) -> Result<(), Refused<Receiver>> {
        let joined = self.number.must_be(receiver.board).and_then(|()| {
            // SAFETY: both handles are of one conductor, as their numbers show.
            done(unsafe { raw::felter_conductor_join_receiver(self.handle.raw(), receiver.handle.raw()) })
        });
        joined.map_err(|reason| Refused { reason, back: receiver })
    }

    /// Takes back a reader of this conductor with its share.
    ///
    /// Errors: [`Error::OtherRing`] if the reader belongs to another conductor, or to counters. The error gives the
    /// reader back.
    pub fn join_reader(&mut self, mut reader: Reader) -> Result<(), Refused<Reader>> {
        let joined = self.number.must_be(reader.counters).and_then(|()| {
            // SAFETY: both handles are of one conductor, as their numbers show.
            done(unsafe { raw::felter_conductor_join_reader(self.handle.raw(), reader.handle.raw()) })
        });
        joined.map_err(|reason| Refused { reason, back: reader })
    }

    /// Ends a conductor whose clients, receivers and readers were all taken back or dropped.
    ///
    /// These are the errors while a client, a receiver or a reader exists, in this order:
    /// - [`Error::ProducersOut`] if a client was neither taken back nor dropped;
    /// - [`Error::ReceiversOut`] if a receiver was neither taken back nor dropped;
    /// - [`Error::InUse`] otherwise.
    ///
    /// The error gives the conductor back. The caller can go on using the conductor, and can finish it later.
    ///
    /// ```
    /// use felter::{Conductor, Error, Finished};
    ///
    /// let mut conductor = Conductor::new(1024, 4096, 8, 0)?;
    /// let client = conductor.client()?;
    /// let refused = conductor.finish().unwrap_err();
    /// assert_eq!(refused.reason, Error::ProducersOut);
    /// conductor = refused.back;
    /// conductor.join(client)?;
    /// assert_eq!(conductor.finish()?, Finished { received: 0, left: 0 });
    /// # Ok::<(), felter::Error>(())
    /// ```
    pub fn finish(mut self) -> Result<Finished, Refused<Conductor>> {
        let (mut received, mut left) = (0, 0);
        // SAFETY: the handle and the numbers are ours.
        match done(unsafe { raw::felter_conductor_finish(self.handle.raw(), &mut received, &mut left) }) {
            Ok(()) => Ok(Finished { received, left }),
            Err(reason) => Err(Refused { reason, back: self }),
        }
    }
}
