//! Calls that wait. These calls are not proved. The proved calls never wait.
use crate::board::Receiver;
use crate::ends::{Bed, Wait};
use crate::error::Error;
use crate::message::Message;
use crate::owned::OwnedMessage;
use crate::ring::{Consumer, Producer};
use std::fmt;
use std::future;
use std::task::Poll;
use std::thread;
use std::time::{Duration, Instant};

/// The reason why a call that waits ended without a result.
#[derive(Clone, Copy, Debug, PartialEq, Eq)]
#[non_exhaustive]
pub enum WaitError {
    /// The deadline has come.
    Timeout,
    /// Every end of the other side was dropped, and a reader has read all messages.
    Disconnected,
    /// The call was refused for a reason that waiting does not remove.
    Refused(Error),
}

impl fmt::Display for WaitError {
    fn fmt(&self, f: &mut fmt::Formatter<'_>) -> fmt::Result {
        match self {
            WaitError::Timeout => f.write_str("the deadline has come"),
            WaitError::Disconnected => f.write_str("the other side is gone"),
            WaitError::Refused(error) => error.fmt(f),
        }
    }
}

impl From<Error> for WaitError {
    fn from(error: Error) -> WaitError {
        WaitError::Refused(error)
    }
}

impl std::error::Error for WaitError {
    fn source(&self) -> Option<&(dyn std::error::Error + 'static)> {
        match self {
            WaitError::Refused(error) => Some(error),
            WaitError::Timeout | WaitError::Disconnected => None,
        }
    }
}

/// Pauses that grow. First the thread spins, then it yields, and then it sleeps for up to a millisecond.
pub(crate) struct Backoff {
    turns: u32,
    deadline: Option<Instant>,
}

impl Backoff {
    pub(crate) fn until(deadline: Option<Instant>) -> Backoff {
        Backoff { turns: 0, deadline }
    }

    /// Goes back to short pauses.
    pub(crate) fn restart(&mut self) {
        self.turns = 0;
    }

    /// Returns whether the next pause spins or yields, and does not sleep.
    fn is_awake(&self) -> bool {
        self.turns <= 10
    }

    /// Returns true if the deadline has come. Otherwise the call pauses, and returns false.
    pub(crate) fn is_over(&mut self) -> bool {
        let left = match self.deadline.map(|it| it.saturating_duration_since(Instant::now())) {
            Some(Duration::ZERO) => return true,
            left => left.unwrap_or(Duration::MAX),
        };
        match self.turns {
            0..=5 => (0..1 << self.turns).for_each(|_| std::hint::spin_loop()),
            6..=10 => thread::yield_now(),
            turns => thread::sleep(left.min(Duration::from_micros(16 << (turns - 10).min(6)))),
        }
        self.turns = self.turns.saturating_add(1);
        false
    }
}

impl Producer {
    /// Writes a message, and tries again while the ring is full or another producer is faster.
    ///
    /// These are the errors:
    /// - [`WaitError::Timeout`] at the deadline;
    /// - [`WaitError::Disconnected`] if the consumer was dropped;
    /// - [`WaitError::Refused`] for other errors of [`write`](Producer::write).
    ///
    /// Without a deadline the call waits for ever.
    ///
    /// ```
    /// use std::time::{Duration, Instant};
    ///
    /// let (mut producer, consumer) = felter::one_to_one(128)?;
    /// let soon = || Some(Instant::now() + Duration::from_millis(5));
    /// while producer.send(1, b"sixteen bytes...", soon()).is_ok() {}
    /// assert_eq!(producer.send(1, b"more", soon()), Err(felter::WaitError::Timeout));
    /// drop(consumer);
    /// assert_eq!(producer.send(1, b"more", None), Err(felter::WaitError::Disconnected));
    /// # Ok::<(), felter::Error>(())
    /// ```
    pub fn send(&mut self, type_id: i32, body: &[u8], deadline: Option<Instant>) -> Result<(), WaitError> {
        let mut backoff = Backoff::until(deadline);
        loop {
            match self.write(type_id, body) {
                Ok(()) => return Ok(()),
                Err(error) if !error.is_passing() => return Err(WaitError::Refused(error)),
                Err(_) if self.is_abandoned() => return Err(WaitError::Disconnected),
                Err(_) if backoff.is_over() => return Err(WaitError::Timeout),
                Err(_) => {}
            }
        }
    }
}

impl Consumer {
    /// Waits for a message, and reads it into a buffer. The call tries a few times to read, and then sleeps until a
    /// producer wakes it.
    ///
    /// These are the errors:
    /// - [`WaitError::Timeout`] at the deadline;
    /// - [`WaitError::Disconnected`] if every producer was dropped and all messages were read;
    /// - [`WaitError::Refused`] for the errors of [`read`](Consumer::read).
    ///
    /// Without a deadline the call waits for ever.
    ///
    /// ```
    /// let (mut producer, mut consumer) = felter::one_to_one(128)?;
    /// producer.write(1, b"last")?;
    /// drop(producer);
    /// let mut room = [0; 16];
    /// assert_eq!(consumer.recv(&mut room, None).map(|message| message.body), Ok(&b"last"[..]));
    /// assert_eq!(consumer.recv(&mut room, None), Err(felter::WaitError::Disconnected));
    /// # Ok::<(), felter::Error>(())
    /// ```
    pub fn recv<'a>(&mut self, buffer: &'a mut [u8], deadline: Option<Instant>) -> Result<Message<'a>, WaitError> {
        let bed = self.bed();
        let (type_id, len) = until_found(&bed, deadline, || {
            // (this comes first, so the last read finds what was written before the last producer was dropped)
            let is_last = self.is_abandoned();
            tried(sized(self.read(buffer)), is_last)
        })?;
        Ok(Message { type_id, body: &buffer[..len] })
    }

    /// Waits for a message, however long it is. Otherwise the call is the same as [`recv`](Consumer::recv).
    ///
    /// ```
    /// let (mut producer, mut consumer) = felter::one_to_one(8192)?;
    /// let sender = std::thread::spawn(move || producer.write(1, &[7; 1000]));
    /// assert_eq!(consumer.recv_owned(None).map(|message| message.body.len()), Ok(1000));
    /// sender.join().expect("it does not panic")?;
    /// # Ok::<(), felter::Error>(())
    /// ```
    pub fn recv_owned(&mut self, deadline: Option<Instant>) -> Result<OwnedMessage, WaitError> {
        let bed = self.bed();
        until_found(&bed, deadline, || {
            let is_last = self.is_abandoned();
            tried(self.read_owned(), is_last)
        })
    }
}

impl Consumer {
    /// Waits in a task for a message, and reads the message into a buffer. A write wakes the task.
    ///
    /// These are the errors:
    /// - [`WaitError::Disconnected`] if every producer was dropped and all messages were read;
    /// - [`WaitError::Refused`] for the errors of [`read`](Consumer::read).
    ///
    /// If the future is dropped before it is ready, no message was taken.
    ///
    /// ```
    /// # use std::{future::Future, pin::pin, sync::Arc, task::{Context, Poll, Wake}, thread};
    /// # struct Unpark(thread::Thread);
    /// # impl Wake for Unpark { fn wake(self: Arc<Self>) { self.0.unpark() } }
    /// # fn block_on<F: Future>(task: F) -> F::Output {
    /// #     let (mut task, waker) = (pin!(task), Arc::new(Unpark(thread::current())).into());
    /// #     loop {
    /// #         if let Poll::Ready(found) = task.as_mut().poll(&mut Context::from_waker(&waker)) { return found }
    /// #         thread::park();
    /// #     }
    /// # }
    /// let (mut producer, mut consumer) = felter::one_to_one(128)?;
    /// let sender = thread::spawn(move || producer.write(1, b"woken"));
    /// let mut room = [0; 16];
    /// let task = consumer.recv_async(&mut room);
    /// assert_eq!(block_on(task).map(|message| message.body), Ok(&b"woken"[..]));
    /// sender.join().expect("it does not panic")?;
    /// # Ok::<(), felter::Error>(())
    /// ```
    pub async fn recv_async<'a>(&mut self, buffer: &'a mut [u8]) -> Result<Message<'a>, WaitError> {
        let bed = self.bed();
        let (type_id, len) = until_woken(&bed, || {
            let is_last = self.is_abandoned();
            tried(sized(self.read(buffer)), is_last)
        })
        .await?;
        Ok(Message { type_id, body: &buffer[..len] })
    }
}

impl Receiver {
    /// Waits in a task for a message, and copies the message into a buffer. A transmission wakes the task. Otherwise
    /// the call is the same as [`recv`](Receiver::recv) without a deadline.
    pub async fn recv_async<'a>(&mut self, buffer: &'a mut [u8]) -> Result<Message<'a>, WaitError> {
        let bed = self.bed();
        let (type_id, len) = until_woken(&bed, || {
            let is_last = self.is_abandoned();
            tried(sized(self.receive(buffer)), is_last)
        })
        .await?;
        Ok(Message { type_id, body: &buffer[..len] })
    }

    /// Waits for a message, and copies it into a buffer of at least an eighth of the capacity.
    ///
    /// These are the errors:
    /// - [`WaitError::Timeout`] at the deadline;
    /// - [`WaitError::Disconnected`] if the transmitter or the conductor was dropped and all messages were received;
    /// - [`WaitError::Refused`] for the errors of [`receive`](Receiver::receive), which include [`Error::Lapped`].
    ///
    /// Without a deadline the call waits for ever.
    ///
    /// ```
    /// let mut transmitter = felter::Transmitter::new(256)?;
    /// let mut receiver = transmitter.subscribe()?;
    /// transmitter.transmit(1, b"last")?;
    /// drop(transmitter);
    /// let mut room = [0; 32];
    /// assert_eq!(receiver.recv(&mut room, None).map(|message| message.body), Ok(&b"last"[..]));
    /// assert_eq!(receiver.recv(&mut room, None), Err(felter::WaitError::Disconnected));
    /// # Ok::<(), felter::Error>(())
    /// ```
    pub fn recv<'a>(&mut self, buffer: &'a mut [u8], deadline: Option<Instant>) -> Result<Message<'a>, WaitError> {
        let bed = self.bed();
        let (type_id, len) = until_found(&bed, deadline, || {
            let is_last = self.is_abandoned();
            tried(sized(self.receive(buffer)), is_last)
        })?;
        Ok(Message { type_id, body: &buffer[..len] })
    }

    /// Waits for a message, in a buffer of the receiver, as [`receive_owned`](Receiver::receive_owned) does. Otherwise
    /// the call is the same as [`recv`](Receiver::recv).
    pub fn recv_owned(&mut self, deadline: Option<Instant>) -> Result<OwnedMessage, WaitError> {
        let bed = self.bed();
        until_found(&bed, deadline, || {
            let is_last = self.is_abandoned();
            tried(self.receive_owned(), is_last)
        })
    }
}

/// Returns the type id and the length of a message that was found.
fn sized(found: Result<Option<Message<'_>>, Error>) -> Result<Option<(i32, usize)>, Error> {
    Ok(found?.map(|message| (message.type_id, message.body.len())))
}

/// Returns the result of a try: what was found, an error, or `None` if no message is there yet.
fn tried<T>(found: Result<Option<T>, Error>, is_last: bool) -> Option<Result<T, WaitError>> {
    match found {
        Ok(Some(message)) => Some(Ok(message)),
        Err(error) => Some(Err(WaitError::Refused(error))),
        Ok(None) if is_last => Some(Err(WaitError::Disconnected)),
        Ok(None) => None,
    }
}

/// Calls `look` each time that the task is polled, until `look` returns a result.
async fn until_woken<T>(bed: &Bed, mut look: impl FnMut() -> Option<Result<T, WaitError>>) -> Result<T, WaitError> {
    let mut wait = Wait::at(bed);
    future::poll_fn(|task| {
        // (a message that is written between the two calls of `look` wakes the task, or the second call finds it)
        let found = look().or_else(|| {
            wait.note(task.waker());
            look()
        });
        found.map_or(Poll::Pending, Poll::Ready)
    })
    .await
}

/// Calls `look` until it returns a result. There are short pauses between the first calls of `look`. Each later call
/// comes after the thread was woken.
fn until_found<T>(
    bed: &Bed,
    deadline: Option<Instant>,
    mut look: impl FnMut() -> Option<Result<T, WaitError>>,
) -> Result<T, WaitError> {
    let mut backoff = Backoff::until(deadline);
    loop {
        if let Some(found) = look() {
            return found;
        }
        if backoff.is_awake() {
            if backoff.is_over() {
                return Err(WaitError::Timeout);
            }
        } else if let Some(found) = bed.sleep(deadline, &mut look) {
            return found;
        } else if deadline.is_some_and(|it| it <= Instant::now()) {
            return look().unwrap_or(Err(WaitError::Timeout));
        }
    }
}
