//! Messages that own their bytes: reads without a buffer of the caller, and the messages of a receiver as iterators.
use crate::board::Receiver;
use crate::error::Error;
use crate::message::Message;
use crate::ring::Consumer;
use crate::wait::WaitError;
use std::iter::FusedIterator;
use std::mem;

/// A message that owns its bytes.
#[derive(Clone, Debug, PartialEq, Eq)]
pub struct OwnedMessage {
    /// Its type id, at least 1.
    pub type_id: i32,
    /// Its bytes.
    pub body: Vec<u8>,
}

impl From<Message<'_>> for OwnedMessage {
    fn from(message: Message<'_>) -> OwnedMessage {
        OwnedMessage { type_id: message.type_id, body: message.body.to_vec() }
    }
}

/// The length of the longest message that `read_owned` reads by one call, in bytes.
const SHORT: usize = 256;

impl Consumer {
    /// Reads the next message, however long it is. Returns `None` if no message is there yet. A message of more than
    /// 256 bytes is copied out of the ring twice, since the first try only finds its length.
    ///
    /// ```
    /// let (mut producer, mut consumer) = felter::one_to_one(8192)?;
    /// producer.write(7, &[1; 1000])?;
    /// let message = consumer.read_owned()?.expect("it was written");
    /// assert_eq!((message.type_id, message.body.len()), (7, 1000));
    /// assert_eq!(consumer.read_owned()?, None);
    /// # Ok::<(), felter::Error>(())
    /// ```
    pub fn read_owned(&mut self) -> Result<Option<OwnedMessage>, Error> {
        match self.read(&mut [0; SHORT]) {
            Err(Error::ShortBuffer { wanted }) => {
                let mut body = vec![0; wanted];
                let type_id = self.read(&mut body)?.map(|message| message.type_id);
                Ok(type_id.map(|type_id| OwnedMessage { type_id, body }))
            }
            found => Ok(found?.map(OwnedMessage::from)),
        }
    }
}

impl Receiver {
    /// Receives the next message. Returns `None` if no message is there yet. The first call of `receive_owned`
    /// allocates a buffer of an eighth of the capacity, and the receiver keeps this buffer.
    ///
    /// Errors: [`Error::Lapped`] if the transmitter overtook the receiver. The next call goes on with the message that
    /// was transmitted last.
    ///
    /// ```
    /// let mut transmitter = felter::Transmitter::new(4096)?;
    /// let mut receiver = transmitter.subscribe()?;
    /// transmitter.transmit(3, b"to all")?;
    /// assert_eq!(receiver.receive_owned()?.map(|message| message.body), Some(b"to all".to_vec()));
    /// # Ok::<(), felter::Error>(())
    /// ```
    pub fn receive_owned(&mut self) -> Result<Option<OwnedMessage>, Error> {
        let mut room = mem::take(&mut self.room);
        room.0.resize(self.longest(), 0);
        let found = self.receive(&mut room.0).map(|it| it.map(OwnedMessage::from));
        self.room = room;
        found
    }

    /// Returns an iterator over the messages that are there. The iterator returns `None` if no message is there. A
    /// later call of the iterator may still return a message. If the receiver was lapped, the item is an error, and the
    /// iterator goes on afterwards.
    ///
    /// ```
    /// let mut transmitter = felter::Transmitter::new(256)?;
    /// let mut receiver = transmitter.subscribe()?;
    /// (1..=40).try_for_each(|type_id| transmitter.transmit(type_id, b"body"))?;
    /// let found: Vec<_> = receiver.try_iter().collect();
    /// assert!(matches!(&found[..], [Err(felter::Error::Lapped { count: 1, .. }), Ok(last)] if last.type_id == 40));
    /// # Ok::<(), felter::Error>(())
    /// ```
    pub fn try_iter(&mut self) -> ReceiverTryIter<'_> {
        ReceiverTryIter { receiver: self }
    }

    /// Returns an iterator that waits for each message as [`recv_owned`](Receiver::recv_owned) does. If the receiver
    /// was lapped, the item is an error, and the iterator goes on afterwards. The iterator ends if the transmitter is
    /// gone and all messages were received. `for message in &mut receiver` does the same, and `for message in receiver`
    /// drops the receiver at the end.
    ///
    /// ```
    /// let mut transmitter = felter::Transmitter::new(4096)?;
    /// let mut receiver = transmitter.subscribe()?;
    /// let sender = std::thread::spawn(move || (1..4).try_for_each(|i| transmitter.transmit(i, b"body")));
    /// let types: Result<Vec<i32>, _> = receiver.iter().map(|it| it.map(|message| message.type_id)).collect();
    /// assert_eq!(types?, [1, 2, 3]);
    /// sender.join().expect("it does not panic")?;
    /// # Ok::<(), felter::Error>(())
    /// ```
    pub fn iter(&mut self) -> ReceiverIter<'_> {
        ReceiverIter { receiver: self }
    }
}

/// An iterator over the messages that are there for a receiver. See [`Receiver::try_iter`].
#[derive(Debug)]
#[must_use = "an iterator reads nothing until it is used"]
pub struct ReceiverTryIter<'a> {
    receiver: &'a mut Receiver,
}

impl Iterator for ReceiverTryIter<'_> {
    type Item = Result<OwnedMessage, Error>;

    fn next(&mut self) -> Option<Result<OwnedMessage, Error>> {
        self.receiver.receive_owned().transpose()
    }
}

/// An iterator that waits for the messages of a receiver. See [`Receiver::iter`].
#[derive(Debug)]
#[must_use = "an iterator reads nothing until it is used"]
pub struct ReceiverIter<'a> {
    receiver: &'a mut Receiver,
}

/// An iterator that owns its receiver, and waits for messages as [`ReceiverIter`] does. `for message in receiver` makes
/// one.
#[derive(Debug)]
#[must_use = "an iterator reads nothing until it is used"]
pub struct ReceiverIntoIter {
    receiver: Receiver,
}

impl Receiver {
    /// Returns the next item of an iterator that waits.
    fn next_item(&mut self) -> Option<Result<OwnedMessage, Error>> {
        match self.recv_owned(None) {
            Ok(message) => Some(Ok(message)),
            Err(WaitError::Refused(error)) => Some(Err(error)),
            // (there is no deadline)
            Err(WaitError::Disconnected | WaitError::Timeout) => None,
        }
    }
}

impl Iterator for ReceiverIter<'_> {
    type Item = Result<OwnedMessage, Error>;

    fn next(&mut self) -> Option<Result<OwnedMessage, Error>> {
        self.receiver.next_item()
    }
}

impl Iterator for ReceiverIntoIter {
    type Item = Result<OwnedMessage, Error>;

    fn next(&mut self) -> Option<Result<OwnedMessage, Error>> {
        self.receiver.next_item()
    }
}

impl FusedIterator for ReceiverIntoIter {}

impl FusedIterator for ReceiverIter<'_> {}

impl<'a> IntoIterator for &'a mut Receiver {
    type Item = Result<OwnedMessage, Error>;
    type IntoIter = ReceiverIter<'a>;

    fn into_iter(self) -> ReceiverIter<'a> {
        self.iter()
    }
}

impl IntoIterator for Receiver {
    type Item = Result<OwnedMessage, Error>;
    type IntoIter = ReceiverIntoIter;

    fn into_iter(self) -> ReceiverIntoIter {
        ReceiverIntoIter { receiver: self }
    }
}
