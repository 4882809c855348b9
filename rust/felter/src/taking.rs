//! Consumers as iterators.
use crate::owned::OwnedMessage;
use crate::ring::Consumer;
use crate::room::Room;
use std::iter::FusedIterator;

/// An iterator over the messages that are in the ring. The iterator removes each message from the ring. See
/// [`Consumer::try_iter`].
#[derive(Debug)]
#[must_use = "an iterator reads nothing until it is used"]
pub struct TryIter<'a> {
    consumer: &'a mut Consumer,
    room: Room,
}

/// An iterator that waits for messages until every producer is gone. See [`Consumer::iter`].
#[derive(Debug)]
#[must_use = "an iterator reads nothing until it is used"]
pub struct Iter<'a> {
    consumer: &'a mut Consumer,
    room: Room,
}

/// An iterator that owns its consumer, and waits for messages until every producer is gone. `for message in consumer`
/// makes one.
#[derive(Debug)]
#[must_use = "an iterator reads nothing until it is used"]
pub struct IntoIter {
    consumer: Consumer,
    room: Room,
}

impl Consumer {
    /// Returns an iterator over the messages that are there. The iterator returns `None` if no message is there. A
    /// later call of the iterator may still return a message.
    ///
    /// ```
    /// let (mut producer, mut consumer) = felter::many_to_one(1024)?;
    /// producer.write(1, b"one")?;
    /// producer.write(2, b"two")?;
    /// let types: Vec<i32> = consumer.try_iter().map(|message| message.type_id).collect();
    /// assert_eq!(types, [1, 2]);
    /// assert_eq!(consumer.try_iter().next(), None);
    /// # Ok::<(), felter::Error>(())
    /// ```
    pub fn try_iter(&mut self) -> TryIter<'_> {
        let room = self.longest();
        TryIter { consumer: self, room }
    }

    /// Returns an iterator that waits for each message as [`recv`](Consumer::recv) does. The iterator ends when every
    /// producer is gone and all messages were read. `for message in &mut consumer` does the same.
    ///
    /// ```
    /// let (mut producer, mut consumer) = felter::many_to_one(1024)?;
    /// let sender = std::thread::spawn(move || (1..4).try_for_each(|i| producer.write(i, b"body")));
    /// assert_eq!(consumer.iter().map(|message| message.type_id).sum::<i32>(), 6);
    /// sender.join().expect("it does not panic")?;
    /// # Ok::<(), felter::Error>(())
    /// ```
    pub fn iter(&mut self) -> Iter<'_> {
        let room = self.longest();
        Iter { consumer: self, room }
    }

    /// Returns a buffer for the longest message, so that no read is refused.
    fn longest(&self) -> Room {
        Room(vec![0; self.sizes().map_or(0, |it| it.max_message as usize)])
    }
}

impl Iterator for TryIter<'_> {
    type Item = OwnedMessage;

    fn next(&mut self) -> Option<OwnedMessage> {
        self.consumer.read(&mut self.room.0).ok()?.map(OwnedMessage::from)
    }
}

impl Iterator for Iter<'_> {
    type Item = OwnedMessage;

    fn next(&mut self) -> Option<OwnedMessage> {
        self.consumer.recv(&mut self.room.0, None).ok().map(OwnedMessage::from)
    }
}

impl FusedIterator for Iter<'_> {}

impl Iterator for IntoIter {
    type Item = OwnedMessage;

    fn next(&mut self) -> Option<OwnedMessage> {
        self.consumer.recv(&mut self.room.0, None).ok().map(OwnedMessage::from)
    }
}

impl FusedIterator for IntoIter {}

impl IntoIterator for Consumer {
    type Item = OwnedMessage;
    type IntoIter = IntoIter;

    fn into_iter(self) -> IntoIter {
        let room = self.longest();
        IntoIter { consumer: self, room }
    }
}

impl<'a> IntoIterator for &'a mut Consumer {
    type Item = OwnedMessage;
    type IntoIter = Iter<'a>;

    fn into_iter(self) -> Iter<'a> {
        self.iter()
    }
}
