//! Batches of messages that are written.
use crate::error::BatchRefused;
use crate::handle::done;
use crate::raw;
use crate::ring::Producer;
use crate::room::Room;

/// The greatest length of a buffer that a producer keeps for its next batch.
const KEPT: usize = 1 << 20;

impl Room {
    /// Lays the messages of a batch into the buffer one after another, as the library takes them, in place of those of
    /// the batch before.
    fn lay<'a>(&mut self, messages: impl IntoIterator<Item = (i32, &'a [u8])>) -> &[u8] {
        self.0.clear();
        for (type_id, body) in messages {
            self.0.extend_from_slice(&(body.len() as u64).to_ne_bytes());
            self.0.extend_from_slice(&i64::from(type_id).to_ne_bytes());
            self.0.extend_from_slice(body);
            self.0.resize(self.0.len().next_multiple_of(8), 0);
        }
        &self.0
    }

    /// Frees a buffer that is too long to be kept.
    fn free_if_long(&mut self) {
        if self.0.capacity() > KEPT {
            self.0 = Vec::new();
        }
    }
}

impl Producer {
    /// Writes a batch of messages in their order, and returns how many messages it has. The call takes all messages
    /// from the iterator first, and then passes them to the library by one call. Messages that are next to one another
    /// in the ring are published by one store, so the consumer sees all of them at once.
    ///
    /// Errors: those of [`write`](Producer::write), together with the number of messages that were written before.
    /// After [`Error::BadType`] and [`Error::TooLong`] no message was written. A batch that takes 4 GiB is refused as
    /// [`Error::PutRange`].
    ///
    /// [`Error::BadType`]: crate::Error::BadType
    /// [`Error::TooLong`]: crate::Error::TooLong
    /// [`Error::PutRange`]: crate::Error::PutRange
    ///
    /// ```
    /// let (mut producer, _consumer) = felter::one_to_one(128)?;
    /// assert_eq!(producer.write_batch([(1, &b"one"[..]), (2, b"two")]), Ok(2));
    /// let refused = producer.write_batch([(3, &b"three"[..]), (0, b"bad"), (4, b"never")]).unwrap_err();
    /// assert_eq!((refused.written, refused.reason), (0, felter::Error::BadType));
    /// let refused = producer.write_batch([(5, &[0; 16][..]); 9]).unwrap_err();
    /// assert_eq!((refused.written, refused.reason), (4, felter::Error::InsufficientCapacity));
    /// # Ok::<(), felter::Error>(())
    /// ```
    pub fn write_batch<'a>(
        &mut self,
        messages: impl IntoIterator<Item = (i32, &'a [u8])>,
    ) -> Result<usize, BatchRefused> {
        let records = self.room.lay(messages);
        let mut written = 0;
        // SAFETY: the handle and the number are ours, and pointer and length are those of a slice.
        let code = unsafe { raw::felter_write_batch(self.handle.raw(), records.as_ptr(), records.len(), &mut written) };
        self.room.free_if_long();
        if written > 0 {
            self.end.wake();
        }
        match done(code) {
            Ok(()) => Ok(written as usize),
            Err(reason) => Err(BatchRefused { written: written as usize, reason }),
        }
    }
}
