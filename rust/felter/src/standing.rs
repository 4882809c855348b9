//! The call that returns what a consumer finds next.
use crate::error::Error;
use crate::ring::{Consumer, Producer};

/// What is next in a ring.
#[derive(Clone, Copy, Debug, PartialEq, Eq)]
pub enum Found {
    /// A message, which the consumer reads next.
    Message,
    /// Nothing is claimed after the head.
    Nothing,
    /// A claim that is not yet committed or aborted. Its producer is slow, or lost.
    Claim,
    /// Something changed during the call. Call again.
    Change,
}

/// What is next in a ring, and the head.
#[derive(Clone, Copy, Debug, PartialEq, Eq)]
pub struct Standing {
    /// The kind of thing that is next.
    pub found: Found,
    /// The head, in bytes. If a claim is next, the head is the position of this claim.
    pub head: u64,
}

impl Consumer {
    /// Returns what is next in the ring. The call needs a producer of the same ring. The call loads the positions,
    /// reads into a buffer of no bytes, and loads the positions again. The read passes padding and aborted claims
    /// before the next message. If the read passed any of these, the result is [`Found::Change`] unless a message is
    /// next.
    ///
    /// Errors: [`Error::OtherRing`].
    ///
    /// ```
    /// use felter::Found;
    ///
    /// let (mut producer, mut consumer) = felter::one_to_one(1024)?;
    /// assert_eq!(consumer.standing(&mut producer)?.found, Found::Nothing);
    /// let claim = producer.claim(1, 5)?.keep();
    /// assert_eq!(consumer.standing(&mut producer)?.found, Found::Claim);
    /// claim.commit(&mut producer).map_err(|refused| refused.reason)?;
    /// assert_eq!(consumer.standing(&mut producer)?.found, Found::Message);
    /// # Ok::<(), felter::Error>(())
    /// ```
    pub fn standing(&mut self, producer: &mut Producer) -> Result<Standing, Error> {
        self.ring.must_be(producer.ring)?;
        let first = producer.positions()?;
        // No message has room in this buffer, so a message stays.
        let is_message = match self.read_batch(1, &mut []) {
            Err(Error::ShortBuffer { .. }) => true,
            other => other.map(|_| false)?,
        };
        let last = producer.positions()?;
        let found = if is_message {
            Found::Message
        } else if last.head == first.head && last.tail <= first.head {
            Found::Nothing
        } else if last.head == first.head && first.tail > first.head {
            Found::Claim
        } else {
            Found::Change
        };
        Ok(Standing { found, head: last.head })
    }
}
