//! Buffers that are kept for the next call.
use std::fmt;

/// A buffer. Its bytes are not printed, since they may be many, and may be those of messages.
#[derive(Default)]
pub(crate) struct Room(pub(crate) Vec<u8>);

impl fmt::Debug for Room {
    fn fmt(&self, f: &mut fmt::Formatter<'_>) -> fmt::Result {
        write!(f, "Room({})", self.0.capacity())
    }
}
