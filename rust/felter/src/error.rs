//! The reasons why calls are refused.
use crate::raw;
use std::fmt;

/// Defines the errors, each with its number and its fields.
macro_rules! errors {
    ($($(#[$doc:meta])* $name:ident $({ $($(#[$note:meta])* $field:ident: $kind:ty),* })? = $number:literal,)*) => {
        /// The reason why a call was refused. Each error has the name and the number that it has in C.
        #[derive(Clone, Copy, Debug, PartialEq, Eq, Hash)]
        #[non_exhaustive]
        pub enum Error {
            $($(#[$doc])* $name $({ $($(#[$note])* $field: $kind),* })?,)*
            /// A number for which this crate has no error.
            Unknown(i32),
        }

        impl Error {
            /// Returns the number that the error has in C.
            pub fn number(self) -> i32 {
                match self {
                    $(Error::$name $({ $($field: _),* })? => $number,)*
                    Error::Unknown(number) => number,
                }
            }

            /// Returns the error with this number, which is not 0. Its fields are 0.
            pub(crate) fn of(number: i32) -> Error {
                match number {
                    $($number => Error::$name $({ $($field: 0),* })?,)*
                    other => Error::Unknown(other),
                }
            }
        }
    };
}

errors! {
    /// The capacity is not a power of two from 128 (of a board 256) to 2^24.
    BadCapacity = 1,
    /// The start is not a multiple of the capacity, or is above 2^62.
    BadStart = 2,
    /// Out of memory.
    OutOfMemory = 3,
    /// The type id is below 1.
    BadType = 4,
    /// The message is longer than an eighth of the capacity, or the command is longer than 520 bytes.
    TooLong = 5,
    /// The record would end above 2^62.
    PositionLimit = 6,
    /// The ring is full. Try again after the consumer has read messages.
    InsufficientCapacity = 7,
    /// Another producer was faster. Try again.
    Contended = 8,
    /// The bytes are not inside the claim.
    PutRange = 9,
    /// A claim of the producer is open, because it was kept or forgotten.
    ClaimsOpen = 10,
    /// A producer or a client was neither taken back nor dropped.
    ProducersOut = 11,
    /// The handle has only one share left, and needs it.
    NoShares = 12,
    /// The transmitter overtook the receiver.
    Lapped {
        /// The number of times that the receiver has been lapped.
        count: u64,
        /// The number of bytes that the receiver missed. For a client this number is 0, because a client does not know
        /// how many bytes it missed.
        missed_bytes: u64
    } = 13,
    /// A receiver was neither taken back nor dropped.
    ReceiversOut = 14,
    /// The number of counters is 0 or above 4096.
    BadCount = 15,
    /// The key has more than 112 bytes.
    KeyTooLong = 16,
    /// The label has more than 380 bytes.
    LabelTooLong = 17,
    /// The label has a byte of 128 or more.
    LabelNotAscii = 18,
    /// Every counter is in use, or was freed too short a time ago.
    NoFreeCounter = 19,
    /// The id is not below the number of counters.
    BadId = 20,
    /// No counter with this id is in use.
    NotAllocated = 21,
    /// The owner is 0, which means that there is no owner.
    BadOwner = 28,
    /// The handle is empty. This crate never returns this error.
    NoHandle = 100,
    /// The handle is of another kind. `split` and `join` return this error for a producer of a one-to-one ring.
    WrongHandle = 101,
    /// The handle that was to be filled is not empty. This crate never returns this error.
    HandleInUse = 102,
    /// No claim of this number is open.
    NoClaim = 104,
    /// No message is there yet. Most calls of this crate return `None` instead.
    NoMessage = 105,
    /// The message is longer than the buffer, and stays in the ring.
    ShortBuffer {
        /// The number of bytes that are needed.
        wanted: usize
    } = 106,
    /// The moment is above 2^62.
    BadMoment = 107,
    /// The two handles belong to different rings, boards, conductors, sets of counters or shared counters.
    OtherRing = 108,
    /// The message is the reply to another command. This crate returns [`Polled::Another`](crate::Polled) instead.
    OtherReply = 109,
    /// Another handle belongs to the structure that was to be closed: a reader of the conductor was neither taken back
    /// nor dropped.
    InUse = 110,
    /// A pointer is NULL. Only the calls that take memory of the caller return this error.
    NullPointer = 111,
    /// The memory is too short, does not begin at a multiple of 64 bytes, or is in use.
    BadMemory = 112,
    /// The memory is not the image of a ring. Only [`recover`](crate::recover()) returns this error and the next five.
    NoImage = 113,
    /// The head or the tail is not a multiple of 8.
    UnalignedPosition = 114,
    /// The tail is before the head.
    TailBeforeHead = 115,
    /// The tail is more than the capacity after the head.
    TailTooFar = 116,
    /// A header has a length that no record has there.
    BadHeaderLength = 117,
    /// A header has a type id that no record has.
    BadHeaderType = 118,
}

impl Error {
    /// Returns whether the same call may succeed later. The result is true if the ring was full, or another producer
    /// was faster.
    ///
    /// ```
    /// let (mut producer, _consumer) = felter::one_to_one(128)?;
    /// while producer.write(1, b"sixteen bytes...").is_ok() {}
    /// assert!(producer.write(1, b"more").unwrap_err().is_passing());
    /// assert!(!producer.write(0, b"more").unwrap_err().is_passing());
    /// # Ok::<(), felter::Error>(())
    /// ```
    pub fn is_passing(self) -> bool {
        matches!(self, Error::InsufficientCapacity | Error::Contended)
    }
}

/// Writes the meaning of the error, in the words of `felter_text`.
impl fmt::Display for Error {
    fn fmt(&self, f: &mut fmt::Formatter<'_>) -> fmt::Result {
        f.write_str(raw::text(self.number()))?;
        match self {
            Error::Lapped { count, missed_bytes } => write!(f, ": {count} times by now, {missed_bytes} bytes missed"),
            Error::ShortBuffer { wanted } => write!(f, ": {wanted} bytes are needed"),
            Error::Unknown(number) => write!(f, " {number}"),
            _ => Ok(()),
        }
    }
}

impl std::error::Error for Error {}

/// A message of a batch was refused, and it and the messages after it were not written.
#[derive(Clone, Copy, Debug, PartialEq, Eq)]
pub struct BatchRefused {
    /// The number of messages that were written. They are the first ones of the batch.
    pub written: usize,
    /// The reason why the message was refused.
    pub reason: Error,
}

impl fmt::Display for BatchRefused {
    fn fmt(&self, f: &mut fmt::Formatter<'_>) -> fmt::Result {
        write!(f, "a message was refused after {} that were written", self.written)
    }
}

impl std::error::Error for BatchRefused {
    fn source(&self) -> Option<&(dyn std::error::Error + 'static)> {
        Some(&self.reason)
    }
}

/// A call that took a handle was refused. This error gives the handle back as it was.
#[derive(Debug)]
pub struct Refused<T> {
    /// The reason why the call was refused.
    pub reason: Error,
    /// The handle that was given to the call.
    pub back: T,
}

impl<T> fmt::Display for Refused<T> {
    fn fmt(&self, f: &mut fmt::Formatter<'_>) -> fmt::Result {
        self.reason.fmt(f)
    }
}

impl<T: fmt::Debug> std::error::Error for Refused<T> {
    fn source(&self) -> Option<&(dyn std::error::Error + 'static)> {
        Some(&self.reason)
    }
}

impl<T> From<Refused<T>> for Error {
    fn from(refused: Refused<T>) -> Error {
        refused.reason
    }
}
