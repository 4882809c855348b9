//! Rings, boards, counters and conductors for the threads of one process, proved for every interleaving. A board is a
//! broadcast buffer. The headers and the bodies of messages are stored separately from the words that threads share. So
//! rings do not have the memory layout of Agrona's rings.
//!
//! ```
//! let (mut producer, mut consumer) = felter::many_to_one(65_536)?;
//! let mut other = producer.split()?;
//! let sender = std::thread::spawn(move || other.write(7, b"hello"));
//! sender.join().expect("it does not panic")?;
//! let mut room = [0; 64];
//! let message = consumer.read(&mut room)?.expect("it was written");
//! assert_eq!((message.type_id, message.body), (7, &b"hello"[..]));
//! # Ok::<(), felter::Error>(())
//! ```
//!
//! The calls of the proved library never wait. If the ring is full or empty, or if another producer was
//! faster, the result of a call says so. The caller may then try again. The crate adds these calls to the calls of the
//! library:
//! - [`Producer::send`] and [`Consumer::recv`] try until a deadline.
//! - `is_abandoned` returns whether the other side is gone.
//! - A [`Doorbell`] wakes event loops.
//!
//! [`many_to_one_in_file`], [`Transmitter::in_file`] and [`Counters::in_file`] make a structure in a new file. Its
//! words and bodies survive the death of the process. [`recover`](recover()) then returns the messages of a ring.
//!
//! Capacities, lengths and positions are in bytes. Moments are in milliseconds of a clock that the caller chooses.
//!
//! Each handle owns its endpoint together with its ring, board, counters or conductor. So handles have no lifetime
//! parameter, and can be dropped in any order. A handle may go to another thread. Each call of the library takes its
//! handle by `&mut`, so only one thread at a time uses a handle:
//!
//! ```compile_fail,E0596
//! let (producer, _consumer) = felter::many_to_one(128).expect("a power of two");
//! std::thread::scope(|scope| {
//!     scope.spawn(|| { let shared = &producer; shared.write(1, b"no") });
//! });
//! ```
//!
//! The proved library has rules for its callers. This crate keeps these rules, so its users need `unsafe` only to make
//! a structure in a file or in memory of their own:
//!
//! - A call of the library takes its handles by `&mut` or by value. So one call at a time uses a handle, and the two
//!   handles of one call are different. (`sizes` and `is_abandoned` take `&self`, and do not call the library.)
//! - Handles cannot be copied.
//! - Buffers are slices.
//! - If two handles of a call belong to different rings, boards, conductors, sets of counters or shared counters, the
//!   call returns [`Error::OtherRing`]. This crate gives each of these structures a number, from one count. The library
//!   compares the numbers.
//!
//! Users must keep two rules. No call may come from a signal handler or a forked child. The processor must have
//! x86-64-v2. This crate and its declarations of the library are tested and not proved.

mod adder;
mod batches;
mod board;
mod claims;
mod client;
mod conductor;
mod conductor_counters;
mod controlled;
mod counters;
mod doorbell;
mod ends;
mod error;
mod handle;
mod in_file;
mod message;
mod owned;
mod raw;
mod records;
mod recovering;
mod request;
mod ring;
mod room;
mod standing;
mod taking;
mod wait;

pub use adder::Adder;
pub use board::{Lap, RawReceiver, RawRecord, Receiver, Transmitter};
pub use claims::{Claim, KeptClaim};
pub use client::{Client, Polled, Reply};
pub use conductor::{Conductor, Finished, Work, WorkStop};
pub use controlled::Action;
pub use counters::{Counters, Reader, MAX_KEY};
pub use doorbell::Doorbell;
pub use error::{BatchRefused, Error, Refused};
pub use handle::Sizes;
pub use in_file::{
    many_to_one_in_file, many_to_one_in_memory, one_to_one_in_file, one_to_one_in_memory, ring_memory, InFileError,
};
pub use message::{Batch, Message};
pub use owned::{OwnedMessage, ReceiverIntoIter, ReceiverIter, ReceiverTryIter};
pub use recovering::{recover, NotRecovered, Recovered};
pub use request::{Command, RequestError};
pub use ring::{many_to_one, many_to_one_at, one_to_one, one_to_one_at, Consumer, Positions, Producer};
pub use standing::{Found, Standing};
pub use taking::{IntoIter, Iter, TryIter};
pub use wait::WaitError;
