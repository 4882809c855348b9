//! The queues, with one trait for all.

use crossbeam_channel::{bounded, Receiver, Sender};
use crossbeam_queue::ArrayQueue;

/// A bounded queue of messages of `N` bytes, which threads share.
pub trait Queue<const N: usize>: Sync {
    fn with_slots(slots: usize) -> Self;
    /// Whether there was room.
    fn push(&self, body: [u8; N]) -> bool;
    fn pop(&self) -> Option<[u8; N]>;
}

pub struct Array<const N: usize>(ArrayQueue<[u8; N]>);

impl<const N: usize> Queue<N> for Array<N> {
    fn with_slots(slots: usize) -> Self {
        Array(ArrayQueue::new(slots))
    }

    fn push(&self, body: [u8; N]) -> bool {
        self.0.push(body).is_ok()
    }

    fn pop(&self) -> Option<[u8; N]> {
        self.0.pop()
    }
}

pub struct Channel<const N: usize>(Sender<[u8; N]>, Receiver<[u8; N]>);

impl<const N: usize> Queue<N> for Channel<N> {
    fn with_slots(slots: usize) -> Self {
        let (sender, receiver) = bounded(slots);
        Channel(sender, receiver)
    }

    fn push(&self, body: [u8; N]) -> bool {
        self.0.try_send(body).is_ok()
    }

    fn pop(&self) -> Option<[u8; N]> {
        self.1.try_recv().ok()
    }
}
