//! Tasks that wait for messages, and the wakers that they leave.
#![forbid(unsafe_code)]

use felter::{Consumer, Producer, Transmitter, WaitError};
use std::future::Future;
use std::pin::{pin, Pin};
use std::sync::atomic::{AtomicU32, Ordering::SeqCst};
use std::sync::{Arc, Mutex};
use std::task::{Context, Poll, Wake};
use std::time::{Duration, Instant};
use std::{mem, thread};

struct Unpark(thread::Thread);

impl Wake for Unpark {
    fn wake(self: Arc<Self>) {
        self.0.unpark();
    }
}

/// Runs a task on this thread.
fn block_on<F: Future>(task: F) -> F::Output {
    let waker = Arc::new(Unpark(thread::current())).into();
    let mut task = pin!(task);
    loop {
        if let Poll::Ready(found) = task.as_mut().poll(&mut Context::from_waker(&waker)) {
            return found;
        }
        let began = Instant::now();
        thread::park_timeout(Duration::from_secs(60));
        assert!(began.elapsed() < Duration::from_secs(30), "no wake came");
    }
}

#[test]
fn tasks_are_woken_by_each_message_and_by_the_end() {
    let (mut producer, consumer) = felter::many_to_one(256).unwrap();
    thread::scope(|scope| {
        // (after a failure the consumer is dropped, which ends the other thread)
        let mut consumer = consumer;
        scope.spawn(move || {
            for i in 0..2000u32 {
                if i % 100 == 0 {
                    // (now and then the task has time to wait)
                    thread::sleep(Duration::from_millis(1));
                }
                producer.send(1, &i.to_ne_bytes(), None).unwrap();
            }
        });
        block_on(async {
            let mut room = [0; 32];
            for i in 0..2000u32 {
                assert_eq!(consumer.recv_async(&mut room).await.unwrap().body, i.to_ne_bytes());
            }
            assert_eq!(consumer.recv_async(&mut room).await, Err(WaitError::Disconnected));
        });
    });
}

/// A task that counts its wakes. It may own a producer.
#[derive(Default)]
struct Task {
    wakes: AtomicU32,
    producer: Mutex<Option<Producer>>,
}

impl Wake for Task {
    fn wake(self: Arc<Self>) {
        self.wakes.fetch_add(1, SeqCst);
    }
}

impl Task {
    fn new() -> Arc<Task> {
        Arc::default()
    }

    /// Polls a future once for this task.
    fn poll<F: Future>(self: &Arc<Task>, future: Pin<&mut F>) -> Option<F::Output> {
        match future.poll(&mut Context::from_waker(&Arc::clone(self).into())) {
            Poll::Ready(found) => Some(found),
            Poll::Pending => None,
        }
    }

    /// Returns how often the task was woken, and how many wakers of it there are.
    fn counts(self: &Arc<Task>) -> (u32, usize) {
        (self.wakes.load(SeqCst), Arc::strong_count(self) - 1)
    }
}

/// Polls a new future once, which finds nothing, and drops the future.
fn poll_and_drop(task: &Arc<Task>, consumer: &mut Consumer) {
    let mut room = [0; 32];
    let mut future = pin!(consumer.recv_async(&mut room));
    assert!(task.poll(future.as_mut()).is_none());
    assert_eq!(task.counts(), (0, 1));
}

#[test]
fn a_future_that_is_dropped_takes_no_message_and_leaves_no_waker() {
    let (mut producer, mut consumer) = felter::many_to_one(256).unwrap();
    let tasks = [Task::new(), Task::new(), Task::new()];
    for task in &tasks {
        poll_and_drop(task, &mut consumer);
        assert_eq!(task.counts(), (0, 0));
    }
    producer.write(1, b"kept").unwrap();
    assert!(tasks.iter().all(|it| it.counts() == (0, 0)));
    assert_eq!(consumer.read_owned().unwrap().map(|it| it.body), Some(b"kept".to_vec()));
}

#[test]
fn the_waker_of_the_last_poll_is_woken_once() {
    let (mut producer, mut consumer) = felter::many_to_one(256).unwrap();
    let (first, last, mut room) = (Task::new(), Task::new(), [0; 32]);
    let mut future = pin!(consumer.recv_async(&mut room));
    assert!(first.poll(future.as_mut()).is_none());
    assert!(last.poll(future.as_mut()).is_none() && last.poll(future.as_mut()).is_none());
    assert_eq!((first.counts(), last.counts()), ((0, 0), (0, 1)));
    producer.write(1, b"one").unwrap();
    producer.write(2, b"two").unwrap();
    assert_eq!((first.counts(), last.counts()), ((0, 0), (1, 0)));
    assert_eq!(last.poll(future.as_mut()).map(|it| it.map(|it| it.type_id)), Some(Ok(1)));
}

#[test]
fn a_future_that_is_forgotten_gives_its_place_to_the_next_one() {
    let (mut producer, mut consumer) = felter::many_to_one(256).unwrap();
    let (forgotten, next, mut room) = (Task::new(), Task::new(), [0; 32]);
    let mut future = Box::pin(consumer.recv_async(&mut room));
    assert!(forgotten.poll(future.as_mut()).is_none());
    mem::forget(future);
    let mut other_room = [0; 32];
    let mut future = pin!(consumer.recv_async(&mut other_room));
    assert!(next.poll(future.as_mut()).is_none());
    assert_eq!((forgotten.counts(), next.counts()), ((0, 0), (0, 1)));
    producer.write(5, b"message").unwrap();
    assert_eq!((forgotten.counts(), next.counts()), ((0, 0), (1, 0)));
}

#[test]
fn receivers_of_one_board_have_a_waker_each() {
    let mut transmitter = Transmitter::new(4096).unwrap();
    let (mut one, mut two) = (transmitter.subscribe().unwrap(), transmitter.subscribe().unwrap());
    let (task, mut rooms) = (Task::new(), [[0; 512], [0; 512]]);
    let [room_of_one, room_of_two] = &mut rooms;
    let mut waits = Box::pin(one.recv_async(room_of_one));
    let mut dropped = Box::pin(two.recv_async(room_of_two));
    // (one task waits for both, as `select!` does, and stops to wait for the second)
    assert!(task.poll(waits.as_mut()).is_none() && task.poll(dropped.as_mut()).is_none());
    drop(dropped);
    assert_eq!(task.counts(), (0, 1));
    transmitter.transmit(5, b"all").unwrap();
    assert_eq!(task.counts(), (1, 0));
    assert_eq!(task.poll(waits.as_mut()).map(|it| it.map(|it| it.type_id)), Some(Ok(5)));
}

#[test]
fn a_waker_that_owns_the_producer_ends_the_wait_when_it_is_dropped() {
    let (producer, mut consumer) = felter::many_to_one(256).unwrap();
    let task = Task::new();
    *task.producer.lock().unwrap() = Some(producer);
    let (mut room, last) = ([0; 32], Task::new());
    let mut future = Box::pin(consumer.recv_async(&mut room));
    assert!(task.poll(future.as_mut()).is_none());
    drop(task);
    // (the waker of this poll takes the place of the first one, whose drop drops the producer)
    assert!(last.poll(future.as_mut()).is_some_and(|it| it == Err(WaitError::Disconnected)));
    drop(future);
    let (producer, mut consumer) = felter::many_to_one(256).unwrap();
    let task = Task::new();
    *task.producer.lock().unwrap() = Some(producer);
    let mut future = Box::pin(consumer.recv_async(&mut room));
    assert!(task.poll(future.as_mut()).is_none());
    drop(task);
    drop(future);
    assert!(consumer.is_abandoned());
}

#[test]
fn futures_go_to_other_threads() {
    fn crosses<T: Send>(_: &T) {}
    let (_producer, mut consumer) = felter::many_to_one(256).unwrap();
    let mut receiver = Transmitter::new(256).unwrap().subscribe().unwrap();
    crosses(&consumer.recv_async(&mut [0; 32]));
    crosses(&receiver.recv_async(&mut [0; 32]));
}
