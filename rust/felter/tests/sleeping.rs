//! Readers that sleep until they are woken.
#![forbid(unsafe_code)]

mod watched;

use felter::{Conductor, Consumer, Receiver, Transmitter, WaitError};
use std::thread;
use std::time::{Duration, Instant};
use watched::{asleep, can_watch, woken, DEADLINE};

fn deadline() -> Option<Instant> {
    Some(Instant::now() + DEADLINE)
}

#[test]
fn a_reader_that_sleeps_is_woken_by_a_write() {
    if !can_watch("a_reader_that_sleeps_is_woken_by_a_write") {
        return;
    }
    let (mut producer, mut consumer) = felter::many_to_one(1024).unwrap();
    thread::scope(|scope| {
        let (reader, watched) = asleep(scope, move || consumer.recv(&mut [0; 16], deadline()).map(|it| it.type_id));
        let before = watched.sleeps();
        thread::sleep(Duration::from_millis(500));
        // (a reader that pauses for a millisecond between its looks makes hundreds)
        let sleeps = watched.sleeps() - before;
        assert!(
            watched.is_asleep() && sleeps < 10,
            "the reader polls: it went to sleep {sleeps} times in half a second"
        );
        assert_eq!(woken(reader, || producer.write(7, b"hello").unwrap()), Ok(7));
    });
}

#[test]
fn a_reader_that_sleeps_is_woken_by_each_end_of_a_kept_claim() {
    if !can_watch("a_reader_that_sleeps_is_woken_by_each_end_of_a_kept_claim") {
        return;
    }
    for (commits, type_id) in [(true, 1), (false, 2)] {
        let (mut producer, consumer) = felter::many_to_one(256).unwrap();
        let kept = producer.claim(1, 4).unwrap().keep();
        producer.write(2, b"next").unwrap();
        thread::scope(|scope| {
            let (reader, _) = asleep(scope, receives(consumer));
            let settle = || if commits { kept.commit(&mut producer) } else { kept.abort(&mut producer) };
            assert_eq!(woken(reader, || settle().unwrap()).0, Ok(type_id));
        });
    }
    let (mut producer, consumer) = felter::many_to_one(256).unwrap();
    let (_kept, mut other) = (producer.claim(1, 4).unwrap().keep(), producer.split().unwrap());
    other.write(2, b"next").unwrap();
    thread::scope(|scope| {
        let (reader, _) = asleep(scope, receives(consumer));
        // (a producer that is dropped aborts the claim)
        assert_eq!(woken(reader, || drop(producer)).0, Ok(2));
    });
}

/// Returns a call that waits for a message, and returns its type id with the consumer.
fn receives(mut consumer: Consumer) -> impl FnOnce() -> (Result<i32, WaitError>, Consumer) {
    move || (consumer.recv_owned(deadline()).map(|it| it.type_id), consumer)
}

#[test]
fn a_reader_that_sleeps_is_woken_by_a_claim_that_borrows_and_by_a_batch() {
    if !can_watch("a_reader_that_sleeps_is_woken_by_a_claim_that_borrows_and_by_a_batch") {
        return;
    }
    let (mut producer, consumer) = felter::many_to_one(256).unwrap();
    let mut other = producer.split().unwrap();
    thread::scope(|scope| {
        let claim = producer.claim(1, 4).unwrap();
        let (reader, _) = asleep(scope, receives(consumer));
        let (found, consumer) = woken(reader, || claim.commit());
        assert_eq!(found, Ok(1));
        let claim = producer.claim(2, 4).unwrap();
        other.write(3, b"after the claim").unwrap();
        let (reader, _) = asleep(scope, receives(consumer));
        let (found, consumer) = woken(reader, || drop(claim));
        assert_eq!(found, Ok(3));
        let (reader, _) = asleep(scope, receives(consumer));
        let (found, _) = woken(reader, || assert_eq!(producer.write_batch([(4, &b"batch"[..])]), Ok(1)));
        assert_eq!(found, Ok(4));
    });
}

#[test]
fn a_reader_that_sleeps_is_woken_when_the_other_side_is_gone() {
    if !can_watch("a_reader_that_sleeps_is_woken_when_the_other_side_is_gone") {
        return;
    }
    let (producer, mut consumer) = felter::many_to_one(256).unwrap();
    let mut transmitter = Transmitter::new(256).unwrap();
    let mut conductor = Conductor::new(256, 256, 1, 0).unwrap();
    let (mut receiver, mut replies) = (transmitter.subscribe().unwrap(), conductor.subscribe().unwrap());
    thread::scope(|scope| {
        let (reader, _) = asleep(scope, move || consumer.recv(&mut [0; 32], deadline()).map(|_| ()));
        assert_eq!(woken(reader, || drop(producer)), Err(WaitError::Disconnected));
        let (reader, _) = asleep(scope, move || receiver.recv(&mut [0; 32], deadline()).map(|_| ()));
        assert_eq!(woken(reader, || drop(transmitter)), Err(WaitError::Disconnected));
        let (reader, _) = asleep(scope, move || replies.recv_owned(deadline()).map(|_| ()));
        assert_eq!(woken(reader, || drop(conductor)), Err(WaitError::Disconnected));
    });
}

#[test]
fn receivers_sleep_until_something_is_transmitted() {
    if !can_watch("receivers_sleep_until_something_is_transmitted") {
        return;
    }
    let mut transmitter = Transmitter::new(4096).unwrap();
    let receivers: Vec<Receiver> = (0..3).map(|_| transmitter.subscribe().unwrap()).collect();
    let mut conductor = Conductor::new(1024, 1024, 1, 0).unwrap();
    let (mut client, mut replies) = (conductor.client().unwrap(), conductor.subscribe().unwrap());
    thread::scope(|scope| {
        let wait = |mut receiver: Receiver| move || receiver.recv(&mut [0; 512], deadline()).map(|it| it.type_id);
        let all: Vec<_> = receivers.into_iter().map(|it| asleep(scope, wait(it)).0).collect();
        transmitter.transmit(5, b"all").unwrap();
        for receiver in all {
            assert_eq!(woken(receiver, || {}), Ok(5));
        }
        let (receiver, _) = asleep(scope, move || replies.recv_owned(deadline()).map(|it| it.type_id));
        client.close_owner(9).unwrap();
        assert_eq!(woken(receiver, || assert_eq!(conductor.work(0, 9).unwrap().messages, 1)), Ok(104));
    });
}
