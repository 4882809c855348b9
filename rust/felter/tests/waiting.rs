//! Calls that wait, and ends that are seen.
#![forbid(unsafe_code)]

use felter::{Error, Transmitter, WaitError};
use std::thread;
use std::time::{Duration, Instant};

fn within(millis: u64) -> Option<Instant> {
    Some(Instant::now() + Duration::from_millis(millis))
}

#[test]
fn two_threads_wait_for_each_other() {
    let (mut producer, consumer) = felter::many_to_one(128).unwrap();
    let mut other = producer.split().unwrap();
    thread::scope(|scope| {
        // (after a failure the consumer is dropped, which ends the other threads)
        let mut consumer = consumer;
        scope.spawn(move || (0..500u32).for_each(|i| producer.send(1, &i.to_ne_bytes(), None).unwrap()));
        scope.spawn(move || (0..500u32).for_each(|i| other.send(2, &i.to_ne_bytes(), None).unwrap()));
        let (mut room, mut next) = ([0; 16], [0u32; 2]);
        loop {
            match consumer.recv(&mut room, within(60_000)) {
                Ok(message) => {
                    let expected = &mut next[message.type_id as usize - 1];
                    assert_eq!(message.body, expected.to_ne_bytes());
                    *expected += 1;
                }
                Err(why) => break assert_eq!((why, next), (WaitError::Disconnected, [500, 500])),
            }
        }
    });
}

#[test]
fn deadlines_come() {
    let (mut producer, mut consumer) = felter::one_to_one(128).unwrap();
    let began = Instant::now();
    assert_eq!(consumer.recv(&mut [0; 16], within(20)), Err(WaitError::Timeout));
    while producer.write(1, &[0; 16]).is_ok() {}
    assert_eq!(producer.send(1, &[0; 16], within(20)), Err(WaitError::Timeout));
    assert!(began.elapsed() >= Duration::from_millis(40));
    assert_eq!(producer.send(0, b"", None), Err(WaitError::Refused(Error::BadType)));
    assert_eq!(consumer.recv(&mut [0; 4], None), Err(WaitError::Refused(Error::ShortBuffer { wanted: 16 })));
}

#[test]
fn ends_are_seen() {
    let (mut producer, mut consumer) = felter::many_to_one(128).unwrap();
    let other = producer.split().unwrap();
    drop(other);
    assert!(!consumer.is_abandoned() && !producer.is_abandoned());
    let joined = producer.split().unwrap();
    producer.join(joined).unwrap();
    assert!(!consumer.is_abandoned());
    let last = producer.split().unwrap();
    let refused = consumer.close(producer).unwrap_err();
    assert!(!consumer.is_abandoned());
    drop(refused);
    assert!(!consumer.is_abandoned());
    drop(last);
    assert!(consumer.is_abandoned());
    let mut transmitter = Transmitter::new(256).unwrap();
    let (receiver, raw) = (transmitter.subscribe().unwrap(), transmitter.subscribe_raw().unwrap());
    assert!(!receiver.is_abandoned() && !raw.is_abandoned());
    drop(transmitter);
    assert!(receiver.is_abandoned() && raw.is_abandoned());
    let mut conductor = felter::Conductor::new(256, 256, 1, 0).unwrap();
    let client = conductor.client().unwrap();
    assert!(!client.is_abandoned());
    drop(conductor);
    assert!(client.is_abandoned());
}
