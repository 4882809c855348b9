//! What programs in Rust expect of a channel: owned messages, iterators, writers, and conversions of errors.
#![forbid(unsafe_code)]

use felter::{many_to_one, one_to_one, Consumer, Error, OwnedMessage, Receiver, Transmitter, WaitError};
use std::io::{ErrorKind, IoSlice, Write};
use std::iter::FusedIterator;
use std::thread;
use std::time::{Duration, Instant};

fn owned(type_id: i32, body: &[u8]) -> OwnedMessage {
    OwnedMessage { type_id, body: body.to_vec() }
}

#[test]
fn owned_messages_have_any_length() {
    let (mut producer, mut consumer) = one_to_one(1 << 16).unwrap();
    for len in [0, 1, 255, 256, 257, 4000, 8192] {
        assert_eq!(consumer.read_owned(), Ok(None));
        let body: Vec<u8> = (0..len).map(|it| it as u8).collect();
        producer.write(5, &body).unwrap();
        assert_eq!(consumer.read_owned(), Ok(Some(owned(5, &body))));
    }
    let soon = Some(Instant::now() + Duration::from_millis(5));
    assert_eq!(consumer.recv_owned(soon), Err(WaitError::Timeout));
    producer.write(6, &[9; 300]).unwrap();
    drop(producer);
    assert_eq!(consumer.recv_owned(None), Ok(owned(6, &[9; 300])));
    assert_eq!(consumer.recv_owned(None), Err(WaitError::Disconnected));
}

#[test]
fn a_consumer_is_given_to_a_loop() {
    fn fuses(_: &impl FusedIterator) {}
    let (mut producer, consumer) = many_to_one(1024).unwrap();
    let sender = thread::spawn(move || (1..=50).try_for_each(|it| producer.send(it, &[it as u8; 40], None)));
    let mut messages = consumer.into_iter();
    fuses(&messages);
    for type_id in 1..=50 {
        assert_eq!(messages.next(), Some(owned(type_id, &[type_id as u8; 40])));
    }
    sender.join().unwrap().unwrap();
    assert_eq!((messages.next(), messages.next()), (None, None));
    let (producer, consumer) = many_to_one(128).unwrap();
    drop(producer);
    assert_eq!(consumer.into_iter().count(), 0);
}

#[test]
fn receivers_own_their_buffers_and_go_on_after_a_lap() {
    let mut transmitter = Transmitter::new(256).unwrap();
    let mut receiver = transmitter.subscribe().unwrap();
    assert_eq!(receiver.receive_owned(), Ok(None));
    transmitter.transmit(3, &[1; 32]).unwrap();
    transmitter.transmit(4, b"").unwrap();
    assert_eq!(receiver.receive_owned(), Ok(Some(owned(3, &[1; 32]))));
    assert_eq!(receiver.try_iter().collect::<Result<Vec<_>, _>>(), Ok(vec![owned(4, b"")]));
    for type_id in 10..40 {
        transmitter.transmit(type_id, b"body").unwrap();
    }
    let found: Vec<_> = receiver.try_iter().collect();
    assert!(matches!(found[0], Err(Error::Lapped { count: 1, missed_bytes }) if missed_bytes > 0));
    assert_eq!(found[1..], [Ok(owned(39, b"body"))]);
    let soon = Some(Instant::now() + Duration::from_millis(5));
    assert_eq!(receiver.recv_owned(soon), Err(WaitError::Timeout));
    transmitter.transmit(50, b"last").unwrap();
    drop(transmitter);
    let mut rest = Vec::new();
    for message in &mut receiver {
        rest.push(message.unwrap());
    }
    assert_eq!((rest, receiver.iter().count()), (vec![owned(50, b"last")], 0));
}

#[test]
fn a_receiver_is_given_to_a_loop() {
    fn fuses(_: &impl FusedIterator) {}
    let mut transmitter = Transmitter::new(4096).unwrap();
    let (receiver, mut other) = (transmitter.subscribe().unwrap(), transmitter.subscribe().unwrap());
    fuses(&other.iter());
    let listener = thread::spawn(move || {
        let mut types = Vec::new();
        for message in receiver {
            types.push(message?.type_id);
        }
        Ok::<_, Error>(types)
    });
    (1..=9).try_for_each(|type_id| transmitter.transmit(type_id, b"body")).unwrap();
    drop(transmitter);
    assert_eq!(listener.join().unwrap(), Ok((1..=9).collect()));
    let mut rest = other.into_iter();
    fuses(&rest);
    assert_eq!((rest.by_ref().count(), rest.next()), (9, None));
}

#[test]
fn messages_are_written_from_several_slices() {
    let (mut producer, mut consumer) = one_to_one(128).unwrap();
    let parts = [IoSlice::new(b"one "), IoSlice::new(b""), IoSlice::new(b"message")];
    producer.write_vectored(7, &parts).unwrap();
    assert_eq!(consumer.read_owned(), Ok(Some(owned(7, b"one message"))));
    producer.write_vectored(8, &[]).unwrap();
    assert_eq!(consumer.read_owned(), Ok(Some(owned(8, b""))));
    assert_eq!(producer.write_vectored(0, &parts), Err(Error::BadType));
    assert_eq!(producer.write_vectored(1, &[IoSlice::new(&[0; 9]), IoSlice::new(&[0; 8])]), Err(Error::TooLong));
    while producer.write_vectored(1, &parts).is_ok() {}
    assert_eq!(producer.write_vectored(1, &parts), Err(Error::InsufficientCapacity));
    assert!(consumer.try_iter().all(|it| it == owned(1, b"one message")));
}

#[test]
fn a_claim_is_a_writer() {
    let (mut producer, mut consumer) = one_to_one(256).unwrap();
    let mut claim = producer.claim(2, 8).unwrap();
    assert_eq!((claim.len(), claim.is_empty()), (8, false));
    claim.write_all(b"12345").unwrap();
    // (a put elsewhere does not move the place of the next write)
    claim.put(0, b"x").unwrap();
    assert_eq!(claim.write(b"67890").unwrap(), 3);
    assert_eq!(claim.write(b"more").unwrap(), 0);
    assert_eq!(claim.write_all(b"more").unwrap_err().kind(), ErrorKind::WriteZero);
    claim.flush().unwrap();
    claim.commit();
    assert_eq!(consumer.read_owned(), Ok(Some(owned(2, b"x2345678"))));
    assert!(producer.claim(2, 0).unwrap().is_empty());
}

#[test]
fn sizes_need_no_mutable_handle() {
    fn longest(transmitter: &Transmitter, receiver: &Receiver, consumer: &Consumer) -> [u32; 3] {
        [transmitter.sizes(), receiver.sizes(), consumer.sizes()].map(|it| it.unwrap().max_message)
    }
    let (_producer, consumer) = one_to_one(1024).unwrap();
    let mut transmitter = Transmitter::new(512).unwrap();
    let receiver = transmitter.subscribe().unwrap();
    assert_eq!(longest(&transmitter, &receiver, &consumer), [64, 64, 128]);
    let mut conductor = felter::Conductor::new(1024, 2048, 1, 0).unwrap();
    assert_eq!(conductor.subscribe().unwrap().sizes().unwrap().max_message, 256);
}

#[test]
fn an_error_becomes_one_of_a_call_that_waits() {
    fn write_then_wait() -> Result<(), WaitError> {
        let (mut producer, mut consumer) = one_to_one(128)?;
        producer.write(0, b"")?;
        consumer.recv_owned(None)?;
        Ok(())
    }
    assert_eq!(write_then_wait(), Err(WaitError::Refused(Error::BadType)));
}

#[test]
fn a_counter_is_freed_by_the_name_of_each_language() {
    let mut counters = felter::Counters::new(2, 0).unwrap();
    let ids = [counters.allocate(0, 1, b"", b"", 0).unwrap(), counters.allocate(0, 1, b"", b"", 0).unwrap()];
    counters.free(0, ids[0]).unwrap();
    counters.release(0, ids[1]).unwrap();
    assert_eq!(ids.map(|id| counters.state(id)), [Ok(-1), Ok(-1)]);
    let mut conductor = felter::Conductor::new(1024, 1024, 1, 0).unwrap();
    let mut client = conductor.client().unwrap();
    client.allocate(1, b"", b"").unwrap();
    client.release(0).unwrap();
    conductor.work(0, 9).unwrap();
    assert_eq!(conductor.state(0), Ok(-1));
}

#[test]
fn what_is_printed_of_handles_has_no_bytes_of_messages() {
    let (_producer, mut consumer) = one_to_one(1 << 24).unwrap();
    let mut transmitter = Transmitter::new(1 << 24).unwrap();
    let mut receiver = transmitter.subscribe().unwrap();
    transmitter.transmit(1, b"secret").unwrap();
    receiver.receive_owned().unwrap();
    let printed = [
        format!("{receiver:?}"),
        format!("{:?}", receiver.try_iter()),
        format!("{:?}", consumer.try_iter()),
        format!("{:?}", consumer.iter()),
        format!("{:?}", consumer.into_iter()),
    ];
    // (the buffers have 2 MiB)
    assert!(printed.iter().all(|it| it.len() < 1000), "{:?}", printed.map(|it| it.len()));
}

#[test]
fn a_long_batch_leaves_no_long_buffer() {
    let (mut producer, _consumer) = one_to_one(1 << 24).unwrap();
    let body = vec![7; 1 << 20];
    assert_eq!(producer.write_batch([(1, &body[..]); 3]), Ok(3));
    assert!(format!("{producer:?}").contains("Room(0)"));
    assert_eq!(producer.write_batch([(1, &body[..100])]), Ok(1));
    assert!(!format!("{producer:?}").contains("Room(0)"));
}
