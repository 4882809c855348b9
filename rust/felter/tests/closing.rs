//! How rings, boards and their handles end that are no conductor's, from safe code.
#![forbid(unsafe_code)]

use felter::{many_to_one, one_to_one, Conductor, Consumer, Counters, Error, Finished, Message, Producer, Transmitter};
use std::thread;

const BODY: &[u8] = b"sixteen bytes...";

fn expect_one(consumer: &mut Consumer, type_id: i32) {
    assert_eq!(consumer.read(&mut [0; 16]), Ok(Some(Message { type_id, body: BODY })));
}

fn ends(ring: (Producer, Consumer)) {
    let (mut producer, mut consumer) = ring;
    for type_id in 1..=3 {
        producer.write(type_id, BODY).unwrap();
    }
    let refused = consumer.finish().unwrap_err();
    assert_eq!(refused.reason, Error::ProducersOut);
    consumer = refused.back;
    consumer.close(producer).unwrap();
    expect_one(&mut consumer, 1);
    consumer.set_heartbeat(5).unwrap();
    assert_eq!(consumer.finish().unwrap(), 2);
}

#[test]
fn a_ring_is_closed_and_read_on_and_says_what_was_left() {
    ends(many_to_one(256).unwrap());
    ends(one_to_one(256).unwrap());
    let (producer, mut consumer) = many_to_one(128).unwrap();
    consumer.close(producer).unwrap();
    assert_eq!(consumer.read(&mut [0; 16]), Ok(None));
    assert_eq!(consumer.finish().unwrap(), 0);
}

#[test]
fn padding_and_aborted_claims_are_not_left() {
    let (mut producer, mut consumer) = many_to_one(128).unwrap();
    // Each takes 24 bytes, and the sixth comes after padding.
    for type_id in 1..=5 {
        producer.write(type_id, BODY).unwrap();
    }
    expect_one(&mut consumer, 1);
    expect_one(&mut consumer, 2);
    producer.write(6, BODY).unwrap();
    drop(producer.claim(7, 5).unwrap());
    assert_eq!(producer.positions().unwrap().tail, 128 + 24 + 16);
    consumer.close(producer).unwrap();
    assert_eq!(consumer.finish().unwrap(), 4);
}

#[test]
fn a_close_is_refused_until_claims_are_settled_and_producers_joined() {
    let (mut producer, mut consumer) = many_to_one(256).unwrap();
    let mut other = producer.split().unwrap();
    let first = producer.claim(1, 16).unwrap().keep();
    let refused = consumer.close(producer).unwrap_err();
    assert_eq!((refused.reason, refused.to_string().as_str()), (Error::ClaimsOpen, "a claim of the producer is open"));
    producer = refused.back;
    first.put(&mut producer, 0, BODY).unwrap();
    first.commit(&mut producer).unwrap();
    let second = other.claim(2, 0).unwrap().keep();
    let refused = consumer.close(producer).unwrap_err();
    assert_eq!(
        (refused.reason, refused.to_string().as_str()),
        (Error::ProducersOut, "a producer or a client is still in a handle")
    );
    producer = refused.back;
    producer.join(other).unwrap();
    let refused = consumer.close(producer).unwrap_err();
    assert_eq!(refused.reason, Error::ClaimsOpen);
    producer = refused.back;
    second.abort(&mut producer).unwrap();
    producer.write(3, BODY).unwrap();
    assert_eq!(producer.shares(), Ok(65_536));
    consumer.close(producer).unwrap();
    expect_one(&mut consumer, 1);
    assert_eq!(consumer.finish().unwrap(), 1);
}

/// Producers that were dropped are not missed: what they committed stays, and what they claimed is aborted.
#[test]
fn a_ring_is_closed_without_producers_that_were_dropped() {
    let (mut producer, mut consumer) = many_to_one(256).unwrap();
    let (mut other, third) = (producer.split().unwrap(), producer.split().unwrap());
    other.write(1, BODY).unwrap();
    let _ = other.claim(2, 16).unwrap().keep();
    producer.write(3, BODY).unwrap();
    other.write(4, BODY).unwrap();
    drop(other);
    let refused = consumer.close(producer).unwrap_err();
    assert_eq!(refused.reason, Error::ProducersOut);
    drop(third);
    consumer.close(refused.back).unwrap();
    expect_one(&mut consumer, 1);
    expect_one(&mut consumer, 3);
    assert_eq!(consumer.finish().unwrap(), 1);
    // The last one too.
    let (mut producer, consumer) = many_to_one(256).unwrap();
    producer.write(1, BODY).unwrap();
    let _ = producer.claim(2, 16).unwrap().keep();
    producer.write(3, BODY).unwrap();
    let refused = consumer.finish().unwrap_err();
    assert_eq!(refused.reason, Error::ProducersOut);
    drop(producer);
    assert_eq!(refused.back.finish().unwrap(), 2);
    let (producer, consumer) = one_to_one(128).unwrap();
    drop(producer);
    assert_eq!(consumer.finish().unwrap(), 0);
}

#[test]
fn rings_of_one_capacity_are_not_mixed() {
    let (mut one, mut of_one) = many_to_one(128).unwrap();
    let (mut two, mut of_two) = many_to_one(128).unwrap();
    one.write(1, BODY).unwrap();
    let refused = of_two.close(one).unwrap_err();
    assert_eq!(refused.reason, Error::OtherRing);
    two.write(2, BODY).unwrap();
    of_two.close(two).unwrap();
    of_one.close(refused.back).expect("its own ring");
    expect_one(&mut of_one, 1);
    assert_eq!((of_one.finish().unwrap(), of_two.finish().unwrap()), (0, 1));
}

#[test]
fn what_was_written_on_threads_was_read_or_is_left() {
    let (mut producer, mut consumer) = many_to_one(1024).unwrap();
    let others: Vec<Producer> = (0..3).map(|_| producer.split().unwrap()).collect();
    let threads: Vec<_> = others
        .into_iter()
        .map(|mut other| {
            thread::spawn(move || {
                for _ in 0..2_000 {
                    while let Err(refused) = other.write(9, BODY) {
                        assert!(refused.is_passing(), "{refused}");
                        thread::yield_now();
                    }
                }
                other
            })
        })
        .collect();
    // Five messages stay: the ring has room for more.
    let mut count = 0;
    while count < 3 * 2_000 - 5 {
        match consumer.read(&mut [0; 16]).unwrap() {
            Some(_) => count += 1,
            None => thread::yield_now(),
        }
    }
    for it in threads {
        producer.join(it.join().expect("it does not panic")).unwrap();
    }
    consumer.close(producer).unwrap();
    assert_eq!(consumer.finish().unwrap(), 5);
}

#[test]
fn a_board_is_closed_when_its_receivers_are_back() {
    let mut transmitter = Transmitter::new_at(256, 512).unwrap();
    let (mut receiver, raw) = (transmitter.subscribe().unwrap(), transmitter.subscribe_raw().unwrap());
    // They take 16, 40 and 8 bytes.
    transmitter.transmit(1, &[7; 5]).unwrap();
    transmitter.transmit(2, &[7; 32]).unwrap();
    let refused = transmitter.close().unwrap_err();
    assert_eq!(refused.reason, Error::ReceiversOut);
    transmitter = refused.back;
    transmitter.transmit(3, b"").unwrap();
    assert_eq!(receiver.receive(&mut [0; 32]), Ok(Some(Message { type_id: 1, body: &[7; 5] })));
    transmitter.join(receiver).unwrap();
    let refused = transmitter.close().unwrap_err();
    assert_eq!(refused.reason, Error::ReceiversOut);
    transmitter = refused.back;
    transmitter.join_raw(raw).unwrap();
    assert_eq!(transmitter.close().unwrap(), 512 + 16 + 40 + 8);
    let mut transmitter = Transmitter::new(256).unwrap();
    transmitter.transmit(1, &[7; 26]).unwrap();
    // Receivers that were dropped are not missed.
    drop((transmitter.subscribe().unwrap(), transmitter.subscribe_raw().unwrap()));
    assert_eq!(transmitter.close().unwrap(), 40);
}

#[test]
fn boards_of_one_capacity_are_not_mixed() {
    let (mut one, mut two) = (Transmitter::new(256).unwrap(), Transmitter::new(256).unwrap());
    let mut conductor = Conductor::new(128, 256, 1, 0).unwrap();
    let refused = two.join(one.subscribe().unwrap()).unwrap_err();
    assert_eq!(refused.reason, Error::OtherRing);
    one.join(refused.back).expect("its own receiver");
    let refused = two.join_raw(one.subscribe_raw().unwrap()).unwrap_err();
    assert_eq!(refused.reason, Error::OtherRing);
    one.transmit(4, b"raw").unwrap();
    let mut raw = refused.back;
    assert_eq!(raw.receive_next().map(|it| it.map(|record| record.len)), Ok(Some(3)));
    one.join_raw(raw).expect("its own receiver");
    let refused = one.join(conductor.subscribe().unwrap()).unwrap_err();
    assert_eq!(refused.reason, Error::OtherRing);
    conductor.join_receiver(refused.back).expect("its own receiver");
    assert_eq!((one.close().unwrap(), two.close().unwrap()), (16, 0));
    assert_eq!(conductor.finish().unwrap(), Finished { received: 0, left: 0 });
}

#[test]
fn readers_are_taken_back_by_their_counters() {
    let (mut one, mut two) = (Counters::new(1, 0).unwrap(), Counters::new(1, 0).unwrap());
    let mut conductor = Conductor::new(128, 256, 1, 0).unwrap();
    let id = one.allocate(0, 1, b"", b"", 0).unwrap();
    let refused = two.join(one.reader().unwrap()).unwrap_err();
    assert_eq!(refused.reason, Error::OtherRing);
    one.set(id, 7).unwrap();
    let mut reader = refused.back;
    assert_eq!(reader.value(id), Ok(7));
    one.join(reader).expect("its own reader");
    let refused = two.join(conductor.reader().unwrap()).unwrap_err();
    assert_eq!(refused.reason, Error::OtherRing);
    conductor.join_reader(refused.back).expect("its own reader");
    // Shares that are given back are given again: there are 65,536.
    for _ in 0..65_537 {
        let reader = two.reader().unwrap();
        two.join(reader).unwrap();
    }
}
