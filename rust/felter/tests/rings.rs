//! Rings on threads, from safe code.
#![forbid(unsafe_code)]

use felter::{many_to_one, one_to_one, Consumer, Error, Message, Producer};
use std::thread;

/// The n-th message of a producer: its id and number, and bytes that follow from both.
fn body_of(id: u32, n: u32, most: usize) -> Vec<u8> {
    let mut body = [id.to_le_bytes(), n.to_le_bytes()].concat();
    let more = (n as usize * 7 + id as usize) % (most - 7);
    body.extend((0..more).map(|i| (n as usize * 31 + id as usize * 17 + i * 5) as u8));
    body
}

fn until_done<T>(mut call: impl FnMut() -> Result<T, Error>) -> T {
    loop {
        match call() {
            Ok(done) => return done,
            Err(refused) => assert!(refused.is_passing(), "{refused}"),
        }
        thread::yield_now();
    }
}

/// Writes messages, every second by a claim that comes after one that is dropped.
fn produce(producer: &mut Producer, id: u32, count: u32, most: usize) {
    for n in 0..count {
        let body = body_of(id, n, most);
        if n % 2 == 0 {
            until_done(|| producer.write(1 + id as i32, &body));
            continue;
        }
        until_done(|| producer.claim(1, 3).map(drop));
        until_done(|| {
            let mut claim = producer.claim(1 + id as i32, body.len())?;
            claim.put(4, &body[4..])?;
            claim.put(0, &body[..4])?;
            claim.commit();
            Ok(())
        });
    }
}

/// Reads until all came, and compares each message whole and in the order of its producer.
fn consume(consumer: &mut Consumer, producers: usize, count: u32, most: usize) {
    let mut next = vec![0; producers];
    let mut look = |message: Message<'_>| {
        let id = message.type_id as usize - 1;
        assert_eq!(message.body, body_of(id as u32, next[id], most));
        next[id] += 1;
    };
    let (mut left, mut room) = (producers * count as usize, vec![0; most]);
    while left > 0 {
        if let Some(message) = consumer.read(&mut room).expect("there is room") {
            look(message);
            left -= 1;
        } else {
            thread::yield_now();
        }
    }
    assert_eq!(consumer.read(&mut room), Ok(None));
    assert!(next.iter().all(|&it| it == count));
}

fn passes_all(producers: u32, capacity: u32, count: u32) {
    let (mut first, mut consumer) = many_to_one(capacity).expect("a capacity");
    let most = (capacity as usize / 8).min(200);
    let others: Vec<Producer> = (1..producers).map(|_| first.split().expect("a share")).collect();
    let come_back: Vec<Producer> = thread::scope(|scope| {
        let threads: Vec<_> = (1..)
            .zip(others)
            .map(|(id, mut producer)| {
                scope.spawn(move || {
                    produce(&mut producer, id, count, most);
                    producer
                })
            })
            .collect();
        let mine = scope.spawn(|| produce(&mut first, 0, count, most));
        consume(&mut consumer, producers as usize, count, most);
        mine.join().expect("it does not panic");
        threads.into_iter().map(|it| it.join().expect("it does not panic")).collect()
    });
    assert_eq!(first.shares(), Ok(65_536 - (producers - 1)));
    for producer in come_back {
        first.join(producer).expect("one ring");
    }
    assert_eq!(first.shares(), Ok(65_536));
}

#[test]
fn messages_of_four_producers_come_whole_and_in_order() {
    passes_all(4, 65_536, 5_000);
}

#[test]
fn messages_go_through_the_smallest_ring() {
    passes_all(2, 128, 3_000);
}

#[test]
fn a_single_producer_is_never_contended() {
    let (mut producer, mut consumer) = one_to_one(1024).expect("a capacity");
    thread::scope(|scope| {
        scope.spawn(|| produce(&mut producer, 0, 5_000, 128));
        consume(&mut consumer, 1, 5_000, 128);
    });
    assert_eq!(producer.split().unwrap_err(), Error::WrongHandle);
}

#[test]
fn refusals_have_their_numbers_and_change_nothing() {
    assert_eq!(many_to_one(100).unwrap_err(), Error::BadCapacity);
    assert_eq!(felter::many_to_one_at(128, 64).unwrap_err(), Error::BadStart);
    let (mut producer, mut consumer) = felter::many_to_one_at(128, 1280).expect("a start");
    assert_eq!(producer.write(0, b""), Err(Error::BadType));
    assert_eq!(producer.write(1, &[0; 17]), Err(Error::TooLong));
    assert_eq!(Error::TooLong.to_string(), "the message has more than an eighth of the capacity, or the command 520");
    assert_eq!(producer.claim(1, 4).unwrap().put(3, b"ab"), Err(Error::PutRange));
    producer.write(6, b"sixteen bytes...").expect("there is room");
    let short = consumer.read(&mut [0; 15]).unwrap_err();
    assert_eq!(short, Error::ShortBuffer { wanted: 16 });
    assert_eq!(
        (short.number(), short.to_string().as_str()),
        (106, "the message is longer than the buffer, and stays: 16 bytes are needed")
    );
    let mut room = [0; 16];
    let read = consumer.read(&mut room).unwrap();
    assert_eq!(read, Some(Message { type_id: 6, body: b"sixteen bytes..." }));
    let positions = producer.positions().unwrap();
    assert_eq!((positions.head, positions.tail), (1280 + 16 + 24, 1280 + 16 + 24));
    assert_eq!((producer.next_id(), producer.next_id()), (Ok(0), Ok(1)));
    assert_eq!(producer.heartbeat(), Ok(0));
    consumer.set_heartbeat(77).unwrap();
    assert_eq!(producer.heartbeat(), Ok(77));
}

#[test]
fn handles_of_two_rings_of_one_capacity_are_refused_and_come_back() {
    let (mut one, _of_one) = many_to_one(128).unwrap();
    let (mut two, _of_two) = many_to_one(128).unwrap();
    let other = two.split().unwrap();
    let refused = one.join(other).unwrap_err();
    assert_eq!(refused.reason, Error::OtherRing);
    two.join(refused.back).expect("its own ring");
    assert_eq!((one.shares(), two.shares()), (Ok(65_536), Ok(65_536)));
}

#[test]
fn a_producer_of_a_one_to_one_ring_is_not_joined() {
    let (mut many, _of_many) = many_to_one(128).unwrap();
    let (mut one, _of_one) = one_to_one(128).unwrap();
    let (other, _of_other) = one_to_one(128).unwrap();
    // (the kind of the rings is tested first, as in C)
    let refused = one.join(other).unwrap_err();
    assert_eq!(refused.reason, Error::WrongHandle);
    let refused = many.join(refused.back).unwrap_err();
    assert_eq!(refused.reason, Error::WrongHandle);
    let refused = one.join(many).unwrap_err();
    assert_eq!((refused.reason, refused.back.is_abandoned()), (Error::WrongHandle, false));
}

#[test]
fn messages_and_buffers_may_be_empty() {
    let (mut producer, mut consumer) = many_to_one(128).unwrap();
    producer.write(1, b"").unwrap();
    producer.claim(2, 0).unwrap().commit();
    assert_eq!(producer.write_batch([(3, &b""[..])]), Ok(1));
    assert_eq!(consumer.peek(&mut []), Ok(Some(Message { type_id: 1, body: b"" })));
    assert_eq!(consumer.controlled_read(1, &mut [], |_| felter::Action::Commit), Ok(1));
    assert_eq!(consumer.read(&mut []), Ok(Some(Message { type_id: 2, body: b"" })));
    assert_eq!(consumer.read_batch(9, &mut []).unwrap_err(), Error::ShortBuffer { wanted: 0 });
    assert_eq!(consumer.recv(&mut [], None), Ok(Message { type_id: 3, body: b"" }));
    assert_eq!((consumer.read(&mut []), consumer.read_batch(9, &mut []).unwrap().len()), (Ok(None), 0));
    let mut claim = producer.claim(4, 3).unwrap();
    claim.put(3, b"").unwrap();
    assert_eq!((claim.put(4, b""), claim.put(usize::MAX, b"x")), (Err(Error::PutRange), Err(Error::PutRange)));
    claim.commit();
    assert_eq!(consumer.read(&mut []), Err(Error::ShortBuffer { wanted: 3 }));
    assert_eq!(consumer.read(&mut [0; 3]), Ok(Some(Message { type_id: 4, body: &[0; 3] })));
}

#[test]
fn batches_have_all_messages_in_order() {
    let (mut producer, mut consumer) = one_to_one(4096).unwrap();
    let mut room = [0; 700];
    thread::scope(|scope| {
        scope.spawn(|| produce(&mut producer, 0, 5_000, 200));
        let mut next = 0;
        while next < 5_000 {
            for message in consumer.read_batch(7, &mut room).expect("there is room for one") {
                assert_eq!((message.type_id, message.body), (1, &body_of(0, next, 200)[..]));
                next += 1;
            }
            thread::yield_now();
        }
    });
    producer.write(5, &[1; 33]).unwrap();
    assert_eq!(consumer.read_batch(1, &mut [0; 55]).unwrap_err(), Error::ShortBuffer { wanted: 0 });
    let batch: Vec<_> = consumer.read_batch(1, &mut room[..56]).unwrap().collect();
    assert_eq!(batch, [Message { type_id: 5, body: &[1; 33] }]);
}

#[test]
fn batches_are_written_by_one_call() {
    for (mut producer, mut consumer) in [one_to_one(1024).expect("small"), many_to_one(1024).expect("small")] {
        let bodies: Vec<Vec<u8>> = (0..100).map(|n| body_of(1, n, 24)).collect();
        let mut read = Vec::new();
        while read.len() < bodies.len() {
            let left = bodies[read.len()..].iter().enumerate();
            let written = match producer.write_batch(left.map(|(n, body)| (1 + n as i32, &body[..]))) {
                Ok(written) => written,
                Err(refused) => {
                    assert_eq!(refused.reason, Error::InsufficientCapacity);
                    refused.written
                }
            };
            assert!(written > 1);
            for n in 0..written {
                let message = consumer.read_owned().expect("it is whole").expect("it was written");
                assert_eq!(message.type_id, 1 + n as i32);
                read.push(message.body);
            }
            assert_eq!(consumer.read_owned(), Ok(None));
        }
        assert_eq!(read, bodies);
        assert_eq!(producer.write_batch([]), Ok(0));
        for (bad, reason) in [((1, &[0; 129][..]), Error::TooLong), ((-5, &[0; 8][..]), Error::BadType)] {
            let refused = producer.write_batch([(1, &b"good"[..]), bad]).expect_err("one is bad");
            assert_eq!((refused.written, refused.reason), (0, reason));
        }
        assert_eq!(consumer.read_owned(), Ok(None));
    }
}

#[test]
fn claims_that_are_kept_are_settled_in_any_order_by_the_producer_that_has_them() {
    let (mut producer, mut consumer) = many_to_one(512).unwrap();
    let (mut foreign, _of_foreign) = many_to_one(512).unwrap();
    let mut other = producer.split().unwrap();
    let first = producer.claim(1, 1).unwrap().keep();
    let second = other.claim(2, 1).unwrap().keep();
    let third = producer.claim(3, 1).unwrap().keep();
    drop(producer.claim(4, 1).unwrap());
    assert_eq!(second.put(&mut producer, 0, b"b"), Err(Error::NoClaim));
    assert_eq!(first.put(&mut foreign, 0, b"a"), Err(Error::OtherRing));
    assert_eq!(first.put(&mut producer, 0, b"ab"), Err(Error::PutRange));
    let refused = second.commit(&mut producer).unwrap_err();
    assert_eq!(refused.reason, Error::NoClaim);
    let second = refused.back;
    let refused = third.abort(&mut foreign).unwrap_err();
    assert_eq!(refused.reason, Error::OtherRing);
    refused.back.abort(&mut producer).unwrap();
    producer.join(other).unwrap();
    second.put(&mut producer, 0, b"b").unwrap();
    second.commit(&mut producer).unwrap();
    let mut room = [0; 64];
    assert_eq!(consumer.read(&mut room), Ok(None));
    first.put(&mut producer, 0, b"a").unwrap();
    first.commit(&mut producer).unwrap();
    for (type_id, body) in [(1, b"a"), (2, b"b")] {
        assert_eq!(consumer.read(&mut room), Ok(Some(Message { type_id, body })));
    }
    // What is still kept is aborted with its producer.
    let _kept = producer.claim(5, 1).unwrap().keep();
    let mut last = producer.split().unwrap();
    last.write(6, b"last").unwrap();
    assert_eq!(consumer.read(&mut room), Ok(None));
    drop(producer);
    assert_eq!(consumer.read(&mut room), Ok(Some(Message { type_id: 6, body: b"last" })));
}
