//! Conductors and clients on threads, from safe code.
#![forbid(unsafe_code)]

use felter::{Client, Conductor, Counters, Error, Finished, Message, Polled, Reader, Receiver, Reply, Transmitter};
use felter::{Work, WorkStop};
use std::sync::atomic::{AtomicBool, Ordering::SeqCst};
use std::thread;

const CLIENTS: u64 = 4;
const BATCH: i64 = 8;
const LAST: i64 = 2_000;

/// Sends a command, again where the ring is full or another client was faster.
fn send(client: &mut Client, call: impl Fn(&mut Client) -> Result<u64, Error>) -> u64 {
    loop {
        match call(client) {
            Ok(id) => return id,
            Err(refused) => assert!(refused.is_passing(), "{refused}"),
        }
        thread::yield_now();
    }
}

/// Waits for the reply to a command.
fn hear(client: &mut Client, id: u64) -> Reply {
    loop {
        match client.poll(id).expect("it is never lapped") {
            Polled::Answered(reply) => return reply,
            Polled::Another => {}
            Polled::Nothing => thread::yield_now(),
        }
    }
}

/// Allocates a counter, sets it to 1, 2 and so on, frees it by its id or by its owner, and answers the id.
fn run_client(client: &mut Client, owner: u64) -> u32 {
    let id = send(client, |it| it.allocate_owned(7, owner, b"key", b"mine"));
    let Reply::Allocated { id: counter } = hear(client, id) else {
        panic!("there are counters enough");
    };
    let mut beat = 0;
    for first in (1..=LAST).step_by(BATCH as usize) {
        let ids: Vec<u64> = (first..first + BATCH).map(|value| send(client, |it| it.set(counter, value))).collect();
        for id in ids {
            assert_eq!(hear(client, id), Reply::Done);
        }
        let now = client.heartbeat().unwrap();
        assert!(now >= beat && now > 0);
        beat = now;
    }
    if owner % 2 == 0 {
        let id = send(client, |it| it.free(counter));
        assert_eq!(hear(client, id), Reply::Done);
    }
    let id = send(client, |it| it.close_owner(owner));
    assert_eq!(hear(client, id), Reply::Closed { freed: (owner % 2) as u32 });
    let id = send(client, |it| it.set(counter, -1));
    assert_eq!(hear(client, id), Reply::Refused { reason: Error::NotAllocated });
    counter
}

/// Works until it is asked to stop and no command is left.
fn conduct(stop: &AtomicBool, conductor: &mut Conductor) {
    for beat in 1.. {
        let is_last = stop.load(SeqCst);
        conductor.set_heartbeat(beat).unwrap();
        if conductor.work(0, 64).unwrap().stopped == WorkStop::Unpublished {
            if is_last {
                return;
            }
            thread::yield_now();
        }
    }
}

/// Reads all values until it is asked to stop; none ever falls.
fn watch(stop: &AtomicBool, reader: &mut Reader) {
    let mut latest = [0; CLIENTS as usize];
    while !stop.load(SeqCst) {
        for (id, value) in (0..).zip(&mut latest) {
            let now = reader.value(id).unwrap();
            assert!((*value..=LAST).contains(&now));
            *value = now;
        }
        thread::yield_now();
    }
}

/// Receives all replies that are there, as they lie on the board, and counts those that say Done.
fn count_done(receiver: &mut Receiver) -> i64 {
    let (mut room, mut count) = (vec![0; (1 << 20) / 8], 0);
    while let Some(message) = receiver.receive(&mut room).expect("it is never lapped") {
        assert!((101..=104).contains(&message.type_id) && message.body.len() >= 8);
        count += i64::from(message.type_id == 102);
    }
    count
}

#[test]
fn clients_on_threads_are_answered_and_a_monitor_sees_values_rise() {
    let mut conductor = Conductor::new(512, 1 << 20, CLIENTS as u32, u32::MAX).unwrap();
    let mut clients: Vec<Client> = (0..CLIENTS).map(|_| conductor.client().unwrap()).collect();
    let (mut reader, mut receiver) = (conductor.reader().unwrap(), conductor.subscribe().unwrap());
    let stop = AtomicBool::new(false);
    let mut counters = thread::scope(|scope| {
        scope.spawn(|| conduct(&stop, &mut conductor));
        scope.spawn(|| watch(&stop, &mut reader));
        let threads: Vec<_> =
            (1..).zip(&mut clients).map(|(owner, client)| scope.spawn(move || run_client(client, owner))).collect();
        let joined: Vec<_> = threads.into_iter().map(|it| it.join()).collect();
        stop.store(true, SeqCst);
        joined.into_iter().map(|it| it.expect("it does not panic")).collect::<Vec<u32>>()
    });
    counters.sort_unstable();
    assert_eq!(counters, [0, 1, 2, 3]);
    assert!((0..CLIENTS as u32).all(|id| reader.value(id) == Ok(LAST)));
    assert_eq!(count_done(&mut receiver), CLIENTS as i64 * LAST + CLIENTS as i64 / 2);
    for _ in 0..3 {
        clients[0].close_owner(1).unwrap();
    }
    for client in clients {
        conductor.join(client).unwrap();
    }
    conductor.join_receiver(receiver).unwrap();
    conductor.join_reader(reader).unwrap();
    let received = CLIENTS * (LAST as u64 + 3) + CLIENTS / 2;
    assert_eq!(conductor.finish().unwrap(), Finished { received, left: 3 });
}

/// Lets the conductor take the one command that was sent at a moment, and answers its reply.
fn answer(conductor: &mut Conductor, now: u64, client: &mut Client, id: Result<u64, Error>) -> Reply {
    assert_eq!(conductor.work(now, 1), Ok(Work { messages: 1, stopped: WorkStop::Limit }));
    let Ok(Polled::Answered(reply)) = client.poll(id.expect("there is room")) else {
        panic!("no reply came");
    };
    reply
}

#[test]
fn commands_are_obeyed_or_refused() {
    let mut conductor = Conductor::new(8192, 4096, 2, 10).unwrap();
    let mut client = conductor.client().unwrap();
    let mut ask = |now, call: &dyn Fn(&mut Client) -> Result<u64, Error>| {
        let id = call(&mut client);
        answer(&mut conductor, now, &mut client, id)
    };
    let refused = |reason| Reply::Refused { reason };
    assert_eq!(ask(0, &|it| it.allocate(1, &[0; 113], b"")), refused(Error::KeyTooLong));
    assert_eq!(ask(0, &|it| it.allocate(1, b"", &[b'x'; 381])), refused(Error::LabelTooLong));
    assert_eq!(ask(0, &|it| it.allocate_owned(1, 5, b"", &[200])), refused(Error::LabelNotAscii));
    assert_eq!(ask(0, &|it| it.allocate_owned(1, 5, &[1; 112], &[b'x'; 380])), Reply::Allocated { id: 0 });
    assert_eq!(ask(0, &|it| it.allocate(-1, b"k", b"l")), Reply::Allocated { id: 1 });
    assert_eq!(ask(0, &|it| it.allocate(1, b"", b"")), refused(Error::NoFreeCounter));
    assert_eq!(ask(0, &|it| it.set(1, i64::MIN)), Reply::Done);
    assert_eq!(ask(0, &|it| it.set(2, 1)), refused(Error::BadId));
    assert_eq!(ask(5, &|it| it.free(1)), Reply::Done);
    assert_eq!(ask(5, &|it| it.free(1)), refused(Error::NotAllocated));
    assert_eq!(ask(14, &|it| it.allocate(1, b"", b"")), refused(Error::NoFreeCounter));
    assert_eq!(ask(15, &|it| it.allocate(1, b"", b"")), Reply::Allocated { id: 1 });
    assert_eq!(ask(15, &|it| it.close_owner(0)), refused(Error::BadOwner));
    assert_eq!(ask(15, &|it| it.close_owner(5)), Reply::Closed { freed: 1 });
    // The longest command has 520 bytes.
    assert_eq!(client.allocate(1, &[1; 112], &[b'x'; 389]), Err(Error::TooLong));
    assert_eq!(client.allocate_owned(1, 5, &[1; 112], &[b'x'; 381]), Err(Error::TooLong));
    assert_eq!(client.allocate(1, &[1; 112], &[b'x'; 388]), Ok(14));
}

#[test]
fn refusals_have_their_numbers_and_change_nothing() {
    assert_eq!(Conductor::new(100, 256, 0, 0).unwrap_err(), Error::BadCapacity);
    assert_eq!(Conductor::new(128, 128, 0, 0).unwrap_err(), Error::BadCapacity);
    assert_eq!(Conductor::new(128, 256, 0, 0).unwrap_err(), Error::BadCount);
    let mut conductor = Conductor::new(128, 256, 1, 0).unwrap();
    let mut client = conductor.client().unwrap();
    assert_eq!(client.set(0, 1), Err(Error::TooLong));
    for id in 1..6 {
        assert_eq!(client.free(0), Ok(id));
    }
    assert_eq!(client.free(0), Err(Error::InsufficientCapacity));
    assert_eq!(conductor.work((1 << 62) + 1, 9), Err(Error::BadMoment));
    assert_eq!(conductor.work(1 << 62, 0), Ok(Work { messages: 0, stopped: WorkStop::Limit }));
    assert_eq!(client.poll(1), Ok(Polled::Nothing));
    assert_eq!(conductor.work(1 << 62, 9), Ok(Work { messages: 5, stopped: WorkStop::Unpublished }));
    assert_eq!(client.poll(2), Ok(Polled::Another));
    let reason = Error::NotAllocated;
    assert_eq!(client.poll(2), Ok(Polled::Answered(Reply::Refused { reason })));
    assert_eq!(client.free(0), Ok(7));
    assert_eq!(conductor.work(0, 9), Ok(Work { messages: 0, stopped: WorkStop::Block }));
    for _ in 0..12 {
        // (one call up to the end of the buffer, and one after it)
        conductor.work(0, 9).unwrap();
        conductor.work(0, 9).unwrap();
        client.free(0).unwrap();
    }
    conductor.work(0, 9).unwrap();
    conductor.work(0, 9).unwrap();
    assert_eq!(client.poll(7), Err(Error::Lapped { count: 1, missed_bytes: 0 }));
    assert_eq!(client.poll(19), Ok(Polled::Answered(Reply::Refused { reason })));
    assert_eq!((client.heartbeat(), conductor.set_heartbeat(u64::MAX)), (Ok(0), Ok(())));
    assert_eq!(client.heartbeat(), Ok(u64::MAX));
    assert_eq!(Error::ProducersOut.to_string(), "a producer or a client is still in a handle");
    assert_eq!(Error::ReceiversOut.to_string(), "a receiver is still in a handle");
    assert_eq!(Error::OtherReply.to_string(), "the message is the reply to another command, or no reply");
    assert_eq!(Error::InUse.to_string(), "another handle holds what was to be closed");
}

#[test]
fn a_finish_is_refused_until_all_came_back() {
    let mut conductor = Conductor::new(256, 256, 1, 0).unwrap();
    let (client, reader) = (conductor.client().unwrap(), conductor.reader().unwrap());
    let mut receiver = conductor.subscribe().unwrap();
    let refused = conductor.finish().unwrap_err();
    assert_eq!(refused.reason, Error::ProducersOut);
    conductor = refused.back;
    conductor.join(client).unwrap();
    let refused = conductor.finish().unwrap_err();
    assert_eq!(
        (refused.reason, refused.to_string().as_str()),
        (Error::ReceiversOut, "a receiver is still in a handle")
    );
    conductor = refused.back;
    // It goes on as before.
    let mut client = conductor.client().unwrap();
    client.close_owner(5).unwrap();
    client.close_owner(5).unwrap();
    assert_eq!(conductor.work(0, 1), Ok(Work { messages: 1, stopped: WorkStop::Limit }));
    let mut room = [0; 32];
    let body = &[0; 12];
    assert_eq!(receiver.receive(&mut room), Ok(Some(Message { type_id: 104, body })));
    conductor.join(client).unwrap();
    conductor.join_receiver(receiver).unwrap();
    let refused = conductor.finish().unwrap_err();
    assert_eq!(refused.reason, Error::InUse);
    drop(reader);
    assert_eq!(refused.back.finish().unwrap(), Finished { received: 1, left: 1 });
    let mut conductor = Conductor::new(256, 256, 1, 0).unwrap();
    // Clients and receivers that were dropped are not missed.
    let mut client = conductor.client().unwrap();
    client.close_owner(5).unwrap();
    drop((client, conductor.subscribe().unwrap()));
    assert_eq!(conductor.finish().unwrap(), Finished { received: 0, left: 1 });
}

#[test]
fn what_is_of_another_conductor_of_the_same_sizes_is_refused_and_comes_back() {
    let mut one = Conductor::new(256, 256, 1, 0).unwrap();
    let mut two = Conductor::new(256, 256, 1, 0).unwrap();
    let refused = one.join(two.client().unwrap()).unwrap_err();
    assert_eq!(refused.reason, Error::OtherRing);
    two.join(refused.back).expect("its own client");
    let refused = one.join_receiver(two.subscribe().unwrap()).unwrap_err();
    assert_eq!(refused.reason, Error::OtherRing);
    two.join_receiver(refused.back).expect("its own receiver");
    let refused = one.join_reader(two.reader().unwrap()).unwrap_err();
    assert_eq!(refused.reason, Error::OtherRing);
    two.join_reader(refused.back).expect("its own reader");
    // Nor what is of a board, or of counters.
    let mut transmitter = Transmitter::new(256).unwrap();
    let refused = one.join_receiver(transmitter.subscribe().unwrap()).unwrap_err();
    transmitter.transmit(5, b"still").unwrap();
    let (mut receiver, mut room) = (refused.back, [0; 32]);
    assert_eq!(receiver.receive(&mut room), Ok(Some(Message { type_id: 5, body: b"still" })));
    let mut counters = Counters::new(1, 0).unwrap();
    let mut refused = one.join_reader(counters.reader().unwrap()).unwrap_err();
    assert_eq!((refused.reason, refused.back.value(0)), (Error::OtherRing, Ok(0)));
    assert_eq!(one.finish().unwrap(), two.finish().unwrap());
}
