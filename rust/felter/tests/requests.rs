//! Commands with their replies: what is known of one when its request ends.
use felter::{Client, Command, Conductor, Error, Reply, RequestError};
use std::sync::atomic::{AtomicBool, Ordering};
use std::thread;
use std::time::{Duration, Instant};

fn within(millis: u64) -> Option<Instant> {
    Some(Instant::now() + Duration::from_millis(millis))
}

const SET: Command<'static> = Command::Set { counter: 0, value: 5 };

#[test]
fn each_command_gets_its_reply() {
    let mut conductor = Conductor::new(1024, 4096, 4, 0).unwrap();
    let mut client = conductor.client().unwrap();
    let is_over = AtomicBool::new(false);
    thread::scope(|scope| {
        scope.spawn(|| {
            while !is_over.load(Ordering::SeqCst) {
                conductor.work(0, 100).unwrap();
            }
        });
        let mut asked = |command: Command| client.request(&command, within(60_000));
        let allocate = Command::AllocateOwned { type_id: 1, owner: 9, key: b"", label: b"owned" };
        let replies = [
            asked(allocate),
            asked(SET),
            asked(Command::Set { counter: 9, value: 1 }),
            asked(Command::CloseOwner { owner: 9 }),
            asked(Command::Allocate { type_id: 1, key: b"key", label: b"" }),
            asked(Command::Free { counter: 0 }),
        ];
        is_over.store(true, Ordering::SeqCst);
        let wanted = [
            Reply::Allocated { id: 0 },
            Reply::Done,
            Reply::Refused { reason: Error::BadId },
            Reply::Closed { freed: 1 },
            // (the id was freed, and rests for no time)
            Reply::Allocated { id: 0 },
            Reply::Done,
        ];
        assert_eq!(replies, wanted.map(Ok));
    });
}

#[test]
fn a_command_that_has_no_room_is_not_sent() {
    let mut conductor = Conductor::new(256, 256, 4, 0).unwrap();
    let mut client = conductor.client().unwrap();
    while client.set(0, 1).is_ok() {}
    let full = RequestError::NotSent(Error::InsufficientCapacity);
    assert_eq!(client.request(&SET, within(5)), Err(full));
    let long = Command::Allocate { type_id: 1, key: b"", label: &[b'x'; 600] };
    assert_eq!(client.request(&long, None), Err(RequestError::NotSent(Error::TooLong)));
}

#[test]
fn a_deadline_leaves_a_command_pending() {
    let mut conductor = Conductor::new(1024, 4096, 4, 0).unwrap();
    let mut client = conductor.client().unwrap();
    let Err(RequestError::Pending { id }) = client.request(&SET, within(5)) else {
        panic!("the conductor did not work")
    };
    conductor.work(0, 9).unwrap();
    assert!(matches!(client.poll(id), Ok(felter::Polled::Answered(Reply::Refused { .. }))));
    let waiting = thread::spawn(move || client.request(&SET, None));
    thread::sleep(Duration::from_millis(20));
    drop(conductor);
    assert!(matches!(waiting.join().unwrap(), Err(RequestError::Disconnected { .. })));
}

/// Floods a broadcast buffer with room for a few replies, of which the client's is then lost.
fn flooded(conductor: &mut Conductor, other: &mut Client) {
    for _ in 0..40 {
        other.set(0, 1).unwrap();
        conductor.work(0, 99).unwrap();
    }
}

/// Lets a lapped client make a request, gives it a time to look for its reply, and then works until the request ends.
/// Returns how many commands were sent in that time, and the result of the request.
fn requested_after_lap(millis: u64) -> (u64, Result<Reply, RequestError>) {
    let mut conductor = Conductor::new(4096, 256, 4, 0).unwrap();
    let (mut client, mut other) = (conductor.client().unwrap(), conductor.client().unwrap());
    flooded(&mut conductor, &mut other);
    let waiting = thread::spawn(move || client.request(&SET, within(120_000)));
    thread::sleep(Duration::from_millis(millis));
    let sent = conductor.work(0, 99).unwrap().messages;
    while !waiting.is_finished() {
        conductor.work(0, 99).unwrap();
        thread::yield_now();
    }
    (sent, waiting.join().unwrap())
}

#[test]
fn a_lapped_client_learns_that_its_command_was_taken() {
    // It was lapped. It looks for its reply a few times, and then asks by another command. On a busy machine this takes
    // longer, so each try leaves it twice as much time as the last one.
    let (sent, result) = (0..10).map(|it| requested_after_lap(100 << it)).find(|it| it.0 == 2).expect("two commands");
    assert!(matches!(result, Err(RequestError::Taken { .. })), "{sent} commands, {result:?}");
}

#[test]
fn a_lapped_client_that_gets_no_reply_says_so() {
    let mut conductor = Conductor::new(4096, 256, 4, 0).unwrap();
    let (mut client, mut other) = (conductor.client().unwrap(), conductor.client().unwrap());
    flooded(&mut conductor, &mut other);
    assert!(matches!(client.request(&SET, within(50)), Err(RequestError::Unknown { .. })));
    // The next request begins after the lap, and gets its reply.
    let waiting = thread::spawn(move || {
        let asked = Command::Allocate { type_id: 1, key: b"", label: b"" };
        client.request(&asked, within(60_000))
    });
    while !waiting.is_finished() {
        conductor.work(0, 99).unwrap();
        thread::yield_now();
    }
    assert_eq!(waiting.join().unwrap(), Ok(Reply::Allocated { id: 0 }));
}
