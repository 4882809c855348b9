//! The tasks of docs/USING.md in Rust. The program prints `c/examples/tasks.out`, as the same tasks in C and Python do.
#![forbid(unsafe_code)]

use felter::{Client, Conductor, Consumer, Counters, Error, Found, Polled, Producer, Reply, Transmitter, WorkStop};
use std::sync::atomic::{AtomicBool, Ordering::SeqCst};
use std::thread;

const NUMBER: i32 = 1;
const TEXT: i32 = 7;
const LAST: i32 = 1_000;

type Done = Result<(), Box<dyn std::error::Error>>;

/// Sends messages to another thread. One thread sends numbers, and this thread adds them up. Both threads wait without
/// a deadline.
fn add_up() -> Done {
    let (mut producer, mut consumer) = felter::one_to_one(1_024)?;
    let sender =
        thread::spawn(move || (1..=LAST).try_for_each(|number| producer.send(NUMBER, &number.to_ne_bytes(), None)));
    let (mut room, mut sum) = ([0; 4], 0);
    for _ in 0..LAST {
        consumer.recv(&mut room, None)?;
        sum += i32::from_ne_bytes(room);
    }
    sender.join().expect("the sender does not panic")?;
    println!("sum {sum}");
    Ok(())
}

/// Tries to write a message once, and prints the result.
fn offer(producer: &mut Producer, text: &str) -> String {
    match producer.write(TEXT, text.as_bytes()) {
        Ok(()) => "sent".to_string(),
        Err(Error::InsufficientCapacity) => "full: read first, or drop it".to_string(),
        Err(Error::Contended) => "another producer was faster: at once again".to_string(),
        Err(other) => other.to_string(),
    }
}

/// Prints what a consumer finds next.
fn standing(producer: &mut Producer, consumer: &mut Consumer) -> Result<&'static str, Error> {
    Ok(match consumer.standing(producer)?.found {
        Found::Message => "a message",
        Found::Nothing => "empty",
        Found::Claim => "blocked by a claim",
        Found::Change => "changing: ask again",
    })
}

/// Closes a ring. Afterwards no producer is left, and unread messages can still be read.
fn close_ring(producer: Producer, mut consumer: Consumer) -> Done {
    consumer.close(producer)?;
    let mut body = [0; 64];
    while let Some(message) = consumer.read(&mut body)? {
        println!("{} {}", message.type_id, String::from_utf8_lossy(message.body));
    }
    println!("left {}", consumer.finish()?);
    Ok(())
}

/// Shows a ring that is empty, full, blocked and closed.
fn look_at_ring() -> Done {
    let (mut producer, mut consumer) = felter::many_to_one(128)?;
    println!("{}", standing(&mut producer, &mut consumer)?);
    let claim = producer.claim(TEXT, 5)?.keep();
    for _ in 0..7 {
        offer(&mut producer, "hello");
    }
    println!("{}", offer(&mut producer, "hello"));
    println!("{}", standing(&mut producer, &mut consumer)?);
    claim.abort(&mut producer)?;
    close_ring(producer, consumer)
}

/// Shows a lapped receiver, which goes on with the message that was transmitted last.
fn is_lapped() -> Done {
    let mut transmitter = Transmitter::new(256)?;
    let mut receiver = transmitter.subscribe()?;
    for tick in 1..=20 {
        transmitter.transmit(TEXT, format!("tick {tick}").as_bytes())?;
    }
    let mut room = [0; 256 / 8];
    if let Err(Error::Lapped { count, missed_bytes }) = receiver.receive(&mut room) {
        println!("lapped {count}, missed {missed_bytes} bytes");
    }
    if let Some(message) = receiver.receive(&mut room)? {
        println!("{}", String::from_utf8_lossy(message.body));
    }
    Ok(())
}

/// Shows a counter that another thread watches.
fn watch_counter() -> Done {
    let mut counters = Counters::new(4, 1_000)?;
    let mut reader = counters.reader()?;
    let id = counters.allocate(0, 1, b"", b"requests", 0)?;
    counters.add(id, 5)?;
    let value = thread::spawn(move || reader.value(id)).join().expect("the reader does not panic")?;
    println!("requests {value}");
    Ok(())
}

/// Serves commands until it is stopped and no command is left.
fn serve(mut conductor: Conductor, stop: &AtomicBool) -> Result<Conductor, Error> {
    loop {
        // Load this first: then the work below takes all commands that were sent before the stop.
        let is_last = stop.load(SeqCst);
        match conductor.work(0, u32::MAX)?.stopped {
            WorkStop::Unpublished if is_last => return Ok(conductor),
            WorkStop::Unpublished => thread::yield_now(),
            _ => {}
        }
    }
}

/// Sends a Set and waits for its reply.
fn set_counter(client: &mut Client, counter: u32, value: i64) -> Result<Reply, Error> {
    let id = loop {
        match client.set(counter, value) {
            Ok(id) => break id,
            Err(error) if error.is_passing() => thread::yield_now(),
            Err(error) => return Err(error),
        }
    };
    loop {
        match client.poll(id)? {
            Polled::Answered(reply) => return Ok(reply),
            Polled::Another => {}
            Polled::Nothing => thread::yield_now(),
        }
    }
}

/// Shows a conductor with one client, which sets a counter that was never allocated.
fn ask_conductor() -> Done {
    let stop = AtomicBool::new(false);
    let mut conductor = Conductor::new(1_024, 1_024, 4, 1_000)?;
    let mut client = conductor.client()?;
    let mut conductor = thread::scope(|scope| {
        let serving = scope.spawn(|| serve(conductor, &stop));
        let reply = set_counter(&mut client, 0, 42);
        stop.store(true, SeqCst);
        if let Ok(Reply::Refused { reason }) = reply {
            println!("refused {}", reason.number());
        }
        serving.join().expect("the conductor does not panic")
    })?;
    conductor.join(client)?;
    let finished = conductor.finish()?;
    println!("received {} left {}", finished.received, finished.left);
    Ok(())
}

fn main() -> Done {
    add_up()?;
    look_at_ring()?;
    is_lapped()?;
    watch_counter()?;
    ask_conductor()
}
