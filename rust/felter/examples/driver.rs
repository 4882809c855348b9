//! A conductor, two clients and a monitor, each on a thread of its own. The program prints `c/examples/driver.out`, as
//! the same program in C and `crates/ring_uses/src/driver.rt` do.
#![forbid(unsafe_code)]

use felter::{Client, Conductor, Error, Polled, Reader, Reply, WorkStop};
use std::sync::atomic::{AtomicBool, Ordering::SeqCst};
use std::thread;

/// The capacity of the command ring, in bytes. The ring takes commands of up to 32 bytes, and is often full.
const RING: u32 = 256;

/// The capacity of the board, in bytes. A reply takes at most 24 bytes. So the board has room for all 2,002 replies,
/// and no client is lapped.
const BOARD: u32 = 65_536;

const COUNTERS: u32 = 2;
const BATCH: usize = 8;
const BATCHES: i64 = 125;

/// A client that counts up, with the results of its run.
struct Caller {
    label: &'static str,
    client: Client,
    counter: Option<u32>,
    replies: u64,
    laps: u64,
}

impl Caller {
    fn new(label: &'static str, client: Client) -> Caller {
        Caller { label, client, counter: None, replies: 0, laps: 0 }
    }

    /// Sends a command, and waits while the ring is full.
    fn send(&mut self, send: impl Fn(&mut Client) -> Result<u64, Error>) -> Option<u64> {
        loop {
            match send(&mut self.client) {
                Ok(id) => return Some(id),
                // Another client was faster. Try again at once.
                Err(Error::Contended) => {}
                // The ring is full. The conductor must take a command first.
                Err(Error::InsufficientCapacity) => thread::yield_now(),
                Err(_) => return None,
            }
        }
    }

    /// Waits for the reply to a command. Returns `None` if replies were missed. The result of the command is then not
    /// known.
    fn hear(&mut self, id: u64) -> Option<Reply> {
        loop {
            match self.client.poll(id) {
                Ok(Polled::Answered(reply)) => {
                    self.replies += 1;
                    return Some(reply);
                }
                Ok(Polled::Another) => {}
                Ok(Polled::Nothing) => thread::yield_now(),
                Err(_) => {
                    self.laps += 1;
                    return None;
                }
            }
        }
    }

    /// Allocates a counter with the caller's label, and sets it to 1, 2 and so on, one batch of commands at a time.
    fn count_up(&mut self) -> Option<()> {
        let label = self.label.as_bytes();
        let id = self.send(|client| client.allocate(1, b"", label))?;
        let Reply::Allocated { id: counter } = self.hear(id)? else {
            return None;
        };
        self.counter = Some(counter);
        for batch in 0..BATCHES {
            let mut sent = [0; BATCH];
            for (value, slot) in (BATCH as i64 * batch + 1..).zip(&mut sent) {
                *slot = self.send(|client| client.set(counter, value))?;
            }
            for id in sent {
                self.hear(id)?;
            }
        }
        Some(())
    }

    /// Runs the client to its end. The client is returned also after an error, because the conductor does not finish
    /// without it.
    fn run(mut self) -> Caller {
        self.count_up();
        self
    }
}

/// Works until it is asked to stop and no command is left.
fn conduct(stop: &AtomicBool, mut conductor: Conductor) -> Result<Conductor, Error> {
    loop {
        // Load this first: then the work below takes all commands that were sent before the stop.
        let is_last = stop.load(SeqCst);
        match conductor.work(0, u32::MAX)?.stopped {
            // If the call stopped at the end of the buffer, there can be more commands, which the next call takes.
            WorkStop::Limit | WorkStop::Block => {}
            WorkStop::Unpublished if !is_last => thread::yield_now(),
            _ => return Ok(conductor),
        }
    }
}

/// Reads all values until it is asked to stop. Returns whether a value ever fell.
fn watch(stop: &AtomicBool, mut reader: Reader) -> (Reader, bool) {
    let (mut latest, mut saw_fall) = ([0; COUNTERS as usize], false);
    while !stop.load(SeqCst) {
        for (id, value) in (0..).zip(&mut latest) {
            let now = reader.value(id).unwrap_or(i64::MIN);
            saw_fall |= now < *value;
            *value = now;
        }
        thread::yield_now();
    }
    (reader, saw_fall)
}

fn main() -> Result<(), Error> {
    // All clients and readers are made before a thread is started. After that only the conductor's thread uses the
    // conductor.
    let mut conductor = Conductor::new(RING, BOARD, COUNTERS, 0)?;
    let callers = [Caller::new("requests", conductor.client()?), Caller::new("errors", conductor.client()?)];
    let (reader, stop) = (conductor.reader()?, AtomicBool::new(false));
    let (callers, conductor, (mut reader, saw_fall)) = thread::scope(|scope| {
        let conducting = scope.spawn(|| conduct(&stop, conductor));
        let watching = scope.spawn(|| watch(&stop, reader));
        let calling = callers.map(|caller| scope.spawn(|| caller.run()));
        let callers = calling.map(|it| it.join().expect("it does not panic"));
        stop.store(true, SeqCst);
        let conductor = conducting.join().expect("it does not panic");
        (callers, conductor, watching.join().expect("it does not panic"))
    });

    // The conductor takes back its clients and readers, and can then finish.
    let (mut conductor, mut replies, mut laps) = (conductor?, 0, 0);
    for caller in callers {
        match caller.counter {
            Some(id) => println!("counter {} {}", caller.label, reader.value(id)?),
            None => println!("counter {} missing", caller.label),
        }
        replies += caller.replies;
        laps += caller.laps;
        conductor.join(caller.client)?;
    }
    conductor.join_reader(reader)?;
    let finished = conductor.finish()?;
    println!("commands {} replies {replies} laps {laps}", finished.received);
    println!("values {}", if saw_fall { "fell" } else { "never fell" });
    println!("left {}", finished.left);
    Ok(())
}
