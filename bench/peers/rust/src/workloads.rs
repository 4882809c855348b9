//! The workloads: each is done a given number of times, and returns what that took.

use crate::protocol::{Request, Sample};
use crate::queue::Queue;
use std::hint::{black_box, spin_loop};
use std::sync::atomic::{AtomicBool, AtomicU64, Ordering};
use std::thread;
use std::time::Instant;
use tokio::sync::broadcast;

const LIMIT: usize = 64;
const BATCH: u64 = 16;

/// 64 pauses, and then the processor is given away.
#[derive(Default)]
struct Rest(u32);

impl Rest {
    fn wait(&mut self) {
        self.0 += 1;
        if self.0 <= 64 {
            spin_loop();
        } else {
            thread::yield_now();
        }
    }

    fn reset(&mut self) {
        self.0 = 0;
    }
}

fn wrong(what: &str) -> ! {
    eprintln!("queues of Rust: wrong: {what}");
    std::process::exit(3)
}

fn slots_for(capacity: u64, size: u64) -> usize {
    let records = capacity / (8 + size).next_multiple_of(8);
    (records.max(2) as usize + 1).next_power_of_two() / 2
}

fn numbered<const N: usize>(number: u64) -> [u8; N] {
    let mut body = [7; N];
    body[..8].copy_from_slice(&number.to_le_bytes());
    body
}

fn word(bytes: &[u8]) -> u64 {
    u64::from_le_bytes(bytes.try_into().unwrap_or_default())
}

/// Looks at the first and the last 8 bytes.
fn look<const N: usize>(body: &[u8; N]) -> u64 {
    black_box(word(&body[N - 8..]));
    word(&body[..8])
}

/// Takes at most `LIMIT` messages.
fn drain<Q: Queue<N>, const N: usize>(queue: &Q, mut on: impl FnMut(&[u8; N])) -> u64 {
    let mut count = 0;
    while count < LIMIT {
        match queue.pop() {
            Some(body) => on(&body),
            None => break,
        }
        count += 1;
    }
    count as u64
}

/// One thread writes batches and reads them.
pub fn run_batches<Q: Queue<N>, const N: usize>(of: &Request, times: u64) -> Sample {
    let slots = slots_for(of.capacity, N as u64);
    let queue = Q::with_slots(slots);
    let batch = BATCH.min(slots as u64 / 2).max(1);
    let (mut sum, mut got, mut written) = (0, 0, 0);
    let began = Instant::now();
    while written < times {
        let end = times.min(written + batch);
        for number in written..end {
            if !queue.push(numbered(number)) {
                wrong("a full queue");
            }
        }
        written = end;
        while got < written {
            got += drain(&queue, |body| sum += look(body));
        }
    }
    let took = began.elapsed();
    if sum != times * (times - 1) / 2 {
        wrong("other messages");
    }
    Sample::new(took)
}

fn produce<Q: Queue<N>, const N: usize>(queue: &Q, go: &AtomicBool, id: u64, messages: u64) {
    while !go.load(Ordering::SeqCst) {
        thread::yield_now();
    }
    for number in 0..messages {
        let body = numbered(id << 48 | number);
        let mut rest = Rest::default();
        while !queue.push(body) {
            rest.wait();
        }
    }
}

/// Producers and a consumer, each on a thread.
pub fn run_flow<Q: Queue<N>, const N: usize>(of: &Request, times: u64) -> Sample {
    let queue = Q::with_slots(slots_for(of.capacity, N as u64));
    let go = AtomicBool::new(false);
    let share = times / of.threads + 1;
    let all = share * of.threads;
    let took = thread::scope(|scope| {
        for id in 0..of.threads {
            let (queue, go) = (&queue, &go);
            scope.spawn(move || produce(queue, go, id, share));
        }
        let mut next = vec![0; of.threads as usize];
        let (mut got, mut rest) = (0, Rest::default());
        let began = Instant::now();
        go.store(true, Ordering::SeqCst);
        while got < all {
            let came = drain(&queue, |body| {
                let (id, number) = (look(body) >> 48, look(body) & 0xffff_ffff_ffff);
                match next.get_mut(id as usize) {
                    Some(next) if *next == number => *next += 1,
                    _ => wrong("another order"),
                }
            });
            got += came;
            if came > 0 {
                rest.reset();
            } else {
                rest.wait();
            }
        }
        began.elapsed()
    });
    Sample::new(took.mul_f64(times as f64 / all as f64))
}

/// Takes commands until it is stopped: the last value.
fn conduct<C: Queue<20>, R: Queue<12>>(commands: &C, replies: &R, stop: &AtomicBool) -> u64 {
    let (value, mut rest) = (AtomicU64::new(0), Rest::default());
    while !stop.load(Ordering::SeqCst) {
        let came = drain(commands, |command| {
            value.store(word(&command[12..]), Ordering::Release);
            let mut reply = [0; 12];
            reply[..8].copy_from_slice(&command[..8]);
            let mut full = Rest::default();
            while !replies.push(reply) {
                full.wait();
            }
        });
        if came > 0 {
            rest.reset();
        } else {
            rest.wait();
        }
    }
    value.into_inner()
}

/// A command through one queue, and its reply through another.
pub fn run_trips<C: Queue<20>, R: Queue<12>>(of: &Request, times: u64) -> Sample {
    let commands = C::with_slots(slots_for(of.capacity, 20));
    let replies = R::with_slots(slots_for(of.capacity, 12));
    let (stop, correlations) = (AtomicBool::new(false), AtomicU64::new(0));
    let mut trips = Vec::with_capacity(times as usize);
    let took = thread::scope(|scope| {
        let conductor = scope.spawn(|| conduct(&commands, &replies, &stop));
        let began = Instant::now();
        let mut last = began;
        for value in 0..times {
            let correlation = correlations.fetch_add(1, Ordering::SeqCst);
            let mut command = [0; 20];
            command[..8].copy_from_slice(&correlation.to_le_bytes());
            command[12..].copy_from_slice(&value.to_le_bytes());
            let mut rest = Rest::default();
            while !commands.push(command) {
                rest.wait();
            }
            let mut rest = Rest::default();
            while replies.pop().map(|reply| word(&reply[..8])) != Some(correlation) {
                rest.wait();
            }
            let now = Instant::now();
            trips.push(now.duration_since(last).as_nanos() as u32);
            last = now;
        }
        stop.store(true, Ordering::SeqCst);
        if conductor.join().ok() != Some(times - 1) {
            wrong("another value");
        }
        last.duration_since(began)
    });
    Sample::new(took).with_trips(trips)
}

/// Copies what comes until the channel is closed: how many messages, and how often some were missed.
fn listen<const N: usize>(mut receiver: broadcast::Receiver<[u8; N]>, times: u64) -> (u64, u64) {
    use broadcast::error::TryRecvError::{Closed, Empty, Lagged};
    let (mut copies, mut laps, mut last, mut rest) = (0, 0, None, Rest::default());
    loop {
        match receiver.try_recv() {
            Ok(body) => {
                let number = look(&body);
                if last.is_some_and(|last| number <= last) {
                    wrong("another order of copies");
                }
                last = Some(number);
                copies += 1;
                rest.reset();
            }
            Err(Empty) => rest.wait(),
            Err(Lagged(_)) => laps += 1,
            Err(Closed) => break,
        }
    }
    if last != Some(times - 1) {
        wrong("the last message was not copied");
    }
    (copies, laps)
}

/// A sender at full speed and receivers, each on a thread.
pub fn run_broadcast<const N: usize>(of: &Request, times: u64) -> Sample {
    let (sender, first) = broadcast::channel(slots_for(of.capacity, N as u64));
    let mut receivers = vec![first];
    receivers.resize_with(of.threads as usize, || sender.subscribe());
    thread::scope(|scope| {
        let listeners: Vec<_> = receivers
            .into_iter()
            .map(|receiver| scope.spawn(move || listen::<N>(receiver, times)))
            .collect();
        let began = Instant::now();
        for number in 0..times {
            if sender.send(numbered::<N>(number)).is_err() {
                wrong("no receiver");
            }
        }
        let took = began.elapsed();
        drop(sender);
        let (mut copies, mut laps) = (0, 0);
        for listener in listeners {
            let heard = listener.join().unwrap_or((0, 0));
            copies += heard.0;
            laps += heard.1;
        }
        Sample::new(took).with_heard(copies, laps)
    })
}
