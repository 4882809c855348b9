//! Producers that are lost at any step: no committed message is lost or shown twice, and every ring is closed.

use std::thread;

use felter::{many_to_one, Consumer, Error, Producer};

const LANES: usize = 4;

/// The next number of a row that looks random.
fn draw(random: &mut u64, below: u64) -> u64 {
    *random ^= *random << 13;
    *random ^= *random >> 7;
    *random ^= *random << 17;
    (*random >> 33) % below
}

/// What one thread wrote: its messages have numbers that rise with their places.
struct Lane {
    lane: u8,
    next: u8,
    random: u64,
    committed: Vec<u8>,
}

impl Lane {
    fn body(&mut self) -> [u8; 2] {
        self.next += 1;
        [self.lane, self.next]
    }

    fn write(&mut self, producer: &mut Producer) {
        let body = self.body();
        match producer.write(1, &body) {
            Ok(()) => self.committed.push(body[1]),
            Err(refused) => assert!(refused.is_passing(), "{refused}"),
        }
    }

    /// Writes until a random step, and drops the producer there, or gives it back.
    fn run(mut self, mut producer: Producer) -> (Lane, Option<Producer>) {
        let mut kept = Vec::new();
        for _ in 0..draw(&mut self.random, 20) {
            match draw(&mut self.random, 4) {
                0 => self.write(&mut producer),
                1 => {
                    let body = self.body();
                    match producer.claim(1, 2) {
                        Ok(mut claim) => {
                            claim.put(0, &body[..draw(&mut self.random, 3) as usize]).unwrap();
                            kept.push((claim.keep(), body));
                        }
                        Err(refused) => assert!(refused.is_passing(), "{refused}"),
                    }
                }
                2 => {
                    if let Some((claim, body)) = kept.pop() {
                        claim.put(&mut producer, 0, &body).unwrap();
                        claim.commit(&mut producer).unwrap();
                        self.committed.push(body[1]);
                    }
                }
                _ => {
                    // It is lost with a claim open.
                    if let Ok(mut other) = producer.split() {
                        self.write(&mut other);
                        let _ = other.claim(1, 2).map(|claim| claim.keep());
                    } else {
                        assert_eq!(producer.shares(), Ok(1));
                    }
                }
            }
        }
        if draw(&mut self.random, 2) == 0 {
            return (self, None);
        }
        for (claim, _) in kept {
            claim.abort(&mut producer).unwrap();
        }
        (self, Some(producer))
    }
}

/// A producer for another thread, with some shares to split off others.
fn split(first: &mut Producer) -> Producer {
    let mut lane = first.split().unwrap();
    for _ in 0..5 {
        lane.join(first.split().unwrap()).unwrap();
    }
    lane
}

/// Reads what there is.
fn read_all(consumer: &mut Consumer, read: &mut [Vec<u8>]) {
    let mut room = [0; 64];
    while let Some(message) = consumer.read(&mut room).unwrap() {
        read[usize::from(message.body[0])].push(message.body[1]);
    }
}

/// Takes the producers that are left together, and closes the ring with them.
fn close(consumer: &mut Consumer, left: Vec<Producer>) {
    let mut left = left.into_iter();
    let Some(mut last) = left.next() else {
        return;
    };
    for other in left {
        let refused = consumer.close(last).unwrap_err();
        assert_eq!(refused.reason, Error::ProducersOut);
        last = refused.back;
        last.join(other).unwrap();
    }
    consumer.close(last).unwrap();
}

#[test]
fn producers_that_are_lost_at_any_step_lose_nothing() {
    let mut random = 88_172_645_463_325_252;
    for turn in 0..1_500 {
        let (mut first, mut consumer) = many_to_one([128, 1024][turn % 2]).unwrap();
        let mut producers: Vec<Producer> = (1..LANES).map(|_| split(&mut first)).collect();
        producers.push(first);
        let threads: Vec<_> = (0u8..)
            .zip(producers)
            .map(|(lane, producer)| {
                let seed = draw(&mut random, 1 << 30) + 1;
                thread::spawn(move || Lane { lane, next: 0, random: seed, committed: Vec::new() }.run(producer))
            })
            .collect();
        let mut read = vec![Vec::new(); LANES];
        read_all(&mut consumer, &mut read);
        let ended: Vec<_> = threads.into_iter().map(|thread| thread.join().unwrap()).collect();
        let (lanes, left): (Vec<_>, Vec<_>) = ended.into_iter().unzip();
        close(&mut consumer, left.into_iter().flatten().collect());
        read_all(&mut consumer, &mut read);
        assert_eq!(consumer.finish().unwrap(), 0);
        for (read, mut lane) in read.into_iter().zip(lanes) {
            lane.committed.sort_unstable();
            assert_eq!(read, lane.committed);
        }
    }
}
