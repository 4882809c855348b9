//! The line protocol of bench/README.md.

use std::collections::HashMap;
use std::io::{stdin, stdout, BufRead, Write};
use std::time::Duration;

/// A request for one measurement.
pub struct Request {
    pub workload: String,
    pub contender: String,
    pub size: u64,
    pub capacity: u64,
    pub threads: u64,
    pub ms: f64,
}

impl Request {
    fn parse(words: &[&str]) -> Option<Request> {
        let [workload, contender, size, capacity, threads, ms] = words else {
            return None;
        };
        let threads = threads.parse().ok()?;
        Some(Request {
            workload: workload.to_string(),
            contender: contender.to_string(),
            size: size.parse().ok()?,
            capacity: capacity.parse().ok()?,
            threads: (1..=64).contains(&threads).then_some(threads)?,
            ms: ms.parse().ok()?,
        })
    }
}

/// What a run came to.
pub struct Sample {
    took: Duration,
    trips: Vec<u32>,
    heard: Option<(u64, u64)>,
}

impl Sample {
    pub fn new(took: Duration) -> Sample {
        Sample { took, trips: Vec::new(), heard: None }
    }

    /// With the nanoseconds of each round trip.
    pub fn with_trips(self, trips: Vec<u32>) -> Sample {
        Sample { trips, ..self }
    }

    /// With the copies and laps of all receivers.
    pub fn with_heard(self, copies: u64, laps: u64) -> Sample {
        Sample { heard: Some((copies, laps)), ..self }
    }

    fn print(mut self, out: &mut impl Write, of: &Request, times: u64) -> std::io::Result<()> {
        let each = self.took.as_nanos() as f64 / times as f64;
        writeln!(out, "{} {each:.3}", if self.trips.is_empty() { "ns" } else { "mean" })?;
        self.trips.sort_unstable();
        for (name, part) in [("p50", 5000), ("p90", 9000), ("p99", 9900), ("p999", 9990), ("p9999", 9999)] {
            if let Some(trip) = self.trips.get(self.trips.len() * part / 10000) {
                writeln!(out, "{name} {trip}")?;
            }
        }
        if let Some((copies, laps)) = self.heard {
            let all = (of.threads * times) as f64;
            writeln!(out, "copied {:.4}", copies as f64 / all)?;
            writeln!(out, "laps_per_million {:.1}", laps as f64 / all * 1e6)?;
        }
        Ok(())
    }
}

type Run = fn(&Request, u64) -> Sample;

/// Who takes part in what. A name with a slash has the length after it alone.
pub struct Entry {
    workload: &'static str,
    name: &'static str,
    run: Run,
}

impl Entry {
    pub fn new(workload: &'static str, name: &'static str, run: Run) -> Entry {
        Entry { workload, name, run }
    }

    fn has(&self, of: &Request) -> bool {
        let (name, size) = self.name.split_once('/').unwrap_or((self.name, ""));
        self.workload == of.workload && name == of.contender && (size.is_empty() || size == of.size.to_string())
    }
}

/// How often a run fills the time of a request.
fn fill(run: Run, of: &Request) -> u64 {
    let (least, most) = if of.workload == "trips" { (500, 1_000_000) } else { (2_000, 50_000_000) };
    let mut times = least;
    for _ in 0..8 {
        let growth = of.ms * 1e6 / (run(of, times).took.as_nanos() as f64 + 1.0);
        times = ((times as f64 * growth.min(64.0)) as u64).clamp(least, most);
        if growth < 4.0 || times == most {
            break;
        }
    }
    times
}

/// Answers requests on standard input until it ends or `quit` comes.
pub fn answer_requests(entries: &[Entry]) -> std::io::Result<()> {
    let mut known = HashMap::new();
    let mut out = stdout().lock();
    for line in stdin().lock().lines() {
        let line = line?;
        let words: Vec<&str> = line.split_whitespace().collect();
        match words.as_slice() {
            ["quit"] => break,
            ["list"] => {
                for entry in entries {
                    writeln!(out, "has {} {}", entry.workload, entry.name)?;
                }
            }
            ["run", rest @ ..] => {
                let of = Request::parse(rest);
                match of.as_ref().and_then(|of| Some((of, entries.iter().find(|entry| entry.has(of))?))) {
                    Some((of, entry)) => {
                        let times = *known.entry(line.clone()).or_insert_with(|| fill(entry.run, of));
                        (entry.run)(of, times).print(&mut out, of, times)?;
                    }
                    None => writeln!(out, "error no such measurement")?,
                }
            }
            _ => {}
        }
        writeln!(out, "end")?;
        out.flush()?;
    }
    Ok(())
}
