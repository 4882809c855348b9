//! Queues of Rust as a worker of bench/run: crossbeam's `ArrayQueue` and bounded channel, and tokio's broadcast. Each
//! holds messages of one length by value, in as many slots as a ring of the requested capacity has records, as a power
//! of two. Workloads and figures are those of bench/README.md.

mod protocol;
mod queue;
mod workloads;

use protocol::{answer_requests, Entry};
use queue::{Array, Channel};
use workloads::{run_batches, run_broadcast, run_flow, run_trips};

/// The entries of one queue at one length.
macro_rules! of_length {
    ($entries:ident, $name:literal, $queue:ident, $($size:literal)*) => {$(
        let name = concat!($name, "/", $size);
        $entries.push(Entry::new("batches", name, |of, times| run_batches::<$queue<$size>, $size>(of, times)));
        $entries.push(Entry::new("pair", name, |of, times| run_flow::<$queue<$size>, $size>(of, times)));
        $entries.push(Entry::new("producers", name, |of, times| run_flow::<$queue<$size>, $size>(of, times)));
    )*};
}

fn main() -> std::io::Result<()> {
    let mut entries = Vec::new();
    of_length!(entries, "crossbeam-array", Array, 8 64 128 1024);
    of_length!(entries, "crossbeam-chan", Channel, 8 64 128 1024);
    entries.push(Entry::new("trips", "crossbeam-array", run_trips::<Array<20>, Array<12>>));
    entries.push(Entry::new("trips", "crossbeam-chan", run_trips::<Channel<20>, Channel<12>>));
    entries.push(Entry::new("broadcast", "tokio-broadcast/64", run_broadcast::<64>));
    entries.push(Entry::new("broadcast", "tokio-broadcast/1024", run_broadcast::<1024>));
    answer_requests(&entries)
}
