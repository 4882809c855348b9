//! The ends of a ring or a board. This module counts the ends of each side, and lets readers sleep until they are
//! woken.
use std::mem;
use std::sync::atomic::{AtomicU64, AtomicUsize, Ordering};
use std::sync::{Arc, Condvar, Mutex, MutexGuard, PoisonError};
use std::task::Waker;
use std::time::Instant;

/// The number of ends on each side. The crate counts the ends itself, since the proved library does not count its
/// handles.
#[derive(Debug, Default)]
struct Counts {
    writers: AtomicUsize,
    readers: AtomicUsize,
    /// The number of ends that sleep, or are about to sleep. A writer loads this number first. So a write costs one
    /// more load if no end sleeps.
    sleepers: AtomicUsize,
    /// The tasks that wait. Each task is counted as a sleeper until it is taken out.
    bed: Mutex<Vec<Task>>,
    bell: Condvar,
    /// The number of the next end.
    next: AtomicU64,
}

impl Counts {
    /// Returns the tasks that wait. While the lock is held, no code of a caller may run, since that code could make a
    /// call that needs the lock.
    fn bed(&self) -> MutexGuard<'_, Vec<Task>> {
        self.bed.lock().unwrap_or_else(PoisonError::into_inner)
    }
}

/// A task that waits.
#[derive(Debug)]
struct Task {
    /// The number of the end with which the task reads. A call takes its end by `&mut`, so each end has only one task.
    end: u64,
    waker: Waker,
}

/// An end that writes, or an end that reads. An end is counted until it is dropped.
#[derive(Debug)]
pub(crate) struct End {
    counts: Arc<Counts>,
    writes: bool,
    number: u64,
}

/// The place at which the ends of one side sleep until an end of the other side wakes them.
#[derive(Debug)]
pub(crate) struct Bed {
    counts: Arc<Counts>,
    /// The number of the end that sleeps here.
    end: u64,
}

impl End {
    /// Returns the two ends of a new structure.
    pub(crate) fn pair() -> (End, End) {
        let writer = End { counts: Arc::default(), writes: true, number: 0 };
        writer.counts.writers.store(1, Ordering::SeqCst);
        let reader = writer.other(false);
        (writer, reader)
    }

    /// Returns the writing end of a new structure, which has no reading end yet.
    pub(crate) fn writer() -> End {
        End::pair().0
    }

    fn count(&self, writes: bool) -> &AtomicUsize {
        if writes {
            &self.counts.writers
        } else {
            &self.counts.readers
        }
    }

    /// Makes another end of the same structure.
    pub(crate) fn other(&self, writes: bool) -> End {
        self.count(writes).fetch_add(1, Ordering::SeqCst);
        let number = self.counts.next.fetch_add(1, Ordering::Relaxed) + 1;
        End { counts: Arc::clone(&self.counts), writes, number }
    }

    /// Returns whether every end of the other side is gone.
    pub(crate) fn is_abandoned(&self) -> bool {
        self.count(!self.writes).load(Ordering::SeqCst) == 0
    }

    /// Returns the place at which this end sleeps.
    pub(crate) fn bed(&self) -> Bed {
        Bed { counts: Arc::clone(&self.counts), end: self.number }
    }

    /// Wakes the ends that sleep. These ends find what was written before this call. The reason is that a write of the
    /// library ends with an exchange, and the load here comes after that exchange.
    #[inline]
    pub(crate) fn wake(&self) {
        if self.counts.sleepers.load(Ordering::SeqCst) != 0 {
            self.ring();
        }
    }

    #[cold]
    fn ring(&self) {
        // (an end that found nothing holds the lock until it sleeps, so it is woken)
        let tasks = mem::take(&mut *self.counts.bed());
        self.counts.sleepers.fetch_sub(tasks.len(), Ordering::SeqCst);
        self.counts.bell.notify_all();
        tasks.into_iter().for_each(|it| it.waker.wake());
    }
}

impl Bed {
    /// Calls `look` once. If the result is `None`, sleeps until the thread is woken or the deadline comes. Returns the
    /// result of `look`.
    pub(crate) fn sleep<T>(&self, deadline: Option<Instant>, look: impl FnOnce() -> Option<T>) -> Option<T> {
        let counts = &self.counts;
        counts.sleepers.fetch_add(1, Ordering::SeqCst);
        let bed = counts.bed();
        let found = look();
        if found.is_none() {
            match deadline.map(|it| it.saturating_duration_since(Instant::now())) {
                None => drop(counts.bell.wait(bed)),
                Some(left) => drop(counts.bell.wait_timeout(bed, left)),
            }
        } else {
            drop(bed);
        }
        counts.sleepers.fetch_sub(1, Ordering::SeqCst);
        found
    }
}

/// A wait of a task. If it is dropped, with its future or at its end, the waker of the task is dropped too.
pub(crate) struct Wait<'a> {
    bed: &'a Bed,
    /// Whether a waker was noted.
    is_noted: bool,
}

impl Wait<'_> {
    pub(crate) fn at(bed: &Bed) -> Wait<'_> {
        Wait { bed, is_noted: false }
    }

    /// Notes the waker of the task in place of its last one.
    pub(crate) fn note(&mut self, waker: &Waker) {
        let Bed { counts, end } = self.bed;
        let task = Task { end: *end, waker: waker.clone() };
        self.is_noted = true;
        let mut bed = counts.bed();
        let last = match bed.iter_mut().find(|it| it.end == *end) {
            Some(noted) => Some(mem::replace(noted, task)),
            None => {
                counts.sleepers.fetch_add(1, Ordering::SeqCst);
                bed.push(task);
                None
            }
        };
        drop(bed);
        drop(last);
    }
}

impl Drop for Wait<'_> {
    fn drop(&mut self) {
        if !self.is_noted {
            return;
        }
        let Bed { counts, end } = self.bed;
        let mut bed = counts.bed();
        let last = bed.iter().position(|it| it.end == *end).map(|at| bed.swap_remove(at));
        drop(bed);
        if last.is_some() {
            counts.sleepers.fetch_sub(1, Ordering::SeqCst);
        }
    }
}

impl Drop for End {
    fn drop(&mut self) {
        self.count(self.writes).fetch_sub(1, Ordering::SeqCst);
        self.wake();
    }
}
