//! Threads that are watched through /proc while they sleep, and the time after which a wait was not ended by a wake.
// (not every program of tests uses all of it)
#![allow(dead_code)]

use std::io::Write;
use std::path::{Path, PathBuf};
use std::sync::mpsc;
use std::thread::{self, Scope, ScopedJoinHandle};
use std::time::{Duration, Instant};
use std::{fs, io};

/// The time after which a wait ends by itself.
pub const DEADLINE: Duration = Duration::from_secs(60);

/// A wake ends a wait earlier than this, however busy the machine is. The deadline is much later.
pub const WOKEN: Duration = Duration::from_secs(30);

/// A thread, by its file `status` in /proc.
pub struct Watched {
    status: PathBuf,
}

impl Watched {
    /// Returns the calling thread, or `None` if /proc does not say what the tests need.
    pub fn this() -> Option<Watched> {
        let folder = fs::read_link("/proc/thread-self").ok()?;
        let this = Watched { status: Path::new("/proc").join(folder).join("status") };
        (this.field("State").is_some() && this.field("voluntary_ctxt_switches").is_some()).then_some(this)
    }

    fn field(&self, name: &str) -> Option<String> {
        let status = fs::read_to_string(&self.status).ok()?;
        let value = status.lines().find_map(|line| line.strip_prefix(name)?.strip_prefix(':'))?;
        Some(value.trim().to_string())
    }

    /// Returns whether the thread sleeps.
    pub fn is_asleep(&self) -> bool {
        self.field("State").is_some_and(|it| it.starts_with('S'))
    }

    /// Returns how often the thread has given up its processor to sleep.
    pub fn sleeps(&self) -> u64 {
        self.field("voluntary_ctxt_switches").expect("the thread is there").parse().expect("a number")
    }
}

/// Returns whether threads can be watched. Otherwise the call says that a test was not run.
pub fn can_watch(test: &str) -> bool {
    let can = Watched::this().is_some();
    if !can {
        // (the harness shows this line also if the test passes, since it is not printed by a macro)
        let _ = writeln!(io::stderr(), "not run: {test}, since /proc/thread-self/status does not count switches");
    }
    can
}

/// Calls `wait` on a new thread, and returns the thread when it has gone to sleep.
pub fn asleep<'scope, T: Send + 'scope>(
    scope: &'scope Scope<'scope, '_>,
    wait: impl FnOnce() -> T + Send + 'scope,
) -> (ScopedJoinHandle<'scope, T>, Watched) {
    let (says, said) = mpsc::channel();
    let thread = scope.spawn(move || {
        says.send(Watched::this()).expect("it is awaited");
        wait()
    });
    let watched = said.recv().expect("the thread begins").expect("threads can be watched");
    let began = Instant::now();
    while !watched.is_asleep() {
        assert!(!thread.is_finished(), "the wait ended before there was anything to find");
        assert!(began.elapsed() < WOKEN, "the thread does not sleep");
        thread::sleep(Duration::from_millis(1));
    }
    (thread, watched)
}

/// Calls `wake`, and returns the result of a thread that sleeps. The thread has to end long before its deadline.
pub fn woken<T>(sleeper: ScopedJoinHandle<'_, T>, wake: impl FnOnce()) -> T {
    let began = Instant::now();
    wake();
    let result = sleeper.join().expect("it does not panic");
    assert!(began.elapsed() < WOKEN, "no wake came, and the wait ended by itself after {:?}", began.elapsed());
    result
}
