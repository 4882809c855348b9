//! Doorbells.
mod watched;

use felter::Doorbell;
use std::sync::atomic::{AtomicU32, Ordering::SeqCst};
use std::sync::mpsc;
use std::thread;
use std::time::Duration;
use watched::{asleep, can_watch, woken, DEADLINE};

#[test]
fn a_doorbell_is_rung_waited_for_and_cleared() {
    let bell = Doorbell::new().unwrap();
    assert!(!bell.wait(Some(Duration::from_millis(5))).unwrap() && !bell.clear().unwrap());
    assert!(!bell.wait(Some(Duration::ZERO)).unwrap());
    bell.ring().unwrap();
    bell.ring().unwrap();
    assert!(bell.wait(None).unwrap() && bell.wait(Some(Duration::MAX)).unwrap());
    assert!(bell.clear().unwrap() && !bell.clear().unwrap());
    thread::scope(|scope| {
        scope.spawn(|| bell.ring().unwrap());
        assert!(bell.wait(Some(DEADLINE)).unwrap());
    });
}

extern "C" {
    fn signal(number: i32, handler: extern "C" fn(i32)) -> usize;
    fn pthread_self() -> usize;
    fn pthread_kill(thread: usize, number: i32) -> i32;
}

const SIGUSR1: i32 = 10;

static SIGNALS: AtomicU32 = AtomicU32::new(0);

extern "C" fn count(_: i32) {
    SIGNALS.fetch_add(1, SeqCst);
}

#[test]
fn a_signal_does_not_end_a_wait() {
    if !can_watch("a_signal_does_not_end_a_wait") {
        return;
    }
    // SAFETY: the handler only adds to a number.
    unsafe { signal(SIGUSR1, count) };
    let bell = Doorbell::new().unwrap();
    for timeout in [None, Some(DEADLINE)] {
        let (says, said) = mpsc::channel();
        let before = SIGNALS.load(SeqCst);
        thread::scope(|scope| {
            let (waiter, _) = asleep(scope, || {
                // SAFETY: the call takes nothing.
                says.send(unsafe { pthread_self() }).unwrap();
                bell.wait(timeout)
            });
            let waits = said.recv().unwrap();
            let rung = woken(waiter, || {
                // SAFETY: the thread still waits, since no thread has rung the doorbell.
                assert_eq!(unsafe { pthread_kill(waits, SIGUSR1) }, 0);
                while SIGNALS.load(SeqCst) == before {
                    thread::yield_now();
                }
                bell.ring().unwrap();
            });
            assert!(rung.unwrap() && bell.clear().unwrap());
        });
    }
}
