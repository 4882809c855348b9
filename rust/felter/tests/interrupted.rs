//! Calls of the system that a signal interrupts.
use std::sync::atomic::{AtomicU32, Ordering::SeqCst};
use std::{env, fs, process};

extern "C" {
    fn ftruncate(file: i32, length: i64) -> i32;
}

const EINTR: i32 = 4;

static CALLS: AtomicU32 = AtomicU32::new(0);

/// Takes the place of the call of the system in this program. The first two calls are interrupted.
#[no_mangle]
pub extern "C" fn posix_fallocate(file: i32, _offset: i64, length: i64) -> i32 {
    if CALLS.fetch_add(1, SeqCst) < 2 {
        return EINTR;
    }
    // SAFETY: the call takes only numbers.
    assert_eq!(unsafe { ftruncate(file, length) }, 0);
    0
}

#[test]
fn a_file_is_made_after_interruptions() {
    let path = env::temp_dir().join(format!("felter-{}-interrupted", process::id()));
    // SAFETY: nothing else writes to the file.
    let made = unsafe { felter::many_to_one_in_file(&path, 1024) };
    let length = fs::metadata(&path).map(|it| it.len());
    let _ = fs::remove_file(&path);
    let (mut producer, mut consumer) = made.expect("a signal is no error");
    assert_eq!((CALLS.load(SeqCst), length.unwrap()), (3, felter::ring_memory(1024).unwrap() as u64));
    producer.write(7, b"hello").unwrap();
    assert_eq!(consumer.read_owned().unwrap().map(|it| it.type_id), Some(7));
}
