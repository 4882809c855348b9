//! Structures in files and in memory of the caller.
use felter::{Counters, Error, InFileError, Transmitter};
use std::path::{Path, PathBuf};
use std::{env, fs, io, process, thread};

/// The path of a file that is not there, and that is removed at the end.
struct Scratch(PathBuf);

impl Scratch {
    fn new(name: &str) -> Scratch {
        Scratch(env::temp_dir().join(format!("felter-{}-{name}", process::id())))
    }

    fn path(&self) -> &Path {
        &self.0
    }

    /// Whether this process has mapped the file.
    fn is_mapped(&self) -> bool {
        fs::read_to_string("/proc/self/maps").expect("/proc").contains(self.0.to_str().expect("it is UTF-8"))
    }

    fn word(&self, at: usize) -> u64 {
        let image = fs::read(&self.0).expect("the file is there");
        u64::from_le_bytes(image[at..at + 8].try_into().expect("8 bytes"))
    }
}

impl Drop for Scratch {
    fn drop(&mut self) {
        let _ = fs::remove_file(&self.0);
    }
}

#[test]
fn a_ring_lies_in_its_file() {
    let scratch = Scratch::new("ring");
    let path = scratch.path();
    // SAFETY: nothing else writes to the file.
    let (mut producer, mut consumer) = unsafe { felter::many_to_one_in_file(path, 1024) }.expect("a new file");
    let mut other = producer.split().expect("it has shares");
    thread::spawn(move || other.write(7, b"hello")).join().expect("no panic").expect("there is room");
    let claim = producer.claim(9, 4).expect("there is room").keep();
    assert_eq!(fs::metadata(path).expect("it is there").len(), felter::ring_memory(1024).expect("a capacity") as u64);
    assert_eq!(&fs::read(path).expect("it is there")[..8], b"FELTERIM");
    assert_eq!((scratch.word(16), scratch.word(24), scratch.word(32), scratch.word(48)), (2, 1024, 128, 1920));
    // the marks of the message and of the open claim, their headers, the body, and the tail
    assert_eq!((scratch.word(128), scratch.word(144)), (16, 32 + 2));
    assert_eq!((scratch.word(1920), scratch.word(1936)), (7 << 32 | 13, 9 << 32 | 12));
    assert_eq!(&fs::read(path).expect("it is there")[1928..1933], b"hello");
    assert_eq!(scratch.word(128 + 1024 + 128), 32);
    let message = consumer.read_owned().expect("it is whole").expect("it is there");
    assert_eq!((message.type_id, &message.body[..]), (7, &b"hello"[..]));
    drop(claim);
    drop(producer);
    assert!(scratch.is_mapped());
    drop(consumer);
    assert!(!scratch.is_mapped());
    // the claim was aborted, and the file stays
    assert_eq!((scratch.word(144), scratch.word(1936)), (32 + 3, 9 << 32 | 12));
}

#[test]
fn a_ring_that_ends_leaves_its_file() {
    let scratch = Scratch::new("closed");
    // SAFETY: nothing else writes to the file.
    let ring = unsafe { felter::one_to_one_in_file(scratch.path(), 512) };
    let (mut producer, mut consumer) = ring.expect("there is no such file");
    producer.write(3, b"read").expect("there is room");
    producer.write(4, b"left").expect("there is room");
    consumer.close(producer).expect("it was the last one");
    assert_eq!(consumer.read_owned().expect("it is whole").map(|it| it.body), Some(b"read".to_vec()));
    assert!(scratch.is_mapped());
    assert_eq!(consumer.finish().expect("it is closed"), 1);
    assert!(!scratch.is_mapped());
    // the message that was left is still in the file
    assert_eq!((scratch.word(16), scratch.word(144), scratch.word(1408 + 16)), (1, 32, 4 << 32 | 12));
}

#[test]
fn boards_and_counters_lie_in_their_files() {
    let scratch = Scratch::new("board");
    // SAFETY: nothing else writes to the file.
    let mut transmitter = unsafe { Transmitter::in_file(scratch.path(), 256) }.expect("there is no such file");
    let mut receiver = transmitter.subscribe().expect("it has shares");
    transmitter.transmit(5, b"to all").expect("it fits");
    assert_eq!((scratch.word(16), scratch.word(128)), (3, 5 << 32 | 14));
    drop(transmitter);
    assert_eq!(receiver.receive_owned().expect("not lapped").map(|it| it.body), Some(b"to all".to_vec()));
    assert!(scratch.is_mapped());
    drop(receiver);
    assert!(!scratch.is_mapped());
    let scratch = Scratch::new("counters");
    // SAFETY: nothing else writes to the file.
    let mut counters = unsafe { Counters::in_file(scratch.path(), 8, 0) }.expect("there is no such file");
    let mut reader = counters.reader().expect("it has shares");
    let id = counters.allocate(0, 3, b"key", b"label", 77).expect("one is free");
    counters.set(id, 1234).expect("it is in use");
    assert_eq!((scratch.word(16), scratch.word(128), scratch.word(136)), (4, 1234, 77));
    assert_eq!(&fs::read(scratch.path()).expect("it is there")[320 + 132..][..5], b"label");
    drop(counters);
    // readers load from other memory
    assert!(!scratch.is_mapped());
    assert_eq!(reader.value(id), Ok(1234));
}

#[test]
fn a_file_that_is_there_stays() {
    let scratch = Scratch::new("there");
    fs::write(scratch.path(), b"mine").expect("a new file");
    // SAFETY: no structure is made.
    match unsafe { felter::many_to_one_in_file(scratch.path(), 1024) } {
        Err(InFileError::File(reason)) => assert_eq!(reason.kind(), io::ErrorKind::AlreadyExists),
        other => panic!("{other:?}"),
    }
    assert_eq!(fs::read(scratch.path()).expect("it is there"), b"mine");
}

#[test]
fn nothing_is_made_for_a_bad_size() {
    let scratch = Scratch::new("bad");
    // SAFETY: no structure is made.
    let refused = unsafe {
        [
            felter::many_to_one_in_file(scratch.path(), 100).map(|_| ()),
            felter::one_to_one_in_file(scratch.path(), 1 << 25).map(|_| ()),
            Transmitter::in_file(scratch.path(), 128).map(|_| ()),
        ]
    };
    for it in refused {
        assert!(matches!(it, Err(InFileError::Refused(Error::BadCapacity))), "{it:?}");
    }
    // SAFETY: no structure is made.
    let refused = unsafe { Counters::in_file(scratch.path(), 0, 0) }.map(|_| ()).expect_err("no counters");
    assert!(matches!(refused, InFileError::Refused(Error::BadCount)));
    assert_eq!(std::error::Error::source(&refused).map(ToString::to_string), Some(Error::BadCount.to_string()));
    assert!(!scratch.path().exists());
}

#[repr(align(64))]
struct Memory([u8; 4096]);

#[test]
fn a_ring_lies_in_memory() {
    let mut memory = Box::new(Memory([0xa7; 4096]));
    let (at, length) = (memory.0.as_mut_ptr(), felter::ring_memory(1024).expect("a capacity"));
    // SAFETY: the memory stays until the handles are gone, and no other code writes to it.
    unsafe {
        assert_eq!(felter::many_to_one_in_memory(at.add(8), length, 1024).unwrap_err(), Error::BadMemory);
        assert_eq!(felter::one_to_one_in_memory(at, length - 1, 1024).unwrap_err(), Error::BadMemory);
        assert_eq!(felter::many_to_one_in_memory(at, length, 1000).unwrap_err(), Error::BadCapacity);
        let null = std::ptr::null_mut();
        assert_eq!(felter::many_to_one_in_memory(null, length, 1024).unwrap_err(), Error::NullPointer);
        assert_eq!(Transmitter::in_memory(at, 10, 256).unwrap_err(), Error::BadMemory);
        assert_eq!(Counters::in_memory(at, 10, 8, 0).unwrap_err(), Error::BadMemory);
    }
    assert!(memory.0.iter().all(|it| *it == 0xa7));
    // SAFETY: as before.
    let (mut producer, consumer) = unsafe { felter::many_to_one_in_memory(at, length, 1024) }.expect("it is long");
    producer.write(7, b"hello").expect("there is room");
    // SAFETY: as before.
    let again = unsafe { felter::many_to_one_in_memory(at, length, 1024) };
    assert_eq!(again.unwrap_err(), Error::BadMemory);
    drop((producer, consumer));
    assert_eq!(&memory.0[..8], b"FELTERIM");
    assert_eq!(&memory.0[1928..1933], b"hello");
    assert!(memory.0[length..].iter().all(|it| *it == 0xa7));
}
