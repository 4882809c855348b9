//! Counters, from safe code.
#![forbid(unsafe_code)]

use felter::{Counters, Error};
use std::thread;

#[test]
fn counters_say_what_they_were_given() {
    let mut counters = Counters::new(3, 10).unwrap();
    let id = counters.allocate_owned(0, 4, b"key", b"label", 8, 9).unwrap();
    assert_eq!(counters.allocate(0, 5, b"", b"", 0), Ok(1));
    assert_eq!(counters.allocate(0, 5, &[0; 113], b"", 0), Err(Error::KeyTooLong));
    assert_eq!(counters.allocate(0, 5, b"", &[b'x'; 381], 0), Err(Error::LabelTooLong));
    assert_eq!(counters.allocate(0, 5, b"", &[200], 0), Err(Error::LabelNotAscii));
    assert_eq!((counters.type_id(id), counters.registration(id), counters.owner(id)), (Ok(4), Ok(8), Ok(9)));
    assert_eq!((counters.label(id), counters.label(1)), (Ok(b"label".to_vec()), Ok(vec![])));
    let mut key = [0; felter::MAX_KEY];
    key[..3].copy_from_slice(b"key");
    assert_eq!((counters.key(id), counters.key(3)), (Ok(key), Err(Error::BadId)));
    assert_eq!(counters.label(2), Err(Error::NotAllocated));
    assert_eq!(counters.find(4, 8), Ok(Some(id)));
    assert_eq!(counters.find(4, 9), Ok(None));
    assert_eq!(counters.set(id, i64::MAX), Ok(()));
    assert_eq!(counters.add(id, 1), Ok(i64::MAX));
    assert_eq!(counters.value(id), Ok(i64::MIN));
    assert_eq!((counters.count(), counters.ids()), (Ok(3), Ok(vec![0, 1])));
    assert_eq!(counters.close_owner(5, 0), Err(Error::BadOwner));
    assert_eq!(counters.close_owner(5, 9), Ok(1));
    assert_eq!(counters.free(u64::MAX, 1), Err(Error::BadMoment));
    assert_eq!(counters.free(5, 1), Ok(()));
    assert_eq!(counters.free(5, 1), Err(Error::NotAllocated));
    assert_eq!(counters.value(3), Err(Error::BadId));
    assert_eq!(counters.ids(), Ok(vec![]));
}

#[test]
fn values_change_and_are_said_as_they_were() {
    let mut counters = Counters::new(2, 0).unwrap();
    let id = counters.allocate(0, 1, b"", b"", 0).unwrap();
    assert_eq!((counters.increment(id), counters.increment(id), counters.decrement(id)), (Ok(0), Ok(1), Ok(2)));
    assert_eq!((counters.get_and_set(id, i64::MIN), counters.decrement(id)), (Ok(1), Ok(i64::MIN)));
    assert_eq!((counters.increment(id), counters.get_and_set(id, 7)), (Ok(i64::MAX), Ok(i64::MIN)));
    assert_eq!((counters.compare_and_set(id, 8, 9), counters.value(id)), (Ok(false), Ok(7)));
    assert_eq!((counters.compare_and_set(id, 7, -9), counters.value(id)), (Ok(true), Ok(-9)));
    assert_eq!((counters.increment(1), counters.decrement(2)), (Err(Error::NotAllocated), Err(Error::BadId)));
    assert_eq!((counters.get_and_set(1, 0), counters.get_and_set(2, 0)), (Err(Error::NotAllocated), Err(Error::BadId)));
    assert_eq!(counters.compare_and_set(1, 0, 5), Err(Error::NotAllocated));
    assert_eq!(counters.compare_and_set(2, 0, 5), Err(Error::BadId));
}

#[test]
fn ids_are_available_until_they_are_allocated_and_again_from_their_deadlines_on() {
    let mut counters = Counters::new(3, 50).unwrap();
    assert_eq!(counters.available(0), Ok(3));
    let ids = [0; 3].map(|_| counters.allocate(0, 1, b"", b"", 0).unwrap());
    assert_eq!(counters.available(u64::MAX), Ok(0));
    counters.free(100, ids[1]).unwrap();
    assert_eq!((counters.available(149), counters.available(150)), (Ok(0), Ok(1)));
    assert_eq!((counters.allocate(150, 1, b"", b"", 0), counters.available(150)), (Ok(ids[1]), Ok(0)));
}

#[test]
fn values_rise_for_readers_on_threads() {
    let mut counters = Counters::new(2, 0).unwrap();
    let id = counters.allocate(0, 1, b"", b"rises", 0).unwrap();
    let readers = [counters.reader().unwrap(), counters.reader().unwrap()];
    let threads = readers.map(|mut reader| {
        thread::spawn(move || {
            assert_eq!(reader.value(2), Err(Error::BadId));
            let mut last = 0;
            while last < 20_000 {
                let value = reader.value(id).unwrap();
                assert!(value >= last);
                last = value;
                thread::yield_now();
            }
            last
        })
    });
    for value in 1..=20_000 {
        counters.set(id, value).unwrap();
    }
    for it in threads {
        assert_eq!(it.join().expect("it does not panic"), 20_000);
    }
}
