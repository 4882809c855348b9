//! Shared counters, from safe code.
#![forbid(unsafe_code)]

use felter::{Adder, Error};
use std::thread;

#[test]
fn totals_of_threads_are_exact() {
    let mut adder = Adder::new().unwrap();
    let adders = [3, -1, i64::MAX].map(|amount| (amount, adder.split().unwrap()));
    let threads = adders.map(|(amount, mut its)| {
        thread::spawn(move || {
            for _ in 0..20_000 {
                its.add(amount).unwrap();
            }
            its
        })
    });
    for thread in threads {
        adder.join(thread.join().unwrap()).unwrap();
    }
    // (an even number of times 2^63 - 1 is that number less than 0)
    assert_eq!((adder.value(), adder.shares()), (Ok(60_000 - 20_000 - 20_000), Ok(65_536)));
}

#[test]
fn sums_wrap_and_the_value_before_is_returned() {
    let mut adder = Adder::new().unwrap();
    let mut other = adder.split().unwrap();
    for (amount, before) in [(i64::MAX, 0), (1, i64::MAX), (-1, i64::MIN), (i64::MIN, i64::MAX)] {
        assert_eq!(other.add(amount), Ok(before));
    }
    assert_eq!((adder.value(), other.value()), (Ok(-1), Ok(-1)));
}

#[test]
fn shares_are_split_and_given_back() {
    let (mut adder, mut another) = (Adder::new().unwrap(), Adder::new().unwrap());
    let mut other = adder.split().unwrap();
    assert_eq!((adder.shares(), other.shares(), other.split().unwrap_err()), (Ok(65_535), Ok(1), Error::NoShares));
    other.add(5).unwrap();
    let refused = another.join(other).unwrap_err();
    assert_eq!((refused.reason, another.value(), another.shares()), (Error::OtherRing, Ok(0), Ok(65_536)));
    adder.join(refused.back).unwrap();
    drop(adder.split().unwrap());
    assert_eq!((adder.value(), adder.shares()), (Ok(5), Ok(65_535)));
}
