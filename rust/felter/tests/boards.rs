//! Boards on threads, from safe code.
#![forbid(unsafe_code)]

use felter::{Error, Message, RawRecord, Receiver, Transmitter};
use std::thread;

const CAPACITY: u32 = 4096;
const LAST: u64 = 50_000;

/// The message with a number.
fn body_of(number: u64) -> Vec<u8> {
    let mut body = number.to_le_bytes().to_vec();
    body.extend((0..number % 90).map(|i| (number * 31 + i) as u8));
    body
}

/// Receives until the last message, each whole, and with gaps only where it was lapped; says how many.
fn listen(mut receiver: Receiver) -> u64 {
    let mut room = vec![0; CAPACITY as usize / 8];
    let (mut last, mut laps, mut got, mut is_lapped) = (0, 0, 0, true);
    while last < LAST {
        match receiver.receive(&mut room) {
            Ok(Some(message)) => {
                let number = u64::from_le_bytes(message.body[..8].try_into().expect("8 bytes"));
                assert_eq!((message.type_id, message.body), (9, &body_of(number)[..]));
                assert!(if is_lapped { number > last } else { number == last + 1 });
                (last, is_lapped) = (number, false);
                got += 1;
            }
            Ok(None) => thread::yield_now(),
            Err(Error::Lapped { count, missed_bytes }) => {
                assert!(missed_bytes > 0 && missed_bytes % 8 == 0);
                assert_eq!(count, laps + 1);
                (laps, is_lapped) = (count, true);
            }
            Err(other) => panic!("{other}"),
        }
    }
    assert_eq!(receiver.lapped_count(), Ok(laps));
    got
}

#[test]
fn receivers_get_all_or_learn_what_they_missed() {
    let mut transmitter = Transmitter::new(CAPACITY).expect("a capacity");
    let receivers = [transmitter.subscribe().expect("a share"), transmitter.subscribe().expect("a share")];
    let threads = receivers.map(|receiver| thread::spawn(move || listen(receiver)));
    for number in 1..=LAST {
        transmitter.transmit(9, &body_of(number)).expect("it is lawful");
        if number % 1024 == 0 {
            thread::yield_now();
        }
    }
    drop(transmitter);
    for it in threads {
        assert!(it.join().expect("it does not panic") > 0);
    }
}

#[test]
fn refusals_have_their_numbers_and_change_nothing() {
    assert_eq!(Transmitter::new(128).unwrap_err(), Error::BadCapacity);
    assert_eq!(Transmitter::new_at(256, 128).unwrap_err(), Error::BadStart);
    let mut transmitter = Transmitter::new_at(256, 512).unwrap();
    let mut receiver = transmitter.subscribe().unwrap();
    assert_eq!(transmitter.transmit(0, b""), Err(Error::BadType));
    assert_eq!(transmitter.transmit(1, &[0; 33]), Err(Error::TooLong));
    let mut room = [0; 32];
    assert_eq!(receiver.receive(&mut room), Ok(None));
    transmitter.transmit(5, &[7; 32]).unwrap();
    assert_eq!(receiver.receive(&mut [0; 31]), Err(Error::ShortBuffer { wanted: 32 }));
    assert_eq!(receiver.receive(&mut room), Ok(Some(Message { type_id: 5, body: &[7; 32] })));
    for i in 0..7 {
        transmitter.transmit(10 + i, &[i as u8; 26]).unwrap();
    }
    let lapped = receiver.receive(&mut room).unwrap_err();
    // It looked for the record at 552, and goes on with the one at 808: those of 40 bytes before it, and padding.
    assert_eq!(lapped, Error::Lapped { count: 1, missed_bytes: 256 });
    assert_eq!(
        (lapped.number(), lapped.to_string().as_str()),
        (13, "the transmitter overtook the receiver: 1 times by now, 256 bytes missed")
    );
    assert_eq!(receiver.lap().map(|lap| lap.map(|it| it.place)), Ok(Some(552)));
    assert_eq!(receiver.place(), Ok(808));
    assert_eq!(receiver.receive(&mut room), Ok(Some(Message { type_id: 16, body: &[6; 26] })));
    assert_eq!(receiver.receive(&mut room), Ok(None));
}

#[test]
fn a_raw_receiver_loads_and_validates_until_it_is_lapped() {
    let mut transmitter = Transmitter::new(256).unwrap();
    let mut receiver = transmitter.subscribe_raw().unwrap();
    let mut room = [0xEE; 16];
    assert_eq!(receiver.receive_next(), Ok(None));
    assert_eq!(receiver.load_body(&mut room), Err(Error::NoMessage));
    assert_eq!(receiver.validate(), Err(Error::NoMessage));
    transmitter.transmit(3, b"body").unwrap();
    assert_eq!(receiver.receive_next(), Ok(Some(RawRecord { type_id: 3, len: 4 })));
    assert_eq!(receiver.load_body(&mut room[..3]), Err(Error::ShortBuffer { wanted: 0 }));
    receiver.load_body(&mut room).unwrap();
    assert_eq!((receiver.validate(), &room[..5]), (Ok(true), &b"body\xEE"[..]));
    for _ in 0..16 {
        transmitter.transmit(4, b"sixteen bytes...").unwrap();
    }
    assert_eq!(receiver.validate(), Ok(false));
    assert_eq!(receiver.receive_next(), Err(Error::Lapped { count: 1, missed_bytes: 360 }));
    assert_eq!(receiver.lapped_count(), Ok(1));
    assert_eq!(receiver.receive_next(), Ok(Some(RawRecord { type_id: 4, len: 16 })));
}
