//! What handles are asked: sizes, records of counters, and what a conductor's counters are.
use felter::{Conductor, Counters, Error, Sizes, Transmitter};

#[test]
fn ends_say_their_sizes() {
    let (producer, consumer) = felter::one_to_one(512).unwrap();
    let mut transmitter = Transmitter::new(4096).unwrap();
    let (mut receiver, mut raw) = (transmitter.subscribe().unwrap(), transmitter.subscribe_raw().unwrap());
    let of_ring = Ok(Sizes { capacity: 512, max_message: 64 });
    assert_eq!((producer.sizes(), consumer.sizes()), (of_ring, of_ring));
    let of_board = Ok(Sizes { capacity: 4096, max_message: 512 });
    assert_eq!((transmitter.sizes(), receiver.sizes(), raw.sizes()), (of_board, of_board, of_board));
    assert_eq!((receiver.place(), receiver.lap(), raw.place(), raw.lap()), (Ok(0), Ok(None), Ok(0), Ok(None)));
}

#[test]
fn values_are_raised_and_records_have_states() {
    let mut counters = Counters::new(2, 50).unwrap();
    assert_eq!(counters.propose_max(0, 5), Err(Error::NotAllocated));
    assert_eq!((counters.state(0), counters.deadline(0), counters.state(2)), (Ok(0), Ok(0), Err(Error::BadId)));
    let id = counters.allocate(3, 1, b"", b"", 0).unwrap();
    let raised = [5, 5, -5, 6].map(|value| counters.propose_max(id, value).unwrap());
    assert_eq!((raised, counters.value(id)), ([true, false, false, true], Ok(6)));
    assert_eq!((counters.state(id), counters.deadline(id)), (Ok(1), Ok(i64::MAX as u64)));
    counters.free(7, id).unwrap();
    assert_eq!((counters.state(id), counters.deadline(id)), (Ok(-1), Ok(57)));
}

#[test]
fn a_conductors_counters_are_asked() {
    let mut conductor = Conductor::new(1024, 1024, 3, 0).unwrap();
    let mut client = conductor.client().unwrap();
    client.allocate(1, b"", b"").unwrap();
    let asked = client.allocate_owned(6, 77, b"key", b"label").unwrap();
    client.set(1, -4).unwrap();
    conductor.work(0, 9).unwrap();
    assert_eq!((conductor.count(), conductor.find(6, asked), conductor.find(6, 99)), (Ok(3), Ok(Some(1)), Ok(None)));
    assert_eq!((conductor.value(1), conductor.type_id(1), conductor.owner(1)), (Ok(-4), Ok(6), Ok(77)));
    assert_eq!((conductor.registration(1), conductor.label(1)), (Ok(asked), Ok(b"label".to_vec())));
    assert_eq!(&conductor.key(1).unwrap()[..4], b"key\0");
    assert_eq!((conductor.state(1), conductor.deadline(2)), (Ok(1), Ok(0)));
    assert_eq!((conductor.value(2), conductor.value(3)), (Err(Error::NotAllocated), Err(Error::BadId)));
}
