//! The messages that are recovered from the image of a ring.
use felter::{Error, OwnedMessage};

const CAPACITY: u32 = 256;

#[repr(align(64))]
struct Memory([u8; 896 + 2 * CAPACITY as usize + 8]);

/// Returns the image of a ring after these messages were written, the first one was read, and a claim was left open.
fn image_of(messages: &[(i32, &[u8])]) -> Vec<u8> {
    let mut memory = Box::new(Memory([0xa7; 896 + 2 * CAPACITY as usize + 8]));
    let (at, length) = (memory.0.as_mut_ptr(), felter::ring_memory(CAPACITY).expect("a capacity"));
    // SAFETY: the memory stays until the handles are gone, and no other code writes to it.
    let ring = unsafe { felter::many_to_one_in_memory(at, length, CAPACITY) };
    let (mut producer, mut consumer) = ring.expect("it is long");
    let claim = producer.claim(9, 4).expect("there is room").keep();
    producer.write_batch(messages.iter().copied()).expect("there is room");
    let image = memory.0[..length].to_vec();
    claim.commit(&mut producer).expect("it is open");
    assert_eq!(consumer.read_owned().expect("it is whole").map(|it| it.type_id), Some(9));
    image
}

fn owned(type_id: i32, body: &[u8]) -> OwnedMessage {
    OwnedMessage { type_id, body: body.to_vec() }
}

fn store(image: &mut [u8], at: usize, value: u64) {
    image[at..at + 8].copy_from_slice(&value.to_le_bytes());
}

#[test]
fn the_messages_come_whole_and_in_order() {
    let image = image_of(&[(7, b"first"), (i32::MAX, b""), (1, &[5; 32])]);
    let recovered = felter::recover(&image).expect("it is whole");
    let wanted = [owned(7, b"first"), owned(i32::MAX, b""), owned(1, &[5; 32])];
    assert_eq!((&recovered.messages[..], recovered.open_claims), (&wanted[..], 1));
    // an image may begin at any address, and may be followed by more
    for at in 0..9 {
        let mut moved = vec![3; at];
        moved.extend_from_slice(&image);
        moved.push(9);
        assert_eq!(felter::recover(&moved[at..]).as_ref(), Ok(&recovered));
    }
    // a new ring goes on
    let (mut producer, mut consumer) = felter::one_to_one(CAPACITY).expect("a capacity");
    let written = producer.write_batch(recovered.messages.iter().map(|it| (it.type_id, &it.body[..])));
    assert_eq!(written, Ok(3));
    for it in wanted {
        assert_eq!(consumer.read_owned(), Ok(Some(it)));
    }
    assert_eq!(consumer.read_owned(), Ok(None));
}

#[test]
fn a_ring_without_messages_has_none() {
    let mut image = image_of(&[]);
    assert_eq!(felter::recover(&image).map(|it| (it.messages, it.open_claims)), Ok((vec![], 1)));
    // neither has one whose claim has no mark yet
    store(&mut image, 128, 0);
    assert_eq!(felter::recover(&image), Ok(felter::Recovered::default()));
}

#[test]
fn damage_is_found_at_its_place() {
    let (tail, head) = (128 + CAPACITY as usize + 128, 128 + CAPACITY as usize + 384);
    let slots = 896 + CAPACITY as usize;
    let whole = image_of(&[(7, b"first")]);
    let cases = [
        (0, 5, Error::NoImage, "the memory is not the image of a ring"),
        (head, 4, Error::UnalignedPosition, "the head or the tail is not a multiple of 8: head 4, tail 32"),
        (head, 40, Error::TailBeforeHead, "the tail is before the head: head 40, tail 32"),
        (tail, 264, Error::TailTooFar, "the tail is more than the capacity after the head: head 0, tail 264"),
        (
            slots + 16,
            7 << 32 | 41,
            Error::BadHeaderLength,
            "a header has a length that no record has there: byte 16 of the buffer, length 1",
        ),
        (
            128 + 16,
            16 + 48 + 2,
            Error::BadHeaderLength,
            "a header has a length that no record has there: byte 16 of the buffer, length -48",
        ),
        (
            slots + 16,
            13,
            Error::BadHeaderType,
            "a header has a type id that no record has: byte 16 of the buffer, type id 0",
        ),
    ];
    for (at, value, reason, finding) in cases {
        let mut image = whole.clone();
        store(&mut image, at, value);
        let refused = felter::recover(&image).expect_err("it is damaged");
        assert_eq!((refused.reason, &refused.finding[..]), (reason, finding));
        assert_eq!(refused.to_string(), finding);
        assert_eq!(std::error::Error::source(&refused).map(ToString::to_string), Some(reason.to_string()));
    }
    for len in [0, 127, whole.len() - 1] {
        assert_eq!(felter::recover(&whole[..len]).expect_err("it is cut").reason, Error::NoImage);
    }
}
