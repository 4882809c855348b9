//! What a consumer has before it.
use felter::{Consumer, Error, Found, Producer};

fn stands(consumer: &mut Consumer, producer: &mut Producer) -> (Found, u64) {
    let standing = consumer.standing(producer).unwrap();
    (standing.found, standing.head)
}

#[test]
fn a_consumer_says_what_is_next() {
    let (mut producer, mut consumer) = felter::many_to_one(512).unwrap();
    assert_eq!(stands(&mut consumer, &mut producer), (Found::Nothing, 0));
    let claim = producer.claim(1, 5).unwrap().keep();
    producer.write(2, b"").unwrap();
    assert_eq!(stands(&mut consumer, &mut producer), (Found::Claim, 0));
    claim.commit(&mut producer).unwrap();
    assert_eq!(stands(&mut consumer, &mut producer), (Found::Message, 0));
    let mut room = [0; 64];
    assert_eq!(consumer.read(&mut room).unwrap().map(|it| it.type_id), Some(1));
    assert_eq!(stands(&mut consumer, &mut producer), (Found::Message, 16));
    assert_eq!(consumer.read(&mut room).unwrap().map(|it| it.type_id), Some(2));
    assert_eq!(stands(&mut consumer, &mut producer), (Found::Nothing, 24));
    drop(producer.claim(1, 8).unwrap());
    assert_eq!(stands(&mut consumer, &mut producer), (Found::Change, 40));
    assert_eq!(stands(&mut consumer, &mut producer), (Found::Nothing, 40));
}

#[test]
fn a_producer_of_another_ring_is_refused() {
    let ((_producer, mut consumer), (mut other, _of_other)) =
        (felter::many_to_one(128).unwrap(), felter::many_to_one(128).unwrap());
    assert_eq!(consumer.standing(&mut other), Err(Error::OtherRing));
}
