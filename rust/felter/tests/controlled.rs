//! Reads that their caller controls.
#![forbid(unsafe_code)]

use felter::{many_to_one, one_to_one, Action, Error};
use std::panic::{catch_unwind, AssertUnwindSafe};
use std::thread;

#[test]
fn each_action_does_what_it_says() -> Result<(), Error> {
    let (mut producer, mut consumer) = one_to_one(1024)?;
    let mut room = [0; 128];
    for (action, shown, taken) in
        [(Action::Abort, 1, 0), (Action::Break, 1, 1), (Action::Commit, 3, 3), (Action::Continue, 3, 3)]
    {
        for type_id in 1..=3 {
            producer.write(type_id, b"body")?;
        }
        let mut seen = 0;
        let count = consumer.controlled_read(10, &mut room, |message| {
            seen += 1;
            assert_eq!((message.type_id, message.body), (seen, &b"body"[..]));
            action
        })?;
        assert_eq!((seen, count), (shown, taken));
        for type_id in taken + 1..=3 {
            assert_eq!(consumer.read(&mut room)?.map(|message| message.type_id), Some(type_id as i32));
        }
        assert_eq!(consumer.read(&mut room)?, None);
    }
    Ok(())
}

#[test]
fn a_message_without_room_stays() -> Result<(), Error> {
    let (mut producer, mut consumer) = one_to_one(1024)?;
    producer.write(1, b"short")?;
    producer.write(2, b"longer than that")?;
    let mut room = [0; 8];
    assert_eq!(consumer.controlled_read(10, &mut room, |_| Action::Continue)?, 1);
    let refused = consumer.controlled_read(10, &mut room, |_| Action::Continue);
    assert_eq!(refused, Err(Error::ShortBuffer { wanted: 16 }));
    assert_eq!(consumer.peek(&mut room), Err(Error::ShortBuffer { wanted: 16 }));
    assert!(consumer.take()? && !consumer.take()?);
    Ok(())
}

#[test]
fn the_head_moves_when_a_message_is_taken() -> Result<(), Error> {
    let (mut producer, mut consumer) = one_to_one(1024)?;
    producer.write(1, b"sixteen bytes ..")?;
    let mut room = [0; 128];
    assert!(consumer.peek(&mut room)?.is_some());
    assert_eq!(producer.positions()?.head, 0);
    assert!(consumer.take()?);
    assert_eq!(producer.positions()?.head, 24);
    Ok(())
}

#[test]
fn a_panic_of_the_caller_loses_no_message_and_blocks_no_other_call() -> Result<(), Error> {
    let (mut producer, mut consumer) = many_to_one(1024)?;
    let mut other = producer.split()?;
    for type_id in 1..=3 {
        producer.write(type_id, b"body")?;
    }
    let mut room = [0; 128];
    let show = |message: felter::Message<'_>| match message.type_id {
        1 => Action::Continue,
        _ => panic!("on purpose"),
    };
    let shown = catch_unwind(AssertUnwindSafe(|| consumer.controlled_read(9, &mut room, show)));
    assert!(shown.is_err());
    // (the message that was shown last stays)
    assert_eq!(consumer.try_iter().map(|it| it.type_id).collect::<Vec<_>>(), [2, 3]);
    let messages = (4..).map(|type_id| if type_id < 6 { (type_id, &b"body"[..]) } else { panic!("on purpose") });
    assert!(catch_unwind(AssertUnwindSafe(|| producer.write_batch(messages))).is_err());
    assert_eq!(consumer.read(&mut room)?, None);
    assert_eq!(producer.write_batch([(7, &b"body"[..])]), Ok(1));
    let panicked = thread::spawn(move || {
        let _claim = producer.claim(8, 4);
        panic!("on purpose");
    });
    assert!(panicked.join().is_err());
    other.write(9, b"after the claim")?;
    assert_eq!(consumer.try_iter().map(|it| it.type_id).collect::<Vec<_>>(), [7, 9]);
    Ok(())
}
