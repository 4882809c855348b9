//! A thread writes 1,000 messages, and this one reads them.
use std::thread;

fn main() -> Result<(), Box<dyn std::error::Error + Send + Sync>> {
    let (mut producer, mut consumer) = felter::many_to_one(1024)?;
    let writer = thread::spawn(move || (0u32..1000).try_for_each(|i| producer.send(1, &i.to_ne_bytes(), None)));
    let (mut room, mut next) = ([0; 16], 0u32);
    while next < 1000 {
        // (without a deadline, the call is refused if the writer ends before all messages came)
        let message = consumer.recv(&mut room, None)?;
        assert_eq!(message.body, next.to_ne_bytes());
        next += 1;
    }
    writer.join().expect("it does not panic")?;
    println!("{next} messages, in order");
    Ok(())
}
