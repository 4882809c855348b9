//! One message through a ring.
#![forbid(unsafe_code)]

fn main() -> Result<(), felter::Error> {
    let (mut producer, mut consumer) = felter::many_to_one(512)?;
    producer.write(7, b"hello")?;
    let mut body = [0; 64];
    if let Some(message) = consumer.read(&mut body)? {
        println!("{} {}", message.type_id, String::from_utf8_lossy(message.body));
    }
    Ok(())
}
