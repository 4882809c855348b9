//! What errors are to other code: they convert, go to other threads, and name their cause.
use felter::{Error, Refused};

fn crosses<T: Send + Sync + 'static>() {}

#[test]
fn refused_handles_convert_into_boxed_errors() {
    fn join_two_rings() -> Result<(), Box<dyn std::error::Error + Send + Sync>> {
        let (mut one, _consumer) = felter::many_to_one(128)?;
        let (other, _consumer) = felter::many_to_one(128)?;
        one.join(other)?;
        Ok(())
    }
    let refused = join_two_rings().unwrap_err();
    let text = "the two handles are of two rings, boards, conductors, sets of counters or shared counters";
    assert_eq!(refused.to_string(), text);
    assert_eq!(refused.source().and_then(|it| it.downcast_ref()), Some(&Error::OtherRing));
}

#[test]
fn all_cross_threads() {
    crosses::<Refused<felter::Producer>>();
    crosses::<Refused<felter::Consumer>>();
    crosses::<Refused<felter::Transmitter>>();
    crosses::<Refused<felter::Receiver>>();
    crosses::<Refused<felter::Conductor>>();
    crosses::<Refused<felter::KeptClaim>>();
    crosses::<felter::Client>();
    crosses::<felter::Counters>();
    crosses::<felter::Reader>();
    crosses::<Refused<felter::Adder>>();
    crosses::<Refused<felter::RawReceiver>>();
    crosses::<(felter::Claim, felter::IntoIter, felter::Iter, felter::ReceiverIter)>();
    crosses::<(felter::Doorbell, felter::InFileError, felter::NotRecovered)>();
}

#[test]
fn numbers_are_those_of_c() {
    let (mut producer, mut consumer) = felter::one_to_one(128).expect("a power of two");
    assert_eq!(producer.write(0, b"").unwrap_err().number(), 4);
    producer.write(1, b"twelve bytes").expect("there is room");
    assert_eq!(consumer.read(&mut [0; 4]).unwrap_err(), Error::ShortBuffer { wanted: 12 });
    assert_eq!(producer.split().unwrap_err().number(), 101);
}

#[test]
fn errors_say_what_is_wrong_and_name_their_cause() {
    assert_eq!(Error::InsufficientCapacity.to_string(), "the ring is full");
    assert_eq!(Error::Unknown(99).to_string(), "unknown code 99");
    let waited = felter::WaitError::Refused(Error::BadType);
    let cause = std::error::Error::source(&waited).and_then(|it| it.downcast_ref());
    assert_eq!((cause, waited.to_string().as_str()), (Some(&Error::BadType), "the type id is below 1"));
    assert!(std::error::Error::source(&felter::WaitError::Timeout).is_none());
    let sent = felter::RequestError::NotSent(Error::TooLong);
    assert!(std::error::Error::source(&sent).is_some() && sent.to_string().starts_with("the command was not sent: "));
}
