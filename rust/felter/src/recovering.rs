//! The call that recovers the messages of a ring from its file, after the process of the ring died.
use crate::error::Error;
use crate::handle::done;
use crate::message::Batch;
use crate::owned::OwnedMessage;
use crate::raw;
use std::fmt;

/// What was recovered from a ring.
#[derive(Clone, Debug, Default, PartialEq, Eq)]
#[non_exhaustive]
pub struct Recovered {
    /// The messages, in the order of their claims.
    pub messages: Vec<OwnedMessage>,
    /// The number of claims that were open. No message comes of these claims.
    pub open_claims: u64,
}

/// The reason why nothing was recovered from an image.
#[derive(Clone, Debug, PartialEq, Eq)]
pub struct NotRecovered {
    /// The code of what was found.
    pub reason: Error,
    /// What was found, and at which place, in words.
    pub finding: String,
}

impl fmt::Display for NotRecovered {
    fn fmt(&self, f: &mut fmt::Formatter<'_>) -> fmt::Result {
        f.write_str(&self.finding)
    }
}

impl std::error::Error for NotRecovered {
    fn source(&self) -> Option<&(dyn std::error::Error + 'static)> {
        Some(&self.reason)
    }
}

/// The length of a buffer that has room for the text of any finding.
const TEXT: usize = 128;

/// Returns what is wrong with an image, in words.
fn finding(image: &[u8]) -> String {
    let (mut text, mut len) = ([0; TEXT], 0);
    // SAFETY: the number is ours, and the pointers and lengths are those of slices.
    let code = unsafe { raw::felter_finding(image.as_ptr(), image.len(), &mut len, text.as_mut_ptr(), TEXT) };
    match done(code) {
        Ok(()) => String::from_utf8_lossy(&text[..len]).into_owned(),
        Err(reason) => reason.to_string(),
    }
}

/// Recovers from an image that begins at a multiple of 8.
fn recover_aligned(image: &[u8]) -> Result<Recovered, NotRecovered> {
    let (mut open_claims, mut count, mut used) = (0, 0, 0);
    // (a buffer of twice the capacity is always long enough, and the image is longer)
    let mut buffer = vec![0; image.len()];
    let (at, room) = (buffer.as_mut_ptr(), buffer.len());
    // SAFETY: the numbers are ours, the pointers and lengths are those of slices, and nothing changes the image, since
    // it is borrowed.
    done(unsafe {
        raw::felter_recover(image.as_ptr(), image.len(), &mut open_claims, &mut count, &mut used, at, room)
    })
    .map_err(|reason| NotRecovered { reason, finding: finding(image) })?;
    let messages = Batch::new(count, &buffer[..used]).map(OwnedMessage::from).collect();
    Ok(Recovered { messages, open_claims })
}

/// Recovers the messages of a ring whose process died. The image is what was in the file of the ring.
///
/// The messages are those that were committed, from the head on. Each message comes whole, once, and in the order of
/// the claims. What the consumer was shown, and after which it had not moved the head, comes again, before the other
/// messages. The library proves this for the memory of any ring.
///
/// To go on, make a ring in a new file, and write the messages to it. A ring of the same capacity has room for all of
/// them. The process of the ring must have died, or have dropped each handle of the ring. Otherwise the messages are
/// not promised.
///
/// Errors: [`NotRecovered`], whose `reason` is [`Error::NoImage`] if the image is not that of a ring, or if the image
/// is not complete. If the ring is damaged, the reason is [`Error::UnalignedPosition`], [`Error::TailBeforeHead`],
/// [`Error::TailTooFar`], [`Error::BadHeaderLength`] or [`Error::BadHeaderType`].
///
/// ```
/// let path = std::env::temp_dir().join(format!("felter-recovered-{}", std::process::id()));
/// // SAFETY: no other code knows of the file.
/// let (mut producer, consumer) = unsafe { felter::many_to_one_in_file(&path, 1024)? };
/// producer.write(7, b"left")?;
/// drop((producer, consumer)); // or the process dies
/// let recovered = felter::recover(&std::fs::read(&path)?)?;
/// std::fs::remove_file(&path)?;
/// assert_eq!((recovered.messages.len(), recovered.open_claims), (1, 0));
/// // SAFETY: as before.
/// let (mut producer, mut consumer) = unsafe { felter::many_to_one_in_file(&path, 1024)? };
/// producer.write_batch(recovered.messages.iter().map(|it| (it.type_id, &it.body[..])))?;
/// assert_eq!(consumer.read_owned()?.map(|it| it.body), Some(b"left".to_vec()));
/// std::fs::remove_file(&path)?;
/// # Ok::<(), Box<dyn std::error::Error>>(())
/// ```
pub fn recover(image: &[u8]) -> Result<Recovered, NotRecovered> {
    if image.as_ptr() as usize % 8 == 0 {
        return recover_aligned(image);
    }
    // (so a part of the copy begins at a multiple of 8)
    let mut copy = vec![0; image.len() + 8];
    let from = (8 - copy.as_ptr() as usize % 8) % 8;
    copy[from..from + image.len()].copy_from_slice(image);
    recover_aligned(&copy[from..from + image.len()])
}
