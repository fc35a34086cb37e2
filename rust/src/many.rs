//! Records and lists of messages, up to eight at once.

use crate::sys::{self, taken, Message};
use crate::Ripemd;
use core::fmt;
use digest::Output;

/// There are more or fewer places for outputs than messages, or than records of the size.
#[derive(Clone, Copy, Debug, PartialEq, Eq)]
pub struct InvalidLength;

impl fmt::Display for InvalidLength {
    fn fmt(&self, f: &mut fmt::Formatter<'_>) -> fmt::Result {
        f.write_str("give one place for each message, or for each `size` bytes of records")
    }
}

impl core::error::Error for InvalidLength {}

/// Messages that are handed to the library at once.
pub(crate) const MESSAGES_AT_ONCE: usize = 128;

/// The first messages of a list, as the library takes them; behind them, empty ones.
pub(crate) fn group<'a>(list: &[&'a [u8]]) -> [Message<'a>; MESSAGES_AT_ONCE] {
    let mut group = [Message::from(&[][..]); MESSAGES_AT_ONCE];
    for (place, &bytes) in group.iter_mut().zip(list) {
        *place = Message::from(bytes);
    }
    group
}

fn fits(answer: bool) -> Result<(), InvalidLength> {
    if answer {
        Ok(())
    } else {
        Err(InvalidLength)
    }
}

/// Writes the digest of each record of `size` bytes to its place in `digests`. The records lie one after
/// another. They are hashed up to eight at once.
///
/// # Errors
///
/// [`InvalidLength`] if `records` has not `size` bytes for each place in `digests`. Nothing is written
/// then.
///
/// ```
/// use nattizhu::{digest_each, Digest, Ripemd160};
///
/// let mut digests = [Default::default(); 2];
/// digest_each::<Ripemd160>(b"abcabd", 3, &mut digests)?;
/// assert_eq!(digests, [Ripemd160::digest(b"abc"), Ripemd160::digest(b"abd")]);
/// # Ok::<(), nattizhu::InvalidLength>(())
/// ```
pub fn digest_each<D: Ripemd>(
    records: &[u8],
    size: usize,
    digests: &mut [Output<D>],
) -> Result<(), InvalidLength> {
    fits(sys::digest_each::<D::Variant>(records, size, digests))
}

/// Writes the digest of each message, of any lengths, to its place in `digests`. They are hashed eight at
/// once.
///
/// # Errors
///
/// [`InvalidLength`] if there are more or fewer messages than places. Nothing is written then.
///
/// ```
/// use nattizhu::{digest_list, Digest, Ripemd160};
///
/// let mut digests = [Default::default(); 2];
/// digest_list::<Ripemd160>(&[b"abc", b""], &mut digests)?;
/// assert_eq!(digests, [Ripemd160::digest(b"abc"), Ripemd160::digest(b"")]);
/// # Ok::<(), nattizhu::InvalidLength>(())
/// ```
pub fn digest_list<D: Ripemd>(
    messages: &[&[u8]],
    digests: &mut [Output<D>],
) -> Result<(), InvalidLength> {
    fits(messages.len() == digests.len())?;
    for (messages, digests) in messages
        .chunks(MESSAGES_AT_ONCE)
        .zip(digests.chunks_mut(MESSAGES_AT_ONCE))
    {
        let group = &group(messages)[..messages.len()];
        taken(sys::digest_list::<D::Variant>(group, digests));
    }
    Ok(())
}

/// Writes the tag (HMAC, RFC 2104) of each record of `size` bytes under the key to its place in `tags`.
/// The records lie one after another. The tags are made up to eight at once.
///
/// # Errors
///
/// [`InvalidLength`] if `records` has not `size` bytes for each place in `tags`. Nothing is written then.
///
/// ```
/// use nattizhu::{hmac_each, Hmac, Mac, Ripemd160};
///
/// let mut tags = [Default::default(); 2];
/// hmac_each::<Ripemd160>(b"key", b"abcabd", 3, &mut tags)?;
/// assert!(Hmac::<Ripemd160>::new(b"key").chain_update(b"abd").verify(&tags[1]).is_ok());
/// # Ok::<(), nattizhu::InvalidLength>(())
/// ```
pub fn hmac_each<D: Ripemd>(
    key: &[u8],
    records: &[u8],
    size: usize,
    tags: &mut [Output<D>],
) -> Result<(), InvalidLength> {
    fits(sys::hmac_each::<D::Variant>(key, records, size, tags))
}

/// Writes the tag (HMAC, RFC 2104) of each text, of any lengths, under the key to its place in `tags`.
/// The tags are made up to eight at once.
///
/// # Errors
///
/// [`InvalidLength`] if there are more or fewer texts than places. Nothing is written then.
///
/// ```
/// use nattizhu::{hmac_list, Hmac, Mac, Ripemd160};
///
/// let mut tags = [Default::default(); 2];
/// hmac_list::<Ripemd160>(b"key", &[b"abc", b""], &mut tags)?;
/// assert!(Hmac::<Ripemd160>::new(b"key").chain_update(b"abc").verify(&tags[0]).is_ok());
/// # Ok::<(), nattizhu::InvalidLength>(())
/// ```
pub fn hmac_list<D: Ripemd>(
    key: &[u8],
    texts: &[&[u8]],
    tags: &mut [Output<D>],
) -> Result<(), InvalidLength> {
    fits(texts.len() == tags.len())?;
    // A long key is replaced by its digest first, so that no group hashes it again.
    let mut digest = Output::<D>::default();
    let short = if key.len() > 64 {
        sys::digest::<D::Variant>(key, &mut digest);
        &digest
    } else {
        key
    };
    for (texts, tags) in texts
        .chunks(MESSAGES_AT_ONCE)
        .zip(tags.chunks_mut(MESSAGES_AT_ONCE))
    {
        let group = &group(texts)[..texts.len()];
        taken(sys::hmac_list::<D::Variant>(short, group, tags));
    }
    if key.len() > 64 {
        sys::wipe(&mut digest);
    }
    Ok(())
}
