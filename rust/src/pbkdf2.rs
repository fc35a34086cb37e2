//! Keys from passwords.

use crate::many::{group, MESSAGES_AT_ONCE};
use crate::{sys, Ripemd};
use core::fmt;

/// Why [`pbkdf2_hmac`] or [`pbkdf2_hmac_list`] derives no key.
///
/// ```
/// use nattizhu::{pbkdf2_hmac, Pbkdf2Error, Ripemd160};
///
/// let mut key = [0; 16];
/// assert_eq!(pbkdf2_hmac::<Ripemd160>(b"password", b"salt", 0, &mut key), Err(Pbkdf2Error::NoRounds));
/// ```
#[derive(Clone, Copy, Debug, PartialEq, Eq)]
#[non_exhaustive]
pub enum Pbkdf2Error {
    /// The number of rounds is 0.
    NoRounds,
    /// A key is longer than 2^32 - 1 digests.
    KeyTooLong,
    /// There are more or fewer salts than passwords, or more or fewer bytes than their keys have.
    InvalidLength,
}

impl fmt::Display for Pbkdf2Error {
    fn fmt(&self, f: &mut fmt::Formatter<'_>) -> fmt::Result {
        f.write_str(match self {
            Self::NoRounds => "no rounds",
            Self::KeyTooLong => "key too long",
            Self::InvalidLength => "give one salt, and `size` bytes of keys, for each password",
        })
    }
}

impl core::error::Error for Pbkdf2Error {}

/// What the answer of the library means, which is false for two reasons.
fn allowed(answer: bool, rounds: u32) -> Result<(), Pbkdf2Error> {
    match (answer, rounds) {
        (true, _) => Ok(()),
        (false, 0) => Err(Pbkdf2Error::NoRounds),
        (false, _) => Err(Pbkdf2Error::KeyTooLong),
    }
}

/// Derives a key from a password and a salt, each of any length, by so many rounds of HMAC (PBKDF2, RFC
/// 8018), and writes it to `key`, which may have any length up to 2^32 - 1 digests.
///
/// # Errors
///
/// [`Pbkdf2Error::NoRounds`] if `rounds` is 0, and else [`Pbkdf2Error::KeyTooLong`] if `key` is longer
/// than that. Nothing is written then.
///
/// ```
/// use nattizhu::{pbkdf2_hmac, Pbkdf2Error, Ripemd160};
///
/// let mut key = [0; 16];
/// pbkdf2_hmac::<Ripemd160>(b"password", &[0x12, 0x34, 0x56, 0x78], 5, &mut key)?;
/// assert_eq!(u128::from_be_bytes(key), 0x7a3d7c03e7266bf83d78fb29d2641f56);
/// # Ok::<(), Pbkdf2Error>(())
/// ```
pub fn pbkdf2_hmac<D: Ripemd>(
    password: &[u8],
    salt: &[u8],
    rounds: u32,
    key: &mut [u8],
) -> Result<(), Pbkdf2Error> {
    let answer = sys::pbkdf2::<D::Variant>(password, salt, rounds, key);
    allowed(answer, rounds)
}

/// Derives a key of `size` bytes from each password and the salt at its place, as [`pbkdf2_hmac`] does, up
/// to eight at once, and writes the keys one after another to `keys`.
///
/// # Errors
///
/// As [`pbkdf2_hmac`], for an empty list too, and else [`Pbkdf2Error::InvalidLength`] if there are not as many
/// salts as passwords, or `keys` has not `size` bytes for each. Nothing is written then.
///
/// ```
/// use nattizhu::{pbkdf2_hmac, pbkdf2_hmac_list, Pbkdf2Error, Ripemd160};
///
/// let mut keys = [0; 64];
/// pbkdf2_hmac_list::<Ripemd160>(&[b"password", b"word"], &[b"salt", b""], 1000, 32, &mut keys)?;
/// let mut key = [0; 32];
/// pbkdf2_hmac::<Ripemd160>(b"word", b"", 1000, &mut key)?;
/// assert_eq!(keys[32..], key);
/// # Ok::<(), Pbkdf2Error>(())
/// ```
pub fn pbkdf2_hmac_list<D: Ripemd>(
    passwords: &[&[u8]],
    salts: &[&[u8]],
    rounds: u32,
    size: usize,
    keys: &mut [u8],
) -> Result<(), Pbkdf2Error> {
    // The library refuses rounds and sizes for an empty list too.
    let answer = sys::pbkdf2_list::<D::Variant>(&[], &[], rounds, size, &mut []);
    allowed(answer, rounds)?;
    if salts.len() != passwords.len() || passwords.len().checked_mul(size) != Some(keys.len()) {
        return Err(Pbkdf2Error::InvalidLength);
    }
    let mut keys = keys;
    for (passwords, salts) in passwords
        .chunks(MESSAGES_AT_ONCE)
        .zip(salts.chunks(MESSAGES_AT_ONCE))
    {
        let n = passwords.len();
        let (now, later) = keys.split_at_mut(n * size);
        keys = later;
        let (passwords, salts) = (&group(passwords)[..n], &group(salts)[..n]);
        let answer = sys::pbkdf2_list::<D::Variant>(passwords, salts, rounds, size, now);
        allowed(answer, rounds)?;
    }
    Ok(())
}
