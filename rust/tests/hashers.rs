//! The hashers and their traits.

mod common;

use common::{every_length, hex, lines_of};
use digest::block_api::{AlgorithmName, BlockSizeUser};
use digest::dev::{feed_rand_16mib, fixed_reset_test, TestVector};
use digest::{
    Digest, DynDigest, FixedOutput, FixedOutputReset, HashMarker, OutputSizeUser, Update,
};
use nattizhu::block_api::{Ripemd128Core, Ripemd160Core, Ripemd320Core};
use nattizhu::*;
use std::fmt::{self, Debug};

each_variant! { every_length_whole_and_in_pieces longer rand_16mib copies_go_on empty_pieces traits }

fn every_length_whole_and_in_pieces<D>(bits: usize)
where
    D: Ripemd + FixedOutputReset + Debug + Default + Update + HashMarker,
{
    for (message, digest) in every_length(bits) {
        assert_eq!(D::digest(&message)[..], digest[..], "{}", message.len());
        assert_eq!(digest_message::<D>(&message)[..], digest[..]);
        let [input, output] = [message, digest].map(|bytes| &*bytes.leak());
        fixed_reset_test::<D>(&TestVector { input, output }).unwrap();
    }
}

fn longer<D: Ripemd>(bits: usize) {
    for (length, digest) in lines_of(bits, "digests-long.txt") {
        let message = common::ramp(0, length[0]);
        assert_eq!(D::digest(&message)[..], digest[..]);
        assert_eq!(digest_message::<D>(&message)[..], digest[..]);
    }
}

/// The digest of the stream of `feed_rand_16mib`.
fn rand_16mib<D: Ripemd + Update>(bits: usize) {
    let (_, digest) = lines_of(bits, "streams.txt").remove(0);
    let mut hasher = D::new();
    feed_rand_16mib(&mut hasher);
    assert_eq!(hasher.finalize()[..], digest[..]);
}

/// At every cut of a message, a copy takes another way than its original.
fn copies_go_on<D: Ripemd>(bits: usize) {
    let messages = every_length(bits);
    let (whole, digest) = &messages[200];
    for (message, of_the_part) in &messages {
        let mut hasher = D::new_with_prefix(message);
        let copy = hasher.clone();
        Digest::update(&mut hasher, &whole[message.len()..]);
        assert_eq!(copy.finalize()[..], of_the_part[..]);
        assert_eq!(hasher.finalize()[..], digest[..]);
    }
}

fn empty_pieces<D: Ripemd>(bits: usize) {
    for (message, digest) in every_length(bits) {
        let hasher = D::new_with_prefix([])
            .chain_update(&message)
            .chain_update([]);
        assert_eq!(hasher.finalize()[..], digest[..]);
    }
}

/// The traits that a hasher has, and what they say.
fn traits<D>(bits: usize)
where
    D: Ripemd
        + Update
        + FixedOutput
        + FixedOutputReset
        + digest::Reset
        + HashMarker
        + BlockSizeUser
        + OutputSizeUser
        + Default
        + Clone
        + Debug
        + AlgorithmName
        + DynDigest
        + Send
        + Sync
        + 'static,
{
    let name = format!("Ripemd{bits}");
    assert_eq!(Name(D::default()).to_string(), name);
    assert_eq!(format!("{:?}", D::default()), name + " { ... }");
    assert_eq!(<D as Digest>::output_size(), bits / 8);
    assert_eq!(D::block_size(), 64);

    let (message, digest) = every_length(bits).remove(150);
    let mut hasher: Box<dyn DynDigest> = Box::<D>::default();
    hasher.update(&message);
    assert_eq!(hasher.finalize_reset()[..], digest[..]);
    hasher.update(&message);
    let mut short = vec![0; digest.len() - 1];
    assert!(hasher.finalize_into_reset(&mut short).is_err());
}

#[cfg(feature = "std")]
#[test]
fn written() {
    let (message, digest) = every_length(160).remove(150);
    let mut hasher = Ripemd160::new();
    std::io::Write::write_all(&mut hasher, &message).unwrap();
    std::io::Write::flush(&mut hasher).unwrap();
    assert_eq!(hasher.finalize()[..], digest[..]);
}

#[cfg(feature = "oid")]
#[test]
fn object_identifiers() {
    use digest::const_oid::AssociatedOid;
    assert_eq!(Ripemd128::OID.to_string(), "1.3.36.3.2.2");
    assert_eq!(Ripemd160::OID.to_string(), "1.3.36.3.2.1");
    assert_eq!(Ripemd256::OID.to_string(), "1.3.36.3.2.3");
}

/// What has an algorithm's name.
struct Name<T>(T);

impl<T: AlgorithmName> fmt::Display for Name<T> {
    fn fmt(&self, f: &mut fmt::Formatter<'_>) -> fmt::Result {
        T::write_alg_name(f)
    }
}

#[test]
fn names() {
    assert_eq!(Name(Ripemd128Core::default()).to_string(), "Ripemd128");
    assert_eq!(Name(Ripemd320Core::default()).to_string(), "Ripemd320");
    assert_eq!(
        Name(Hmac::<Ripemd256>::new(b"")).to_string(),
        "Hmac<Ripemd256>"
    );
    assert_eq!(
        format!("{:?}", Ripemd160Core::default()),
        "Ripemd160Core { ... }"
    );
    assert_eq!(
        format!("{:?}", Hmac::<Ripemd160>::new(b"")),
        "Hmac<Ripemd160> { .. }"
    );
}

/// The authors' digest of a million letters "a".
#[test]
fn a_million_letters() {
    let mut hasher = Ripemd160::new();
    for _ in 0..1000 {
        Digest::update(&mut hasher, [b'a'; 1000]);
    }
    assert_eq!(
        hasher.finalize()[..],
        hex("52783243c1697bdbe16d37f97f68f08325dc1528")[..]
    );
}
