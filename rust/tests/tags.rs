//! HMAC, by this crate and by the crate `hmac` over its hashers.

mod common;

use common::{lines_of, ramp, rfc_2286};
use digest::{KeyInit, Mac};
use nattizhu::*;

each_variant! { tags_of_each_key wrong_tags }

/// The tag of a text by `M`, whole and in pieces, is this one.
fn has_tag<M: Mac + KeyInit + Clone>(key: &[u8], text: &[u8], tag: &[u8]) {
    let mac = M::new_from_slice(key).unwrap();
    assert_eq!(
        mac.clone().chain_update(text).finalize().into_bytes()[..],
        tag[..]
    );
    assert!(mac.clone().chain_update(text).verify_slice(tag).is_ok());
    for size in [1, 7, 63, 64, 65] {
        let mut mac = mac.clone();
        for piece in text.chunks(size) {
            mac.update(piece);
            mac.update(&[]);
        }
        assert_eq!(mac.clone().finalize().into_bytes()[..], tag[..], "{size}");
        assert!(mac.verify_truncated_left(&tag[..10]).is_ok());
    }
}

/// By this crate, and by both types of the crate `hmac`.
fn each_has_tag<D: Ripemd>(key: &[u8], text: &[u8], tag: &[u8]) {
    has_tag::<hmac::SimpleHmac<D>>(key, text, tag);
    has_tag::<hmac::Hmac<D>>(key, text, tag);
    has_tag::<Hmac<D>>(key, text, tag);
}

#[test]
fn published() {
    for [key, text, tag] in rfc_2286(128) {
        each_has_tag::<Ripemd128>(&key, &text, &tag);
    }
    for [key, text, tag] in rfc_2286(160) {
        each_has_tag::<Ripemd160>(&key, &text, &tag);
    }
}

fn tags_of_each_key<D: Ripemd>(bits: usize) {
    let text = ramp(0, 150);
    for (length, tag) in lines_of(bits, "tags.txt") {
        let key = ramp(1, length[0]);
        each_has_tag::<D>(&key, &text, &tag);
        assert!(Hmac::<D>::new(&key)
            .chain_update(&text)
            .verify(&tag)
            .is_ok());
    }
}

/// A key of 64 bytes is a [`digest::Key`] too.
#[test]
fn fixed_key() {
    let (_, tag) = lines_of(160, "tags.txt")
        .into_iter()
        .find(|(key, _)| key[0] == 64)
        .unwrap();
    let key = digest::Key::<Hmac<Ripemd160>>::try_from(&ramp(1, 64)[..]).unwrap();
    let mac = <Hmac<Ripemd160> as KeyInit>::new(&key).chain_update(ramp(0, 150));
    assert_eq!(mac.finalize().into_bytes()[..], tag[..]);
}

fn wrong_tags<D: Ripemd>(bits: usize) {
    let mac = Hmac::<D>::new(&ramp(1, 20)).chain_update(ramp(0, 150));
    let (_, tag) = lines_of(bits, "tags.txt")
        .into_iter()
        .find(|(key, _)| key[0] == 20)
        .unwrap();
    let refused = |tag: &[u8]| mac.clone().verify(tag) == Err(digest::MacError);
    assert!(!refused(&tag));
    for bit in 0..bits {
        let mut wrong = tag.clone();
        wrong[bit / 8] ^= 1 << (bit % 8);
        assert!(refused(&wrong), "{bit}");
    }
    for length in 0..tag.len() {
        assert!(refused(&tag[..length]), "{length}");
    }
    assert!(refused(&[&tag[..], &[0]].concat()));
    assert!(refused(&[&tag[..], &tag].concat()));
}
