//! Saved states of hashers and HMACs.

mod common;

use common::{every_length, hex, lines_of, ramp};
use digest::Mac;
use nattizhu::*;
use std::mem::{size_of, MaybeUninit};
use std::slice;

each_variant! {
    from_outside hmac_from_outside every_cut shorter_tail no_state no_hmac_state wiped
}

/// The state that these bytes are.
fn load<T: SerializableState>(saved: &[u8]) -> Result<T, DeserializeStateError> {
    T::deserialize(saved.try_into().expect("as many bytes as a state has"))
}

/// The bytes of a state: the words, the number of blocks, the length of the tail, the tail, zeros.
fn state(words: &str, blocks: u8, tail: &[u8]) -> Vec<u8> {
    let mut state = hex(words);
    let size = state.len() + 72;
    state.push(blocks);
    state.extend([0; 7]);
    state.push(tail.len() as u8);
    state.extend(tail);
    state.resize(size, 0);
    state
}

/// After the bytes 0 to 129: LibTomCrypt 1.18.2's words after two blocks, and the tail. The digest of 132
/// bytes is that of `tests/data/digests-*.txt`.
fn from_outside<D: Ripemd>(bits: usize) {
    let words = match bits {
        128 => "f17a9c1d86490b7f68f333296b25f41f",
        160 => "3ec3fd8e8665697e306e3614fbcdb57804c97a81",
        256 => "f931917e22dbfad18a7702c3a2304874d480e766ebce539b2b871092f899dd9f",
        _ => "c392e55a88ca3123e33a72ca6e7e4eb912357813aaaa13dc4ae597ff95d1b88ca66e94259ea88db5",
    };
    let outside = state(words, 2, &[128, 129]);
    assert_eq!(D::new_with_prefix(ramp(0, 130)).serialize()[..], outside);
    let mut hasher = load::<D>(&outside).unwrap();
    assert_eq!(hasher.serialize()[..], outside);
    hasher.update([130, 131]);
    assert_eq!(hasher.finalize()[..], every_length(bits)[132].1[..]);
}

/// Under a key of 20 bytes 1, 2 and so on: LibTomCrypt 1.18.2's words after each masked key. The tag is
/// that of `tests/data/tags.txt`.
fn hmac_from_outside<D: Ripemd>(bits: usize) {
    let (inner, outer) = match bits {
        128 => (
            "b8e59e1beda52fe06f5d006bc01c3aad",
            "aa621cf31d8bc030a45c02d3f1f62b1a",
        ),
        160 => (
            "f8bc455df2f8776b6c2ad7716f001355ddb1e73b",
            "c63681a8e6e3eec6a70f1df0acbcbff94e9c2305",
        ),
        256 => (
            "ebe4db5a045a3cee216e694b1fb32c22866b9406f89295629c53824e14479019",
            "0f5f673119a81cb1bfa0dae25978a8a9990babace8fac6875cb5c761816c3727",
        ),
        _ => (
            "309a1ec3383714c24ff99acc3220246437be47a1419976aa438636d5157f3ff2390f1f4d93500a8c",
            "86237896279179c88628c0f2d64f0dc8447cc13d4f549bd1e4d4d5253240e90368bffd7f7443c598",
        ),
    };
    let text = ramp(0, 150);
    let outside = [state(inner, 1, &text[..3]), state(outer, 1, &[])].concat();
    let mac = Hmac::<D>::new(&ramp(1, 20)).chain_update(&text[..3]);
    assert_eq!(mac.serialize()[..], outside);
    let mac = load::<Hmac<D>>(&outside).unwrap().chain_update(&text[3..]);
    let (_, tag) = lines_of(bits, "tags.txt")
        .into_iter()
        .find(|(key, _)| key[0] == 20)
        .unwrap();
    assert_eq!(mac.clone().finalize().into_bytes()[..], tag[..]);
    assert!(mac.verify(&tag).is_ok());
}

/// A hasher saved at every cut of a message, loaded, and saved again; the original goes on too.
fn every_cut<D: Ripemd>(bits: usize) {
    let messages = every_length(bits);
    let (whole, digest) = &messages[200];
    for (message, _) in &messages {
        let original = D::new_with_prefix(message);
        let saved = original.serialize();
        let loaded = D::deserialize(&saved).unwrap();
        assert_eq!(loaded.serialize(), saved);
        let rest = &whole[message.len()..];
        for mut hasher in [original, loaded] {
            // The first byte alone, so that a loaded tail and a buffered one come together.
            for piece in [&rest[..rest.len().min(1)], &rest[rest.len().min(1)..]] {
                hasher.update(piece);
                let saved = hasher.serialize();
                hasher = D::deserialize(&saved).unwrap().clone();
            }
            assert_eq!(hasher.finalize()[..], digest[..]);
        }
    }
}

/// An HMAC saved after tails of 63, 62 and 2 bytes: zeros are behind the last.
fn shorter_tail<D: Ripemd>(bits: usize) {
    let size = bits / 8 + 72;
    let mut mac = Hmac::<D>::new(b"key");
    for piece in [&[0xff; 63][..], &[0xff; 63], b"abcd"] {
        mac.update(piece);
    }
    let saved = mac.serialize();
    let (inner, outer) = saved.split_at(size);
    assert_eq!(inner[size - 64..size - 61], [2, b'c', b'd']);
    assert_eq!(inner[size - 61..], [0; 61]);
    assert_eq!(outer[size - 64..], [0; 64]);
    let loaded = Hmac::<D>::deserialize(&saved).unwrap();
    assert_eq!(loaded.serialize(), saved);
}

/// Bytes that are no hash state.
fn no_state<D: Ripemd>(bits: usize) {
    let size = bits / 8 + 72;
    let saved = D::new_with_prefix(b"abc").serialize().to_vec();
    assert_eq!(saved.len(), size);
    let refused = |bytes: &[u8]| load::<D>(bytes).err() == Some(DeserializeStateError);
    let tail = size - 64;
    for length in [64, 65, 128, 255] {
        let mut forged = saved.clone();
        forged[tail] = length;
        assert!(refused(&forged), "{length}");
    }
    for place in tail + 4..size {
        let mut forged = saved.clone();
        forged[place] = 1;
        assert!(refused(&forged), "{place}");
    }
    assert!(refused(&vec![0xff; size]));
    assert!(!refused(&vec![0; size]));
    assert!(!refused(&saved));
}

/// Bytes of which either half is no hash state.
fn no_hmac_state<D: Ripemd>(bits: usize) {
    let size = bits / 8 + 72;
    let saved = Hmac::<D>::new(b"key")
        .chain_update("abc")
        .serialize()
        .to_vec();
    assert_eq!(saved.len(), 2 * size);
    let refused = |bytes: &[u8]| load::<Hmac<D>>(bytes).err() == Some(DeserializeStateError);
    for half in [0, size] {
        for (place, byte) in [(size - 64, 64), (size - 1, 1)] {
            let mut forged = saved.clone();
            forged[half + place] = byte;
            assert!(refused(&forged), "{half} {place}");
        }
    }
    assert!(!refused(&saved));
}

/// The bytes of a value, before and after it is dropped.
fn bytes_of<T>(value: T) -> [Vec<u8>; 2] {
    let mut place = MaybeUninit::new(value);
    let bytes = |place: &MaybeUninit<T>| unsafe {
        slice::from_raw_parts(place.as_ptr().cast::<u8>(), size_of::<T>()).to_vec()
    };
    let before = bytes(&place);
    unsafe { place.as_mut_ptr().drop_in_place() };
    [before, bytes(&place)]
}

/// A dropped HMAC is zeros, and a dropped hasher has nothing of what it made of whole blocks, and with the
/// feature `zeroize` nothing of the bytes that wait for a block.
fn wiped<D: Ripemd>(_: usize) {
    let hasher = D::new_with_prefix(ramp(0, 150));
    let saved = hasher.serialize();
    let words = &saved[..saved.len() - 72];
    let [before, after] = bytes_of(hasher);
    let has = |bytes: &[u8], part: &[u8]| bytes.windows(part.len()).any(|window| window == part);
    assert!(has(&before, words) && !has(&after, words));
    assert_ne!(has(&after, &ramp(128, 22)), cfg!(feature = "zeroize"));
    let [before, after] = bytes_of(Hmac::<D>::new(b"key").chain_update(b"text"));
    assert!(before.iter().any(|&byte| byte != 0) && after.iter().all(|&byte| byte == 0));
}

/// The hashers and what they are made of say that they are wiped.
#[cfg(feature = "zeroize")]
#[test]
fn zeroize_on_drop() {
    fn has<T: digest::zeroize::ZeroizeOnDrop>() {}
    has::<Ripemd128>();
    has::<Ripemd160>();
    has::<Ripemd256>();
    has::<Ripemd320>();
    has::<block_api::Ripemd160Core>();
    has::<Hmac<Ripemd160>>();
}
