//! Tries `ripemd` 0.2 by the macros of `digest`, as its own tests do, and what depends on it. The folder `data` is made of
//! the repository's `tests/data`, and the saved states in it by a textbook.
#![cfg(test)]

use digest::dev::{blobby, feed_rand_16mib, fixed_reset_test, mac_test, reset_mac_test};
use digest::{hash_serialization_test, new_mac_test, new_test};
use hmac::{EagerHash, Hmac, HmacReset, SimpleHmac, SimpleHmacReset};
use ripemd::block_api::{Ripemd128Core, Ripemd160Core, Ripemd256Core, Ripemd320Core};
use ripemd::digest::block_api::{AlgorithmName, CoreProxy};
use ripemd::{Digest, Ripemd128, Ripemd160, Ripemd256, Ripemd320};

#[derive(Clone, Copy)]
struct Stream {
    bits: &'static [u8],
    digest: &'static [u8],
}

#[derive(Clone, Copy)]
struct Key {
    password: &'static [u8],
    salt: &'static [u8],
    rounds: &'static [u8],
    key: &'static [u8],
}

fn digest_of<D: Digest>(message: &[u8]) -> Vec<u8> {
    let mut hasher = D::new();
    hasher.update(message);
    hasher.finalize().to_vec()
}

fn key_of<D: EagerHash>(of: &Key) -> Vec<u8> {
    let rounds = u32::from_be_bytes(of.rounds.try_into().unwrap());
    let mut found = vec![0; of.key.len()];
    pbkdf2::pbkdf2_hmac::<D>(of.password, of.salt, rounds, &mut found);
    found
}

macro_rules! tags {
    ($($module:ident $tags:ident $mac:ty, $test:ident;)*) => {$(
        mod $module {
            use super::*;

            new_mac_test!($tags, $mac, $test);
        }
    )*};
}

macro_rules! variant {
    ($bits:literal $hasher:ident $core:ident $module:ident $digests:ident $states:ident $tags:ident) => {
        mod $module {
            use super::*;

            new_test!($digests, $hasher, fixed_reset_test);
            hash_serialization_test!($states, $hasher);
            tags! {
                hmac $tags Hmac<$hasher>, mac_test;
                hmac_reset $tags HmacReset<$hasher>, reset_mac_test;
                simple_hmac $tags SimpleHmac<$hasher>, mac_test;
                simple_hmac_reset $tags SimpleHmacReset<$hasher>, reset_mac_test;
            }

            #[test]
            fn stream() {
                blobby::parse_into_structs!(
                    include_bytes!("data/streams.blb");
                    static STREAMS: &[Stream { bits, digest }];
                );
                let of = |stream: &&Stream| stream.bits == $bits.as_bytes();
                let mut hasher = $hasher::compose($core::default(), Default::default());
                feed_rand_16mib(&mut hasher);
                assert_eq!(hasher.finalize()[..], *STREAMS.iter().find(of).unwrap().digest);
            }

            #[test]
            fn keys() {
                blobby::parse_into_structs!(
                    include_bytes!(concat!("data/keys_", $bits, ".blb"));
                    static KEYS: &[Key { password, salt, rounds, key }];
                );
                for of in KEYS {
                    assert_eq!(key_of::<$hasher>(of), of.key);
                }
            }

            #[test]
            fn names() {
                struct Name;
                impl std::fmt::Display for Name {
                    fn fmt(&self, f: &mut std::fmt::Formatter<'_>) -> std::fmt::Result {
                        $hasher::write_alg_name(f)
                    }
                }
                assert_eq!(Name.to_string(), stringify!($hasher));
                let debug = format!("{:?} {:?}", $hasher::new(), $core::default());
                assert_eq!(debug, concat!(stringify!($hasher), " { ... } ", stringify!($core), " { ... }"));
            }
        }
    };
}

variant!("128" Ripemd128 Ripemd128Core ripemd128 digests_128 states_128 tags_128);
variant!("160" Ripemd160 Ripemd160Core ripemd160 digests_160 states_160 tags_160);
variant!("256" Ripemd256 Ripemd256Core ripemd256 digests_256 states_256 tags_256);
variant!("320" Ripemd320 Ripemd320Core ripemd320 digests_320 states_320 tags_320);

/// The authors' digest of "abc".
const ABC: [u8; 20] = [
    0x8e, 0xb2, 0x08, 0xf7, 0xe0, 0x5d, 0x98, 0x7a, 0x9b, 0x04, 0x4a, 0x8e, 0x98, 0xc6, 0xb0, 0x87,
    0xf1, 0x5a, 0x0b, 0xfc,
];

#[test]
fn generic() {
    assert_eq!(digest_of::<Ripemd160>(b"abc"), ABC);
}

#[cfg(feature = "alloc")]
#[test]
fn dynamic() {
    let mut hasher: Box<dyn ripemd::digest::DynDigest> = Box::<Ripemd160>::default();
    hasher.update(b"a");
    let mut copy = hasher.box_clone();
    copy.update(b"bc");
    assert_eq!(copy.finalize_reset()[..], ABC);
    copy.update(b"abc");
    assert_eq!(copy.finalize()[..], ABC);
}

#[cfg(feature = "oid")]
#[test]
fn object_identifiers() {
    use ripemd::digest::const_oid::AssociatedOid;
    assert_eq!(Ripemd128::OID.to_string(), "1.3.36.3.2.2");
    assert_eq!(Ripemd160::OID.to_string(), "1.3.36.3.2.1");
    assert_eq!(Ripemd256::OID.to_string(), "1.3.36.3.2.3");
}

#[cfg(feature = "zeroize")]
#[test]
fn wiped() {
    fn says<T: ripemd::digest::zeroize::ZeroizeOnDrop>() {}
    says::<Ripemd160>();
    says::<Ripemd160Core>();
}
