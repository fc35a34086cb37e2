//! Tries `ripemd` 0.1 by the macros of `digest`, as its own tests do, and what depends on it. The folder `data` is made of
//! the repository's `tests/data`.
#![cfg(test)]

use digest::dev::blobby::{Blob2Iterator, Blob4Iterator};
use digest::dev::{feed_rand_16mib, fixed_reset_test};
use digest::{new_resettable_mac_test, new_test};
use hmac::{Hmac, SimpleHmac};
use ripemd::digest::core_api::CoreWrapper;
use ripemd::{Digest, Ripemd128, Ripemd128Core, Ripemd160, Ripemd160Core};
use ripemd::{Ripemd256, Ripemd256Core, Ripemd320, Ripemd320Core};

macro_rules! variant {
    ($module:ident, $bits:literal, $hasher:ident, $core:ident) => {
        mod $module {
            use super::*;

            new_test!(
                digests,
                concat!("digests_", $bits),
                $hasher,
                fixed_reset_test
            );
            new_resettable_mac_test!(tags, concat!("tags_", $bits), Hmac<$hasher>);
            new_resettable_mac_test!(
                tags_of_any_hasher,
                concat!("tags_", $bits),
                SimpleHmac<$hasher>
            );

            #[test]
            fn stream() {
                let streams = include_bytes!("data/streams.blb");
                let mut rows = Blob2Iterator::new(streams).unwrap().map(Result::unwrap);
                let [_, digest] = rows.find(|[bits, _]| bits == &$bits.as_bytes()).unwrap();
                let mut hasher = CoreWrapper::<$core>::default();
                feed_rand_16mib(&mut hasher);
                assert_eq!(hasher.finalize()[..], *digest);
            }

            #[test]
            fn keys() {
                let keys = include_bytes!(concat!("data/keys_", $bits, ".blb"));
                for row in Blob4Iterator::new(keys).unwrap() {
                    let [password, salt, rounds, key] = row.unwrap();
                    let rounds = u32::from_be_bytes(rounds.try_into().unwrap());
                    let mut found = vec![0; key.len()];
                    pbkdf2::pbkdf2::<Hmac<$hasher>>(password, salt, rounds, &mut found).unwrap();
                    assert_eq!(found, key);
                }
            }
        }
    };
}

variant!(ripemd128, "128", Ripemd128, Ripemd128Core);
variant!(ripemd160, "160", Ripemd160, Ripemd160Core);
variant!(ripemd256, "256", Ripemd256, Ripemd256Core);
variant!(ripemd320, "320", Ripemd320, Ripemd320Core);

#[cfg(feature = "std")]
#[test]
fn written() {
    let mut hasher = Ripemd160::new();
    std::io::Write::write_all(&mut hasher, b"abc").unwrap();
    assert_eq!(hasher.finalize(), Ripemd160::digest(b"abc"));
}

#[cfg(feature = "oid")]
#[test]
fn object_identifiers() {
    use ripemd::digest::const_oid::AssociatedOid;
    assert_eq!(Ripemd128::OID.to_string(), "1.3.36.3.2.2");
    assert_eq!(Ripemd160::OID.to_string(), "1.3.36.3.2.1");
    assert_eq!(Ripemd256::OID.to_string(), "1.3.36.3.2.3");
}
