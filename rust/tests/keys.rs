//! PBKDF2, by this crate and by the crate `pbkdf2` over its hashers.

mod common;

use common::{lines_of, ramp};
use nattizhu::*;

each_variant! { one_key list_of_keys refused }

fn one_key<D: Ripemd>(bits: usize) {
    for (numbers, key) in lines_of(bits, "keys.txt") {
        let (password, salt) = (ramp(1, numbers[0]), ramp(0, numbers[1]));
        let rounds = numbers[2] as u32;
        let mut found = vec![0; key.len()];
        pbkdf2_hmac::<D>(&password, &salt, rounds, &mut found).unwrap();
        assert_eq!(found, key);
        found.fill(0);
        ::pbkdf2::pbkdf2_hmac::<D>(&password, &salt, rounds, &mut found);
        assert_eq!(found, key);
        found.fill(0);
        ::pbkdf2::pbkdf2::<hmac::SimpleHmac<D>>(&password, &salt, rounds, &mut found).unwrap();
        assert_eq!(found, key);
        found.fill(0);
        ::pbkdf2::pbkdf2::<Hmac<D>>(&password, &salt, rounds, &mut found).unwrap();
        assert_eq!(found, key);
    }
}

/// The passwords and salts of the lines that have the same number of rounds, with keys as long as the
/// shortest, again and again.
fn list_of_keys<D: Ripemd>(bits: usize) {
    let lines = lines_of(bits, "keys.txt");
    for rounds in [1, 2, 3, 7] {
        let lines: Vec<_> = lines
            .iter()
            .filter(|(numbers, _)| numbers[2] == rounds)
            .collect();
        assert!(!lines.is_empty());
        let size = lines.iter().map(|(_, key)| key.len()).min().unwrap();
        for count in [0, 1, 7, 8, 9, 128, 129, 260] {
            let lines: Vec<_> = lines.iter().cycle().take(count).collect();
            let passwords: Vec<_> = lines.iter().map(|(n, _)| ramp(1, n[0])).collect();
            let salts: Vec<_> = lines.iter().map(|(n, _)| ramp(0, n[1])).collect();
            let passwords: Vec<&[u8]> = passwords.iter().map(|bytes| &bytes[..]).collect();
            let salts: Vec<&[u8]> = salts.iter().map(|bytes| &bytes[..]).collect();
            let mut keys = vec![0; count * size];
            pbkdf2_hmac_list::<D>(&passwords, &salts, rounds as u32, size, &mut keys).unwrap();
            for ((_, key), found) in lines.iter().zip(keys.chunks(size)) {
                assert_eq!(found, &key[..size]);
            }
        }
    }
}

/// What is refused, and that nothing is written then.
fn refused<D: Ripemd>(bits: usize) {
    use Pbkdf2Error::*;
    let mut key = [7; 48];
    assert_eq!(
        pbkdf2_hmac::<D>(b"password", b"salt", 0, &mut key),
        Err(NoRounds)
    );
    assert_eq!(pbkdf2_hmac::<D>(b"", b"", 0, &mut []), Err(NoRounds));
    assert_eq!(pbkdf2_hmac::<D>(b"", b"", 1, &mut []), Ok(()));

    let two: [&[u8]; 2] = [b"a", b""];
    let mut list = |passwords: &[&[u8]], salts: &[&[u8]], rounds, size| {
        pbkdf2_hmac_list::<D>(passwords, salts, rounds, size, &mut key)
    };
    assert_eq!(list(&two, &two, 0, 24), Err(NoRounds));
    assert_eq!(list(&two, &two[..1], 1, 24), Err(InvalidLength));
    assert_eq!(list(&two[..1], &two, 1, 48), Err(InvalidLength));
    assert_eq!(list(&two, &two, 1, 23), Err(InvalidLength));
    assert_eq!(list(&two, &two, 1, 25), Err(InvalidLength));
    assert_eq!(list(&[], &[], 1, 48), Err(InvalidLength));
    let longest = (u32::MAX as usize) * (bits / 8);
    assert_eq!(list(&two, &two, 1, longest), Err(InvalidLength));
    assert_eq!(list(&two, &two, 1, longest + 1), Err(KeyTooLong));
    assert_eq!(list(&two, &two, 1, usize::MAX / 2 + 25), Err(KeyTooLong));
    assert_eq!(list(&[], &[], 1, longest + 1), Err(KeyTooLong));
    assert_eq!(list(&[], &[], 0, longest + 1), Err(NoRounds));
    assert_eq!(key, [7; 48]);

    assert_eq!(pbkdf2_hmac_list::<D>(&[], &[], 1, longest, &mut []), Ok(()));
    assert_eq!(
        pbkdf2_hmac_list::<D>(&[], &[], 0, 1, &mut []),
        Err(NoRounds)
    );
    assert_eq!(pbkdf2_hmac_list::<D>(&two, &two, 1, 0, &mut []), Ok(()));
}
