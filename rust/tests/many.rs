//! Records of one size, and lists of messages.

mod common;

use common::{every_length, lines_of, ramp};
use digest::{Mac, Output};
use nattizhu::*;

each_variant! { records lists tags_of_records_and_lists wrong_lengths }

/// Each record is one of the messages of `tests/data/digests-*.txt`, and then each is another.
fn records<D: Ripemd>(bits: usize) {
    for (message, digest) in every_length(bits) {
        for count in [0, 1, 7, 8, 9, 17] {
            let mut digests = vec![Output::<D>::default(); count];
            digest_each::<D>(&message.repeat(count), message.len(), &mut digests).unwrap();
            assert!(digests.iter().all(|found| found[..] == digest[..]));
        }
    }
    for size in [1, 32, 63, 64, 65] {
        let records = ramp(0, 67 * size);
        let mut digests = vec![Output::<D>::default(); 67];
        digest_each::<D>(&records, size, &mut digests).unwrap();
        for (record, digest) in records.chunks(size).zip(&digests) {
            assert_eq!(D::digest(record), *digest);
        }
    }
}

/// Lists of the messages of `tests/data/digests-*.txt`, from each of some places on.
fn lists<D: Ripemd>(bits: usize) {
    let messages = [every_length(bits), every_length(bits)].concat();
    for count in [0, 1, 2, 7, 8, 9, 16, 127, 128, 129, 201, 256, 257, 300] {
        for from in [0, 1, 60] {
            let part = &messages[from..from + count];
            let list: Vec<&[u8]> = part.iter().map(|(message, _)| &message[..]).collect();
            let mut digests = vec![Output::<D>::default(); count];
            digest_list::<D>(&list, &mut digests).unwrap();
            for ((_, digest), found) in part.iter().zip(&digests) {
                assert_eq!(found[..], digest[..]);
            }
        }
    }
}

/// The text of `tests/data/tags.txt` between others.
fn tags_of_records_and_lists<D: Ripemd>(bits: usize) {
    let text = ramp(0, 150);
    for (length, tag) in lines_of(bits, "tags.txt") {
        let key = ramp(1, length[0]);
        for count in [0, 1, 8, 9, 130, 260] {
            let mut tags = vec![Output::<D>::default(); count];
            hmac_each::<D>(&key, &text.repeat(count), 150, &mut tags).unwrap();
            assert!(tags.iter().all(|found| found[..] == tag[..]));

            let texts: Vec<&[u8]> = (0..count).map(|i| &text[..150 - i % 3]).collect();
            hmac_list::<D>(&key, &texts, &mut tags).unwrap();
            for (text, found) in texts.iter().zip(&tags) {
                assert!(Hmac::<D>::new(&key)
                    .chain_update(text)
                    .verify(found)
                    .is_ok());
                assert_eq!(found[..] == tag[..], text.len() == 150);
            }
        }
    }
}

/// Lengths that do not fit are refused, and nothing is written.
fn wrong_lengths<D: Ripemd>(_: usize) {
    let untouched = Output::<D>::from_fn(|_| 7);
    let refused = |records: usize, size: usize, count: usize| {
        let records = ramp(0, records);
        let mut digests = vec![untouched.clone(); count];
        let by_digest = digest_each::<D>(&records, size, &mut digests);
        let by_hmac = hmac_each::<D>(b"key", &records, size, &mut digests);
        assert_eq!(by_digest.is_err(), by_hmac.is_err());
        by_digest.is_err() && digests.iter().all(|digest| *digest == untouched)
    };
    for (records, size, count) in [
        (6, 3, 1),
        (6, 3, 3),
        (6, 2, 2),
        (7, 3, 2),
        (6, 0, 2),
        (0, 3, 2),
        (6, 3, 0),
        (0, usize::MAX, 2),
        (0, 1 << 63, 2),
        (4, (1 << 62) + 1, 4),
    ] {
        assert!(refused(records, size, count), "{records} {size} {count}");
    }
    assert!(!refused(6, 3, 2));
    assert!(!refused(0, 0, 2));
    assert!(!refused(0, 3, 0));

    for count in [0, 1, 3, 130] {
        let mut digests = vec![untouched.clone(); count];
        let messages: [&[u8]; 2] = [b"a", b""];
        let error = digest_list::<D>(&messages, &mut digests).unwrap_err();
        assert!(error.to_string().starts_with("give one place "));
        assert!(matches!(
            hmac_list::<D>(b"key", &messages, &mut digests),
            Err(InvalidLength)
        ));
        assert!(digests.iter().all(|digest| *digest == untouched));
    }
}
