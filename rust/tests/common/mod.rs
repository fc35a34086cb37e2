//! What the tests have in common.
#![allow(dead_code)]

use std::fs::read_to_string;

/// A test for each variant, from a function over the hasher and its number.
#[macro_export]
macro_rules! each_variant {
    ($($test:ident)*) => {$(
        mod $test {
            #[test]
            fn ripemd128() {
                super::$test::<nattizhu::Ripemd128>(128);
            }
            #[test]
            fn ripemd160() {
                super::$test::<nattizhu::Ripemd160>(160);
            }
            #[test]
            fn ripemd256() {
                super::$test::<nattizhu::Ripemd256>(256);
            }
            #[test]
            fn ripemd320() {
                super::$test::<nattizhu::Ripemd320>(320);
            }
        }
    )*};
}

/// The bytes of a text in hexadecimal.
pub fn hex(text: &str) -> Vec<u8> {
    assert_eq!(text.len() % 2, 0);
    (0..text.len())
        .step_by(2)
        .map(|i| u8::from_str_radix(&text[i..i + 2], 16).unwrap())
        .collect()
}

/// As many bytes: a first one, one more, and so on.
pub fn ramp(first: u8, length: usize) -> Vec<u8> {
    (0..length).map(|i| first.wrapping_add(i as u8)).collect()
}

/// The words of each line of a file of the repository's `tests/data`. The head of the file says where
/// they come from.
fn words(file: &str) -> Vec<Vec<String>> {
    let path = format!("{}/../tests/data/{file}", env!("CARGO_MANIFEST_DIR"));
    let lines: Vec<_> = read_to_string(&path)
        .unwrap_or_else(|error| panic!("{path}: {error}"))
        .lines()
        .filter(|line| !line.starts_with('#'))
        .map(|line| line.split(' ').map(String::from).collect())
        .collect();
    assert!(!lines.is_empty());
    lines
}

/// The lines of such a file: numbers, and behind them bytes.
pub fn lines(file: &str) -> Vec<(Vec<usize>, Vec<u8>)> {
    let line = |mut words: Vec<String>| {
        let bytes = hex(&words.pop().unwrap());
        (words.iter().map(|n| n.parse().unwrap()).collect(), bytes)
    };
    words(file).into_iter().map(line).collect()
}

/// The lines of such a file that begin with the number of the variant, without it.
pub fn lines_of(bits: usize, file: &str) -> Vec<(Vec<usize>, Vec<u8>)> {
    let mut lines = lines(file);
    lines.retain(|(numbers, _)| numbers[0] == bits);
    for (numbers, _) in &mut lines {
        numbers.remove(0);
    }
    assert!(!lines.is_empty());
    lines
}

/// The messages of 0 to 200 bytes 0, 1, 2 and so on, with their digests.
pub fn every_length(bits: usize) -> Vec<(Vec<u8>, Vec<u8>)> {
    let messages: Vec<_> = lines(&format!("digests-{bits}.txt"))
        .into_iter()
        .map(|(length, digest)| (ramp(0, length[0]), digest))
        .collect();
    assert_eq!(messages.len(), 201);
    messages
}

/// RFC 2286, sections 2 and 3: key, text and tag.
pub fn rfc_2286(bits: usize) -> Vec<[Vec<u8>; 3]> {
    let mut lines = words("rfc2286.txt");
    lines.retain(|words| words[0] == bits.to_string());
    assert_eq!(lines.len(), 7);
    lines
        .iter()
        .map(|words| [1, 2, 3].map(|place| hex(&words[place])))
        .collect()
}
