//! Calls of the crate for Rust on secrets, to be run under memcheck.
//!   secrets [jump]        with `jump`, one depends on a digest
//!   secrets left          without memcheck: what `hmac_list` leaves of a long key on the stack

use nattizhu::{
    digest_each, digest_list, hmac_each, hmac_list, pbkdf2_hmac, pbkdf2_hmac_list, Digest, Hmac,
    Mac, Ripemd, Ripemd128, Ripemd160, Ripemd256, Ripemd320,
};

// In marks.c.
extern "C" {
    fn mark_secret(bytes: *const u8, length: usize);
    fn count_known(bytes: *const u8, length: usize) -> usize;
}

/// So many secret bytes.
fn secret(length: usize) -> Vec<u8> {
    let bytes = vec![1; length];
    unsafe { mark_secret(bytes.as_ptr(), length) };
    bytes
}

fn must_be_secret(output: impl AsRef<[u8]>) {
    let output = output.as_ref();
    assert_eq!(unsafe { count_known(output.as_ptr(), output.len()) }, 0);
}

fn try_all<D: Ripemd>() {
    for length in [1, 55, 64, 65, 200] {
        let (key, text) = (secret(length), secret(130));
        let mut hasher = D::new();
        Digest::update(&mut hasher, &key);
        Digest::update(&mut hasher, &text);
        must_be_secret(D::deserialize(&hasher.serialize()).unwrap().finalize());
        must_be_secret(hasher.finalize());
        must_be_secret(D::digest(&text));
        let mac = <Hmac<D>>::new(&key).chain_update(&text);
        must_be_secret(mac.clone().finalize().into_bytes());

        for size in [16, 50] {
            let mut derived = vec![0; size];
            pbkdf2_hmac::<D>(&key, &text, 2, &mut derived).unwrap();
            must_be_secret(derived);
        }
        // Messages go at once or one after another, by their number.
        for count in 1..10 {
            let records = secret(count * length);
            let mut outputs = vec![Default::default(); count];
            digest_each::<D>(&records, length, &mut outputs).unwrap();
            outputs.iter().for_each(must_be_secret);
            hmac_each::<D>(&key, &records, length, &mut outputs).unwrap();
            outputs.iter().for_each(must_be_secret);
            let list: Vec<&[u8]> = (0..count).map(|i| [&key[..], &text][i % 2]).collect();
            digest_list::<D>(&list, &mut outputs).unwrap();
            outputs.iter().for_each(must_be_secret);
            hmac_list::<D>(&key, &list, &mut outputs).unwrap();
            outputs.iter().for_each(must_be_secret);
            for size in [16, 50] {
                let mut keys = vec![0; count * size];
                pbkdf2_hmac_list::<D>(&list, &list, 2, size, &mut keys).unwrap();
                must_be_secret(keys);
            }
        }
    }
}

/// Makes a call, and returns what then stands on the stack below.
#[inline(never)]
fn stack_after(call: impl FnOnce()) -> [u8; 16384] {
    let mut found = [0; 16384];
    call();
    let end = core::ptr::addr_of!(found) as *const u8;
    for (i, byte) in found.iter_mut().enumerate() {
        *byte = unsafe { end.wrapping_sub(i + 1).read_volatile() };
    }
    found.reverse();
    found
}

/// How often words of some bytes stand in others.
fn words_in(stack: &[u8], bytes: &[u8]) -> usize {
    let is_word = |four: &[u8]| bytes.chunks_exact(4).any(|word| word == four);
    stack.windows(4).filter(|four| is_word(four)).count()
}

fn leave() {
    let key: Vec<u8> = (0..100).map(|i| i * 7 + 3).collect();
    let mut tags = [Default::default(); 3];
    let after = stack_after(|| hmac_list::<Ripemd160>(&key, &[&b"abc"[..]; 3], &mut tags).unwrap());
    let control = stack_after(|| assert_ne!(Ripemd160::digest(&key)[0], tags[0][0]));
    let digest = Ripemd160::digest(&key);
    assert_eq!(words_in(&after, &key) + words_in(&after, &digest), 0);
    assert!(words_in(&control, &key) > 0);
}

fn main() {
    if std::env::args().nth(1).as_deref() == Some("left") {
        return leave();
    }
    try_all::<Ripemd128>();
    try_all::<Ripemd160>();
    try_all::<Ripemd256>();
    try_all::<Ripemd320>();
    if std::env::args().nth(1).as_deref() == Some("jump") {
        assert_ne!(Ripemd160::digest(secret(3))[..], [0; 20]);
    }
}
