//! The speed of a hasher of RIPEMD-160 beside that of one call of the function in C (`digest_message`), and of each
//! hasher beside that of the crate `ripemd`, as tables in Markdown. Each figure is the least of many slices; those of
//! the two that are compared alternate.
//!
//! `cargo run --release`

use nattizhu::{digest_each, digest_message, Digest, Ripemd160};
use std::time::Instant;

/// Nanoseconds of one call of each function: the least of many slices of so many calls. The two return
/// the same, a byte of each digest.
fn least(
    slices: usize,
    calls: usize,
    mut one: impl FnMut() -> u8,
    mut other: impl FnMut() -> u8,
) -> [f64; 2] {
    let mut least = [f64::INFINITY; 2];
    for _ in 0..slices {
        let mut sums = [0u8; 2];
        let functions: [&mut dyn FnMut() -> u8; 2] = [&mut one, &mut other];
        for (i, function) in functions.into_iter().enumerate() {
            let start = Instant::now();
            for _ in 0..calls {
                sums[i] = sums[i].wrapping_add(function());
            }
            let time = start.elapsed().as_nanos() as f64 / calls as f64;
            least[i] = least[i].min(time);
        }
        assert_eq!(sums[0], sums[1]);
    }
    least
}

/// Nanoseconds of a hasher, and of that of the crate `ripemd`: of messages of 32 bytes, 100 bytes and 1 MiB, of an
/// update of 8 bytes, and of a tag of 32 bytes under a key of which copies are kept.
macro_rules! beside {
    ($hasher:ident, $bytes:ident) => {{
        type Ours = nattizhu::$hasher;
        type Other = ripemd::$hasher;
        let digest = |length, slices, calls| {
            let message = &$bytes[..length];
            let ours = || <Ours as nattizhu::Digest>::digest(message)[0];
            least(slices, calls, ours, || {
                <Other as ripemd::Digest>::digest(message)[0]
            })
        };
        let mut ours = <Ours as nattizhu::Digest>::new();
        let mut other = <Other as ripemd::Digest>::new();
        let mut our_update = || nattizhu::Digest::update(&mut ours, &$bytes[..8]);
        let mut its_update = || ripemd::Digest::update(&mut other, &$bytes[..8]);
        let update = least(10_000, 50, || (our_update(), 0).1, || (its_update(), 0).1);
        assert_eq!(
            nattizhu::Digest::finalize(ours)[..],
            ripemd::Digest::finalize(other)[..]
        );
        let ours = nattizhu::Hmac::<Ours>::new(b"key");
        let other = <hmac::Hmac<Other> as hmac::Mac>::new_from_slice(b"key").expect("any length");
        let text = &$bytes[..32];
        let our_tag = || nattizhu::Mac::finalize(nattizhu::Mac::chain_update(ours.clone(), text));
        let its_tag = || hmac::Mac::finalize(hmac::Mac::chain_update(other.clone(), text));
        let tag = least(
            10_000,
            50,
            || our_tag().into_bytes()[0],
            || its_tag().into_bytes()[0],
        );
        [
            digest(32, 10_000, 50),
            digest(100, 10_000, 50),
            digest(1 << 20, 400, 1),
            update,
            tag,
        ]
    }};
}

fn main() {
    let bytes: Vec<u8> = (0..1 << 20).map(|i| i as u8).collect();
    println!("| one message of | in C, or by `digest_message` | `Ripemd160::digest` |");
    println!("|---|---|---|");
    for (what, length, slices, calls) in [
        ("32 bytes, ns", 32, 10_000, 50),
        ("100 bytes, ns", 100, 10_000, 50),
        ("1 MiB, MB/s", 1 << 20, 400, 1),
    ] {
        let message = &bytes[..length];
        let [one, other] = least(
            slices,
            calls,
            || digest_message::<Ripemd160>(message)[0],
            || Ripemd160::digest(message)[0],
        )
        .map(|time| match calls {
            1 => 1000.0 * length as f64 / time,
            _ => time,
        });
        println!("| {what} | {one:.0} | {other:.0} |");
    }

    let records = &bytes[..8192 * 32];
    let mut singly = vec![Default::default(); 8192];
    let mut at_once = vec![Default::default(); 8192];
    let [singly_ns, at_once_ns] = least(
        400,
        1,
        || {
            for (record, digest) in records.chunks(32).zip(&mut singly) {
                *digest = Ripemd160::digest(record);
            }
            singly[8191][0]
        },
        || {
            digest_each::<Ripemd160>(records, 32, &mut at_once).expect("the length fits");
            at_once[8191][0]
        },
    );
    assert_eq!(singly, at_once);
    println!();
    println!("| records | one by one | `digest_each` |");
    println!("|---|---|---|");
    println!(
        "| 8,192 of 32 bytes, ms | {:.2} | {:.2} |",
        singly_ns / 1e6,
        at_once_ns / 1e6
    );

    if cfg!(feature = "std") {
        let variants = [
            beside!(Ripemd128, bytes),
            beside!(Ripemd160, bytes),
            beside!(Ripemd256, bytes),
            beside!(Ripemd320, bytes),
        ];
        println!();
        println!(
            "| ours, `ripemd` 0.1.3 (how many times as fast ours is) | 128 | 160 | 256 | 320 |"
        );
        println!("|---|---|---|---|---|");
        let rows = [
            ("32 bytes, ns", 1.0),
            ("100 bytes, ns", 1.0),
            ("1 MiB, µs", 1000.0),
            ("update of 8 bytes, ns", 1.0),
            ("tag of 32 bytes, ns", 1.0),
        ];
        for (i, (what, unit)) in rows.into_iter().enumerate() {
            let cells = variants.map(|of| {
                let [ours, other] = of[i].map(|time| time / unit);
                format!("{ours:.0}, {other:.0} ({:.2})", other / ours)
            });
            println!("| {what} | {} |", cells.join(" | "));
        }
    }
}
