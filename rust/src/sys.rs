//! The functions of `nattizhu.h`, declared and called. All unsafe code of the crate is here.
//!
//! Each `SAFETY` comment names the conditions from the head of that header that a caller keeps:
//!
//! - *memory*: a pointer leads to as many bytes or messages as the length or count after it says, or to
//!   what its type says, and that piece of memory is smaller than 2^63 bytes. Slices and references do;
//!   none is larger than `isize::MAX` bytes.
//! - *null*: no pointer is null. The pointer of an empty slice is not null either.
//! - *overlap*: what a call writes overlaps nothing else that it is given. It is borrowed as `&mut`.
//! - *threads*: no other thread writes what a call reads, or reads or writes what it writes. The
//!   borrows last as long as the call, and it keeps no pointer.

#![allow(unsafe_code)]

use core::marker::PhantomData;
use digest::array::sizes::{U16, U176, U184, U20, U208, U224, U24, U28, U32, U40, U48};
use digest::array::{Array, ArraySize};

/// A digest, or a tag, of a variant.
pub type Output<V> = Array<u8, <V as Variant>::OutputSize>;

/// A message of a list, laid out as `nattizhu_message`.
#[derive(Clone, Copy)]
#[repr(C)]
pub struct Message<'a>(*const u8, usize, PhantomData<&'a [u8]>);

impl<'a> From<&'a [u8]> for Message<'a> {
    fn from(bytes: &'a [u8]) -> Self {
        Self(bytes.as_ptr(), bytes.len(), PhantomData)
    }
}

/// A variant of the hash function.
pub trait Variant: Clone + Send + Sync + 'static {
    /// Its `nattizhu_variant`, which is an `unsigned int`.
    const NUMBER: u32;
    const NAME: &'static str;
    type OutputSize: ArraySize;
    /// The bytes that the words of a state and the number of its blocks are saved as. Behind them a saved
    /// hasher has the `TAIL`.
    type SavedWordsSize: ArraySize;
    /// The bytes that an HMAC is saved as.
    type SavedHmacSize: ArraySize;
}

/// The bytes of a saved hasher that are its tail: the length, the tail, and zeros.
pub const TAIL: usize = 64;

macro_rules! variant {
    ($variant:ident, $bits:literal, $output:ty, $saved_words:ty, $saved_hmac:ty) => {
        #[derive(Clone)]
        pub struct $variant;

        impl Variant for $variant {
            const NUMBER: u32 = $bits;
            const NAME: &'static str = concat!("Ripemd", $bits);
            type OutputSize = $output;
            type SavedWordsSize = $saved_words;
            type SavedHmacSize = $saved_hmac;
        }
    };
}

variant!(V128, 128, U16, U24, U176);
variant!(V160, 160, U20, U28, U184);
variant!(V256, 256, U32, U40, U208);
variant!(V320, 320, U40, U48, U224);

/// Panics unless the library took what it was given: the crate gives it nothing that it refuses.
#[inline]
pub fn taken(answer: bool) {
    assert!(answer, "nattizhu: the library refused what it was given");
}

/// Writes the digest of a whole message.
#[inline]
pub fn digest<V: Variant>(message: &[u8], digest: &mut Output<V>) {
    extern "C" {
        fn nattizhu_digest(_: u32, _: *const u8, _: usize, _: *mut u8, _: usize) -> bool;
    }
    let (size, place) = (digest.len(), digest.as_mut_ptr());
    // SAFETY: memory, null, overlap and threads by the slice and the exclusive reference.
    taken(unsafe { nattizhu_digest(V::NUMBER, message.as_ptr(), message.len(), place, size) });
}

/// Overwrites bytes with zeros, which the compiler may not leave out, and clears what calls for one
/// message left on the stack and in registers.
pub fn wipe(bytes: &mut [u8]) {
    extern "C" {
        fn nattizhu_wipe(_: *mut u8, _: usize);
    }
    // SAFETY: memory by the exclusive reference.
    unsafe { nattizhu_wipe(bytes.as_mut_ptr(), bytes.len()) }
}

/// A state of the library, which is wiped when it is dropped: how many bytes it has, and the functions that
/// make it, update it, write its digest, save it and load it. What `update`, `finalize` and `verify` return is
/// what `nattizhu.h` says.
macro_rules! state {
    ($state:ident, $size:literal,
     $init:ident($($key:ident)?), $update:ident, $final:ident, $save:ident, $load:ident) => {
        #[derive(Clone)]
        pub struct $state<V>([u8; $size], PhantomData<V>);

        extern "C" {
            fn $init(_: u32, _: *mut [u8; $size] $(, $key: *const u8, _: usize)?) -> bool;
            fn $update(_: *mut [u8; $size], _: *const u8, _: usize) -> bool;
            fn $final(_: *const [u8; $size], _: *mut u8, _: usize) -> bool;
            fn $save(_: *const [u8; $size], _: *mut u8, _: usize) -> bool;
            fn $load(_: u32, _: *mut [u8; $size], _: *const u8, _: usize) -> bool;
        }

        impl<V> Drop for $state<V> {
            #[inline]
            fn drop(&mut self) {
                wipe(&mut self.0);
            }
        }

        impl<V: Variant> $state<V> {
            #[inline]
            pub fn init($($key: &[u8])?) -> Self {
                let mut state = Self([0; $size], PhantomData);
                // SAFETY: memory, null, overlap and threads by the exclusive reference and a slice.
                taken(unsafe { $init(V::NUMBER, &mut state.0 $(, $key.as_ptr(), $key.len())?) });
                state
            }

            #[inline]
            pub fn update(&mut self, bytes: &[u8]) -> bool {
                // SAFETY: memory, null, overlap and threads by the exclusive reference and the slice.
                unsafe { $update(&mut self.0, bytes.as_ptr(), bytes.len()) }
            }

            #[inline]
            pub fn finalize(&self, digest: &mut Output<V>) -> bool {
                // SAFETY: memory, null, overlap and threads by the two references, one exclusive.
                unsafe { $final(&self.0, digest.as_mut_ptr(), digest.len()) }
            }

            /// Writes the state to a slice of as many bytes as it is saved as.
            pub fn save(&self, saved: &mut [u8]) {
                // SAFETY: memory, null, overlap and threads by the reference and the exclusive slice.
                taken(unsafe { $save(&self.0, saved.as_mut_ptr(), saved.len()) });
            }

            /// The state that is saved as these bytes, if there is one.
            pub fn load(saved: &[u8]) -> Option<Self> {
                let mut state = Self([0; $size], PhantomData);
                // SAFETY: memory, null, overlap and threads by the exclusive reference and the slice.
                let is_one = unsafe { $load(V::NUMBER, &mut state.0, saved.as_ptr(), saved.len()) };
                is_one.then(|| state)
            }
        }
    };
}

state! {
    HashState, 113,
    nattizhu_init(), nattizhu_update, nattizhu_final, nattizhu_save, nattizhu_load
}
state! {
    HmacState, 225,
    nattizhu_hmac_init(key), nattizhu_hmac_update, nattizhu_hmac_final,
    nattizhu_hmac_save, nattizhu_hmac_load
}

impl<V: Variant> HmacState<V> {
    #[inline]
    pub fn verify(&self, tag: &[u8]) -> bool {
        extern "C" {
            fn nattizhu_hmac_verify(_: *const [u8; 225], _: *const u8, _: usize) -> bool;
        }
        // SAFETY: memory, null and threads by the reference and the slice. It writes nothing.
        unsafe { nattizhu_hmac_verify(&self.0, tag.as_ptr(), tag.len()) }
    }
}

#[cfg(test)]
#[test]
fn sizes_as_the_library_says() {
    extern "C" {
        fn nattizhu_state_size() -> usize;
        fn nattizhu_hmac_state_size() -> usize;
    }
    // SAFETY: these calls are given nothing.
    let sizes = unsafe { (nattizhu_state_size(), nattizhu_hmac_state_size()) };
    assert_eq!(
        (size_of::<HashState<V160>>(), size_of::<HmacState<V160>>()),
        sizes
    );
}

/// Whether this processor can run the build of the library for x86-64-v3, whose functions over many
/// messages, and over many or long keys, are faster. The standard library asks the processor, once; without
/// `std` the other build is taken.
#[cfg(target_arch = "x86_64")]
fn has_v3() -> bool {
    // What the level has beyond x86-64, but for what every processor with AVX2 has: CMPXCHG16B, LAHF and the
    // older SSE.
    #[cfg(feature = "std")]
    return std::is_x86_feature_detected!("avx2")
        && std::is_x86_feature_detected!("bmi1")
        && std::is_x86_feature_detected!("bmi2")
        && std::is_x86_feature_detected!("f16c")
        && std::is_x86_feature_detected!("fma")
        && std::is_x86_feature_detected!("lzcnt")
        && std::is_x86_feature_detected!("movbe")
        && std::is_x86_feature_detected!("popcnt")
        && std::is_x86_feature_detected!("sse4.2");
    #[cfg(not(feature = "std"))]
    false
}

#[cfg(all(test, feature = "std", target_arch = "x86_64"))]
#[test]
fn has_v3_as_the_kernel_says() {
    let said = std::fs::read_to_string("/proc/cpuinfo").unwrap();
    let flags = said.lines().find(|line| line.starts_with("flags")).unwrap();
    let has = |flag| flags.split_whitespace().any(|word| word == flag);
    let level = [
        "abm", "avx2", "bmi1", "bmi2", "f16c", "fma", "movbe", "popcnt", "sse4_2",
    ];
    assert_eq!(has_v3(), level.iter().all(|flag| has(*flag)));
}

/// Functions of the library that read slices, take numbers, and write to a slice. What they return is what
/// `nattizhu.h` says. For x86-64 the library has each one twice: for every such processor under its name,
/// and for x86-64-v3 with `_v3` behind that. Both are the same function, and the second is taken only where
/// the processor has all of its instructions.
macro_rules! functions {
    ($($function:ident = $name:ident(
        $($read:ident: $item:ty),*; $($number:ident: $type:ty),*; $place:ident: $output:ty);)*) => {$(
        #[inline]
        pub fn $function<V: Variant>(
            $($read: &[$item],)* $($number: $type,)* $place: &mut [$output],
        ) -> bool {
            extern "C" {
                fn $name(
                    _: u32, $(_: *const $item, _: usize,)* $(_: $type,)* _: *mut u8, _: usize
                ) -> bool;
                #[cfg(target_arch = "x86_64")]
                #[link_name = concat!(stringify!($name), "_v3")]
                fn v3(
                    _: u32, $(_: *const $item, _: usize,)* $(_: $type,)* _: *mut u8, _: usize
                ) -> bool;
            }
            #[cfg(target_arch = "x86_64")]
            let call = if has_v3() { v3 } else { $name };
            #[cfg(not(target_arch = "x86_64"))]
            let call = $name;
            let (length, place) = (size_of_val($place), $place.as_mut_ptr().cast());
            // SAFETY: memory by the slices, of which digests and tags are arrays of bytes, and by those of
            // which each message was made; null, overlap and threads by all of these.
            unsafe { call(V::NUMBER, $($read.as_ptr(), $read.len(),)* $($number,)* place, length) }
        }
    )*};
}

functions! {
    digest_each = nattizhu_each(records: u8; size: usize; digests: Output<V>);
    digest_list = nattizhu_list(messages: Message<'_>;; digests: Output<V>);
    hmac_each = nattizhu_hmac_each(key: u8, records: u8; size: usize; tags: Output<V>);
    hmac_list = nattizhu_hmac_list(key: u8, texts: Message<'_>;; tags: Output<V>);
    pbkdf2 = nattizhu_pbkdf2(password: u8, salt: u8; rounds: u32; key: u8);
    pbkdf2_list = nattizhu_pbkdf2_list(
        passwords: Message<'_>, salts: Message<'_>; rounds: u32, size: usize; keys: u8);
}
