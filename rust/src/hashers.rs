//! The hashers, which `digest` makes of their cores.

use crate::sys::{self, Variant, V128, V160, V256, V320};
use crate::{block_api, SerializableState};
use digest::block_api::EagerHash;
use digest::Output;

mod sealed {
    /// Keeps other types from having the trait [`Ripemd`](super::Ripemd).
    pub trait Sealed {}
}

/// The four hashers, which the functions of this crate take. No other type can have this trait.
///
/// ```
/// use nattizhu::{Digest, Hmac, Ripemd, Ripemd160};
///
/// /// The bytes of a digest, and of a tag.
/// fn size_of<D: Ripemd>() -> usize {
///     <D as Digest>::output_size()
/// }
/// assert_eq!(size_of::<Ripemd160>(), 20);
/// ```
pub trait Ripemd: sealed::Sealed + EagerHash + SerializableState + Send + Sync + 'static {
    #[doc(hidden)]
    type Variant: Variant<OutputSize = Self::OutputSize>;
}

/// The digest of a whole message by one call of the library. It is that of
/// [`Digest::digest`](crate::Digest::digest), which makes several calls from 64 bytes on.
///
/// ```
/// use nattizhu::{digest_message, Digest, Ripemd160};
///
/// assert_eq!(digest_message::<Ripemd160>(&[0; 100]), Ripemd160::digest([0; 100]));
/// ```
#[inline]
pub fn digest_message<D: Ripemd>(message: &[u8]) -> Output<D> {
    let mut digest = Output::<D>::default();
    sys::digest::<D::Variant>(message, &mut digest);
    digest
}

macro_rules! hasher {
    ($hasher:ident, $core:ident, $variant:ident, $bits:literal, $sizes:literal, $abc:literal $(, $oid:literal)?) => {
        digest::buffer_fixed!(
            #[doc = concat!("The hasher of RIPEMD-", $bits, " (1996): ", $sizes, ".")]
            ///
            /// ```
            /// use hex_literal::hex;
            #[doc = concat!("use nattizhu::{Digest, ", stringify!($hasher), "};")]
            ///
            #[doc = concat!("let mut hasher = ", stringify!($hasher), "::new();")]
            /// hasher.update(b"ab");
            /// hasher.update(b"c");
            /// let digest = hasher.finalize();
            #[doc = concat!("assert_eq!(digest, hex!(\"", $abc, "\"));")]
            #[doc = concat!("assert_eq!(", stringify!($hasher), "::digest(b\"abc\"), digest);")]
            /// ```
            pub struct $hasher(block_api::$core);
            $(oid: $oid;)?
            impl: FixedHashTraits;
        );

        impl sealed::Sealed for $hasher {}

        impl Ripemd for $hasher {
            type Variant = $variant;
        }

        #[cfg(feature = "std")]
        impl std::io::Write for $hasher {
            #[inline]
            fn write(&mut self, bytes: &[u8]) -> std::io::Result<usize> {
                digest::Update::update(self, bytes);
                Ok(bytes.len())
            }

            #[inline]
            fn flush(&mut self) -> std::io::Result<()> {
                Ok(())
            }
        }
    };
}

hasher!(
    Ripemd128,
    Ripemd128Core,
    V128,
    "128",
    "digests of 16 bytes, saved states of 88",
    "c14a12199c66e4ba84636b0f69144c77",
    "1.3.36.3.2.2"
);
hasher!(
    Ripemd160,
    Ripemd160Core,
    V160,
    "160",
    "digests of 20 bytes, saved states of 92",
    "8eb208f7e05d987a9b044a8e98c6b087f15a0bfc",
    "1.3.36.3.2.1"
);
hasher!(
    Ripemd256,
    Ripemd256Core,
    V256,
    "256",
    "digests of 32 bytes, saved states of 104",
    "afbd6e228b9d8cbbcef5ca2d03e6dba10ac0bc7dcbe4680e1e42d2e975459b65",
    "1.3.36.3.2.3"
);
hasher!(
    Ripemd320,
    Ripemd320Core,
    V320,
    "320",
    "digests of 40 bytes, saved states of 112",
    "de4c01b3054f8930a79d09ae738e92301e5a17085beffdc1b8d116713e74f82fa942d64cdbc4682d"
);
