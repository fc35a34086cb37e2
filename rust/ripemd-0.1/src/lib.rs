//! What the crate `ripemd` 0.1.3 gives, by the proved code of [`nattizhu`]:
//!
//! ```
//! use ripemd::{Digest, Ripemd160};
//!
//! let digest = Ripemd160::digest(b"abc");
//! assert_eq!(format!("{digest:x}"), "8eb208f7e05d987a9b044a8e98c6b087f15a0bfc");
//! ```
#![no_std]
#![deny(clippy::undocumented_unsafe_blocks)]
#![warn(missing_docs, rust_2018_idioms)]

pub use digest::{self, Digest};

use core::{fmt, slice};
use digest::block_buffer::Eager;
use digest::core_api::{
    AlgorithmName, Block, BlockSizeUser, Buffer, BufferKindUser, CoreWrapper, FixedOutputCore,
    OutputSizeUser, Reset, UpdateCore,
};
use digest::typenum::{U16, U20, U32, U40, U64};
use digest::{HashMarker, Output};
use nattizhu::block_api;
use nattizhu::digest::{self as new, array::Array};

macro_rules! hasher {
    ($hasher:ident, $core:ident, $size:ty, $bits:literal $(, $oid:literal)?) => {
        #[doc = concat!("The hasher of RIPEMD-", $bits, " (1996).")]
        pub type $hasher = CoreWrapper<$core>;

        #[doc = concat!("The core of [`", stringify!($hasher), "`]: that over `digest` 0.11, with the traits of 0.10.")]
        #[derive(Clone, Default)]
        pub struct $core(block_api::$core);

        impl HashMarker for $core {}

        impl BlockSizeUser for $core {
            type BlockSize = U64;
        }

        impl BufferKindUser for $core {
            type BufferKind = Eager;
        }

        impl OutputSizeUser for $core {
            type OutputSize = $size;
        }

        impl UpdateCore for $core {
            #[inline]
            fn update_blocks(&mut self, blocks: &[Block<Self>]) {
                let place = blocks.as_ptr().cast::<Array<u8, U64>>();
                // SAFETY: a block is an array of 64 bytes by either version.
                let blocks = unsafe { slice::from_raw_parts(place, blocks.len()) };
                new::block_api::UpdateCore::update_blocks(&mut self.0, blocks);
            }
        }

        impl FixedOutputCore for $core {
            #[inline]
            fn finalize_fixed_core(&mut self, buffer: &mut Buffer<Self>, out: &mut Output<Self>) {
                let buffer = &mut new::block_buffer::BlockBuffer::new(buffer.get_data());
                let digest = AsMut::<[u8]>::as_mut(out).try_into().expect("as long by either");
                new::block_api::FixedOutputCore::finalize_fixed_core(&mut self.0, buffer, digest);
            }
        }

        impl Reset for $core {
            #[inline]
            fn reset(&mut self) {
                *self = Self::default();
            }
        }

        impl AlgorithmName for $core {
            fn write_alg_name(f: &mut fmt::Formatter<'_>) -> fmt::Result {
                f.write_str(stringify!($hasher))
            }
        }

        impl fmt::Debug for $core {
            fn fmt(&self, f: &mut fmt::Formatter<'_>) -> fmt::Result {
                f.write_str(concat!(stringify!($core), " { ... }"))
            }
        }

        $(#[cfg(feature = "oid")]
        impl digest::const_oid::AssociatedOid for $core {
            const OID: digest::const_oid::ObjectIdentifier =
                digest::const_oid::ObjectIdentifier::new_unwrap($oid);
        })?
    };
}

hasher!(Ripemd128, Ripemd128Core, U16, "128", "1.3.36.3.2.2");
hasher!(Ripemd160, Ripemd160Core, U20, "160", "1.3.36.3.2.1");
hasher!(Ripemd256, Ripemd256Core, U32, "256", "1.3.36.3.2.3");
hasher!(Ripemd320, Ripemd320Core, U40, "320");
