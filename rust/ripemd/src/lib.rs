//! What the crate `ripemd` 0.2.0 gives, by the proved code of [`nattizhu`]:
//!
//! ```
//! use ripemd::{Digest, Ripemd160};
//!
//! let digest = Ripemd160::digest(b"abc");
//! assert_eq!(digest[..4], [0x8e, 0xb2, 0x08, 0xf7]);
//! ```
#![no_std]
#![forbid(unsafe_code)]
#![warn(missing_docs, rust_2018_idioms)]

pub use nattizhu::{block_api, digest, Digest, Ripemd128, Ripemd160, Ripemd256, Ripemd320};
