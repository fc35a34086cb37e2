#![doc = include_str!("../README.md")]
#![no_std]
#![deny(unsafe_code, clippy::undocumented_unsafe_blocks)]
#![warn(missing_docs, rust_2018_idioms)]

#[cfg(feature = "std")]
extern crate std;

pub mod block_api;
mod hashers;
mod mac;
mod many;
mod pbkdf2;
mod sys;

pub use crate::hashers::{digest_message, Ripemd, Ripemd128, Ripemd160, Ripemd256, Ripemd320};
pub use crate::mac::Hmac;
pub use crate::many::{digest_each, digest_list, hmac_each, hmac_list, InvalidLength};
pub use crate::pbkdf2::{pbkdf2_hmac, pbkdf2_hmac_list, Pbkdf2Error};
pub use digest::common::hazmat::{DeserializeStateError, SerializableState};
pub use digest::{self, Digest, Mac, MacError};
