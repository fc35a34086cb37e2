//! HMAC over the hashers.

use crate::sys::{taken, HmacState, Variant};
use crate::Ripemd;
use core::fmt;
use digest::common::hazmat::{DeserializeStateError, SerializableState, SerializedState};
use digest::common::{AlgorithmName, KeySizeUser};
use digest::consts::U64;
use digest::{
    FixedOutput, InvalidLength, Key, KeyInit, MacError, MacMarker, Output, OutputSizeUser, Update,
};

/// HMAC (RFC 2104) over a hasher, by the functions of the library.
///
/// It has the trait [`Mac`](crate::Mac) as the `Hmac` of the crate `hmac` does. A key has any length. For
/// many tags under one key, clone the `Hmac` after [`new`](Self::new).
///
/// ```
/// use hex_literal::hex;
/// use nattizhu::{Hmac, Mac, Ripemd160};
///
/// let mut mac = Hmac::<Ripemd160>::new(b"Jefe");
/// mac.update(b"what do ya want for nothing?");
/// let tag = mac.clone().finalize().into_bytes();
/// assert_eq!(tag, hex!("dda6c0213a485a9e24f4742064a7f033b43c4069"));
/// assert!(mac.clone().verify(&tag).is_ok());
/// assert!(mac.verify(&[0; 20]).is_err());
/// ```
#[derive(Clone)]
pub struct Hmac<D: Ripemd> {
    state: HmacState<D::Variant>,
}

impl<D: Ripemd> Hmac<D> {
    /// The HMAC under this key, of the empty text. A key longer than 64 bytes is replaced by its digest,
    /// and a shorter one is filled with zeros.
    ///
    /// ```
    /// use nattizhu::{Hmac, Mac, Ripemd160};
    ///
    /// let tag = Hmac::<Ripemd160>::new(b"key").finalize();
    /// assert!(tag == Hmac::<Ripemd160>::new(b"key\0").finalize());
    /// ```
    #[must_use]
    pub fn new(key: &[u8]) -> Self {
        Self {
            state: HmacState::init(key),
        }
    }

    /// Compares these bytes with the tag of the text: all of them, wherever the first difference is.
    ///
    /// # Errors
    ///
    /// [`MacError`] if they are not the tag, or are more or fewer bytes than it has.
    ///
    /// ```
    /// use nattizhu::{Hmac, Mac, Ripemd160};
    ///
    /// let mac = Hmac::<Ripemd160>::new(b"key").chain_update(b"text");
    /// let tag = mac.clone().finalize().into_bytes();
    /// assert!(mac.clone().verify(&tag).is_ok());
    /// assert!(mac.verify(&tag[..19]).is_err());
    /// ```
    pub fn verify(self, tag: &[u8]) -> Result<(), MacError> {
        if self.state.verify(tag) {
            Ok(())
        } else {
            Err(MacError)
        }
    }
}

impl<D: Ripemd> MacMarker for Hmac<D> {}

impl<D: Ripemd> KeySizeUser for Hmac<D> {
    type KeySize = U64;
}

impl<D: Ripemd> KeyInit for Hmac<D> {
    fn new(key: &Key<Self>) -> Self {
        Self::new(key)
    }

    fn new_from_slice(key: &[u8]) -> Result<Self, InvalidLength> {
        Ok(Self::new(key))
    }
}

impl<D: Ripemd> Update for Hmac<D> {
    fn update(&mut self, data: &[u8]) {
        taken(self.state.update(data));
    }
}

impl<D: Ripemd> OutputSizeUser for Hmac<D> {
    type OutputSize = D::OutputSize;
}

impl<D: Ripemd> FixedOutput for Hmac<D> {
    fn finalize_into(self, out: &mut Output<Self>) {
        taken(self.state.finalize(out));
    }
}

impl<D: Ripemd> AlgorithmName for Hmac<D> {
    fn write_alg_name(f: &mut fmt::Formatter<'_>) -> fmt::Result {
        write!(f, "Hmac<{}>", D::Variant::NAME)
    }
}

impl<D: Ripemd> fmt::Debug for Hmac<D> {
    fn fmt(&self, f: &mut fmt::Formatter<'_>) -> fmt::Result {
        Self::write_alg_name(f)?;
        f.write_str(" { .. }")
    }
}

impl<D: Ripemd> SerializableState for Hmac<D> {
    type SerializedStateSize = <D::Variant as Variant>::SavedHmacSize;

    fn serialize(&self) -> SerializedState<Self> {
        let mut saved = SerializedState::<Self>::default();
        self.state.save(&mut saved);
        saved
    }

    fn deserialize(saved: &SerializedState<Self>) -> Result<Self, DeserializeStateError> {
        let state = HmacState::load(saved).ok_or(DeserializeStateError)?;
        Ok(Self { state })
    }
}

/// The state is wiped when it is dropped, with or without the feature.
#[cfg(feature = "zeroize")]
impl<D: Ripemd> digest::zeroize::ZeroizeOnDrop for Hmac<D> {}
