//! The cores of the hashers, over the states of the library: what `digest` gives a buffer and its traits.

use crate::sys::{self, taken, HashState, Variant, TAIL, V128, V160, V256, V320};
use core::fmt;
use digest::array::Array;
use digest::block_api::{
    AlgorithmName, Block, BlockSizeUser, Buffer, BufferKindUser, Eager, FixedOutputCore,
    OutputSizeUser, Reset, UpdateCore,
};
use digest::common::hazmat::{DeserializeStateError, SerializableState, SerializedState};
use digest::consts::U64;
use digest::typenum::Unsigned;
use digest::{HashMarker, Output};

/// The core of a hasher: what the crate `hmac` takes for its `Hmac`. Its names are [`Ripemd128Core`],
/// [`Ripemd160Core`], [`Ripemd256Core`] and [`Ripemd320Core`].
///
/// ```
/// use nattizhu::block_api::Ripemd160Core;
/// use nattizhu::digest::block_api::{FixedOutputCore, UpdateCore};
/// use nattizhu::{Digest, Ripemd160};
///
/// let mut core = Ripemd160Core::default();
/// core.update_blocks(&[[b'a'; 64].into()]);
/// let mut digest = Default::default();
/// core.finalize_fixed_core(&mut Default::default(), &mut digest);
/// assert_eq!(digest, Ripemd160::digest([b'a'; 64]));
/// ```
#[derive(Clone)]
pub struct RipemdCore<V: Variant> {
    /// What the library made of the blocks so far; nothing before the first.
    state: Option<HashState<V>>,
}

/// The core of [`Ripemd128`](crate::Ripemd128).
pub type Ripemd128Core = RipemdCore<V128>;

/// The core of [`Ripemd160`](crate::Ripemd160).
pub type Ripemd160Core = RipemdCore<V160>;

/// The core of [`Ripemd256`](crate::Ripemd256).
pub type Ripemd256Core = RipemdCore<V256>;

/// The core of [`Ripemd320`](crate::Ripemd320).
pub type Ripemd320Core = RipemdCore<V320>;

impl<V: Variant> Default for RipemdCore<V> {
    #[inline]
    fn default() -> Self {
        Self { state: None }
    }
}

impl<V: Variant> HashMarker for RipemdCore<V> {}

impl<V: Variant> BlockSizeUser for RipemdCore<V> {
    type BlockSize = U64;
}

impl<V: Variant> BufferKindUser for RipemdCore<V> {
    type BufferKind = Eager;
}

impl<V: Variant> OutputSizeUser for RipemdCore<V> {
    type OutputSize = V::OutputSize;
}

impl<V: Variant> UpdateCore for RipemdCore<V> {
    #[inline]
    fn update_blocks(&mut self, blocks: &[Block<Self>]) {
        let state = self.state.get_or_insert_with(HashState::init);
        taken(state.update(Array::slice_as_flattened(blocks)));
    }
}

impl<V: Variant> FixedOutputCore for RipemdCore<V> {
    /// A message shorter than a block takes one call of the library.
    #[inline]
    fn finalize_fixed_core(&mut self, buffer: &mut Buffer<Self>, out: &mut Output<Self>) {
        match &mut self.state {
            None => sys::digest::<V>(buffer.get_data(), out),
            Some(state) => {
                taken(state.update(buffer.get_data()));
                taken(state.finalize(out));
            }
        }
    }
}

impl<V: Variant> Reset for RipemdCore<V> {
    #[inline]
    fn reset(&mut self) {
        *self = Self::default();
    }
}

impl<V: Variant> AlgorithmName for RipemdCore<V> {
    fn write_alg_name(f: &mut fmt::Formatter<'_>) -> fmt::Result {
        f.write_str(V::NAME)
    }
}

impl<V: Variant> fmt::Debug for RipemdCore<V> {
    fn fmt(&self, f: &mut fmt::Formatter<'_>) -> fmt::Result {
        write!(f, "{}Core {{ ... }}", V::NAME)
    }
}

/// The words and the number of blocks, with which the state begins that the library saves: `digest` puts the
/// buffer behind them, as the library its tail.
impl<V: Variant> SerializableState for RipemdCore<V> {
    type SerializedStateSize = V::SavedWordsSize;

    fn serialize(&self) -> SerializedState<Self> {
        let mut room = [0; 48 + TAIL];
        let saved = &mut room[..V::SavedWordsSize::USIZE + TAIL];
        match &self.state {
            None => HashState::<V>::init().save(saved),
            Some(state) => state.save(saved),
        }
        let words = Array::from_fn(|i| saved[i]);
        sys::wipe(saved);
        words
    }

    fn deserialize(words: &SerializedState<Self>) -> Result<Self, DeserializeStateError> {
        let mut saved = [0; 48 + TAIL];
        saved[..words.len()].copy_from_slice(words);
        let state = HashState::load(&saved[..words.len() + TAIL]);
        sys::wipe(&mut saved);
        let state = Some(state.ok_or(DeserializeStateError)?);
        Ok(Self { state })
    }
}

/// A state is wiped when it is dropped, with or without the feature.
#[cfg(feature = "zeroize")]
impl<V: Variant> digest::zeroize::ZeroizeOnDrop for RipemdCore<V> {}
