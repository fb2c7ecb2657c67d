//! Stepping back over a block: the last 32 bytes of the message are taken back, as where a logger sends them
//! again.

use super::{Luffa224, Luffa256, Luffa384, Luffa512};
use crate::{Error, ffi};

#[cfg(test)]
mod tests;

/// The bytes of a message block, which `take_back` takes back as a whole.
///
/// ```
/// use luffa::{BLOCK_BYTES, Error, Luffa256};
///
/// let frame = [7; 100];
/// let (blocks, rest) = frame.as_slice().split_at(3 * BLOCK_BYTES);
/// let mut hash = Luffa256::new().chain_update(blocks);
/// let last = blocks.last_chunk::<BLOCK_BYTES>().unwrap();
/// assert_eq!(hash.take_back(last), Ok(()));
/// assert_eq!(hash.chain_update(rest).take_back(last), Err(Error::Back));
/// ```
pub const BLOCK_BYTES: usize = 32;

macro_rules! back {
    ($name:ident) => {
        /// Stepping back over a block.
        impl $name {
            /// Takes back the last block of the message: the hash is then the one from before these 32 bytes
            /// were fed, in whatever pieces.
            ///
            /// Which block was fed can't be known. With another one the hash becomes a different one, which can
            /// be fed and finalized, but never the earlier one; with the same it can be put back.
            ///
            /// [`Error::Back`] if the message doesn't end with a whole block, as it has no bytes, or a number of
            /// them that isn't a multiple of [`BLOCK_BYTES`]; the hash stays as it was.
            ///
            /// ```
            #[doc = concat!("use luffa::{Error, ", stringify!($name), "};")]
            ///
            /// let (first, garbled, again) = ([1; 32], [9; 32], [2; 32]);
            #[doc = concat!("let mut hash = ", stringify!($name), "::new().chain_update(first).chain_update(garbled);")]
            /// hash.take_back(&garbled)?;
            /// hash.update(again);
            #[doc = concat!("let mended = ", stringify!($name), "::digest([first, again].concat());")]
            /// assert_eq!(hash.clone().finalize(), mended);
            /// // A byte later the block isn't the last any more.
            /// hash.update("a");
            /// assert_eq!(hash.take_back(&again), Err(Error::Back));
            /// # Ok::<(), Error>(())
            /// ```
            pub fn take_back(&mut self, block: &[u8; BLOCK_BYTES]) -> Result<(), Error> {
                ffi::back(&mut self.0.0, block)
            }
        }
    };
}

back!(Luffa224);
back!(Luffa256);
back!(Luffa384);
back!(Luffa512);
