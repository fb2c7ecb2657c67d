//! Messages that stop inside a byte: the last piece may end with 1 to 7 odd bits, and nothing is fed after
//! them. So the call that takes them gives the digest or the record to keep, and no hash to feed on.

use super::{Kept, Luffa224, Luffa256, Luffa384, Luffa512, RECORD_BYTES};
use crate::{Error, ffi};

#[cfg(test)]
mod tests;

impl Kept {
    /// Feeds the last piece. The record can have odd bits now, so what holds it is used up.
    fn end(mut self, piece: &[u8], odd: usize) -> Result<[u8; RECORD_BYTES], Error> {
        ffi::feed_bits(&mut self.0, piece, odd)?;
        Ok(self.0)
    }
}

macro_rules! bits {
    ($name:ident) => {
        /// Messages that stop inside a byte.
        impl $name {
            /// The digest of a whole message that may stop inside a byte. With `odd` from 1 to 7 its last
            /// byte has that many bits of the message, the highest, and the others don't matter; with 0
            /// it is whole.
            ///
            /// [`Error::Odd`] if `odd` is over 7, or isn't 0 and there is no byte.
            ///
            /// ```
            #[doc = concat!("use luffa::{Error, ", stringify!($name), "};")]
            ///
            /// // 12 bits: a byte, and the four highest bits of the next.
            #[doc = concat!("let digest = ", stringify!($name), "::digest_bits([0xab, 0xc0], 4)?;")]
            #[doc = concat!("assert_eq!(digest, ", stringify!($name), "::digest_bits([0xab, 0xcf], 4)?);")]
            #[doc = concat!("assert_ne!(digest, ", stringify!($name), "::digest([0xab, 0xc0]));")]
            #[doc = concat!("assert_eq!(", stringify!($name), "::digest_bits([0xab, 0xc0], 8), Err(Error::Odd));")]
            /// # Ok::<(), Error>(())
            /// ```
            pub fn digest_bits(message: impl AsRef<[u8]>, odd: usize) -> Result<[u8; $name::BYTES], Error> {
                let mut out = [0; $name::BYTES];
                ffi::digest_bits(Self::CODE.number(), message.as_ref(), odd, &mut out)?;
                Ok(out)
            }

            /// The digest of all that was fed and of a last piece, which may stop inside a byte as in
            /// [`digest_bits`](Self::digest_bits). With `odd` 0 it is [`update`](Self::update), then
            /// [`finalize`](Self::finalize).
            ///
            /// [`Error::Odd`] if `odd` is over 7, or isn't 0 and the piece is empty; [`Error::Long`] if the
            /// message would have more than [`MOST_BITS`](Self::MOST_BITS).
            ///
            /// ```
            #[doc = concat!("use luffa::{Error, ", stringify!($name), "};")]
            ///
            #[doc = concat!("let hash = ", stringify!($name), "::new().chain_update([0xab]);")]
            /// let digest = hash.finalize_bits([0xc0], 4)?;
            #[doc = concat!("assert_eq!(digest, ", stringify!($name), "::digest_bits([0xab, 0xc0], 4)?);")]
            /// # Ok::<(), Error>(())
            /// ```
            ///
            /// The hash is used up, so nothing can be fed after odd bits:
            ///
            /// ```compile_fail,E0382
            #[doc = concat!("let mut hash = luffa::", stringify!($name), "::new();")]
            /// let digest = hash.finalize_bits([0xc0], 4);
            /// hash.update("more");
            /// ```
            pub fn finalize_bits(self, piece: impl AsRef<[u8]>, odd: usize) -> Result<[u8; $name::BYTES], Error> {
                Self::finalize_record(&self.0.end(piece.as_ref(), odd)?)
            }

            /// The record to keep of all that was fed and of a last piece, as in
            /// [`finalize_bits`](Self::finalize_bits), whose refusals it has.
            ///
            /// ```
            #[doc = concat!("use luffa::{Error, ", stringify!($name), "};")]
            ///
            #[doc = concat!("let kept = ", stringify!($name), "::new().to_record_bits([0xab, 0xc0], 4)?;")]
            #[doc = concat!("let digest = ", stringify!($name), "::digest_bits([0xab, 0xc0], 4)?;")]
            #[doc = concat!("assert_eq!(", stringify!($name), "::finalize_record(&kept)?, digest);")]
            /// // Its message has ended, so that it can't be fed on.
            #[doc = concat!("assert_eq!(", stringify!($name), "::from_record(&kept).err(), Some(Error::Odd));")]
            /// # Ok::<(), Error>(())
            /// ```
            pub fn to_record_bits(
                &self,
                piece: impl AsRef<[u8]>,
                odd: usize,
            ) -> Result<[u8; RECORD_BYTES], Error> {
                self.0.clone().end(piece.as_ref(), odd)
            }

            /// The digest of a kept record's message, whether or not it has ended with odd bits.
            ///
            /// [`Error::Record`] if the record isn't well formed or is of another code.
            ///
            /// ```
            #[doc = concat!("use luffa::", stringify!($name), ";")]
            ///
            #[doc = concat!("let kept = ", stringify!($name), "::new().chain_update(\"abc\").to_record();")]
            #[doc = concat!("assert_eq!(", stringify!($name), "::finalize_record(&kept)?, ", stringify!($name), "::digest(\"abc\"));")]
            /// # Ok::<(), luffa::Error>(())
            /// ```
            pub fn finalize_record(record: &[u8]) -> Result<[u8; $name::BYTES], Error> {
                let mut out = [0; $name::BYTES];
                ffi::finish(Kept::of_code(Self::CODE, record)?, &mut out)?;
                Ok(out)
            }
        }
    };
}

bits!(Luffa224);
bits!(Luffa256);
bits!(Luffa384);
bits!(Luffa512);
