//! Longer output: the words of the final stage, of which the digest is the beginning. The slice that is to
//! be filled says how many are wanted, as with the extendable output of other hash crates.

use super::{Kept, Luffa224, Luffa256, Luffa384, Luffa512};
use crate::Error;
use crate::ffi::{self, OutputAnswer};

#[cfg(test)]
mod tests;

/// The bytes of a word of output.
const WORD_BYTES: usize = 4;

/// The most bytes of longer output: 64 words of four.
///
/// ```
/// use luffa::{Error, Luffa256, OUTPUT_BYTES_MOST};
///
/// assert_eq!(Luffa256::output("abc", &mut [0; OUTPUT_BYTES_MOST]), Ok(8));
/// assert_eq!(Luffa256::output("abc", &mut [0; OUTPUT_BYTES_MOST + 4]), Err(Error::Words));
/// ```
pub const OUTPUT_BYTES_MOST: usize = 64 * WORD_BYTES;

/// The words that fill this slice. One that isn't whole is counted, so that the library finds too few bytes
/// for them all.
fn words_in(out: &[u8]) -> usize {
    out.len().div_ceil(WORD_BYTES)
}

impl OutputAnswer {
    /// The rounds of the final stage, or the refusal.
    fn judge(self) -> Result<u64, Error> {
        Error::judge(self.number, 0)?;
        Ok(self.rounds)
    }
}

macro_rules! output {
    ($name:ident) => {
        /// Longer output, of which the digest is the beginning.
        impl $name {
            /// Fills a slice with longer output of a whole message, and answers the rounds of the final
            /// stage: the words divided by eight, rounded up. A word is four bytes.
            ///
            /// Shorter output is the beginning of longer output, and the digest is that of
            /// [`BYTES`](Self::BYTES).
            ///
            /// Refused, with the slice as it was: [`Error::Words`] if it is empty or longer than
            /// [`OUTPUT_BYTES_MOST`], [`Error::Out`] if its last word isn't whole.
            ///
            /// ```
            #[doc = concat!("use luffa::{Error, ", stringify!($name), "};")]
            ///
            /// let mut out = [0; 100];
            #[doc = concat!("assert_eq!(", stringify!($name), "::output(\"abc\", &mut out), Ok(4));")]
            #[doc = concat!("assert!(out.starts_with(&", stringify!($name), "::digest(\"abc\")));")]
            /// let mut short = [0; 12];
            #[doc = concat!("assert_eq!(", stringify!($name), "::output(\"abc\", &mut short), Ok(1));")]
            /// assert!(out.starts_with(&short));
            #[doc = concat!("assert_eq!(", stringify!($name), "::output(\"abc\", &mut out[1..]), Err(Error::Out));")]
            /// ```
            #[doc(alias = "digest_xof")]
            pub fn output(message: impl AsRef<[u8]>, out: &mut [u8]) -> Result<u64, Error> {
                ffi::output(Self::CODE.number(), words_in(out), message.as_ref(), out).judge()
            }

            /// Longer output of a whole message that may stop inside a byte, as in
            /// [`digest_bits`](Self::digest_bits). With `odd` 0 it is [`output`](Self::output).
            ///
            /// Refused as in [`output`](Self::output), and then [`Error::Odd`] if `odd` is over 7, or isn't 0
            /// and there is no byte.
            ///
            /// ```
            #[doc = concat!("use luffa::{Error, ", stringify!($name), "};")]
            ///
            /// let mut out = [0; 100];
            #[doc = concat!(stringify!($name), "::output_bits([0xab, 0xc0], 4, &mut out)?;")]
            #[doc = concat!("assert!(out.starts_with(&", stringify!($name), "::digest_bits([0xab, 0xc0], 4)?));")]
            /// # Ok::<(), Error>(())
            /// ```
            pub fn output_bits(message: impl AsRef<[u8]>, odd: usize, out: &mut [u8]) -> Result<u64, Error> {
                ffi::output_bits(Self::CODE.number(), words_in(out), message.as_ref(), odd, out).judge()
            }

            /// Longer output of all that was fed, with the answer and the refusals of
            /// [`output`](Self::output). To have the digest too, or to feed on, finalize a clone.
            ///
            /// ```
            #[doc = concat!("use luffa::{Error, ", stringify!($name), "};")]
            ///
            #[doc = concat!("let hash = ", stringify!($name), "::new().chain_update(\"ab\").chain_update(\"c\");")]
            /// let mut out = [0; 100];
            /// assert_eq!(hash.clone().finalize_output(&mut out)?, 4);
            /// assert!(out.starts_with(&hash.finalize()));
            /// # Ok::<(), Error>(())
            /// ```
            #[doc(alias = "finalize_xof_into")]
            pub fn finalize_output(self, out: &mut [u8]) -> Result<u64, Error> {
                ffi::finish_output(&self.0.0, words_in(out), out).judge()
            }

            /// Longer output of all that was fed and of a last piece, which may stop inside a byte as in
            /// [`finalize_bits`](Self::finalize_bits).
            ///
            /// The piece is judged first, and refused as there; then the slice, as in
            /// [`output`](Self::output).
            ///
            /// ```
            #[doc = concat!("use luffa::{Error, ", stringify!($name), "};")]
            ///
            #[doc = concat!("let hash = ", stringify!($name), "::new().chain_update([0xab]);")]
            /// let (mut out, mut whole) = ([0; 100], [0; 100]);
            /// hash.finalize_output_bits([0xc0], 4, &mut out)?;
            #[doc = concat!(stringify!($name), "::output_bits([0xab, 0xc0], 4, &mut whole)?;")]
            /// assert_eq!(out, whole);
            /// # Ok::<(), Error>(())
            /// ```
            pub fn finalize_output_bits(
                self,
                piece: impl AsRef<[u8]>,
                odd: usize,
                out: &mut [u8],
            ) -> Result<u64, Error> {
                Self::finalize_output_record(&self.to_record_bits(piece, odd)?, out)
            }

            /// Longer output of a kept record's message, whether or not it has ended with odd bits.
            ///
            /// Refused, with the slice as it was: [`Error::Words`] if it is empty or longer than
            /// [`OUTPUT_BYTES_MOST`], [`Error::Record`] if the record isn't well formed or is of another
            /// code, [`Error::Out`] if the slice's last word isn't whole.
            ///
            /// ```
            #[doc = concat!("use luffa::{Error, ", stringify!($name), "};")]
            ///
            #[doc = concat!("let kept = ", stringify!($name), "::new().to_record_bits([0xab, 0xc0], 4)?;")]
            /// let mut out = [0; 100];
            #[doc = concat!("assert_eq!(", stringify!($name), "::finalize_output_record(&kept, &mut out)?, 4);")]
            #[doc = concat!("assert!(out.starts_with(&", stringify!($name), "::finalize_record(&kept)?));")]
            /// # Ok::<(), Error>(())
            /// ```
            pub fn finalize_output_record(record: &[u8], out: &mut [u8]) -> Result<u64, Error> {
                // One of another code is lent as none: the library refuses that in its turn, after the words.
                let record = Kept::of_code(Self::CODE, record).unwrap_or_default();
                ffi::finish_output(record, words_in(out), out).judge()
            }
        }
    };
}

output!(Luffa224);
output!(Luffa256);
output!(Luffa384);
output!(Luffa512);
