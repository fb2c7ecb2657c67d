//! The four hashes, each over the 216-byte record of the message fed so far. Stepping back over a block is in
//! back.rs, messages that stop inside a byte are in bits.rs, and longer output is in output.rs.

use crate::{Code, Error, ffi};
use std::{fmt, io};

mod back;
mod bits;
#[cfg(test)]
mod by_hand;
mod output;
#[cfg(test)]
mod tests;

pub use back::BLOCK_BYTES;
pub use output::OUTPUT_BYTES_MOST;

/// The bytes of a kept hash record.
pub const RECORD_BYTES: usize = 216;

/// A well-formed record at the code of the type that holds it, without odd bits: it can be fed on.
#[derive(Clone)]
struct Kept([u8; RECORD_BYTES]);

impl Kept {
    fn start(code: Code) -> Kept {
        let mut record = [0; RECORD_BYTES];
        ffi::start(code.number(), &mut record).expect("a known code and a whole record");
        Kept(record)
    }

    fn restore(code: Code, record: &[u8]) -> Result<Kept, Error> {
        let record = Kept::of_code(code, record)?;
        let mut kept = Kept(record.try_into().map_err(|_| Error::Record)?);
        // An empty piece changes nothing; the library judges the record all the same.
        kept.feed(&[])?;
        Ok(kept)
    }

    /// The record, if its first byte is this code. The library judges the rest.
    fn of_code(code: Code, record: &[u8]) -> Result<&[u8], Error> {
        match record.first() {
            Some(&first) if usize::from(first) == code.number() => Ok(record),
            _ => Err(Error::Record),
        }
    }

    fn feed(&mut self, piece: &[u8]) -> Result<(), Error> {
        ffi::feed(&mut self.0, piece)
    }

    fn finish<const N: usize>(&self) -> [u8; N] {
        let mut out = [0; N];
        ffi::finish(&self.0, &mut out).expect("a well-formed record and room for its digest");
        out
    }
}

macro_rules! hash {
    ($name:ident, $bits:literal, $bytes:literal, $abc:literal) => {
        #[doc = concat!("Luffa of ", $bits, " bits: a message that is fed piece by piece.")]
        ///
        /// ```
        #[doc = concat!("use luffa::{Digest, ", stringify!($name), "};")]
        ///
        #[doc = concat!("let mut hash = ", stringify!($name), "::new();")]
        /// hash.update("ab");
        /// hash.update("c");
        /// let digest = hash.finalize();
        #[doc = concat!("assert_eq!(Digest::from(digest).to_hex(), \"", $abc, "\");")]
        /// ```
        ///
        /// It is an [`io::Write`] too, so that a file can be copied into it:
        ///
        /// ```
        #[doc = concat!("use luffa::", stringify!($name), ";")]
        ///
        #[doc = concat!("let mut hash = ", stringify!($name), "::new();")]
        /// std::io::copy(&mut "abc".as_bytes(), &mut hash)?;
        #[doc = concat!("assert_eq!(hash.finalize(), ", stringify!($name), "::digest(\"abc\"));")]
        /// # Ok::<(), std::io::Error>(())
        /// ```
        #[derive(Clone)]
        pub struct $name(Kept);

        const _: () = assert!($bytes == Code::$name.digest_bytes());

        impl $name {
            /// The code that the library knows this digest by.
            pub const CODE: Code = Code::$name;

            /// The bytes of the digest.
            pub const BYTES: usize = $bytes;

            /// The most bits that a message may have.
            pub const MOST_BITS: u128 = Self::CODE.most_bits();

            /// The empty message.
            ///
            /// ```
            #[doc = concat!("use luffa::", stringify!($name), ";")]
            ///
            #[doc = concat!("let hash = ", stringify!($name), "::new();")]
            #[doc = concat!("assert_eq!(hash.finalize(), ", stringify!($name), "::digest(\"\"));")]
            /// ```
            pub fn new() -> Self {
                Self(Kept::start(Self::CODE))
            }

            /// The digest of a whole message in one call.
            ///
            /// ```
            #[doc = concat!("use luffa::", stringify!($name), ";")]
            ///
            #[doc = concat!("let digest = ", stringify!($name), "::digest(\"abc\");")]
            #[doc = concat!("assert_eq!(digest.len(), ", stringify!($name), "::BYTES);")]
            /// ```
            ///
            /// # Panics
            ///
            /// If the message has more than [`MOST_BITS`](Self::MOST_BITS), as no slice in memory has.
            #[track_caller]
            pub fn digest(message: impl AsRef<[u8]>) -> [u8; $bytes] {
                let mut out = [0; $bytes];
                match ffi::digest(Self::CODE.number(), message.as_ref(), &mut out) {
                    Ok(()) => out,
                    Err(refused) => panic!("{refused}"),
                }
            }

            /// Adds a piece to the message.
            ///
            /// ```
            #[doc = concat!("use luffa::", stringify!($name), ";")]
            ///
            #[doc = concat!("let mut hash = ", stringify!($name), "::new();")]
            /// hash.update(b"ab");
            /// hash.update(String::from("c"));
            #[doc = concat!("assert_eq!(hash.finalize(), ", stringify!($name), "::digest(\"abc\"));")]
            /// ```
            ///
            /// # Panics
            ///
            /// If the message would have more than [`MOST_BITS`](Self::MOST_BITS): only records that were
            /// restored come near it. [`try_update`](Self::try_update) answers instead.
            #[track_caller]
            pub fn update(&mut self, piece: impl AsRef<[u8]>) {
                if let Err(refused) = self.try_update(piece) {
                    panic!("{refused}");
                }
            }

            /// Adds a piece to the message, or answers [`Error::Long`] if the message would have more than
            /// [`MOST_BITS`](Self::MOST_BITS), and adds nothing of it.
            ///
            /// ```
            #[doc = concat!("use luffa::{Error, ", stringify!($name), "};")]
            ///
            /// // The record of a message to which one byte can be added; its last part counts the bytes.
            #[doc = concat!("let mut record = ", stringify!($name), "::new().to_record();")]
            #[doc = concat!("let most_bytes = ", stringify!($name), "::MOST_BITS / 8;")]
            /// record[200..].copy_from_slice(&(most_bytes - 1).to_be_bytes());
            #[doc = concat!("let mut hash = ", stringify!($name), "::from_record(&record)?;")]
            /// assert_eq!(hash.try_update("ab"), Err(Error::Long));
            /// assert_eq!(hash.try_update("a"), Ok(()));
            /// # Ok::<(), Error>(())
            /// ```
            pub fn try_update(&mut self, piece: impl AsRef<[u8]>) -> Result<(), Error> {
                self.0.feed(piece.as_ref())
            }

            /// Adds a piece and hands the hash on, for calls in a row.
            ///
            /// ```
            #[doc = concat!("use luffa::", stringify!($name), ";")]
            ///
            #[doc = concat!("let hash = ", stringify!($name), "::new().chain_update(\"ab\").chain_update(\"c\");")]
            #[doc = concat!("assert_eq!(hash.finalize(), ", stringify!($name), "::digest(\"abc\"));")]
            /// ```
            ///
            /// # Panics
            ///
            /// As [`update`](Self::update).
            #[must_use]
            #[track_caller]
            pub fn chain_update(mut self, piece: impl AsRef<[u8]>) -> Self {
                self.update(piece);
                self
            }

            /// The digest of all that was fed. To feed on afterwards, finalize a clone.
            ///
            /// ```
            #[doc = concat!("use luffa::", stringify!($name), ";")]
            ///
            #[doc = concat!("let mut hash = ", stringify!($name), "::new().chain_update(\"a\");")]
            #[doc = concat!("assert_eq!(hash.clone().finalize(), ", stringify!($name), "::digest(\"a\"));")]
            /// hash.update("b");
            #[doc = concat!("assert_eq!(hash.finalize(), ", stringify!($name), "::digest(\"ab\"));")]
            /// ```
            #[must_use]
            pub fn finalize(self) -> [u8; $bytes] {
                self.0.finish()
            }

            /// The digest of all that was fed; the hash is then that of the empty message.
            ///
            /// ```
            #[doc = concat!("use luffa::", stringify!($name), ";")]
            ///
            #[doc = concat!("let mut hash = ", stringify!($name), "::new();")]
            /// for message in ["one", "two"] {
            ///     hash.update(message);
            #[doc = concat!("    assert_eq!(hash.finalize_reset(), ", stringify!($name), "::digest(message));")]
            /// }
            /// ```
            #[must_use]
            pub fn finalize_reset(&mut self) -> [u8; $bytes] {
                std::mem::take(self).finalize()
            }

            /// Forgets what was fed.
            ///
            /// ```
            #[doc = concat!("use luffa::", stringify!($name), ";")]
            ///
            #[doc = concat!("let mut hash = ", stringify!($name), "::new().chain_update(\"a\");")]
            /// hash.reset();
            #[doc = concat!("assert_eq!(hash.finalize(), ", stringify!($name), "::digest(\"\"));")]
            /// ```
            pub fn reset(&mut self) {
                *self = Self::new();
            }

            /// The record to keep, from which [`from_record`](Self::from_record) goes on later, here or
            /// in another program. What was fed can be partly read from it, so keep it as safe as the
            /// message.
            ///
            /// ```
            #[doc = concat!("use luffa::", stringify!($name), ";")]
            ///
            #[doc = concat!("let kept = ", stringify!($name), "::new().chain_update(\"ab\").to_record();")]
            #[doc = concat!("let hash = ", stringify!($name), "::from_record(&kept)?.chain_update(\"c\");")]
            #[doc = concat!("assert_eq!(hash.finalize(), ", stringify!($name), "::digest(\"abc\"));")]
            /// # Ok::<(), luffa::Error>(())
            /// ```
            pub fn to_record(&self) -> [u8; RECORD_BYTES] {
                self.0 .0
            }

            /// Goes on from a kept record. Who made it can't be known.
            ///
            /// [`Error::Record`] if it isn't well formed or is of another code, as is one of the 208 bytes
            /// that version 1 kept; [`Error::Odd`] if its message has ended with odd bits:
            /// [`finalize_record`](Self::finalize_record) takes that too.
            ///
            /// ```
            #[doc = concat!("use luffa::{Error, ", stringify!($name), "};")]
            ///
            #[doc = concat!("let mut kept = ", stringify!($name), "::new().to_record();")]
            /// kept[7] = 1;
            #[doc = concat!("assert_eq!(", stringify!($name), "::from_record(&kept).err(), Some(Error::Record));")]
            /// ```
            pub fn from_record(record: &[u8]) -> Result<Self, Error> {
                Kept::restore(Self::CODE, record).map(Self)
            }
        }

        impl Default for $name {
            fn default() -> Self {
                Self::new()
            }
        }

        /// Doesn't show the record, as what was fed can be partly read from it.
        impl fmt::Debug for $name {
            fn fmt(&self, f: &mut fmt::Formatter) -> fmt::Result {
                f.debug_struct(stringify!($name)).finish_non_exhaustive()
            }
        }

        /// Each write feeds all bytes given, or fails with [`Error::Long`] inside and feeds none.
        impl io::Write for $name {
            fn write(&mut self, piece: &[u8]) -> io::Result<usize> {
                self.try_update(piece).map_err(io::Error::other)?;
                Ok(piece.len())
            }

            fn flush(&mut self) -> io::Result<()> {
                Ok(())
            }
        }
    };
}

hash!(
    Luffa224,
    224,
    28,
    "f29311b87e9e40de7699be23fbeb5a47cb16ea4f5556d47ca40c12ad"
);
hash!(
    Luffa256,
    256,
    32,
    "f29311b87e9e40de7699be23fbeb5a47cb16ea4f5556d47ca40c12ad764a73bd"
);
hash!(
    Luffa384,
    384,
    48,
    "9a7abb797a840e2d423c34c91f559f6809bdb2916fb2e9effec2fa0a7a69881b\
     e9872480c635d20d2fd6e95d046601a7"
);
hash!(
    Luffa512,
    512,
    64,
    "f40245973e80d79d0f4b9b202ddd4505b81b8830501bea31612b5817aae38792\
     1dcefd808ca2c78020aff59345d6f91f0ee6b2eee113f0cbcf22b64381387e8a"
);
