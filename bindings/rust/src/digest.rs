//! A digest as a value, whose code is its length.

use crate::{Code, Error, ffi};
use std::fmt;
use std::str::FromStr;

#[cfg(test)]
mod tests;

/// The bytes of the longest digest.
pub(crate) const LONGEST: usize = Code::Luffa512.digest_bytes();

/// A Luffa digest of one of the four lengths: what a save claims, and what it gives back.
///
/// ```
/// use luffa::{Code, Digest, Luffa224};
///
/// let digest = Digest::of(Code::Luffa224, "abc");
/// assert_eq!(digest, Digest::from(Luffa224::digest("abc")));
/// let hex = digest.to_string();
/// assert_eq!(hex, "f29311b87e9e40de7699be23fbeb5a47cb16ea4f5556d47ca40c12ad");
/// assert_eq!(hex.parse(), Ok(digest));
/// ```
#[derive(Clone, Copy, PartialEq, Eq, Hash)]
pub struct Digest {
    code: Code,
    /// Zero after the digest, so that the derived equality is the digests' own.
    bytes: [u8; LONGEST],
}

impl Digest {
    /// The digest of a whole message.
    ///
    /// ```
    /// use luffa::{Code, Digest, Sheet};
    ///
    /// let sheet = Sheet::from_records(Code::Luffa512, &[[7; 40]; 3])?;
    /// assert_eq!(sheet.digest(), Digest::of(Code::Luffa512, [7; 120]));
    /// # Ok::<(), luffa::Error>(())
    /// ```
    ///
    /// # Panics
    ///
    /// If the message has more than [`Code::most_bits`], as no slice in memory has.
    pub fn of(code: Code, message: impl AsRef<[u8]>) -> Digest {
        let (digest, done) = Digest::written(code, |out| {
            ffi::digest(code.number(), message.as_ref(), out)
        });
        done.expect("no slice in memory passes the limit");
        digest
    }

    /// The digest of a message that stops inside a byte. With `odd` from 1 to 7 the last byte has that
    /// many bits of the message, its highest, and the others don't matter; with 0 it is whole.
    ///
    /// [`Error::Odd`] if `odd` is over 7, or isn't 0 and there is no byte.
    ///
    /// ```
    /// use luffa::{Code, Digest, Error, Luffa384};
    ///
    /// let digest = Digest::of_bits(Code::Luffa384, [0xab, 0xc0], 4)?;
    /// assert_eq!(digest, Digest::from(Luffa384::digest_bits([0xab, 0xc0], 4)?));
    /// # Ok::<(), Error>(())
    /// ```
    pub fn of_bits(code: Code, message: impl AsRef<[u8]>, odd: usize) -> Result<Digest, Error> {
        let (digest, done) = Digest::written(code, |out| {
            ffi::digest_bits(code.number(), message.as_ref(), odd, out)
        });
        done.map(|()| digest)
    }

    /// The digest at a code whose bytes a call writes, with the call's answer.
    pub(crate) fn written<T>(code: Code, call: impl FnOnce(&mut [u8]) -> T) -> (Digest, T) {
        let mut bytes = [0; LONGEST];
        let answer = call(&mut bytes[..code.digest_bytes()]);
        (Digest { code, bytes }, answer)
    }

    /// The code that gives digests of this length.
    pub const fn code(&self) -> Code {
        self.code
    }

    /// The digest's bytes: 28, 32, 48 or 64.
    ///
    /// ```
    /// use luffa::{Code, Digest};
    ///
    /// assert_eq!(Digest::of(Code::Luffa256, "abc").as_bytes()[..2], [0xf2, 0x93]);
    /// ```
    pub fn as_bytes(&self) -> &[u8] {
        &self.bytes[..self.code.digest_bytes()]
    }

    /// The digest in lower-case hexadecimal, as `Display` has it too.
    ///
    /// ```
    /// use luffa::{Code, Digest};
    ///
    /// let digest = Digest::of(Code::Luffa256, "abc");
    /// assert!(digest.to_hex().starts_with("f29311b8"));
    /// assert_eq!(digest.to_hex(), format!("{digest}"));
    /// ```
    pub fn to_hex(&self) -> String {
        self.to_string()
    }
}

impl AsRef<[u8]> for Digest {
    fn as_ref(&self) -> &[u8] {
        self.as_bytes()
    }
}

impl fmt::Display for Digest {
    fn fmt(&self, f: &mut fmt::Formatter) -> fmt::Result {
        self.as_bytes()
            .iter()
            .try_for_each(|byte| write!(f, "{byte:02x}"))
    }
}

impl fmt::Debug for Digest {
    fn fmt(&self, f: &mut fmt::Formatter) -> fmt::Result {
        write!(f, "Digest({self})")
    }
}

/// The digest with these bytes; their number tells the code. [`Error::Claim`] if it is no digest's.
///
/// ```
/// use luffa::{Digest, Error};
///
/// let kept: &[u8] = &[5; 48];
/// assert_eq!(Digest::try_from(kept)?.as_bytes(), kept);
/// assert_eq!(Digest::try_from(&kept[1..]), Err(Error::Claim));
/// # Ok::<(), Error>(())
/// ```
impl TryFrom<&[u8]> for Digest {
    type Error = Error;

    fn try_from(from: &[u8]) -> Result<Digest, Error> {
        let code = Code::ALL
            .into_iter()
            .find(|code| code.digest_bytes() == from.len())
            .ok_or(Error::Claim)?;
        Ok(Digest::written(code, |out| out.copy_from_slice(from)).0)
    }
}

macro_rules! from_array {
    ($($code:ident),*) => {$(
        impl From<[u8; Code::$code.digest_bytes()]> for Digest {
            fn from(from: [u8; Code::$code.digest_bytes()]) -> Digest {
                Digest::written(Code::$code, |out| out.copy_from_slice(&from)).0
            }
        }
    )*};
}

from_array!(Luffa224, Luffa256, Luffa384, Luffa512);

/// A text that isn't 56, 64, 96 or 128 hexadecimal digits, and so isn't a [`Digest`].
///
/// ```
/// use luffa::Digest;
///
/// let refused = "f293".parse::<Digest>().unwrap_err();
/// assert_eq!(refused.to_string(), "a digest is 56, 64, 96 or 128 hexadecimal digits");
/// ```
#[derive(Clone, Copy, Debug, PartialEq, Eq)]
pub struct ParseDigestError(());

impl fmt::Display for ParseDigestError {
    fn fmt(&self, f: &mut fmt::Formatter) -> fmt::Result {
        f.write_str("a digest is 56, 64, 96 or 128 hexadecimal digits")
    }
}

impl std::error::Error for ParseDigestError {}

/// Reads hexadecimal digits, small or capital; their number tells the code.
impl FromStr for Digest {
    type Err = ParseDigestError;

    fn from_str(text: &str) -> Result<Digest, ParseDigestError> {
        let digit = |byte: u8| char::from(byte).to_digit(16);
        let bytes: Option<Vec<u8>> = text
            .as_bytes()
            .chunks(2)
            .map(|pair| match *pair {
                [high, low] => Some((digit(high)? << 4 | digit(low)?) as u8),
                _ => None,
            })
            .collect();
        let bytes = bytes.ok_or(ParseDigestError(()))?;
        Digest::try_from(&bytes[..]).map_err(|_| ParseDigestError(()))
    }
}
