//! The codes, which name the digest's length.

use crate::Error;

/// Which of the four digests, by the numbers that the library takes.
///
/// ```
/// use luffa::Code;
///
/// assert_eq!(Code::Luffa384.number(), 3);
/// assert_eq!(Code::Luffa384.digest_bytes(), 48);
/// ```
#[derive(Clone, Copy, Debug, PartialEq, Eq, Hash)]
pub enum Code {
    /// 224 bits.
    Luffa224 = 1,
    /// 256 bits.
    Luffa256 = 2,
    /// 384 bits.
    Luffa384 = 3,
    /// 512 bits.
    Luffa512 = 4,
}

impl Code {
    /// Every code, in the order of their numbers.
    ///
    /// ```
    /// let bytes = luffa::Code::ALL.map(|code| code.digest_bytes());
    /// assert_eq!(bytes, [28, 32, 48, 64]);
    /// ```
    pub const ALL: [Code; 4] = [
        Code::Luffa224,
        Code::Luffa256,
        Code::Luffa384,
        Code::Luffa512,
    ];

    /// The code with this number, or [`Error::Width`] if there is none.
    ///
    /// ```
    /// use luffa::{Code, Error};
    ///
    /// assert_eq!(Code::from_number(2), Ok(Code::Luffa256));
    /// assert_eq!(Code::from_number(5), Err(Error::Width));
    /// ```
    pub fn from_number(number: usize) -> Result<Code, Error> {
        let known = Code::ALL.into_iter().find(|code| code.number() == number);
        known.ok_or(Error::Width)
    }

    /// The code's number, 1 to 4.
    pub const fn number(self) -> usize {
        self as usize
    }

    /// The bytes of a digest at this code.
    pub const fn digest_bytes(self) -> usize {
        match self {
            Code::Luffa224 => 28,
            Code::Luffa256 => 32,
            Code::Luffa384 => 48,
            Code::Luffa512 => 64,
        }
    }

    /// The blocks of a state at this code, eight words of 32 bits each: w in the specification.
    ///
    /// ```
    /// let blocks = luffa::Code::ALL.map(|code| code.blocks());
    /// assert_eq!(blocks, [3, 3, 4, 5]);
    /// ```
    pub const fn blocks(self) -> usize {
        match self {
            Code::Luffa224 | Code::Luffa256 => 3,
            Code::Luffa384 => 4,
            Code::Luffa512 => 5,
        }
    }

    /// The words of a state at this code.
    ///
    /// ```
    /// let words = luffa::Code::ALL.map(|code| code.state_words());
    /// assert_eq!(words, [24, 24, 32, 40]);
    /// ```
    pub const fn state_words(self) -> usize {
        8 * self.blocks()
    }

    /// The bytes of a state's dump by [`columns`](crate::columns) at this code.
    ///
    /// ```
    /// let bytes = luffa::Code::ALL.map(|code| code.dump_bytes());
    /// assert_eq!(bytes, [96, 96, 128, 160]);
    /// ```
    pub const fn dump_bytes(self) -> usize {
        32 * self.blocks()
    }

    /// The most bits that a message may have at this code: fewer than 2^64 at 224 and 256 bits, fewer
    /// than 2^128 at 384 and 512.
    ///
    /// ```
    /// use luffa::Code;
    ///
    /// assert_eq!(Code::Luffa256.most_bits(), (1 << 64) - 1);
    /// assert_eq!(Code::Luffa512.most_bits(), u128::MAX);
    /// ```
    pub const fn most_bits(self) -> u128 {
        match self {
            Code::Luffa224 | Code::Luffa256 => u64::MAX as u128,
            Code::Luffa384 | Code::Luffa512 => u128::MAX,
        }
    }
}
