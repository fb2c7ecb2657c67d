//! A controller's state by columns, as it dumps it: there and back, and the injection of a message block.
//!
//! A state is [`Code::state_words`] words of 32 bits, eight for each of w = [`Code::blocks`] blocks: word
//! `8 * j + k` is word k of block j. Its dump is [`Code::dump_bytes`]: for each position l from 0 to 31, which
//! counts the bits of a word from the lowest, one byte for each block. Byte `w * l + j` is for block j, and its
//! bit k is bit l of word k. So where two dumps differ in bit k of byte b, it is in word k of block `b % w`, at
//! position `b / w`.
//!
//! A message block of [`BLOCK_BYTES`] is dumped in the same way, as one block of eight words, each high byte
//! first.
//!
//! ```
//! use luffa::{Code, Error, columns};
//!
//! // Bit 17 of word 5 of block 1.
//! let mut words = [0; 24];
//! words[8 + 5] = 1 << 17;
//! let dump = columns::from_words(Code::Luffa256, &words)?;
//! assert_eq!(dump[3 * 17 + 1], 1 << 5);
//! assert_eq!(columns::to_words(Code::Luffa256, &dump)?, words);
//! # Ok::<(), Error>(())
//! ```

use crate::{BLOCK_BYTES, Code, Error, ffi};

#[cfg(test)]
mod refusals;
#[cfg(test)]
mod tests;

/// The dump of a state.
///
/// [`Error::Columns`] if there aren't just [`Code::state_words`].
///
/// ```
/// use luffa::{Code, Error, Luffa256, columns};
///
/// // The state of a hash stands in its record, the high byte of each word first.
/// let record = Luffa256::new().chain_update([7; 32]).to_record();
/// let words = record[8..104].chunks_exact(4);
/// let words = words.map(|word| u32::from_be_bytes(word.try_into().unwrap()));
/// let words: Vec<u32> = words.collect();
/// let dump = columns::from_words(Code::Luffa256, &words)?;
/// assert_eq!(dump.len(), 96);
/// assert_eq!(columns::from_words(Code::Luffa512, &words), Err(Error::Columns));
/// # Ok::<(), Error>(())
/// ```
pub fn from_words(code: Code, words: &[u32]) -> Result<Vec<u8>, Error> {
    let mut dump = vec![0; code.dump_bytes()];
    from_words_into(code, words, &mut dump)?;
    Ok(dump)
}

/// [`from_words`], written to bytes that are lent, without allocation.
///
/// [`Error::Columns`] too if these aren't just [`Code::dump_bytes`]; they stay as they were.
///
/// ```
/// use luffa::{Code, Error, columns};
///
/// let mut dump = [0; Code::Luffa512.dump_bytes()];
/// columns::from_words_into(Code::Luffa512, &[u32::MAX; 40], &mut dump)?;
/// assert_eq!(dump, [0xff; 160]);
/// # Ok::<(), Error>(())
/// ```
pub fn from_words_into(code: Code, words: &[u32], dump: &mut [u8]) -> Result<(), Error> {
    ffi::columns_from_words(code.number(), words, dump)
}

/// The state of a dump.
///
/// [`Error::Columns`] if it isn't just [`Code::dump_bytes`].
///
/// ```
/// use luffa::{Code, Error, columns};
///
/// let words = columns::to_words(Code::Luffa384, &[0x81; 128])?;
/// // Words 0 and 7 of each block.
/// assert_eq!(words[8..16], [u32::MAX, 0, 0, 0, 0, 0, 0, u32::MAX]);
/// assert_eq!(columns::to_words(Code::Luffa384, &[0x81; 127]), Err(Error::Columns));
/// # Ok::<(), Error>(())
/// ```
pub fn to_words(code: Code, dump: &[u8]) -> Result<Vec<u32>, Error> {
    let mut words = vec![0; code.state_words()];
    to_words_into(code, dump, &mut words)?;
    Ok(words)
}

/// [`to_words`], written to words that are lent, without allocation.
///
/// [`Error::Columns`] too if these aren't just [`Code::state_words`]; they stay as they were.
///
/// ```
/// use luffa::{Code, Error, columns};
///
/// let mut words = [7; 40];
/// columns::to_words_into(Code::Luffa256, &[0; 96], &mut words[..24])?;
/// assert_eq!(words[23..25], [0, 7]);
/// # Ok::<(), Error>(())
/// ```
pub fn to_words_into(code: Code, dump: &[u8], words: &mut [u32]) -> Result<(), Error> {
    ffi::words_from_columns(code.number(), dump, words)
}

/// The dump of a message block, the same at every code.
///
/// ```
/// use luffa::columns;
///
/// let mut block = [0; 32];
/// // The lowest bit of word 1, whose last byte this is.
/// block[7] = 1;
/// assert_eq!(columns::from_message(&block)[0], 1 << 1);
/// ```
pub fn from_message(block: &[u8; BLOCK_BYTES]) -> [u8; BLOCK_BYTES] {
    let mut dump = [0; BLOCK_BYTES];
    ffi::columns_from_message(block, &mut dump).expect("a whole block and room for its dump");
    dump
}

/// Injects a message block into a state, as a round does before it permutes the blocks, and all by columns:
/// the state's dump becomes that of the state with the block injected. The message is a dump too, as
/// [`from_message`] gives it, and not the block itself.
///
/// [`Error::Columns`] if the state's dump isn't just [`Code::dump_bytes`]; it stays as it was.
///
/// ```
/// use luffa::{Code, Error, columns};
///
/// let mut dump = [0; 160];
/// columns::inject(Code::Luffa512, &mut dump, &columns::from_message(&[0xff; 32]))?;
/// // The products of all ones by 01, 02, 04, 08 and 10, at each position.
/// assert_eq!(dump[..5], [0xff, 0xe5, 0xd1, 0xb9, 0x69]);
/// # Ok::<(), Error>(())
/// ```
pub fn inject(code: Code, dump: &mut [u8], message: &[u8; BLOCK_BYTES]) -> Result<(), Error> {
    ffi::columns_inject(code.number(), dump, message)
}
