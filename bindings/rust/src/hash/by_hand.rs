//! Output by whole blocks alone, to compare the library's with: the padding and the final stage are done
//! here.

use super::Kept;
use super::tests::{PENDING, STATE};
use crate::Code;
use crate::random::Numbers;

/// Messages of 1 to 70 bytes, each with 1 to 7 bits in its last, whose low bits are as random as the others.
pub fn odd_messages() -> impl Iterator<Item = (Vec<u8>, usize)> {
    let mut numbers = Numbers(1);
    (0..70 * 7).map(move |k| (numbers.bytes(k / 7 + 1), k % 7 + 1))
}

/// The source's 3.1: the bits of the bytes, of the last one `odd` unless that is 0, a bit 1, zeros to whole
/// blocks.
fn padded(message: &[u8], odd: usize) -> Vec<u8> {
    let of = |byte: &u8| (0..8).rev().map(|k| byte >> k & 1).collect::<Vec<_>>();
    let mut bits: Vec<u8> = message.iter().flat_map(of).collect();
    if odd > 0 {
        bits.truncate(8 * (message.len() - 1) + odd);
    }
    bits.push(1);
    bits.resize(bits.len().next_multiple_of(256), 0);
    let byte = |bits: &[u8]| bits.iter().fold(0, |byte, bit| byte << 1 | bit);
    bits.chunks(8).map(byte).collect()
}

/// The source's 3.3 and 5: a zero block before each eight words, which are the sum of the state's blocks.
pub fn output<const N: usize>(code: Code, message: &[u8], odd: usize) -> [u8; N] {
    let mut kept = Kept::start(code);
    kept.feed(&padded(message, odd)).unwrap();
    let mut out = [0; N];
    for words in out.chunks_mut(32) {
        kept.feed(&[0; 32]).unwrap();
        for block in kept.0[STATE..PENDING].chunks(32) {
            words
                .iter_mut()
                .zip(block)
                .for_each(|(to, from)| *to ^= from);
        }
    }
    out
}
