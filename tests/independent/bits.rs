//! Luffa over a bit string, from sections 2.2, 3.1 and Table 1 of the Luffa specification 2.0.1. Bits
//! go one by one to their columns: where a byte of the message ends is nowhere asked.

use crate::luffa::{Block, Luffa, CODES};

/// The bits of a message block.
pub const BLOCK: usize = 256;

/// The most bits of a message at a code (Table 1).
pub fn most_bits(code: usize) -> u128 {
    match code {
        1 | 2 => (1 << 64) - 1,
        _ => u128::MAX,
    }
}

/// Whether a message may have so many bits; `None` is 2^128 or more.
pub fn allowed(code: usize, bits: Option<u128>) -> bool {
    bits.is_some_and(|bits| bits <= most_bits(code))
}

/// The bits of bytes, the highest of each first (2.2).
pub fn bits_of(bytes: &[u8]) -> impl Iterator<Item = bool> + '_ {
    bytes
        .iter()
        .flat_map(|byte| (0..8).rev().map(move |l| byte >> l & 1 == 1))
}

/// A hash under way, fed by bits.
pub struct BitLuffa {
    pub hash: Luffa,
    /// The bits since the last full message block.
    pub held: Vec<bool>,
}

impl BitLuffa {
    pub fn new(w: usize) -> BitLuffa {
        BitLuffa::after(Luffa::new(w))
    }

    /// Whole blocks fed, and then this hash.
    pub fn after(hash: Luffa) -> BitLuffa {
        let held = Vec::with_capacity(BLOCK);
        BitLuffa { hash, held }
    }

    pub fn update(&mut self, bits: impl IntoIterator<Item = bool>) {
        for bit in bits {
            self.held.push(bit);
            if self.held.len() == BLOCK {
                self.hash.round(&columns(&self.held));
                self.held.clear();
            }
        }
    }

    /// The hash with its last block taken (3.1): a 1, and zeros until a block is full.
    pub fn padded(mut self) -> Luffa {
        self.update([true]);
        while !self.held.is_empty() {
            self.update([false]);
        }
        self.hash
    }

    /// The first `count` words of the final stage for the bits fed.
    pub fn finish(self, count: usize) -> Vec<u32> {
        self.padded().final_stage(count).0
    }
}

/// A message block's bits as columns: they are those of word 0 from the highest down, then those of
/// word 1, and so on (2.2).
fn columns(bits: &[bool]) -> Block {
    let mut block = [0; 4];
    for (i, _) in bits.iter().enumerate().filter(|(_, bit)| **bit) {
        let (k, l) = (i / 32, 31 - i % 32);
        block[l / 8] |= 1 << (8 * (l % 8) + k);
    }
    block
}

/// The hash value of a whole message of bits at code 1 to 4.
pub fn digest(code: usize, bits: impl IntoIterator<Item = bool>) -> Vec<u32> {
    let (w, count) = CODES[code - 1];
    let mut hash = BitLuffa::new(w);
    hash.update(bits);
    hash.finish(count)
}
