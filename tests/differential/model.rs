//! The calls over a message by the texts of document 01 and of Q-7 in document 02: which refusals hold,
//! and what is held afterwards. A message is a bit string, and a record that string's length with its
//! last bits; the separately written program does the hashing.

use crate::bits::{allowed, bits_of, BitLuffa};
use crate::luffa::{Luffa, CODES};

/// The record's length, and where its fields begin.
pub const RECORD: usize = 216;
pub const STATE: usize = 8;
pub const PENDING: usize = 168;
pub const COUNT: usize = 200;

/// The bits after a message's last whole byte are at most so many.
pub const MOST_ODD: usize = 7;

pub fn known(code: usize) -> bool {
    (1..=4).contains(&code)
}

/// Bytes of the digest at a known code.
pub fn digest_bytes(code: usize) -> usize {
    4 * CODES[code - 1].1
}

/// The state words that a known code uses.
pub fn state_words(code: usize) -> usize {
    8 * CODES[code - 1].0
}

/// What a record holds. It is the lent struct, as C has it.
#[repr(C)]
#[derive(Clone, Copy, Debug, PartialEq)]
pub struct Hash {
    pub code: usize,
    pub odd: usize,
    pub state: [u32; 40],
    pub pending: [u8; 32],
    pub count_high: u64,
    pub count_low: u64,
}

impl Hash {
    pub fn count(&self) -> u128 {
        (self.count_high as u128) << 64 | self.count_low as u128
    }

    /// The message's bits so far, unless they are 2^128 or more.
    pub fn bits(&self) -> Option<u128> {
        self.count().checked_mul(8)?.checked_add(self.odd as u128)
    }

    /// Of the 256 pending bits, those that are the message's come first.
    fn held(&self) -> usize {
        8 * (self.count() % 32) as usize + self.odd
    }

    pub fn well_formed(&self) -> bool {
        known(self.code)
            && self.odd <= MOST_ODD
            && allowed(self.code, self.bits())
            && self.state[state_words(self.code)..]
                .iter()
                .all(|word| *word == 0)
            && bits_of(&self.pending).skip(self.held()).all(|bit| !bit)
    }

    /// The hash under way that a well-formed one stands for.
    fn under_way(&self) -> BitLuffa {
        let mut hash = BitLuffa::after(Luffa::at(CODES[self.code - 1].0, &self.state));
        hash.update(bits_of(&self.pending).take(self.held()));
        hash
    }

    /// That of the empty message at a known code.
    pub fn start(code: usize) -> Hash {
        Hash {
            code,
            odd: 0,
            state: Luffa::new(CODES[code - 1].0).state(),
            pending: [0; 32],
            count_high: 0,
            count_low: 0,
        }
    }

    /// With a piece added that isn't refused.
    pub fn feed(&self, piece: &[u8], odd: usize) -> Hash {
        let n = length(piece, odd);
        let mut under_way = self.under_way();
        under_way.update(bits_of(piece).take(n));
        let mut pending = [0; 32];
        for (i, _) in under_way.held.iter().enumerate().filter(|(_, bit)| **bit) {
            pending[i / 8] |= 0x80 >> (i % 8);
        }
        let bits = self.bits().unwrap() + n as u128;
        Hash {
            code: self.code,
            odd: (bits % 8) as usize,
            state: under_way.hash.state(),
            pending,
            count_high: (bits >> 67) as u64,
            count_low: (bits >> 3) as u64,
        }
    }

    /// The hash with its last block taken.
    pub fn padded(&self) -> Luffa {
        self.under_way().padded()
    }

    /// The digest of what was fed.
    pub fn finish(&self) -> Vec<u8> {
        bytes_of(&self.under_way().finish(CODES[self.code - 1].1))
    }
}

/// The bits of a message or piece whose last byte has `odd` of them, where that is 1 to 7.
pub fn length(bytes: &[u8], odd: usize) -> usize {
    match odd {
        1..=MOST_ODD => (8 * bytes.len() + odd).saturating_sub(8),
        _ => 8 * bytes.len(),
    }
}

/// What a record's bytes hold, if it has the length and the zeros that the struct has no field for.
pub fn read(record: &[u8]) -> Option<Hash> {
    if record.len() != RECORD || record[2..STATE] != [0; 6] {
        return None;
    }
    let (words, _) = record[STATE..PENDING].as_chunks();
    let (count, _) = record[COUNT..].as_chunks();
    Some(Hash {
        code: record[0] as usize,
        odd: record[1] as usize,
        state: std::array::from_fn(|i| u32::from_be_bytes(words[i])),
        pending: record[PENDING..COUNT].try_into().unwrap(),
        count_high: u64::from_be_bytes(count[0]),
        count_low: u64::from_be_bytes(count[1]),
    })
}

/// The bytes of a record that holds this.
pub fn write(hash: &Hash) -> Vec<u8> {
    let mut record = vec![hash.code as u8, hash.odd as u8, 0, 0, 0, 0, 0, 0];
    record.extend(bytes_of(&hash.state));
    record.extend(hash.pending);
    record.extend(hash.count().to_be_bytes());
    record
}

/// The refusals that hold, in the order in which they are given.
fn holding<const N: usize>(judged: [(u64, bool); N]) -> Vec<u64> {
    let hold = judged.into_iter().filter(|(_, holds)| *holds);
    hold.map(|(number, _)| number).collect()
}

/// Odd bits that no message or piece has.
fn no_odd(bytes: &[u8], odd: usize) -> bool {
    odd > MOST_ODD || odd > 0 && bytes.is_empty()
}

fn too_short(code: usize, out: &[u8]) -> bool {
    known(code) && out.len() < digest_bytes(code)
}

pub fn digest_refusals(code: usize, message: &[u8], odd: usize, out: &[u8]) -> Vec<u64> {
    let bits = length(message, odd) as u128;
    holding([
        (1, !known(code)),
        (2, too_short(code, out)),
        (17, no_odd(message, odd)),
        (4, known(code) && !allowed(code, Some(bits))),
    ])
}

pub fn start_refusals(code: usize, record_len: usize) -> Vec<u64> {
    holding([(1, !known(code)), (3, record_len != RECORD)])
}

/// None is a record that can't be read.
pub fn feed_refusals(hash: Option<&Hash>, piece: &[u8], odd: usize) -> Vec<u64> {
    let bits = |hash: &Hash| hash.bits()?.checked_add(length(piece, odd) as u128);
    let over = |hash: &Hash| known(hash.code) && !allowed(hash.code, bits(hash));
    holding([
        (3, !hash.is_some_and(Hash::well_formed)),
        (
            17,
            no_odd(piece, odd) || hash.is_some_and(|hash| hash.odd > 0),
        ),
        (4, hash.is_some_and(over)),
    ])
}

pub fn finish_refusals(hash: Option<&Hash>, out: &[u8]) -> Vec<u64> {
    holding([
        (3, !hash.is_some_and(Hash::well_formed)),
        (2, hash.is_some_and(|hash| too_short(hash.code, out))),
    ])
}

/// Words as bytes, the highest byte of each first.
pub fn bytes_of(words: &[u32]) -> Vec<u8> {
    words.iter().flat_map(|word| word.to_be_bytes()).collect()
}
