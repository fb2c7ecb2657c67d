//! The kept hash record of documents 01 and 02, as what it stands for: the state after the whole blocks of a message,
//! the bits after them, and how many there were in all. A record is well formed where these give all its bytes.

use crate::bits::{allowed, bits_of, BitLuffa, BLOCK};
use crate::luffa::{Luffa, CODES};

/// The bytes of a record, and how many of them each of its parts has.
pub const RECORD: usize = HEAD + STATE + PENDING + COUNT;
const HEAD: usize = 8;
const STATE: usize = 160;
const PENDING: usize = 32;
const COUNT: usize = 16;

/// What a well-formed record stands for.
#[derive(Clone, Debug, PartialEq)]
pub struct Kept {
    pub code: usize,
    /// The words of the w blocks that the code uses.
    pub state: Vec<u32>,
    /// The bits since the last full message block.
    pub held: Vec<bool>,
    /// All bits fed, with those held.
    pub bits: u128,
}

impl Kept {
    /// Nothing fed yet, at a known code.
    pub fn start(code: usize) -> Kept {
        let w = CODES[code - 1].0;
        Kept {
            code,
            state: Luffa::new(w).state()[..8 * w].to_vec(),
            held: vec![],
            bits: 0,
        }
    }

    /// With more bits fed. Whether the code allows so many is for the caller to know.
    pub fn feed(&self, bits: impl IntoIterator<Item = bool>) -> Kept {
        let mut hash = BitLuffa::after(Luffa::at(CODES[self.code - 1].0, &self.state));
        hash.update(self.held.iter().copied());
        let mut fed = 0;
        hash.update(bits.into_iter().inspect(|_| fed += 1));
        Kept {
            code: self.code,
            state: hash.hash.state()[..self.state.len()].to_vec(),
            held: hash.held,
            bits: self.bits + fed,
        }
    }

    /// The record's bytes: what isn't said stays zero.
    pub fn write(&self) -> Vec<u8> {
        let mut record = vec![0; RECORD];
        let (head, rest) = record.split_at_mut(HEAD);
        let (state, rest) = rest.split_at_mut(STATE);
        let (pending, count) = rest.split_at_mut(PENDING);
        head[0] = self.code as u8;
        head[1] = (self.bits % 8) as u8;
        for (bytes, word) in state.chunks_mut(4).zip(&self.state) {
            bytes.copy_from_slice(&word.to_be_bytes());
        }
        for (byte, bits) in pending.iter_mut().zip(self.held.chunks(8)) {
            let set = (0..8).zip(bits).filter(|(_, bit)| **bit);
            *byte = set.map(|(l, _)| 0x80 >> l).sum();
        }
        count.copy_from_slice(&(self.bits / 8).to_be_bytes());
        record
    }

    /// What these bytes stand for, if they are a well-formed record: what is read out of them must give them again.
    pub fn read(record: &[u8]) -> Option<Kept> {
        let (head, rest) = record.split_at_checked(HEAD)?;
        let (state, rest) = rest.split_at_checked(STATE)?;
        let (pending, count) = rest.split_at_checked(PENDING)?;
        let code = usize::from(head[0]);
        let (w, _) = *CODES.get(code.checked_sub(1)?)?;
        let words = state.as_chunks().0.iter().take(8 * w);
        let count = u128::from_be_bytes(count.try_into().ok()?);
        let bits = count.checked_mul(8)?.checked_add(head[1].into())?;
        let kept = Kept {
            code,
            state: words.map(|&word| u32::from_be_bytes(word)).collect(),
            held: bits_of(pending).take(bits as usize % BLOCK).collect(),
            bits,
        };
        (allowed(code, Some(bits)) && kept.write() == record).then_some(kept)
    }
}
