//! A sheet that is lent beneath the types.

use super::Sheet;
use crate::ffi::{self, Answer, Lent};
use crate::{Code, Digest};

/// A sheet as it is lent beneath the types, with room behind each buffer.
#[derive(Clone, PartialEq)]
pub struct Held {
    pub code: usize,
    pub sheet: Vec<u8>,
    pub n: usize,
    pub marks: Vec<u32>,
    pub out: Vec<u8>,
}

impl Held {
    pub fn of(sheet: &Sheet) -> Held {
        Held {
            code: sheet.code().number(),
            sheet: [sheet.bytes(), &[0xa5; 50]].concat(),
            n: sheet.len(),
            marks: [sheet.marks(), &[0xa5; 50]].concat(),
            out: vec![0xa5; 70],
        }
    }

    /// A save's number, count and rounds.
    pub fn save(&mut self, call: impl FnOnce(&mut Lent, &mut [u8]) -> Answer) -> [u64; 3] {
        let answer = self.lend(call);
        [answer.number, answer.count, answer.rounds]
    }

    pub fn lend<T>(&mut self, call: impl FnOnce(&mut Lent, &mut [u8]) -> T) -> T {
        let mut lent = Lent {
            code: self.code,
            sheet: &mut self.sheet,
            n: self.n,
            marks: &mut self.marks,
        };
        call(&mut lent, &mut self.out)
    }

    /// The digest that follows from the last mark, true or false.
    pub fn digest(&self, code: Code) -> Digest {
        let record = self.fed_from(self.n / 4, self.n);
        let (digest, done) = Digest::written(code, |out| ffi::finish(&record, out));
        done.map(|()| digest).unwrap()
    }

    /// Mark m as it follows from the one before it, true or false.
    pub fn mark(&self, m: usize) -> Vec<u32> {
        let record = self.fed_from(m - 1, 4 * m);
        let word = |bytes: &[u8]| u32::from_be_bytes(bytes.try_into().unwrap());
        record[8..168].chunks(4).map(word).collect()
    }

    /// The record of a hash in the state of a mark, which was fed the records from there to a place.
    fn fed_from(&self, mark: usize, end: usize) -> [u8; crate::RECORD_BYTES] {
        let fed = 160 * mark;
        let words = [24, 24, 32, 40][self.code - 1];
        let mut record = [0; crate::RECORD_BYTES];
        record[0] = self.code as u8;
        let state = &self.marks[fed / 4..][..words];
        for (bytes, word) in record[8..].chunks_mut(4).zip(state) {
            bytes.copy_from_slice(&word.to_be_bytes());
        }
        record[200..].copy_from_slice(&(fed as u128).to_be_bytes());
        ffi::feed(&mut record, &self.sheet[fed..40 * end]).unwrap();
        record
    }
}
