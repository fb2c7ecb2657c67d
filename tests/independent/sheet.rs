//! The sheet and its marks (document 01, "Sheet and marks") by the plainest means: a list of records
//! that is hashed whole for every answer. No mark is kept, and none is worked on from; the rounds
//! that a save would run from a mark are counted while they are run.

use crate::luffa::{Luffa, CODES};

pub const MOST: usize = 1024;
pub const RECORD_BYTES: usize = 40;
pub const MARK_WORDS: usize = 40;

/// Records to a group; a mark stands before each group and after the last.
pub const GROUP: usize = 4;

pub type Record = [u8; RECORD_BYTES];
pub type Mark = [u32; MARK_WORDS];

#[derive(Clone)]
pub struct Sheet {
    pub code: usize,
    pub records: Vec<Record>,
}

/// What became of a save, with the rounds run for it.
#[derive(Debug, PartialEq)]
pub enum Saved {
    Done(u64),
    /// 7
    NoPlace,
    /// 8
    Full,
    /// 11
    Stale(u64),
    /// 14
    NoSet,
}

/// 5, of n records in a buffer of so many bytes.
pub fn no_sheet(n: usize, bytes: usize) -> bool {
    n > MOST || (bytes as u128) < RECORD_BYTES as u128 * n as u128
}

/// 6, of n records and so many words for their marks.
pub fn no_marks(n: usize, words: usize) -> bool {
    let marks = n as u128 / GROUP as u128 + 1;
    (words as u128) < MARK_WORDS as u128 * marks
}

/// How much any save is lent, beside what is its own: bytes, and words of the marks. A sheet is of n records.
#[derive(Clone, Copy, Debug)]
pub struct Lengths {
    pub out: usize,
    pub sheet: usize,
    pub n: usize,
    pub marks: usize,
    pub claim: usize,
}

impl Lengths {
    /// Whether 1, 2, 5 and 6 hold, which come first in every save, and 10, which comes last. An unknown code has no
    /// digest, and so no length for one is wrong.
    pub fn judged(self, code: usize) -> ([(u64, bool); 4], (u64, bool)) {
        let known = code.checked_sub(1).and_then(|k| CODES.get(k));
        let digest = known.map(|(_, words)| 4 * words);
        let first = [
            (1, digest.is_none()),
            (2, digest.is_some_and(|bytes| self.out < bytes)),
            (5, no_sheet(self.n, self.sheet)),
            (6, no_marks(self.n, self.marks)),
        ];
        (first, (10, digest.is_some_and(|bytes| self.claim != bytes)))
    }
}

impl Sheet {
    /// The digest of the whole sheet, hashed from its first byte on, and how many of the rounds are
    /// run after mark m.
    pub fn hashed(&self, m: usize) -> (Vec<u8>, u64) {
        let (w, count) = CODES[self.code - 1];
        let (before, after) = self.records.split_at(GROUP * m);
        let mut hash = Luffa::new(w);
        hash.update(before.as_flattened());
        hash.rounds = 0;
        hash.update(after.as_flattened());
        let last = hash.padded();
        let rounds = last.rounds;
        let (z, blank_rounds) = last.final_stage(count);
        let digest = z.iter().flat_map(|word| word.to_be_bytes()).collect();
        (digest, rounds + blank_rounds)
    }

    /// The number of the last mark.
    fn last_mark(&self) -> usize {
        self.records.len() / GROUP
    }

    pub fn digest(&self) -> Vec<u8> {
        self.hashed(0).0
    }

    /// The state after the groups before mark m.
    pub fn mark(&self, m: usize) -> Mark {
        let mut hash = Luffa::new(CODES[self.code - 1].0);
        hash.update(self.records[..GROUP * m].as_flattened());
        hash.state()
    }

    /// All marks of the sheet, noted on the way through it.
    pub fn marks(&self) -> Vec<Mark> {
        let mut hash = Luffa::new(CODES[self.code - 1].0);
        let mut marks = vec![hash.state()];
        for group in self.records.chunks_exact(GROUP) {
            hash.update(group.as_flattened());
            marks.push(hash.state());
        }
        marks
    }

    /// The rounds of a build.
    pub fn build(&self) -> u64 {
        self.hashed(0).1
    }

    /// The rounds in which the claim is found to be the digest, or else the stale save.
    pub fn check(&self, claim: &[u8]) -> Result<u64, Saved> {
        let (digest, rounds) = self.hashed(self.last_mark());
        if digest == claim {
            Ok(rounds)
        } else {
            Err(Saved::Stale(rounds))
        }
    }

    pub fn change(&mut self, place: usize, record: Record, claim: &[u8]) -> Saved {
        if place >= self.records.len() {
            return Saved::NoPlace;
        }
        let checked = match self.check(claim) {
            Ok(rounds) => rounds,
            Err(stale) => return stale,
        };
        self.records[place] = record;
        Saved::Done(checked + self.hashed(place / GROUP).1)
    }

    pub fn append(&mut self, record: Record, claim: &[u8]) -> Saved {
        if self.records.len() == MOST {
            return Saved::Full;
        }
        let checked = match self.check(claim) {
            Ok(rounds) => rounds,
            Err(stale) => return stale,
        };
        // The mark used is the last of the old sheet: when the record fills a group, the new mark
        // isn't there yet.
        let used = self.last_mark();
        self.records.push(record);
        Saved::Done(checked + self.hashed(used).1)
    }

    pub fn drop(&mut self, claim: &[u8]) -> Saved {
        if self.records.is_empty() {
            return Saved::NoPlace;
        }
        let checked = match self.check(claim) {
            Ok(rounds) => rounds,
            Err(stale) => return stale,
        };
        self.records.pop();
        Saved::Done(checked + self.hashed(self.last_mark()).1)
    }
}
