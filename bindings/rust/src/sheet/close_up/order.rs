//! Closing up beneath the types, and the order of its refusals: each alone and with every set of the others.

use crate::order::{Way, every_set};
use crate::sheet::Sheet;
use crate::sheet::held::Held;
use crate::sheet::history::Plain;
use crate::sheet::saves::{self, Save};
use crate::sheet::tests::sheet;
use crate::{Code, ffi};

/// A call, with all that it is lent.
#[derive(Clone)]
pub struct Call {
    pub held: Held,
    pub claim: Vec<u8>,
    pub places: Vec<u16>,
    /// In which the claim is checked.
    rounds: u64,
}

/// A sheet of n records, of which these are struck.
pub fn struck(code: Code, n: usize, places: impl IntoIterator<Item = usize>) -> Sheet {
    let mut records = sheet(code, n).records().to_vec();
    for place in places {
        records[place] = Sheet::STRUCK;
    }
    Sheet::from_records(code, &records).unwrap()
}

impl Call {
    /// With nothing wrong, and more places in the list than are asked for.
    pub fn new(sheet: &Sheet) -> Call {
        let n = sheet.len();
        Call {
            held: Held::of(sheet),
            claim: sheet.digest().as_bytes().to_vec(),
            places: vec![0xa5a5; n + 9],
            rounds: Plain::of(sheet).rounds_from(n),
        }
    }

    /// What is left where it is done, and the answer: document 02's sentences, from the marks as they are found.
    fn close_up(&mut self) -> [u64; 3] {
        let held = &mut self.held;
        let n = held.n;
        let records: Vec<_> = held.sheet[..40 * n]
            .chunks(40)
            .map(<[u8]>::to_vec)
            .collect();
        let is_struck = |record: &Vec<u8>| *record == [0; 40];
        let start = records.iter().position(is_struck).unwrap_or(n) / 4;
        held.sheet[..40 * n].fill(0);
        held.n = 0;
        for (old, record) in records.iter().enumerate() {
            if !is_struck(record) {
                held.sheet[40 * held.n..][..40].copy_from_slice(record);
                self.places[held.n] = old as u16;
                held.n += 1;
            }
        }
        for m in start + 1..=n / 4 {
            let there = m <= held.n / 4;
            let words = if there { held.mark(m) } else { vec![0; 40] };
            held.marks[40 * m..][..40].copy_from_slice(&words);
        }
        let code = Code::from_number(held.code).unwrap();
        let digest = held.digest(code);
        held.out[..code.digest_bytes()].copy_from_slice(digest.as_bytes());
        let last = if held.code < 3 { 1 } else { 2 };
        let (count, blocks) = (held.n as u64, 40 * held.n / 32 + 1 - 5 * start);
        held.n = n;
        [0, count, self.rounds + blocks as u64 + last]
    }

    /// Where refused, nothing is written, and the count is the one given.
    #[track_caller]
    pub fn answers(mut self, number: u64) {
        let mut left = self.clone();
        let (claim, places) = (&self.claim, &mut self.places);
        let answer = self
            .held
            .save(|lent, out| ffi::close_up(lent, claim, places, out));
        let n = self.held.n as u64;
        let wanted = match number {
            0 => left.close_up(),
            11 => [11, n, self.rounds],
            _ => [number, n, 0],
        };
        assert_eq!(answer, wanted);
        assert_eq!(self.places, left.places);
        assert!(self.held.sheet == left.held.sheet, "the sheet");
        assert!(self.held.marks == left.held.marks, "the marks");
        assert!(self.held.out == left.held.out, "the digest");
    }
}

impl Save for Call {
    fn held(&mut self) -> &mut Held {
        &mut self.held
    }

    fn claim(&mut self) -> &mut Vec<u8> {
        &mut self.claim
    }
}

/// The order in which they are judged.
const ORDER: [u64; 7] = [1, 2, 5, 6, 23, 10, 11];

/// Ways to meet the one that no other save has. They come before the others.
const NO_LIST: &[Way<Call>] = &[
    |c| c.places.clear(),
    |c| c.places.truncate(c.held.n - 1),
    |c| c.places.truncate(1),
];

#[test]
fn every_set_of_refusals() {
    let ways = [&[(23, NO_LIST)][..], &saves::ways()].concat();
    for code in Code::ALL {
        let calls = [(8, &[][..]), (9, &[0, 1]), (10, &[9]), (11, &[4, 5, 6, 7])];
        let calls = calls.map(|(n, places)| Call::new(&struck(code, n, places.iter().copied())));
        every_set(&calls, &ORDER, &ways, Call::answers);
    }
}
