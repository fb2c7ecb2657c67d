//! Histories of random saves, with mends between them, against a plain list of records that is hashed afresh
//! each time.

use super::mend::tests::{found, spoil};
use super::{Saved, Sheet};
use crate::random::Numbers;
use crate::{Code, Digest, Error};
use std::collections::{BTreeMap, BTreeSet};

/// The records alone, and the rules of documents 01 and 02 for what a save answers.
pub struct Plain {
    pub code: Code,
    pub records: Vec<[u8; 40]>,
}

pub enum Save {
    Change(usize, [u8; 40]),
    Batch(Vec<(usize, [u8; 40])>),
    Append([u8; 40]),
    Drop,
    CloseUp,
}

impl Plain {
    pub fn of(sheet: &Sheet) -> Plain {
        Plain {
            code: sheet.code(),
            records: sheet.records().to_vec(),
        }
    }

    fn digest(&self) -> Digest {
        Digest::of(self.code, self.records.as_flattened())
    }

    /// The rounds from the mark before a place to the end of the sheet.
    pub fn rounds_from(&self, place: usize) -> u64 {
        let blocks = 40 * self.records.len() / 32 + 1;
        let last = if self.code.number() < 3 { 1 } else { 2 };
        (blocks - 5 * (place / 4) + last) as u64
    }

    /// The places of the records that aren't struck.
    pub fn kept(&self) -> Vec<usize> {
        let all = 0..self.records.len();
        all.filter(|place| self.records[*place] != [0; 40])
            .collect()
    }

    pub fn save(&mut self, save: &Save, claim: &Digest) -> Result<Saved, Error> {
        let n = self.records.len();
        match save {
            Save::Batch(changes) if !is_set(changes) => return Err(Error::Set),
            Save::Batch(changes) if changes.iter().any(|c| c.0 >= n) => return Err(Error::Place),
            Save::Change(place, _) if *place >= n => return Err(Error::Place),
            Save::Drop if n == 0 => return Err(Error::Place),
            Save::Append(_) if n == 1024 => return Err(Error::Full),
            _ if claim.code() != self.code => return Err(Error::Claim),
            _ => {}
        }
        let rounds = self.rounds_from(n);
        if *claim != self.digest() {
            return Err(Error::Stale { rounds });
        }
        // Where the work starts; without a change there is none.
        let lowest = match save {
            Save::Change(place, record) => {
                self.records[*place] = *record;
                Some(*place)
            }
            Save::Batch(changes) => {
                for (place, record) in changes {
                    self.records[*place] = *record;
                }
                changes.first().map(|change| change.0)
            }
            Save::Append(record) => {
                self.records.push(*record);
                Some(n)
            }
            Save::Drop => {
                self.records.pop();
                Some(n - 1)
            }
            Save::CloseUp => {
                let struck = self.records.iter().position(|record| *record == [0; 40]);
                self.records.retain(|record| *record != [0; 40]);
                Some(struck.unwrap_or(n))
            }
        };
        Ok(Saved {
            digest: self.digest(),
            rounds: rounds + lowest.map_or(0, |place| self.rounds_from(place)),
        })
    }
}

/// Whether these may be one save, wherever their places are.
fn is_set(changes: &[(usize, [u8; 40])]) -> bool {
    changes.len() <= 64 && changes.is_sorted_by(|one, next| one.0 < next.0)
}

/// Any record, or at times a struck one, or one that differs from it in a bit.
pub fn any_record(numbers: &mut Numbers) -> [u8; 40] {
    let mut record = [0; 40];
    match numbers.below(8) {
        0..2 => {}
        2 => record[numbers.below(40)] = 1 << numbers.below(8),
        _ => record = numbers.record(),
    }
    record
}

/// Up to so many changes, at rising places of n records.
pub fn rising(numbers: &mut Numbers, n: usize, most: usize) -> Vec<(usize, [u8; 40])> {
    let places: BTreeSet<_> = (0..most.min(n)).map(|_| numbers.below(n)).collect();
    let change = |place| (place, any_record(numbers));
    places.into_iter().map(change).collect()
}

/// Changes for one save: at times too many, or the last at a place that isn't in the sheet or has been.
fn any_changes(numbers: &mut Numbers, n: usize) -> Vec<(usize, [u8; 40])> {
    let most = [1, 5, 30, 80][numbers.below(4)];
    let most = numbers.below(most + 1);
    let mut changes = rising(numbers, n, most);
    match numbers.below(8) {
        0 => changes.push((n + numbers.below(3), any_record(numbers))),
        1 if !changes.is_empty() => changes.push(changes[numbers.below(changes.len())]),
        _ => {}
    }
    changes
}

/// A save of any kind; near the ends of the sheet at times one that is refused.
fn any_save(numbers: &mut Numbers, n: usize) -> Save {
    // A long one is filled again after it was closed up.
    match numbers.below(if n < 900 { 12 } else { 24 }) {
        0..4 => Save::Change(numbers.below(n + 1 + n / 8), any_record(numbers)),
        4..6 | 12.. => Save::Append(any_record(numbers)),
        6..8 => Save::Drop,
        8 => Save::CloseUp,
        _ => Save::Batch(any_changes(numbers, n)),
    }
}

/// The digest held, as a rule; else an old one, one with a bit turned, or one of another code.
fn any_claim(numbers: &mut Numbers, held: Digest, old: Digest) -> Digest {
    match numbers.below(12) {
        0 => old,
        1 => {
            let mut bytes = held.as_bytes().to_vec();
            let bit = numbers.below(8 * bytes.len());
            bytes[bit / 8] ^= 1 << (bit % 8);
            Digest::try_from(&bytes[..]).unwrap()
        }
        2 => Digest::of(Code::ALL[held.code().number() % 4], "another"),
        _ => held,
    }
}

#[test]
fn random_saves() {
    let mut met = BTreeMap::new();
    for (code, start) in Code::ALL
        .into_iter()
        .flat_map(|code| [0, 6, 90, 1021].map(|start| (code, start)))
    {
        let mut numbers = Numbers((100_000 * code.number() + start) as u64);
        let records = numbers.records(start);
        let mut sheet = Sheet::from_records(code, &records).unwrap();
        let mut plain = Plain { code, records };
        let mut old = sheet.digest();
        for k in 0..400 {
            let save = any_save(&mut numbers, sheet.len());
            let claim = any_claim(&mut numbers, sheet.digest(), old);
            let (name, got) = match &save {
                Save::Change(place, record) => ("change", sheet.change(*place, record, &claim)),
                Save::Batch(changes) => {
                    let changes = changes.iter().copied();
                    ("batch", sheet.change_all(changes, &claim))
                }
                Save::Append(record) => ("append", sheet.append(record, &claim)),
                Save::Drop => ("drop", sheet.drop_last(&claim)),
                Save::CloseUp => {
                    let closed = sheet.close_up(&claim);
                    let saved = closed.map(|(saved, moved)| {
                        assert!(moved.old_places().eq(plain.kept()), "save {k}");
                        saved
                    });
                    ("close up", saved)
                }
            };
            let wanted = plain.save(&save, &claim);
            assert_eq!(got, wanted, "{code:?}, from {start}: {name}, save {k}");
            assert!(sheet.records() == plain.records, "{name}, save {k}");
            assert_eq!(sheet.digest(), plain.digest(), "{name}, save {k}");
            if k % 10 == 0 {
                sheet.holds();
                old = claim;
            }
            // At times the desk closes, and the disk gives some marks back spoiled.
            if k % 20 == 19 {
                let mut marks = sheet.marks().to_vec();
                let wrong = spoil(&mut numbers, &mut marks);
                let (opened, mended) = Sheet::from_kept(code, sheet.bytes(), &marks).unwrap();
                assert_eq!(mended, found(&sheet, &wrong), "save {k}");
                sheet = opened;
            }
            let number = got.map_or_else(|refused| refused.number(), |_| 0);
            *met.entry((name, number)).or_insert(0) += 1;
        }
        sheet.holds();
    }
    // Each save has been taken and refused in each way that it can be.
    let own = [("append", 8), ("change", 7), ("drop", 7), ("batch", 7)];
    let names = own.map(|(name, _)| name).into_iter().chain(["close up"]);
    let all = names.flat_map(|name| [0, 10, 11].map(|number| (name, number)));
    for kind in all.chain(own).chain([("batch", 14)]) {
        assert!(met.get(&kind).is_some_and(|&times| times > 5), "{kind:?}");
    }
    assert_eq!(met.len(), 20);
}
