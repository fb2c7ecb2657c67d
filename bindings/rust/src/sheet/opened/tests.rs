//! Where a stale save is told to look, against a comparison of the records themselves: each place of small
//! sheets, sheets of every two lengths, and large ones.

use super::call::Call;
use super::{Opened, Saved, Sheet};
use crate::random::Numbers;
use crate::sheet::history::Plain;
use crate::sheet::tests::sheet;
use crate::{Code, Error};

/// Each kind of save, at a place where it isn't refused before the claim is checked.
#[derive(Clone, Copy, Debug)]
pub enum Kind {
    Change,
    Append,
    Drop,
}

impl Kind {
    /// Those that a sheet of n records takes.
    pub fn of(n: usize) -> impl Iterator<Item = Kind> {
        let change_and_drop = [Kind::Change, Kind::Drop]
            .into_iter()
            .filter(move |_| n > 0);
        change_and_drop.chain((n < Sheet::MOST).then_some(Kind::Append))
    }

    pub fn save(self, sheet: &mut Sheet, from: &Opened) -> Result<Saved, Error> {
        match self {
            Kind::Change => sheet.change_from(sheet.len() / 2, &[7; 40], from),
            Kind::Append => sheet.append_from(&[7; 40], from),
            Kind::Drop => sheet.drop_last_from(from),
        }
    }

    pub fn plain(self, sheet: &mut Sheet, from: &Opened) -> Result<Saved, Error> {
        let claim = from.digest();
        match self {
            Kind::Change => sheet.change(sheet.len() / 2, &[7; 40], &claim),
            Kind::Append => sheet.append(&[7; 40], &claim),
            Kind::Drop => sheet.drop_last(&claim),
        }
    }
}

/// What a stale save is told: the first four records that both sheets have and that differ.
pub fn told(held: &Sheet, own: &[[u8; 40]]) -> Error {
    let rounds = Plain::of(held).rounds_from(held.len());
    let shared = held.records().chunks_exact(4).zip(own.chunks_exact(4));
    match shared.clone().position(|(held, own)| held != own) {
        Some(group) => Error::StaleGroup {
            group,
            pairs: group + 1,
            rounds,
        },
        None => Error::StaleTail {
            pairs: shared.count(),
            longer: held.len().max(own.len()),
            rounds,
        },
    }
}

/// Every save that brings the other sheet is told where, and nothing is written. The plain one is told what it
/// was told before there were others.
#[track_caller]
fn parted(held: &Sheet, own: &Sheet) -> Error {
    let from = own.opened();
    let stale = told(held, own.records());
    let rounds = Plain::of(held).rounds_from(held.len());
    let places = stale.places().unwrap();
    let at = |sheet: &Sheet| sheet.records().get(places.clone()).map(|at| at.to_vec());
    if stale.number() == 11 {
        assert_ne!(at(held), at(own));
    }
    for kind in Kind::of(held.len()) {
        let mut sheet = held.clone();
        assert_eq!(kind.save(&mut sheet, &from), Err(stale), "{kind:?}");
        let plain = kind.plain(&mut sheet, &from);
        assert_eq!(plain, Err(Error::Stale { rounds }), "{kind:?}");
        assert_eq!((&sheet, sheet.digest()), (held, held.digest()));
        sheet.holds();
    }
    assert!(from == own.opened(), "what was opened is written");
    stale
}

#[test]
fn each_place() {
    for code in Code::ALL {
        for n in 1..=13 {
            let own = sheet(code, n);
            for place in 0..n {
                let mut held = own.clone();
                held.change(place, &[9; 40], &own.digest()).unwrap();
                let stale = parted(&held, &own);
                assert!(stale.places().unwrap().contains(&place));
                // Records that fill their group are named, the others are the tail.
                let whole = place / 4 < n / 4;
                assert_eq!(stale.number(), if whole { 11 } else { 16 });
                parted(&own, &held);
            }
        }
    }
}

/// Both longer and shorter, with the same beginning or with one place of it changed.
#[test]
fn every_two_lengths() {
    for code in Code::ALL {
        let records = Numbers(5).records(12);
        let all: Vec<_> = (0..=12)
            .map(|n| Sheet::from_records(code, &records[..n]).unwrap())
            .collect();
        for own in &all {
            for held in &all {
                if held != own {
                    let pairs = held.len().min(own.len()) / 4;
                    let stale = parted(held, own);
                    assert_eq!(stale.number(), 16);
                    let longer = held.len().max(own.len());
                    assert_eq!(stale.places(), Some(4 * pairs..longer));
                }
                for place in (0..held.len()).filter(|place| place % 4 == own.len() % 4) {
                    let mut held = held.clone();
                    held.change(place, &[9; 40], &held.digest()).unwrap();
                    parted(&held, own);
                }
            }
        }
    }
}

/// Of many groups that differ the first is named, whatever comes after it.
#[test]
fn the_first_of_many() {
    for code in Code::ALL {
        let mut numbers = Numbers(code.number() as u64);
        for (n, m) in [(1024, 1024), (1024, 1021), (90, 1023), (91, 64)] {
            let own = Sheet::from_records(code, &Numbers(7).records(n)).unwrap();
            let mut records = Numbers(7).records(m);
            let shared = n.min(m) / 4;
            for group in [shared - 1, shared / 2, 1, 0] {
                // Some records of this group, and of the later ones.
                let first = 4 * group + numbers.below(4);
                for place in (first..m).step_by(1 + numbers.below(9)) {
                    records[place] = numbers.record();
                }
                let held = Sheet::from_records(code, &records).unwrap();
                let stale = parted(&held, &own);
                assert_eq!(stale.places(), Some(4 * group..4 * group + 4));
            }
        }
    }
}

#[test]
fn by_hand() {
    for (code, n, place, group, rounds) in [
        (Code::Luffa224, 23, 14, 3, 5),
        (Code::Luffa256, 1024, 1023, 255, 2),
        (Code::Luffa384, 22, 8, 2, 5),
        (Code::Luffa512, 1023, 0, 0, 6),
    ] {
        let own = sheet(code, n);
        let mut held = own.clone();
        held.change(place, &[9; 40], &own.digest()).unwrap();
        let pairs = group + 1;
        let stale = Error::StaleGroup {
            group,
            pairs,
            rounds,
        };
        assert_eq!(parted(&held, &own), stale);
        // Beneath the types: the first has six numbers unlike one another.
        let mut call = Call::new(Kind::Drop, &held, &own);
        call.claim = own.digest().as_bytes().to_vec();
        let [n, group, pairs] = [n, group, pairs].map(|number| number as u64);
        assert_eq!(call.make(), [11, n, rounds, 1, group, pairs]);
    }
    let own = sheet(Code::Luffa512, 21);
    let mut held = own.clone();
    held.append(&[9; 40], &own.digest()).unwrap();
    let (pairs, longer, rounds) = (5, 22, 5);
    let tail = Error::StaleTail {
        pairs,
        longer,
        rounds,
    };
    assert_eq!(parted(&held, &own), tail);
    // No pair is compared where either has fewer than four records.
    for n in 0..=3 {
        let stale = parted(&held, &sheet(Code::Luffa512, n));
        assert_eq!(stale.places(), Some(0..22));
    }
}
