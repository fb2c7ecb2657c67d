//! Many changes at once beside the same one by one, and beside the plain list of records: every set of places
//! of small sheets, large sets of large ones, and marks that aren't true.

use super::{Saved, Sheet};
use crate::ffi;
use crate::random::Numbers;
use crate::sheet::held::Held;
use crate::sheet::history::{Plain, Save, rising};
use crate::sheet::mend::tests::spoil;
use crate::sheet::tests::sheet;
use crate::{Code, Digest};

/// Saves these changes at once: all is as the plain list says, and as they leave it one by one, in no more
/// rounds.
#[track_caller]
fn saves(opened: &Sheet, changes: &[(usize, [u8; 40])]) -> Saved {
    let claim = opened.digest();
    let mut at_once = opened.clone();
    let saved = at_once.change_all(changes.iter().copied(), &claim);
    let mut plain = Plain::of(opened);
    assert_eq!(saved, plain.save(&Save::Batch(changes.to_vec()), &claim));
    assert!(at_once.records() == plain.records);
    at_once.holds();

    let (mut in_turn, mut rounds) = (opened.clone(), 0);
    for (place, record) in changes {
        let claim = in_turn.digest();
        rounds += in_turn.change(*place, record, &claim).unwrap().rounds;
    }
    assert_eq!(at_once, in_turn);
    assert_eq!(at_once.digest(), in_turn.digest());
    assert!(at_once.marks() == in_turn.marks());
    let saved = saved.unwrap();
    match changes {
        [] => assert_eq!(saved.digest, claim),
        [_] => assert_eq!(saved.rounds, rounds),
        _ => assert!(saved.rounds < rounds),
    }
    saved
}

#[test]
fn rounds_by_hand() {
    for (code, n, places, rounds) in [
        (Code::Luffa256, 0, &[][..], 2),
        (Code::Luffa256, 5, &[], 3),
        (Code::Luffa256, 5, &[4], 6),
        (Code::Luffa256, 5, &[3, 4], 11),
        (Code::Luffa256, 5, &[0, 1, 2, 3, 4], 11),
        (Code::Luffa384, 7, &[], 6),
        (Code::Luffa512, 1024, &[], 3),
        (Code::Luffa512, 1024, &[0, 1023], 1286),
        (Code::Luffa512, 1024, &[1020, 1023], 11),
    ] {
        let changes: Vec<_> = places.iter().map(|place| (*place, [1; 40])).collect();
        let saved = saves(&sheet(code, n), &changes);
        assert_eq!(saved.rounds, rounds, "{places:?} of {n}");
    }
}

#[test]
fn every_set_of_places() {
    for code in Code::ALL {
        for n in 0..=9 {
            let opened = sheet(code, n);
            let new = Numbers(100 + n as u64).records(n);
            for set in 0..1 << n {
                let held = (0..n).filter(|place| set >> place & 1 == 1);
                let changes: Vec<_> = held.map(|place| (place, new[place])).collect();
                saves(&opened, &changes);
            }
        }
    }
}

#[test]
fn many_changes() {
    for code in Code::ALL {
        let mut numbers = Numbers(code.number() as u64);
        for n in [64, 67, 1023, 1024] {
            let opened = sheet(code, n);
            for most in [2, 30, 64] {
                saves(&opened, &rising(&mut numbers, n, most));
            }
            // As many as may be: the first, the last, and some throughout the sheet.
            for (first, step) in [(0, 1), (n - 64, 1), (n / 64 - 1, n / 64)] {
                let places = (first..n).step_by(step).take(64);
                let changes: Vec<_> = places.map(|place| (place, numbers.record())).collect();
                assert_eq!(changes.len(), Sheet::CHANGES_MOST);
                saves(&opened, &changes);
            }
        }
    }
}

/// Records equal to the old ones are taken too; and what was changed can be changed back.
#[test]
fn the_same_records() {
    for code in Code::ALL {
        let mut sheet = sheet(code, 22);
        let opened = sheet.digest();
        let old: Vec<_> = sheet.records().iter().copied().enumerate().collect();
        assert_eq!(saves(&sheet, &old).digest, opened);
        let changes = rising(&mut Numbers(4), 22, 10);
        let saved = sheet.change_all(changes, &opened).unwrap();
        assert_ne!(saved.digest, opened);
        let back = sheet.change_all(old, &saved.digest).unwrap();
        assert_eq!(back.digest, opened);
        sheet.holds();
    }
}

/// Marks are taken as they are found: from false ones too, changes at once leave what they leave one by one.
#[test]
fn marks_that_arent_true() {
    for code in Code::ALL {
        let mut numbers = Numbers(code.number() as u64);
        let sizes = (0..=13).chain([90]);
        for (n, most) in sizes.flat_map(|n| [0, 1, 2, 5, 64].map(|most| (n, most))) {
            let opened = sheet(code, n);
            let mut at_once = Held::of(&opened);
            spoil(&mut numbers, &mut at_once.marks[..opened.marks().len()]);
            let mut in_turn = at_once.clone();
            let mut claim = at_once.digest(code);

            let changes = rising(&mut numbers, n, most);
            let (places, records): (Vec<_>, Vec<_>) = changes.iter().copied().unzip();
            let records = records.as_flattened();
            let answer =
                at_once.save(|lent, out| ffi::batch(lent, &places, records, claim.as_bytes(), out));
            let wanted = Plain::of(&opened).save(&Save::Batch(changes.clone()), &opened.digest());
            assert_eq!(answer, [0, n as u64, wanted.unwrap().rounds]);

            for (place, record) in &changes {
                let answer = in_turn
                    .save(|lent, out| ffi::change(lent, *place, record, claim.as_bytes(), out));
                assert_eq!(answer[..2], [0, n as u64]);
                claim = Digest::try_from(&in_turn.out[..code.digest_bytes()]).unwrap();
            }
            // Without a change it is the digest held.
            in_turn.out[..code.digest_bytes()].copy_from_slice(claim.as_bytes());
            assert!(at_once == in_turn, "{code:?}, {places:?} of {n}");
        }
    }
}
