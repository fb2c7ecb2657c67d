//! Closing up beside the plain list of records and beneath the types: every set of struck places of small sheets,
//! large ones, records that are nearly struck, the room that becomes free, and marks that aren't true.

use super::order::{Call, struck};
use super::{Saved, Sheet};
use crate::random::Numbers;
use crate::sheet::history::{Plain, Save, any_record};
use crate::sheet::marks_for;
use crate::sheet::mend::tests::spoil;
use crate::sheet::tests::sheet;
use crate::{Code, Error};

/// Closes a sheet up: all is as the plain list says, beneath the types too, and a second time nothing is left to
/// do.
#[track_caller]
fn closes(opened: &Sheet) -> (Sheet, Saved) {
    Call::new(opened).answers(0);
    let claim = opened.digest();
    let mut plain = Plain::of(opened);
    let kept = plain.kept();
    let mut sheet = opened.clone();
    let (saved, moved) = sheet.close_up(&claim).unwrap();
    assert_eq!(Ok(saved), plain.save(&Save::CloseUp, &claim));
    assert!(sheet.records() == plain.records);
    assert!(moved.old_places().eq(kept.iter().copied()));
    sheet.holds();

    let (mut other, mut list) = (opened.clone(), vec![9999; opened.len() + 3]);
    assert_eq!(other.close_up_into(&claim, &mut list), Ok(saved));
    assert_eq!((&other, other.digest()), (&sheet, sheet.digest()));
    let beyond = list.split_off(kept.len());
    assert!(list.into_iter().map(usize::from).eq(kept));
    assert!(beyond.iter().all(|place| *place == 9999));

    let (again, moved) = other.close_up(&saved.digest).unwrap();
    let rounds = 2 * plain.rounds_from(sheet.len());
    assert_eq!((again.digest, again.rounds), (saved.digest, rounds));
    assert!(moved.old_places().eq(0..sheet.len()));
    assert_eq!(other, sheet);
    other.holds();
    (sheet, saved)
}

#[test]
fn rounds_by_hand() {
    for (code, n, places, count, rounds) in [
        (Code::Luffa256, 0, 0..0, 0, 4),
        (Code::Luffa256, 5, 0..0, 5, 6),
        (Code::Luffa256, 5, 4..5, 4, 5),
        (Code::Luffa256, 5, 0..1, 4, 10),
        (Code::Luffa256, 5, 0..5, 0, 5),
        (Code::Luffa384, 7, 5..7, 5, 10),
        (Code::Luffa224, 1023, 0..1020, 3, 10),
        (Code::Luffa512, 1024, 0..0, 1024, 6),
        (Code::Luffa512, 1024, 0..1, 1023, 1284),
        (Code::Luffa512, 1024, 1023..1024, 1023, 9),
        (Code::Luffa512, 1024, 0..1024, 0, 6),
    ] {
        let (sheet, saved) = closes(&struck(code, n, places.clone()));
        let got = (sheet.len(), saved.rounds);
        assert_eq!(got, (count, rounds), "{places:?} of {n}");
    }
}

#[test]
fn every_set_of_places() {
    for code in Code::ALL {
        for n in 0..=9 {
            for set in 0..1 << n {
                let places = (0..n).filter(|place| set >> place & 1 == 1);
                let opened = struck(code, n, places.clone());
                assert!(opened.struck().eq(places));
                closes(&opened);
            }
        }
    }
}

#[test]
fn large_sheets() {
    for code in Code::ALL {
        let mut numbers = Numbers(code.number() as u64);
        for n in [67, 1023, 1024] {
            // All but one, every group's last, whole groups, and the second half.
            let but_one = numbers.below(n);
            closes(&struck(code, n, (0..n).filter(|place| *place != but_one)));
            closes(&struck(code, n, (3..n).step_by(4)));
            closes(&struck(code, n, (0..n).filter(|place| place / 4 % 3 == 1)));
            closes(&struck(code, n, n / 2..n));
            // A few, and most.
            for one_in in [2, 30] {
                let some: Vec<_> = (0..n).map(|_| numbers.below(one_in) == 0).collect();
                closes(&struck(code, n, (0..n).filter(|place| some[*place])));
                closes(&struck(code, n, (0..n).filter(|place| !some[*place])));
            }
        }
    }
}

/// Of zeros with one bit set nothing is struck, wherever the bit is: a well with a note alone stays.
#[test]
fn nearly_struck() {
    for bit in 0..8 * 40 {
        let mut near = Sheet::STRUCK;
        near[bit / 8] = 1 << (bit % 8);
        let records = [Sheet::STRUCK, near, Sheet::STRUCK, near, near];
        let opened = Sheet::from_records(Code::Luffa256, &records).unwrap();
        assert!(opened.struck().eq([0, 2]));
        assert_eq!(closes(&opened).0.records(), [near; 3]);
    }
}

/// What lies behind the last record is no part of the sheet, whether it is zeros or not.
#[test]
fn behind_the_last() {
    for code in Code::ALL {
        for n in 0..=9 {
            for room in [0, 5] {
                let mut call = Call::new(&struck(code, n, 0..n / 2));
                call.held.sheet.truncate(40 * n);
                call.held.sheet.resize(40 * n + 400, room);
                call.answers(0);
            }
        }
    }
}

/// The room that becomes free is used again, with none asked for beside it, until the sheet is full as before.
#[test]
fn freed_room() {
    for code in Code::ALL {
        for (n, places) in [(9, 0..3), (9, 0..9), (12, 4..8), (1024, 5..30)] {
            let (mut sheet, _) = closes(&struck(code, n, places.clone()));
            let new = Numbers(7).records(places.len());
            let wanted = [sheet.records(), &new].concat();
            for record in &new {
                sheet.append(record, &sheet.digest()).unwrap();
                sheet.holds();
            }
            assert!(sheet.records() == wanted);
            assert_eq!((sheet.records.len(), sheet.marks.len()), (n, marks_for(n)));
            let full = sheet.append(&[1; 40], &sheet.digest()).err();
            assert_eq!(full, (n == Sheet::MOST).then_some(Error::Full));
        }
    }
}

/// Saves of each other kind go on from a sheet that was closed up as from one that was made so.
#[test]
fn saves_go_on() {
    for code in Code::ALL {
        for n in 2..=13 {
            let (mut closed, _) = closes(&struck(code, n, (0..n).step_by(2)));
            let mut made = Sheet::from_bytes(code, closed.bytes()).unwrap();
            let from = closed.opened();
            assert!(from == made.opened());
            let last = closed.len() - 1;
            let saved = made.change_from(last, &[7; 40], &from).unwrap();
            assert_eq!(closed.change_from(last, &[7; 40], &from), Ok(saved));
            let saved = made.append(&[8; 40], &saved.digest).unwrap();
            let late = closed.append(&[8; 40], &from.digest());
            assert!(late.is_err_and(Error::is_stale));
            assert_eq!(closed.append(&[8; 40], &closed.digest()), Ok(saved));
            let saved = made.drop_last(&saved.digest).unwrap();
            assert_eq!(closed.drop_last(&closed.digest()), Ok(saved));
            assert_eq!(closed, made);
            closed.holds();
        }
    }
}

/// Marks are taken as they are found: the one from which the work starts, true or false, and the last for the
/// claim.
#[test]
fn marks_that_arent_true() {
    for code in Code::ALL {
        let mut numbers = Numbers(code.number() as u64);
        for n in (0..=21).chain([90]).flat_map(|n| [n; 8]) {
            let records: Vec<_> = (0..n).map(|_| any_record(&mut numbers)).collect();
            let mut call = Call::new(&Sheet::from_records(code, &records).unwrap());
            spoil(&mut numbers, &mut call.held.marks[..marks_for(n)]);
            call.claim = call.held.digest(code).as_bytes().to_vec();
            call.answers(0);
        }
    }
}

/// A strike is a change to a struck record.
#[test]
fn strikes() {
    for code in Code::ALL {
        let mut sheet = sheet(code, 9);
        let mut plain = Plain::of(&sheet);
        for (place, all) in [
            (4, &[4][..]),
            (0, &[0, 4]),
            (8, &[0, 4, 8]),
            (4, &[0, 4, 8]),
        ] {
            let claim = sheet.digest();
            let change = Save::Change(place, [0; 40]);
            assert_eq!(sheet.strike(place, &claim), plain.save(&change, &claim));
            assert!(sheet.records() == plain.records);
            assert!(sheet.struck().eq(all.iter().copied()));
            sheet.holds();
        }
        let claim = sheet.digest();
        assert_eq!(sheet.strike(9, &claim), Err(Error::Place));
        // The room behind them is zeros too, and none of the records.
        sheet.append(&[1; 40], &claim).unwrap();
        assert!(sheet.struck().eq([0, 4, 8]));
        assert_eq!(closes(&sheet).0.len(), 7);
    }
}
