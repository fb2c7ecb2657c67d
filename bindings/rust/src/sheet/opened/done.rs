//! Saves that are done, beside the plain ones; and what was opened as a value.

use super::tests::{Kind, told};
use super::{Opened, Sheet};
use crate::random::Numbers;
use crate::sheet::mend::tests::spoil;
use crate::sheet::tests::sheet;
use crate::{Code, Error};

/// With the sheet as it was opened a save does what the plain one does.
#[test]
fn done() {
    for code in Code::ALL {
        for n in (0..=13).chain([1023, 1024]) {
            let opened = sheet(code, n);
            for kind in Kind::of(n) {
                let (mut one, mut other) = (opened.clone(), opened.clone());
                let from = opened.opened();
                let saved = kind.save(&mut one, &from);
                assert!(saved.is_ok(), "{kind:?} of {n}");
                assert_eq!(saved, kind.plain(&mut other, &from), "{kind:?} of {n}");
                assert_eq!((&one, one.digest()), (&other, other.digest()));
                one.holds();
                // What was opened is outdated by that, for the same planner too.
                for kind in Kind::of(one.len()) {
                    let again = kind.save(&mut one, &from);
                    assert_eq!(again, Err(told(&one, opened.records())));
                }
            }
        }
    }
}

#[test]
fn done_at_each_place() {
    for code in Code::ALL {
        for n in 1..=13 {
            let opened = sheet(code, n);
            for place in 0..n {
                let (mut one, mut other) = (opened.clone(), opened.clone());
                let saved = one.change_from(place, &[7; 40], &opened.opened());
                assert_eq!(saved, other.change(place, &[7; 40], &opened.digest()));
                assert_eq!((one.record(place), &one), (Some(&[7; 40]), &other));
                one.holds();
            }
        }
    }
}

/// A claim that is right is all that is asked for: the sheet may have been changed and changed back, and the own
/// count and marks, but for mark 0, may be any.
#[test]
fn done_whatever_was_opened() {
    for code in Code::ALL {
        let mut numbers = Numbers(code.number() as u64);
        let opened = sheet(code, 11);
        let ben = opened.opened();
        let mut held = opened.clone();
        let old = *held.record(2).unwrap();
        let anna = held.change_from(2, &[8; 40], &ben).unwrap();
        assert!(held.drop_last_from(&ben).is_err_and(Error::is_stale));
        held.change(2, &old, &anna.digest).unwrap();
        for len in [0, 3, 4, 11, 40, 1024] {
            let mut marks = [&opened.marks()[..40], &[5; 40 * 256]].concat();
            spoil(&mut numbers, &mut marks[40..]);
            let from = Opened::from_parts(ben.digest(), len, marks);
            for kind in Kind::of(11) {
                let (mut one, mut other) = (held.clone(), held.clone());
                let saved = kind.save(&mut one, &from);
                assert_eq!(saved, kind.plain(&mut other, &ben));
                assert!(saved.is_ok());
                assert_eq!(one, other);
                one.holds();
            }
        }
    }
}

#[test]
fn as_values() {
    let mut sheet = sheet(Code::Luffa256, 9);
    let ben = sheet.opened();
    assert_eq!((ben.digest(), ben.len()), (sheet.digest(), 9));
    assert_eq!(ben.marks(), sheet.marks());
    assert!(!ben.is_empty() && Sheet::new(Code::Luffa256).opened().is_empty());
    let parts = Opened::from_parts(ben.digest(), ben.len(), ben.marks());
    assert_eq!((&parts, &ben), (&ben, &Opened::from(&sheet)));
    let shown = format!("{ben:?}");
    assert!(shown.contains("len: 9") && shown.contains(&ben.digest().to_hex()));
    assert!(shown.len() < 200);
    // The room that an append makes is no part of what is opened.
    let saved = sheet.append(&[1; 40], &ben.digest()).unwrap();
    assert_eq!(sheet.opened().marks().len(), 120);
    assert_ne!(sheet.opened(), ben);
    sheet.drop_last(&saved.digest).unwrap();
    assert_eq!(sheet.opened(), ben);
    // A desk in another thread.
    let desk = std::thread::spawn(move || ben.clone());
    assert!(sheet.drop_last_from(&desk.join().unwrap()).is_ok());
}
