//! Sheets: document 01's examples, every place of small ones, a full one, and two planners.

use super::{Sheet, marks_for};
use crate::random::Numbers;
use crate::{Code, Digest, Error, ffi};

impl Sheet {
    /// What must hold after every call: the digest is that of the bytes, hashed afresh, the marks are
    /// those that a build writes, and the room behind them is zeros, no more of it than a sheet may take.
    pub(super) fn holds(&self) {
        let (n, code) = (self.n, self.code);
        assert_eq!(self.digest, Digest::of(code, self.bytes()), "{n} records");
        let (mut marks, mut out) = (vec![0; marks_for(n)], [0; 64]);
        let built = ffi::build(code.number(), self.bytes(), n, &mut marks, &mut out);
        assert_eq!((built.number, built.count), (0, n as u64));
        assert!(self.marks() == marks, "{n} records: marks");
        assert!(self.records.len() <= Sheet::MOST);
        assert!(self.records[n..].iter().all(|room| *room == [0; 40]));
        assert!(self.marks[marks.len()..].iter().all(|word| *word == 0));
    }
}

pub(super) fn sheet(code: Code, n: usize) -> Sheet {
    let records = Numbers(n as u64).records(n);
    let sheet = Sheet::from_records(code, &records).unwrap();
    assert_eq!(sheet.records(), records);
    sheet.holds();
    sheet
}

#[test]
fn rounds_of_document_01() {
    let new = [1; 40];
    for (code, n, place, rounds) in [
        (Code::Luffa256, 5, 4, 6),
        (Code::Luffa256, 5, 0, 11),
        (Code::Luffa512, 1024, 0, 1286),
        (Code::Luffa512, 1024, 1023, 11),
    ] {
        let mut sheet = sheet(code, n);
        let saved = sheet.change(place, &new, &sheet.digest()).unwrap();
        assert_eq!(saved.rounds, rounds, "change at {place} of {n}");
        sheet.holds();
    }
    let mut sheet = sheet(Code::Luffa256, 3);
    let saved = sheet.append(&new, &sheet.digest()).unwrap();
    assert_eq!(saved.rounds, 12);
    let saved = sheet.drop_last(&saved.digest).unwrap();
    assert_eq!(saved.rounds, 7);
    sheet.holds();
}

#[test]
fn made_from_bytes() {
    let bytes = Numbers(2).bytes(40 * 1024 + 40);
    for n in [0, 40, 80, 120, 160, 200, 40 * 1023, 40 * 1024] {
        let sheet = Sheet::from_bytes(Code::Luffa384, &bytes[..n]).unwrap();
        assert_eq!((sheet.bytes(), sheet.len()), (&bytes[..n], n / 40));
        assert_eq!(sheet.is_empty(), n == 0);
        assert_eq!(sheet.record(n / 40), None);
        sheet.holds();
    }
    for n in [1, 39, 41, 40 * 1024 - 1, 40 * 1024 + 1, 40 * 1024 + 40] {
        let refused = Sheet::from_bytes(Code::Luffa384, &bytes[..n]);
        assert_eq!(refused.err(), Some(Error::Sheet), "{n} bytes");
    }
}

/// Changed at every place, and changed back: the old digest again.
#[test]
fn every_place() {
    for code in Code::ALL {
        for n in 0..=9 {
            let mut sheet = sheet(code, n);
            let opened = sheet.digest();
            for place in 0..n {
                let old = *sheet.record(place).unwrap();
                let mut new = old;
                new[place] ^= 1;
                let saved = sheet.change(place, &new, &opened).unwrap();
                assert_eq!(saved.digest, sheet.digest());
                assert_ne!(saved.digest, opened);
                assert_eq!(sheet.record(place), Some(&new));
                sheet.holds();
                let back = sheet.change(place, &old, &saved.digest).unwrap();
                assert_eq!(back.digest, opened);
                sheet.holds();
            }
            // A record equal to the old one is taken too.
            if n > 0 {
                let old = *sheet.record(0).unwrap();
                assert_eq!(sheet.change(0, &old, &opened).unwrap().digest, opened);
            }
            assert_eq!(sheet.change(n, &[0; 40], &opened), Err(Error::Place));
            assert_eq!(sheet.len(), n);
            sheet.holds();
        }
    }
}

/// From empty to full, a refused append, and back to empty: each digest comes twice.
#[test]
fn filled_and_emptied() {
    for code in Code::ALL {
        let mut numbers = Numbers(code.number() as u64);
        let mut sheet = Sheet::new(code);
        let mut digests = vec![sheet.digest()];
        for n in 0..Sheet::MOST {
            let saved = sheet.append(&numbers.record(), &digests[n]).unwrap();
            assert_eq!(sheet.len(), n + 1);
            digests.push(saved.digest);
            if n % 16 < 5 {
                sheet.holds();
            }
        }
        assert_eq!(sheet.append(&[0; 40], &digests[1024]), Err(Error::Full));
        sheet.holds();
        while let Some(claim) = digests.pop() {
            assert_eq!(sheet.digest(), claim);
            match digests.last() {
                Some(next) => assert_eq!(sheet.drop_last(&claim).unwrap().digest, *next),
                None => assert_eq!(sheet.drop_last(&claim), Err(Error::Place)),
            }
        }
        assert!(sheet.is_empty());
        sheet.holds();
    }
}

#[test]
fn two_planners() {
    for code in Code::ALL {
        let mut sheet = sheet(code, 10);
        let (anna, ben) = (sheet.digest(), sheet.digest());
        let old = *sheet.record(7).unwrap();
        let anna = sheet.change(7, &[1; 40], &anna).unwrap().digest;
        // Ben saw the sheet before that: whatever he saves is turned away, and nothing is written.
        let before = sheet.clone();
        let rounds = match code {
            Code::Luffa224 | Code::Luffa256 => 4,
            Code::Luffa384 | Code::Luffa512 => 5,
        };
        let stale = Err(Error::Stale { rounds });
        assert_eq!(sheet.change(2, &[2; 40], &ben), stale);
        assert_eq!(sheet.change_all([(2, [2; 40]), (9, [2; 40])], &ben), stale);
        assert_eq!(sheet.append(&[2; 40], &ben), stale);
        assert_eq!(sheet.drop_last(&ben), stale);
        assert_eq!(sheet.strike(2, &ben), stale);
        assert_eq!(sheet.close_up(&ben).map(|closed| closed.0), stale);
        assert_eq!(sheet, before);
        assert_eq!(sheet.digest(), anna);
        sheet.holds();
        // Anna changes it back: Ben's digest is that of the sheet again.
        sheet.change(7, &old, &anna).unwrap();
        assert_eq!(sheet.digest(), ben);
        let ben = sheet.change(2, &[2; 40], &ben).unwrap().digest;
        assert_eq!(sheet.digest(), ben);
        assert_ne!(sheet, before);
        sheet.holds();
    }
}

#[test]
fn sheets_as_values() {
    let mut one = sheet(Code::Luffa256, 6);
    let mut other = one.clone();
    let claim = one.digest();
    let saved = one.append(&[1; 40], &claim).unwrap();
    assert_eq!((other.len(), other.digest()), (6, claim));
    assert_ne!(one, other);
    // Equal by content, whatever the room behind it.
    one.drop_last(&saved.digest).unwrap();
    assert_eq!(one, other);
    let shown = format!("{other:?}");
    assert!(shown.contains("len: 6") && shown.contains(&claim.to_hex()));
    assert_ne!(
        other,
        Sheet::from_bytes(Code::Luffa512, other.bytes()).unwrap()
    );
    other.change(5, &[0; 40], &claim).unwrap();
    assert_ne!(one, other);
}

#[test]
fn goes_between_threads() {
    fn may_go<T: Send + Sync>(value: T) -> T {
        value
    }
    let mut sheet = may_go(sheet(Code::Luffa224, 40));
    let claim = sheet.digest();
    let save = move || sheet.change(3, &[3; 40], &claim).map(|_| sheet);
    let sheet = std::thread::spawn(save).join().unwrap().unwrap();
    sheet.holds();
    may_go(crate::Luffa512::new());
}
