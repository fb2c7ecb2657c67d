//! Mended marks beside those that a build writes: each word of each mark spoiled, many marks at once, those
//! of other codes and of older sheets, and saves that go on from them.

use super::{Mended, Sheet};
use crate::random::Numbers;
use crate::sheet::tests::sheet;
use crate::{Code, ffi};

/// What a mend says of a sheet, these of whose marks are wrong.
pub fn found(sheet: &Sheet, wrong: &[usize]) -> Mended {
    Mended {
        wrong: wrong.len(),
        first: wrong.first().copied(),
        rounds: 5 * (sheet.len() as u64 / 4),
    }
}

/// Spoils some marks, at times all or none, and says which.
pub fn spoil(numbers: &mut Numbers, marks: &mut [u32]) -> Vec<usize> {
    let one_in = [1, 2, 9, 200][numbers.below(4)];
    let mut wrong = Vec::new();
    for (m, mark) in marks.chunks_mut(Sheet::MARK_WORDS).enumerate() {
        if numbers.below(one_in) == 0 {
            match numbers.below(3) {
                0 => mark.fill(0),
                1 => mark.fill_with(|| numbers.next() as u32),
                _ => mark[numbers.below(40)] ^= 1 << numbers.below(32),
            }
            wrong.push(m);
        }
    }
    wrong
}

/// Mends these marks of a sheet, those named of which are wrong, where they stand and for a sheet opened
/// with them. Nothing else is written, and a second mend finds none.
#[track_caller]
fn mends(sheet: &Sheet, spoiled: &[u32], wrong: &[usize]) {
    let (code, bytes) = (sheet.code(), sheet.bytes().to_vec());
    let whole = [sheet.marks(), &[0xa5; 90]].concat();
    let mut marks = [spoiled, &[0xa5; 90]].concat();
    for wrong in [wrong, &[]] {
        let mended = Sheet::mend_marks(code, &bytes, &mut marks);
        assert_eq!(mended, Ok(found(sheet, wrong)));
        assert!(marks == whole);
    }
    let (opened, mended) = Sheet::from_kept(code, &bytes, spoiled).unwrap();
    assert_eq!(mended, found(sheet, wrong));
    assert_eq!(opened, *sheet);
    assert!(bytes == sheet.bytes());
    opened.holds();
}

/// Mark m is the state of a hash that was fed the first 4m records, which its record has from byte 8 on.
#[test]
fn marks_are_states() {
    for code in Code::ALL {
        let sheet = sheet(code, 23);
        assert_eq!(sheet.marks().len(), 240);
        for (m, mark) in sheet.marks().chunks(40).enumerate() {
            let mut record = [0; crate::RECORD_BYTES];
            ffi::start(code.number(), &mut record).unwrap();
            ffi::feed(&mut record, &sheet.bytes()[..160 * m]).unwrap();
            let state: Vec<u8> = mark.iter().flat_map(|word| word.to_be_bytes()).collect();
            assert_eq!(record[8..168], state, "{code:?}, mark {m}");
        }
    }
}

/// One bit alone, in each word of each mark: at codes 1 to 3 in those of unused blocks too.
#[test]
fn each_word() {
    for code in Code::ALL {
        for n in [0, 5, 12] {
            let sheet = sheet(code, n);
            mends(&sheet, sheet.marks(), &[]);
            for at in 0..sheet.marks().len() {
                let mut marks = sheet.marks().to_vec();
                marks[at] ^= 1 << (at % 32);
                mends(&sheet, &marks, &[at / 40]);
            }
        }
    }
}

#[test]
fn many_marks() {
    for code in Code::ALL {
        let mut numbers = Numbers(code.number() as u64);
        for n in [0, 7, 90, 1023, 1024] {
            let sheet = sheet(code, n);
            let last = n / 4;
            for _ in 0..5 {
                let mut marks = sheet.marks().to_vec();
                let wrong = spoil(&mut numbers, &mut marks);
                mends(&sheet, &marks, &wrong);
            }
            let every: Vec<_> = (0..=last).collect();
            mends(&sheet, &vec![0; 40 * (last + 1)], &every);
            // All but the last, and the last alone.
            let (before, end) = sheet.marks().split_at(40 * last);
            let ones = vec![!0; 40 * last];
            mends(&sheet, &[&ones, end].concat(), &every[..last]);
            mends(&sheet, &[before, &[!0; 40]].concat(), &[last]);
        }
    }
}

/// The first two codes have the same states. Of the others each has more blocks than the one before it.
#[test]
fn marks_of_another_code() {
    for n in [0, 6, 11] {
        let sheets = Code::ALL.map(|code| sheet(code, n));
        let blocks = [3, 3, 4, 5];
        for (one, w) in sheets.iter().zip(blocks) {
            for (other, v) in sheets.iter().zip(blocks) {
                let all: Vec<_> = (0..=n / 4).collect();
                mends(one, other.marks(), if w == v { &[] } else { &all });
            }
        }
    }
}

/// Marks that were kept before a change are wrong after its group, and those of fewer records where they end.
#[test]
fn marks_of_an_older_sheet() {
    for code in Code::ALL {
        for place in 0..21 {
            let mut sheet = sheet(code, 21);
            let mut old = sheet.marks().to_vec();
            let claim = sheet.digest();
            sheet.change(place, &[1; 40], &claim).unwrap();
            let wrong: Vec<_> = (place / 4 + 1..=5).collect();
            mends(&sheet, &old, &wrong);
            // Four more records have a mark more, whose words were zero.
            for _ in 0..4 {
                let claim = sheet.digest();
                sheet.append(&[2; 40], &claim).unwrap();
            }
            old.resize(280, 0);
            mends(&sheet, &old, &[&wrong[..], &[6]].concat());
        }
    }
}

/// A sheet that was opened with spoiled marks answers each save as the one that was kept does.
#[test]
fn saves_go_on() {
    for code in Code::ALL {
        let mut numbers = Numbers(code.number() as u64);
        for n in 1..=13 {
            let mut kept = sheet(code, n);
            let mut marks = kept.marks().to_vec();
            spoil(&mut numbers, &mut marks);
            // Words past the last mark, where appends write others.
            marks.extend([7; 100]);
            let (mut opened, _) = Sheet::from_kept(code, kept.bytes(), &marks).unwrap();
            let new = numbers.record();
            for place in [n - 1, 0, n / 2] {
                let claim = kept.digest();
                let saved = kept.change(place, &new, &claim);
                assert_eq!(opened.change(place, &new, &claim), saved);
            }
            for _ in 0..5 {
                let claim = kept.digest();
                assert_eq!(opened.append(&new, &claim), kept.append(&new, &claim));
            }
            let claim = kept.digest();
            assert_eq!(opened.drop_last(&claim), kept.drop_last(&claim));
            assert_eq!(opened, kept);
            opened.holds();
        }
    }
}
