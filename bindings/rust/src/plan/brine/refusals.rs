//! The refusals of a brine statement, in their order, beside the same calls with just enough.

use super::{Page, brine, brine_into};
use crate::order::MAX;
use crate::plan::rules::injector;
use crate::{Error, ffi};

/// Lends so many bytes and places, all of them filled; where refused, all must be as they were.
#[track_caller]
fn answers(number: u64, bytes: usize, counts: &[usize], intake_len: usize, spare_len: usize) {
    let sheets: Vec<_> = (1..=1025).flat_map(injector).collect();
    let (mut intake, mut spare) = (vec![5; intake_len], vec![-5; spare_len]);
    let answer = ffi::plan_brine(&sheets[..bytes], counts, &mut intake, &mut spare);
    assert_eq!(answer.number, number);
    let totals = brine_into(&sheets[..bytes], counts, &mut intake, &mut spare);
    if number == 0 {
        assert_eq!(totals.unwrap().sound, counts.len());
    } else {
        assert_eq!(u64::from(totals.unwrap_err().number()), number);
        assert_eq!((answer.sound, answer.faulted), (0, 0));
        assert_eq!((answer.intake, answer.overloaded), (0, 0));
        assert!(intake.iter().all(|place| *place == 5));
        assert!(spare.iter().all(|place| *place == -5));
    }
}

#[test]
fn too_many_sheets() {
    answers(0, 0, &[0; 64], 0, 0);
    answers(13, 0, &[0; 65], 0, 0);
    // Whatever the counts and lengths are.
    for count in [1, 1025, 1 << 63, MAX] {
        answers(13, 0, &[count; 65], 0, 0);
        answers(13, 41_000, &[count; 300], 1000, 1000);
    }
}

#[test]
fn too_many_records() {
    answers(0, 40_960, &[1024], 1024, 1024);
    answers(5, 41_000, &[1025], 1025, 1025);
    for count in [1025, 1 << 32, 1 << 63, MAX] {
        for at in [0, 1, 63] {
            let mut counts = [0; 64];
            counts[at] = count;
            answers(5, 41_000, &counts, 1025, 1025);
            // Before the lists are judged.
            answers(5, 0, &counts, 0, 0);
        }
    }
    // Modulo 2^64 these are 0 and 1 records, and 0 and 24 bytes.
    for counts in [
        &[1 << 63, 1 << 63][..],
        &[2, MAX],
        &[1 << 61],
        &[MAX / 40 + 1],
    ] {
        answers(5, 41_000, counts, 1025, 1025);
    }
}

#[test]
fn too_few_bytes() {
    for (counts, records) in [(&[1][..], 1), (&[2, 0, 3], 5), (&[16; 64], 1024)] {
        answers(0, 40 * records, counts, records, records);
        for bytes in [0, 40 * records - 40, 40 * records - 1] {
            answers(5, bytes, counts, records, records);
            answers(5, bytes, counts, 0, 0);
        }
    }
}

#[test]
fn too_short_lists() {
    for (counts, records) in [(&[1][..], 1), (&[2, 0, 3], 5), (&[16; 64], 1024)] {
        for (intake, spare) in [(0, 0), (0, records), (records - 1, records + 1)] {
            answers(25, 40 * records, counts, intake, spare);
            answers(25, 40 * records, counts, spare, intake);
        }
    }
}

/// Through [`brine`], whose lists are never too short.
#[test]
fn met_by_callers() {
    let sheet: Vec<_> = (1..=1025).flat_map(injector).collect();
    assert_eq!(brine([&sheet[..40_960]; 64]).unwrap().totals.sound, 64);
    for bytes in [0, 40, 41] {
        assert_eq!(brine(vec![&sheet[..bytes]; 65]), Err(Error::Batch));
    }
    assert_eq!(brine(std::iter::repeat(&sheet[..40])), Err(Error::Batch));
    for bytes in [1, 39, 41, 79, 40_959, 40_961, 41_000] {
        assert_eq!(brine([&sheet[..bytes]]), Err(Error::Sheet), "{bytes} bytes");
    }
    // Two records together, but neither sheet's.
    assert_eq!(brine([&sheet[..39], &sheet[..41]]), Err(Error::Sheet));
    assert_eq!(brine([&sheet[..41], &sheet[..39]]), Err(Error::Sheet));
    assert_eq!(Page::SHEETS_MOST, 64);
}
