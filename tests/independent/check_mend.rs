//! Mending by what document 02 says of it, on marks of which it is known which are wrong: the true ones come
//! from sheet.rs, where each is hashed from the sheet's beginning, and the refusals are worked out by hand.

use crate::check::{record, sheet, Numbers, Report};
use crate::luffa::CODES;
use crate::mend::{mend, refusals, Mended};
use crate::sheet::{Mark, Sheet, MARK_WORDS, MOST};

pub fn differences(report: &mut Report, numbers: &mut Numbers) {
    every_subset(report, numbers);
    every_word(report, numbers);
    other_marks(report, numbers);
    rounds(report, numbers);
    judged(report);
}

/// The marks found, mended: these must have been wrong, the marks must then be the true ones, and mended
/// again none is wrong. The rounds are five for each full group both times.
fn mended(report: &mut Report, what: &str, held: &Sheet, found: &[Mark], wrong: &[usize]) {
    let (code, n) = (held.code, held.records.len());
    let what = || format!("{what}, {n} records, code {code}");
    let truth: Vec<Mark> = (0..=n / 4).map(|m| held.mark(m)).collect();
    let mut marks = found.to_vec();
    for wrong in [wrong, &[]] {
        let rounds = 5 * (n / 4) as u64;
        let wanted = Mended {
            wrong: wrong.to_vec(),
            rounds,
        };
        report.same(what, mend(held, &mut marks), wanted);
        report.same(|| what() + ", then the marks", &marks, &truth);
    }
}

/// Each set of marks spoiled in any one bit of each.
fn every_subset(report: &mut Report, numbers: &mut Numbers) {
    for code in 1..=CODES.len() {
        for n in 0..=17 {
            let held = sheet(numbers, code, n);
            let truth = held.marks();
            for set in 0..1u32 << truth.len() {
                let wrong: Vec<usize> = (0..truth.len()).filter(|m| set >> m & 1 == 1).collect();
                let mut found = truth.clone();
                for &m in &wrong {
                    let any = numbers.next() as usize;
                    found[m][any % MARK_WORDS] ^= 1 << (any >> 8) % 32;
                }
                mended(report, "some spoiled", &held, &found, &wrong);
            }
        }
    }
}

/// Each word of a mark set by itself, in used blocks and in unused ones.
fn every_word(report: &mut Report, numbers: &mut Numbers) {
    for code in 1..=CODES.len() {
        let held = sheet(numbers, code, 9);
        let truth = held.marks();
        for (m, k) in (0..truth.len()).flat_map(|m| (0..MARK_WORDS).map(move |k| (m, k))) {
            let mut found = truth.clone();
            found[m][k] ^= 0x8000_0000 >> (k % 32);
            mended(report, &format!("word {k}"), &held, &found, &[m]);
        }
    }
}

/// Marks that follow from each other, but not from the sheet: those of a sheet that differs in a record of
/// group g are wrong after it, and in a record after the last group none is. Those of another width are all
/// wrong, and at codes 1 and 2 they are the same.
fn other_marks(report: &mut Report, numbers: &mut Numbers) {
    for code in 1..=CODES.len() {
        let held = sheet(numbers, code, 11);
        for place in 0..11 {
            let mut other = held.clone();
            other.records[place] = record(numbers);
            let wrong: Vec<usize> = (place / 4 + 1..=2).collect();
            mended(report, "another record", &held, &other.marks(), &wrong);
        }
        for other in 1..=CODES.len() {
            let same = CODES[other - 1].0 == CODES[code - 1].0;
            let wrong: &[usize] = if same { &[] } else { &[0, 1, 2] };
            let records = held.records.clone();
            let found = Sheet {
                code: other,
                records,
            }
            .marks();
            mended(
                report,
                &format!("marks of code {other}"),
                &held,
                &found,
                wrong,
            );
        }
        mended(report, "zeros", &held, &[[0; MARK_WORDS]; 3], &[0, 1, 2]);
    }
}

/// The rounds by their number: no tail and no final stage is among them.
fn rounds(report: &mut Report, numbers: &mut Numbers) {
    for (n, wanted) in [
        (0, 0),
        (3, 0),
        (4, 5),
        (7, 5),
        (8, 10),
        (1023, 1275),
        (MOST, 1280),
    ] {
        for code in 1..=CODES.len() {
            let held = sheet(numbers, code, n);
            let mut marks = held.marks();
            let wrong = vec![];
            let got = mend(&held, &mut marks);
            let wanted = Mended {
                wrong,
                rounds: wanted,
            };
            report.same(
                || format!("mending {n} records at code {code}"),
                got,
                wanted,
            );
        }
    }
}

/// Each refusal at its edge, and which hold together; products of over 64 bits are judged whole.
fn judged(report: &mut Report) {
    let most = usize::MAX;
    let wraps = most / 40 + 1;
    // Code, bytes of the sheet, records, words of the marks.
    let cases: [([usize; 4], &[u64]); 23] = [
        ([1, 0, 0, 40], &[]),
        ([4, 40_960, 1024, 10_280], &[]),
        ([3, most, 1023, most], &[]),
        ([0, 0, 0, 40], &[1]),
        ([5, 160, 4, 80], &[1]),
        ([(1 << 32) + 2, 160, 4, 80], &[1]),
        ([2, 159, 4, 80], &[5]),
        ([2, 160, 4, 79], &[6]),
        ([2, 160, 4, 80], &[]),
        ([2, 120, 3, 40], &[]),
        ([2, 120, 3, 39], &[6]),
        ([2, 0, 0, 39], &[6]),
        ([2, 0, 0, 0], &[6]),
        ([2, 159, 4, 79], &[5, 6]),
        ([2, 41_000, 1025, 10_280], &[5]),
        ([2, 41_000, 1025, 10_279], &[5, 6]),
        ([2, most, (1 << 32) + 4, 80], &[5, 6]),
        ([2, most, wraps, most], &[5]),
        ([2, most, 1 << 63, most], &[5, 6]),
        ([2, most, most, 0], &[5, 6]),
        ([0, 159, 4, 80], &[1, 5]),
        ([5, 160, 4, 79], &[1, 6]),
        ([most, 0, most, 0], &[1, 5, 6]),
    ];
    for ([code, sheet_len, n, marks_len], wanted) in cases {
        let what =
            || format!("code {code}, {n} records in {sheet_len} bytes, marks in {marks_len} words");
        let got = refusals(code, sheet_len, n, marks_len);
        report.same(what, &got[..], wanted);
    }
}
