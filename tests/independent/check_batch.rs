//! Many changes in one save by what document 02 says of it: against the same changes saved one by one with
//! sheet.rs, against document 01's formulas, and the refusals against lists worked out by hand.

use crate::batch::{refusals, save, MOST_CHANGES};
use crate::check::{record, sheet, Numbers, Report};
use crate::luffa::CODES;
use crate::sheet::{Lengths, Record, Saved, Sheet, MOST};

pub fn differences(report: &mut Report, numbers: &mut Numbers) {
    every_set(report, numbers);
    many(report, numbers);
    rounds(report, numbers);
    content(report, numbers);
    refused(report, numbers);
    judged(report);
}

fn changes(numbers: &mut Numbers, places: &[usize]) -> Vec<(usize, Record)> {
    places.iter().map(|&at| (at, record(numbers))).collect()
}

/// These places changed in one save: the rounds are those of the formula, no more than those of the changes
/// one by one, each with the claim right at its time, and for one change as many; the records are theirs. With
/// a wrong claim nothing is changed.
fn one_by_one(report: &mut Report, numbers: &mut Numbers, held: &Sheet, places: &[usize]) {
    let (code, n) = (held.code, held.records.len());
    let what = |what: &str| format!("{places:?} of {n} records, code {code}, {what}");
    let changes = changes(numbers, places);
    let mut turned = held.clone();
    let mut total = 0;
    for &(place, record) in &changes {
        let claim = turned.digest();
        match turned.change(place, record, &claim) {
            Saved::Done(rounds) => total += rounds,
            refused => report.same(|| what("by its turn"), refused, Saved::Done(0)),
        }
    }

    let f = [1, 1, 2, 2][code - 1];
    let check = (n % 4) as u64 + 1 + f;
    let blocks = (40 * n / 32 + 1) as u64;
    let wanted = match places {
        [] => check,
        [lowest, ..] => check + blocks - 5 * (lowest / 4) as u64 + f,
    };
    let mut claim = held.digest();
    let mut got = held.clone();
    let saved = save(&mut got, &changes, &claim);
    report.same(|| what("rounds"), saved, Saved::Done(wanted));
    report.same(|| what("records"), &got.records, &turned.records);
    match places.len() {
        0 => (),
        1 => report.same(|| what("rounds of the change"), wanted, total),
        _ => report.same(|| what("no more rounds"), wanted <= total, true),
    }

    let any = numbers.next() as usize;
    let at = any % claim.len();
    claim[at] ^= 1 << (any >> 8) % 8;
    let mut got = held.clone();
    let saved = save(&mut got, &changes, &claim);
    report.same(|| what("a wrong claim"), saved, Saved::Stale(check));
    report.same(|| what("then"), &got.records, &held.records);
}

/// Every set of places of a few records, the empty one and all of them too.
fn every_set(report: &mut Report, numbers: &mut Numbers) {
    for code in 1..=CODES.len() {
        for n in 0..=7 {
            let held = sheet(numbers, code, n);
            for set in 0..1 << n {
                let places: Vec<usize> = (0..n).filter(|place| set >> place & 1 == 1).collect();
                one_by_one(report, numbers, &held, &places);
            }
        }
    }
}

/// Sets up to the most that there may be, of sheets that have more places, or just as many.
fn many(report: &mut Report, numbers: &mut Numbers) {
    for (code, n, count) in [
        (1, 20, 11),
        (1, 70, 64),
        (2, 64, 64),
        (3, 65, 63),
        (4, 63, 63),
    ] {
        let held = sheet(numbers, code, n);
        let mut places: Vec<usize> = (0..n).collect();
        while places.len() > count {
            places.remove(numbers.next() as usize % places.len());
        }
        one_by_one(report, numbers, &held, &places);
    }
}

/// The rounds by their number. Of one change they are those of document 01's examples.
fn rounds(report: &mut Report, numbers: &mut Numbers) {
    let first: Vec<usize> = (0..MOST_CHANGES).collect();
    let last: Vec<usize> = (MOST - MOST_CHANGES..MOST).collect();
    let cases: [(usize, usize, &[usize], u64); 15] = [
        (2, 0, &[], 2),
        (4, 0, &[], 3),
        (2, 5, &[], 3),
        (4, 1023, &[], 6),
        (4, MOST, &[], 3),
        (2, 5, &[4], 6),
        (2, 5, &[0], 11),
        (2, 5, &[0, 4], 11),
        (2, 5, &[0, 1, 2, 3, 4], 11),
        (4, MOST, &[0], 1286),
        (4, MOST, &[1023], 11),
        (4, MOST, &[4, 1023], 1281),
        (4, MOST, &first, 1286),
        (4, MOST, &last, 86),
        (1, 64, &first, 84),
    ];
    for (code, n, places, wanted) in cases {
        let mut held = sheet(numbers, code, n);
        let claim = held.digest();
        let got = save(&mut held, &changes(numbers, places), &claim);
        let what = || format!("{places:?} of {n} records at code {code}");
        report.same(what, got, Saved::Done(wanted));
    }
}

/// A claim speaks of content: records like the old ones leave the digest, and a set undone gives it back.
fn content(report: &mut Report, numbers: &mut Numbers) {
    for code in 1..=CODES.len() {
        let mut held = sheet(numbers, code, 11);
        let places = [1, 2, 6, 10];
        let old = places.map(|place| (place, held.records[place]));
        let new = changes(numbers, &places);
        let mut other = held.clone();
        for &(place, record) in &new {
            other.records[place] = record;
        }
        let (opened, now) = (held.digest(), other.digest());
        let mut saved = |set: &[(usize, Record)], claim: &[u8]| {
            let done = matches!(save(&mut held, set, claim), Saved::Done(_));
            (done, held.digest())
        };
        let got = [
            saved(&old, &opened),
            saved(&new, &opened),
            saved(&old, &opened),
            saved(&old, &now),
        ];
        let wanted = [
            (true, &opened),
            (true, &now),
            (false, &now),
            (true, &opened),
        ];
        report.same(
            || format!("old records and new at code {code}"),
            got.each_ref().map(|(done, digest)| (*done, digest)),
            wanted,
        );
    }
}

/// What the plain sheet refuses, whatever the claim. Nothing is changed then.
fn refused(report: &mut Report, numbers: &mut Numbers) {
    let wide = 1 << 32;
    let [over, most, above] = [0..65, 0..64, 6..70].map(Vec::from_iter);
    let cases: [(usize, &[usize], Saved); 25] = [
        (0, &[0], Saved::NoPlace),
        (0, &[0, 0], Saved::NoSet),
        (5, &[5], Saved::NoPlace),
        (5, &[0, 5], Saved::NoPlace),
        (5, &[4, 5, 6], Saved::NoPlace),
        (5, &[4, 4], Saved::NoSet),
        (5, &[0, 0, 1], Saved::NoSet),
        (5, &[0, 1, 1], Saved::NoSet),
        (5, &[1, 0], Saved::NoSet),
        (5, &[0, 2, 1, 3], Saved::NoSet),
        (5, &[3, 1, 2], Saved::NoSet),
        (5, &[5, 5], Saved::NoSet),
        (5, &[6, 5], Saved::NoSet),
        (5, &[wide + 1], Saved::NoPlace),
        (5, &[1, wide + 2], Saved::NoPlace),
        (5, &[3, wide + 2], Saved::NoPlace),
        (5, &[wide + 1, 2], Saved::NoSet),
        (5, &[1, 1 << 63], Saved::NoPlace),
        (5, &[1 << 63, 1], Saved::NoSet),
        (5, &[usize::MAX], Saved::NoPlace),
        (5, &[usize::MAX, 0], Saved::NoSet),
        (5, &above, Saved::NoPlace),
        (5, &over, Saved::NoSet),
        (63, &most, Saved::NoPlace),
        (70, &over, Saved::NoSet),
    ];
    for (n, places, wanted) in cases {
        let held = sheet(numbers, 3, n);
        let changes = changes(numbers, places);
        for claim in [held.digest(), vec![0; 48], vec![]] {
            let mut got = held.clone();
            let saved = save(&mut got, &changes, &claim);
            let what = || format!("{places:x?} of {n} records");
            report.same(what, &saved, &wanted);
            report.same(|| what() + ", then", &got.records, &held.records);
        }
    }
}

/// Each refusal at its edge, and which hold together; numbers of 64 bits and their products are judged whole.
fn judged(report: &mut Report) {
    let max = usize::MAX;
    let (wide, wraps) = (1 << 32, max / 40 + 1);
    let [over, most] = [0..65, 0..64].map(Vec::from_iter);
    // The code, then the bytes of the output and of the sheet, its records, the words of the marks, and the bytes
    // of the new records and of the claim.
    let cases: [([usize; 7], &[usize], &[u64]); 61] = [
        ([2, 32, 200, 5, 80, 80, 32], &[0, 4], &[]),
        ([2, max, max, 5, max, 80, 32], &[0, 4], &[]),
        ([3, 48, 200, 5, 80, 120, 48], &[1, 2, 3], &[]),
        ([2, 32, 200, 5, 80, 0, 32], &[], &[]),
        ([1, 28, 0, 0, 40, 0, 28], &[], &[]),
        ([4, 64, 0, 0, 40, 0, 64], &[], &[]),
        ([4, 64, 40_960, 1024, 10_280, 2560, 64], &most, &[]),
        ([4, 64, 40_960, 1024, 10_280, 2600, 64], &over, &[14]),
        ([4, 64, 40_960, 1024, 10_280, 2560, 64], &over, &[14, 9]),
        ([4, 64, 2560, 64, 680, 2560, 64], &most, &[]),
        ([4, 64, 2520, 63, 640, 2560, 64], &most, &[7]),
        ([4, 64, 2520, 63, 640, 2600, 64], &over, &[14, 7]),
        ([0, 32, 200, 5, 80, 80, 32], &[0, 4], &[1]),
        ([5, 64, 200, 5, 80, 80, 64], &[0, 4], &[1]),
        ([wide + 2, 32, 200, 5, 80, 80, 32], &[0, 4], &[1]),
        ([max, 0, 200, 5, 80, 80, 0], &[0, 4], &[1]),
        ([2, 31, 200, 5, 80, 80, 32], &[0, 4], &[2]),
        ([4, 63, 200, 5, 80, 80, 64], &[0, 4], &[2]),
        ([2, 0, 0, 0, 40, 0, 32], &[], &[2]),
        ([2, 32, 199, 5, 80, 80, 32], &[0, 4], &[5]),
        ([2, 32, 199, 5, 80, 0, 32], &[], &[5]),
        ([2, 32, 41_000, 1025, 10_280, 80, 32], &[0, 4], &[5]),
        ([2, 32, max, wraps, max, 80, 32], &[0, 4], &[5]),
        ([2, 32, max, wide + 5, 80, 80, 32], &[0, 4], &[5, 6]),
        ([2, 32, max, max, 0, 80, 32], &[0, 4], &[5, 6]),
        ([2, 32, max, 1 << 63, max, 40, 32], &[1 << 63], &[5, 6, 7]),
        ([2, 32, 200, 5, 79, 80, 32], &[0, 4], &[6]),
        ([2, 32, 0, 0, 39, 0, 32], &[], &[6]),
        ([2, 32, 200, 5, 80, 80, 32], &[4, 4], &[14]),
        ([2, 32, 200, 5, 80, 80, 32], &[4, 0], &[14]),
        ([2, 32, 200, 5, 80, 120, 32], &[0, 0, 1], &[14]),
        ([2, 32, 200, 5, 80, 120, 32], &[0, 1, 1], &[14]),
        ([2, 32, 200, 5, 80, 160, 32], &[0, 3, 2, 4], &[14]),
        ([2, 32, 200, 5, 80, 80, 32], &[5, 5], &[14, 7]),
        ([2, 32, 200, 5, 80, 80, 32], &[6, 0], &[14, 7]),
        ([2, 32, 200, 5, 80, 80, 32], &[wide + 1, 2], &[14, 7]),
        ([2, 32, 200, 5, 80, 80, 32], &[1 << 63, 1], &[14, 7]),
        ([2, 32, 200, 5, 80, 80, 32], &[4, 5], &[7]),
        ([2, 32, 200, 5, 80, 80, 32], &[5, 6], &[7]),
        ([2, 32, 200, 5, 80, 40, 32], &[5], &[7]),
        ([2, 32, 200, 5, 80, 40, 32], &[wide + 1], &[7]),
        ([2, 32, 200, 5, 80, 80, 32], &[3, wide + 2], &[7]),
        ([2, 32, 200, 5, 80, 80, 32], &[1, 1 << 63], &[7]),
        ([2, 32, 200, 5, 80, 40, 32], &[wraps], &[7]),
        ([2, 32, 200, 5, 80, 40, 32], &[max], &[7]),
        ([2, 32, 0, 0, 40, 40, 32], &[0], &[7]),
        ([2, 32, 200, 5, 80, 79, 32], &[0, 4], &[9]),
        ([2, 32, 200, 5, 80, 81, 32], &[0, 4], &[9]),
        ([2, 32, 200, 5, 80, 119, 32], &[0, 4], &[9]),
        ([2, 32, 200, 5, 80, 40, 32], &[0, 4], &[9]),
        ([2, 32, 200, 5, 80, 120, 32], &[0, 4], &[9]),
        ([2, 32, 200, 5, 80, 0, 32], &[0], &[9]),
        ([2, 32, 200, 5, 80, max, 32], &[0], &[9]),
        ([2, 32, 200, 5, 80, 1, 32], &[], &[9]),
        ([2, 32, 0, 0, 40, 40, 32], &[], &[9]),
        ([2, 32, 200, 5, 80, 80, 31], &[0, 4], &[10]),
        ([2, 32, 200, 5, 80, 80, 33], &[0, 4], &[10]),
        ([1, 32, 200, 5, 80, 80, 32], &[0, 4], &[10]),
        ([2, 32, 200, 5, 80, 0, 0], &[], &[10]),
        (
            [2, 31, 199, 5, 79, 1, 31],
            &[5, 5],
            &[2, 5, 6, 14, 7, 9, 10],
        ),
        ([0, 31, 199, 5, 79, 1, 31], &[5, 5], &[1, 5, 6, 14, 7, 9]),
    ];
    for ([code, out, sheet, n, marks, records, claim], places, wanted) in cases {
        let lent = Lengths {
            out,
            sheet,
            n,
            marks,
            claim,
        };
        let what = || format!("{places:x?} at code {code}, {records} bytes, {lent:?}");
        let got = refusals(code, places, records, lent);
        report.same(what, &got[..], wanted);
    }
}
