//! Closing up by what document 02 says of it: cases worked out by hand, every set of struck records of a few against
//! document 01's formulas and against changes and drops with sheet.rs, and the refusals against lists worked out by
//! hand.

use crate::check::{record, sheet, Numbers, Report};
use crate::close_up::{is_struck, mark_used, marks_left, refusals, save};
use crate::luffa::CODES;
use crate::sheet::{Lengths, Saved, Sheet, MARK_WORDS, MOST};

pub fn differences(report: &mut Report, numbers: &mut Numbers) {
    by_hand(report, numbers);
    every_set(report, numbers);
    nearly(report, numbers);
    marks(report, numbers);
    freed_room(report, numbers);
    judged(report);
}

/// A sheet of n records, of which these are struck.
fn with_struck(numbers: &mut Numbers, code: usize, n: usize, struck: &[usize]) -> Sheet {
    let mut held = sheet(numbers, code, n);
    struck
        .iter()
        .for_each(|&place| held.records[place] = [0; 40]);
    held
}

/// The code, the records, the struck places, the mark used, the rounds of the check and those after it, and the old
/// places of those that are left.
type Case<'a> = (usize, usize, &'a [usize], usize, [u64; 2], &'a [usize]);

fn by_hand(report: &mut Report, numbers: &mut Numbers) {
    let all: Vec<usize> = (0..MOST).collect();
    let (even, odd): (Vec<usize>, Vec<usize>) = (0..MOST).partition(|place| place % 2 == 0);
    let cases: [Case; 26] = [
        (2, 0, &[], 0, [2, 2], &[]),
        (4, 0, &[], 0, [3, 3], &[]),
        (2, 1, &[0], 0, [3, 2], &[]),
        (1, 3, &[2], 0, [5, 4], &[0, 1]),
        (2, 4, &[], 1, [2, 2], &[0, 1, 2, 3]),
        (2, 4, &[0, 1, 2, 3], 0, [2, 2], &[]),
        (2, 5, &[], 1, [3, 3], &[0, 1, 2, 3, 4]),
        (2, 5, &[0, 1, 2, 3, 4], 0, [3, 2], &[]),
        (2, 5, &[0], 0, [3, 7], &[1, 2, 3, 4]),
        (2, 5, &[3], 0, [3, 7], &[0, 1, 2, 4]),
        (2, 5, &[4], 1, [3, 2], &[0, 1, 2, 3]),
        (3, 7, &[], 1, [6, 6], &[0, 1, 2, 3, 4, 5, 6]),
        (2, 7, &[1, 3, 5], 0, [5, 7], &[0, 2, 4, 6]),
        (2, 8, &[0, 1, 2, 3], 0, [2, 7], &[4, 5, 6, 7]),
        (2, 8, &[4, 5, 6, 7], 1, [2, 2], &[0, 1, 2, 3]),
        (4, 9, &[5], 1, [4, 8], &[0, 1, 2, 3, 4, 6, 7, 8]),
        (3, 12, &[4, 5, 6, 7], 1, [3, 8], &[0, 1, 2, 3, 8, 9, 10, 11]),
        (
            3,
            12,
            &[3, 8, 9, 10, 11],
            0,
            [3, 11],
            &[0, 1, 2, 4, 5, 6, 7],
        ),
        (1, 1023, &all[..1023], 0, [5, 2], &[]),
        (4, MOST, &[], 256, [3, 3], &all),
        (4, MOST, &all, 0, [3, 3], &[]),
        (4, MOST, &[0], 0, [3, 1281], &all[1..]),
        (4, MOST, &[1023], 255, [3, 6], &all[..1023]),
        (1, MOST, &all[4..], 1, [2, 2], &all[..4]),
        (2, MOST, &even, 0, [2, 642], &odd),
        (2, MOST, &odd, 0, [2, 642], &even),
    ];
    for (code, n, struck, used, [check, rest], left) in cases {
        let mut held = with_struck(numbers, code, n, struck);
        let old = held.records.clone();
        let what = || format!("{struck:?} struck of {n} records at code {code}");
        report.same(|| what() + ", the mark", mark_used(&old), used);
        let claim = held.digest();
        let got = save(&mut held, &claim);
        let wanted = (Saved::Done(check + rest), left.to_vec());
        report.same(what, got, wanted);
        let wanted = left.iter().map(|&place| old[place]).collect();
        report.same(|| what() + ", the records", held.records, wanted);
    }
}

/// These records closed up: the rounds are those of the formulas, and the records those that changes and drops leave,
/// each new place changed to the next record that isn't struck and the rest dropped from the end. Closed up again
/// nothing is another, and with a wrong claim nothing is closed up.
fn closed(report: &mut Report, numbers: &mut Numbers, held: &Sheet) {
    let (code, n) = (held.code, held.records.len());
    let left: Vec<usize> = (0..n).filter(|&k| held.records[k] != [0; 40]).collect();
    let what = |what: &str| format!("{left:?} left of {n} records, code {code}, {what}");
    let f = [1, 1, 2, 2][code - 1];
    let check = |n: usize| (n % 4) as u64 + 1 + f;
    let blocks = |n: usize| (40 * n / 32 + 1) as u64;
    let first = (0..n).find(|k| !left.contains(k)).unwrap_or(n);

    let mut turned = held.clone();
    let done = |saved| assert!(matches!(saved, Saved::Done(_)));
    for (new, &old) in left.iter().enumerate() {
        let claim = turned.digest();
        done(turned.change(new, held.records[old], &claim));
    }
    for _ in left.len()..n {
        let claim = turned.digest();
        done(turned.drop(&claim));
    }

    let mut claim = held.digest();
    let mut got = held.clone();
    let rounds = check(n) + blocks(left.len()) - 5 * (first / 4) as u64 + f;
    let saved = save(&mut got, &claim);
    report.same(
        || what("saved"),
        &saved,
        &(Saved::Done(rounds), left.clone()),
    );
    report.same(|| what("records"), &got.records, &turned.records);

    let again = got.digest();
    let saved = save(&mut got, &again);
    let rounds = 2 * check(left.len());
    let all = (0..left.len()).collect();
    report.same(|| what("again"), &saved, &(Saved::Done(rounds), all));
    report.same(|| what("then"), &got.records, &turned.records);

    let any = numbers.next() as usize;
    let at = any % claim.len();
    claim[at] ^= 1 << (any >> 8) % 8;
    let mut got = held.clone();
    let saved = save(&mut got, &claim);
    let stale = (Saved::Stale(check(n)), vec![]);
    report.same(|| what("a wrong claim"), saved, stale);
    report.same(|| what("then"), &got.records, &held.records);
}

/// Every set of struck records of a few.
fn every_set(report: &mut Report, numbers: &mut Numbers) {
    for code in 1..=CODES.len() {
        for n in 0..=9 {
            for set in 0..1 << n {
                let struck: Vec<usize> = (0..n).filter(|place| set >> place & 1 == 1).collect();
                let held = with_struck(numbers, code, n, &struck);
                closed(report, numbers, &held);
            }
        }
    }
}

/// One byte sets a record apart from a struck one, any of the well or of the note, and it stays.
fn nearly(report: &mut Report, numbers: &mut Numbers) {
    for byte in 0..40 {
        let mut held = with_struck(numbers, 2, 6, &[1, 2, 4]);
        held.records[2][byte] = 1 << (byte % 8);
        let near = held.records[2];
        report.same(|| format!("byte {byte}"), is_struck(&near), false);
        let claim = held.digest();
        let places = save(&mut held, &claim).1;
        report.same(
            || format!("byte {byte} alone, left"),
            (places, held.records[1]),
            (vec![0, 2, 3, 5], near),
        );
    }
    // What the record would mean isn't asked, and neither is what its well or its note would be by itself.
    let mut held = sheet(numbers, 3, 3);
    held.records[0][..24].fill(0);
    held.records[1][24..].fill(0);
    held.records[2][..2].fill(0);
    let claim = held.digest();
    let places = save(&mut held, &claim).1;
    report.same(|| "half of them zero".into(), places, vec![0, 1, 2]);
}

/// The marks left: as many as the old sheet had, of which those up to the one used stay and those past the new last are
/// zeros.
fn marks(report: &mut Report, numbers: &mut Numbers) {
    let cases: [(usize, &[usize], usize); 9] = [
        (0, &[], 0),
        (3, &[0, 1], 0),
        (4, &[3], 0),
        (8, &[4, 5, 6, 7], 1),
        (8, &[0], 1),
        (12, &[9], 2),
        (16, &[5, 6, 7, 8, 9, 10, 11], 2),
        (17, &[16], 4),
        (17, &[2, 3, 4, 5, 6, 7, 8, 9, 10, 11, 12, 13, 14, 15], 0),
    ];
    for (code, (n, struck, last)) in (1..=4).flat_map(|code| cases.map(|case| (code, case))) {
        let held = with_struck(numbers, code, n, struck);
        let (before, used) = (held.marks(), mark_used(&held.records));
        let mut closed = held.clone();
        let claim = held.digest();
        save(&mut closed, &claim);
        let left = marks_left(n, &closed);
        let what = |what: &str| format!("{struck:?} struck of {n}, code {code}, {what}");
        report.same(|| what("marks"), left.len(), n / 4 + 1);
        report.same(|| what("those used"), &left[..=used], &before[..=used]);
        report.same(
            || what("the new last"),
            (left[last] != [0; MARK_WORDS], closed.mark(last)),
            (true, left[last]),
        );
        let zeros = left[last + 1..].iter().all(|mark| *mark == [0; MARK_WORDS]);
        report.same(|| what("those past it"), zeros, true);
    }
}

/// What was freed takes as many records again, and no more. A struck record can be appended too, and closed up again.
fn freed_room(report: &mut Report, numbers: &mut Numbers) {
    let mut held = with_struck(numbers, 1, MOST, &[3, 700, 701]);
    let claim = held.digest();
    report.same(
        || "a full sheet".into(),
        held.append([0; 40], &claim),
        Saved::Full,
    );
    let saved = save(&mut held, &claim);
    let mut wanted: Vec<usize> = (0..MOST).collect();
    wanted.retain(|place| ![3, 700, 701].contains(place));
    // The check is of a full sheet, and then 1,021 records are worked through.
    report.same(
        || "three freed".into(),
        saved,
        (Saved::Done(2 + 1277 + 1), wanted),
    );
    let mut appended = |new| {
        let claim = held.digest();
        held.append(new, &claim)
    };
    let got = [record(numbers), [0; 40], record(numbers), record(numbers)].map(&mut appended);
    // From mark 255: the check, and then a record more each time.
    let wanted = [
        Saved::Done(3 + 4),
        Saved::Done(4 + 5),
        Saved::Done(5 + 7),
        Saved::Full,
    ];
    report.same(|| "room for three".into(), got, wanted);
    let claim = held.digest();
    let (saved, places) = save(&mut held, &claim);
    report.same(
        || "the one struck again".into(),
        (saved, places.len(), places[1022], held.records.len()),
        (Saved::Done(2 + 5), 1023, 1023, 1023),
    );
}

/// Each refusal at its edge, and which hold together; numbers of 64 bits and their products are judged whole.
fn judged(report: &mut Report) {
    let max = usize::MAX;
    let (wide, wraps) = (1 << 32, max / 40 + 1);
    // The code, then the bytes of the output and of the sheet, its records, the words of the marks, the list's numbers
    // and the bytes of the claim.
    let cases: [([usize; 7], &[u64]); 36] = [
        ([2, 32, 200, 5, 80, 5, 32], &[]),
        ([2, max, max, 5, max, max, 32], &[]),
        ([1, 28, 0, 0, 40, 0, 28], &[]),
        ([3, 48, 0, 0, 40, 0, 48], &[]),
        ([4, 64, 40_960, 1024, 10_280, 1024, 64], &[]),
        ([0, 32, 200, 5, 80, 5, 32], &[1]),
        ([5, 64, 200, 5, 80, 5, 64], &[1]),
        ([wide + 2, 32, 200, 5, 80, 5, 32], &[1]),
        ([max, 0, 200, 5, 80, 5, 0], &[1]),
        ([2, 31, 200, 5, 80, 5, 32], &[2]),
        ([4, 63, 200, 5, 80, 5, 64], &[2]),
        ([2, 32, 199, 5, 80, 5, 32], &[5]),
        ([2, 32, 41_000, 1025, 10_280, 1025, 32], &[5]),
        ([2, 32, 41_000, 1025, 10_280, 1024, 32], &[5, 23]),
        ([2, 32, max, wraps, max, max, 32], &[5]),
        ([2, 32, max, wide + 5, 80, 5, 32], &[5, 6, 23]),
        ([2, 32, max, max, 0, max, 32], &[5, 6]),
        ([2, 32, max, 1 << 63, max, 1 << 62, 32], &[5, 6, 23]),
        ([2, 32, 200, 5, 79, 5, 32], &[6]),
        ([2, 32, 0, 0, 39, 0, 32], &[6]),
        ([2, 32, 200, 5, 80, 4, 32], &[23]),
        ([2, 32, 200, 5, 80, 0, 32], &[23]),
        ([2, 32, 40, 1, 40, 0, 32], &[23]),
        ([2, 32, 40, 1, 40, 1, 32], &[]),
        ([4, 64, 40_960, 1024, 10_280, 1023, 64], &[23]),
        ([4, 64, 40_960, 1024, 10_280, 255, 64], &[23]),
        ([2, 32, 200, 5, 80, 5, 31], &[10]),
        ([2, 32, 200, 5, 80, 5, 33], &[10]),
        ([1, 32, 200, 5, 80, 5, 32], &[10]),
        ([2, 32, 0, 0, 40, 0, 0], &[10]),
        ([2, 32, 200, 5, 80, 4, 31], &[23, 10]),
        ([2, 32, 200, 5, 79, 4, 32], &[6, 23]),
        ([2, 31, 200, 5, 80, 4, 32], &[2, 23]),
        ([0, 0, 200, 5, 80, 4, 0], &[1, 23]),
        ([2, 31, 199, 5, 79, 4, 31], &[2, 5, 6, 23, 10]),
        ([5, 31, 199, 5, 79, 4, 31], &[1, 5, 6, 23]),
    ];
    for ([code, out, sheet, n, marks, places, claim], wanted) in cases {
        let lent = Lengths {
            out,
            sheet,
            n,
            marks,
            claim,
        };
        let what = || format!("closing up at code {code}, {places} places, {lent:?}");
        report.same(what, &refusals(code, places, lent)[..], wanted);
    }
}
