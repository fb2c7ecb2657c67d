//! Saves with the planner's own marks by what document 02 says of them: cases worked out by hand, of sheets that
//! differ at known places and of marks that are no sheet's, and the same by marks as by records.

use crate::check::{record, sheet, Numbers, Report};
use crate::luffa::CODES;
use crate::own::{by_marks, by_records, no_count, refusals, told, Own, Said, Where};
use crate::sheet::{Mark, Saved, Sheet, MARK_WORDS, MOST};

pub fn differences(report: &mut Report, numbers: &mut Numbers) {
    sheets(report, numbers);
    every_place(report, numbers);
    made_up(report);
    every_word(report, numbers);
    planners(report, numbers);
    started(report, numbers);
    counts(report);
    answers(report);
}

fn group(g: usize) -> Where {
    Where {
        said: Said::Group(g),
        pairs: g + 1,
    }
}

fn same(pairs: usize) -> Where {
    Where {
        said: Said::Same,
        pairs,
    }
}

fn words(marks: &[Mark]) -> Vec<u32> {
    marks.as_flattened().to_vec()
}

fn own(sheet: &Sheet) -> Own {
    Own {
        n: sheet.records.len(),
        marks: words(&sheet.marks()),
    }
}

/// Both routes, of two sheets and their true marks, with either as the planner's.
fn both(report: &mut Report, what: &str, one: &Sheet, other: &Sheet, wanted: Where) {
    for (held, opened) in [(one, other), (other, one)] {
        let (code, n) = (held.code, held.records.len());
        let what = |by: &str| {
            let m = opened.records.len();
            format!("{what}, {n} records and the planner's {m}, code {code}, by {by}")
        };
        let got = by_marks(code, n, &words(&held.marks()), &own(opened));
        report.same(|| what("marks"), got, wanted);
        report.same(|| what("records"), by_records(held, opened), wanted);
    }
}

/// A sheet of so many of the records, each of these made another one.
fn other(numbers: &mut Numbers, held: &Sheet, n: usize, changed: &[usize]) -> Sheet {
    let mut other = held.clone();
    other.records.truncate(n);
    for &place in changed {
        other.records[place] = record(numbers);
    }
    other
}

/// Counts of two sheets, which of the second's records differ, and what is then said.
fn sheets(report: &mut Report, numbers: &mut Numbers) {
    let cases: [(usize, usize, &[usize], Where); 31] = [
        (0, 0, &[], same(0)),
        (3, 3, &[], same(0)),
        (3, 3, &[0, 1, 2], same(0)),
        (4, 3, &[], same(0)),
        (4, 3, &[0], same(0)),
        (4, 0, &[], same(0)),
        (4, 4, &[], same(1)),
        (4, 4, &[0], group(0)),
        (4, 4, &[3], group(0)),
        (5, 4, &[], same(1)),
        (5, 5, &[4], same(1)),
        (7, 5, &[4], same(1)),
        (7, 7, &[3], group(0)),
        (8, 7, &[4], same(1)),
        (8, 8, &[4], group(1)),
        (8, 8, &[0, 4], group(0)),
        (12, 12, &[], same(3)),
        (12, 12, &[5], group(1)),
        (12, 12, &[5, 9], group(1)),
        (12, 12, &[11], group(2)),
        (12, 11, &[9], same(2)),
        (12, 8, &[7], group(1)),
        (12, 5, &[1], group(0)),
        (15, 13, &[12], same(3)),
        (40, 21, &[17], group(4)),
        (MOST, 9, &[8], same(2)),
        (MOST, MOST, &[], same(256)),
        (MOST, MOST, &[1023], group(255)),
        (MOST, MOST, &[512, 1023], group(128)),
        (MOST, 1023, &[1020], same(255)),
        (MOST, 1023, &[1019], group(254)),
    ];
    for (n, fewer, changed, wanted) in cases {
        for code in 1..=CODES.len() {
            let held = sheet(numbers, code, n);
            let other = other(numbers, &held, fewer, changed);
            both(report, &format!("{changed:?}"), &held, &other, wanted);
        }
    }
}

/// Every two counts, and a bit of every record: its group is named if both sheets have it whole.
fn every_place(report: &mut Report, numbers: &mut Numbers) {
    for code in 1..=CODES.len() {
        for (n, fewer) in (0..=9).flat_map(|n| (0..=n).map(move |fewer| (n, fewer))) {
            let held = sheet(numbers, code, n);
            for place in 0..fewer {
                let mut other = other(numbers, &held, fewer, &[]);
                let any = numbers.next() as usize;
                other.records[place][any % 40] ^= 1 << (any >> 8) % 8;
                let wanted = match (place / 4, fewer / 4) {
                    (g, whole) if g < whole => group(g),
                    (_, whole) => same(whole),
                };
                both(report, &format!("a bit of {place}"), &held, &other, wanted);
            }
        }
    }
}

/// Marks that are no sheet's: those held are all ones, and the planner's too but for some words. Each case has the
/// code, both counts, these words by mark and number, and what is said.
fn made_up(report: &mut Report) {
    let cases: [(usize, usize, usize, &[(usize, usize)], Where); 24] = [
        (1, 8, 8, &[], same(2)),
        (1, 8, 8, &[(1, 0)], group(0)),
        (1, 8, 8, &[(2, 0)], group(1)),
        (1, 8, 8, &[(1, 23)], group(0)),
        (2, 8, 8, &[(2, 23)], group(1)),
        (1, 8, 8, &[(1, 24)], same(2)),
        (2, 8, 8, &[(2, 39)], same(2)),
        (2, 8, 8, &[(1, 24), (2, 23)], group(1)),
        (3, 8, 8, &[(1, 24)], group(0)),
        (3, 8, 8, &[(2, 31)], group(1)),
        (3, 8, 8, &[(1, 32), (2, 39)], same(2)),
        (4, 8, 8, &[(1, 32)], group(0)),
        (4, 8, 8, &[(2, 39)], group(1)),
        // Mark 0 isn't among the pairs, and neither are marks that one of the two hasn't.
        (4, 8, 8, &[(0, 0)], same(2)),
        (4, 8, 8, &[(0, 39), (2, 0)], group(1)),
        (4, 7, 8, &[(2, 0)], same(1)),
        (4, 8, 7, &[(2, 0)], same(1)),
        (4, 3, 8, &[(1, 0), (2, 0)], same(0)),
        (4, 8, 3, &[(1, 0), (2, 0)], same(0)),
        // Marks after the first that differs don't matter, whether they agree again or not.
        (2, 20, 20, &[(3, 5)], group(2)),
        (2, 20, 20, &[(3, 5), (4, 5), (5, 5)], group(2)),
        (2, 20, 20, &[(3, 5), (5, 5)], group(2)),
        (2, 20, 20, &[(5, 7), (2, 9)], group(1)),
        (2, 20, 20, &[(5, 7)], group(4)),
    ];
    for (code, n, m, differ, wanted) in cases {
        let held = vec![1; MARK_WORDS * 6];
        let mut marks = held.clone();
        for (mark, word) in differ {
            marks[MARK_WORDS * mark + word] = 0;
        }
        let got = by_marks(code, n, &held, &Own { n: m, marks });
        let what = || format!("{differ:?} of {n} and {m} records, code {code}");
        report.same(what, got, wanted);
    }
}

/// One bit of each word of each mark, in the planner's marks or in those held.
fn every_word(report: &mut Report, numbers: &mut Numbers) {
    for (code, (w, _)) in (1..).zip(CODES) {
        let held = sheet(numbers, code, 14);
        let truth = own(&held);
        for at in 0..truth.marks.len() {
            let mut marks = truth.marks.clone();
            marks[at] ^= 0x8000_0000 >> (at % 32);
            let (m, k) = (at / MARK_WORDS, at % MARK_WORDS);
            let wanted = match (1..).contains(&m) && k < 8 * w {
                true => group(m - 1),
                false => same(3),
            };
            let what = |whose: &str| format!("word {k} of {whose} mark {m}, code {code}");
            let got = by_marks(code, 14, &marks, &truth);
            report.same(|| what("the held"), got, wanted);
            let got = by_marks(code, 14, &truth.marks, &Own { n: 14, marks });
            report.same(|| what("the planner's"), got, wanted);
        }
    }
}

/// Two planners who have opened nine records. One of them saves, and then what the other's append is told, with its
/// rounds; after each step the sheet is as it was.
fn planners(report: &mut Report, numbers: &mut Numbers) {
    for (code, f) in [(1, 1), (2, 1), (3, 2), (4, 2)] {
        let opened = sheet(numbers, code, 9);
        let claim = opened.digest();
        let mut late = |what: &str, held: &Sheet, wanted: (u64, Where, u64)| {
            let mut left = held.clone();
            let (number, rounds) = match left.append([7; 40], &claim) {
                Saved::Done(rounds) => (0, rounds),
                Saved::Stale(rounds) => (11, rounds),
                refused => panic!("{refused:?}"),
            };
            let (number, said) = told(number, || by_records(held, &opened));
            let got = (number, said, rounds);
            report.same(|| format!("{what}, code {code}"), got, wanted);
            let marks = words(&held.marks());
            let n = held.records.len();
            let of_marks = told(if number == 0 { 0 } else { 11 }, || {
                by_marks(code, n, &marks, &own(&opened))
            });
            report.same(
                || format!("{what}, code {code}, by marks"),
                of_marks,
                (wanted.0, wanted.1),
            );
        };
        let done = 2 + f + 3 + f;
        late("nobody saved", &opened, (0, same(0), done));
        for (place, wanted) in [
            (0, (11, group(0))),
            (3, (11, group(0))),
            (5, (11, group(1))),
            (8, (16, same(2))),
        ] {
            let mut held = opened.clone();
            let old = held.records[place];
            held.change(place, record(numbers), &claim);
            let what = format!("{place} changed");
            late(&what, &held, (wanted.0, wanted.1, 2 + f));
            let now = held.digest();
            held.change(place, old, &now);
            late("changed back", &held, (0, same(0), done));
        }
        let mut held = opened.clone();
        held.append(record(numbers), &claim);
        late("one more", &held, (16, same(2), 3 + f));
        for n in 11..=12 {
            let now = held.digest();
            held.append(record(numbers), &now);
            let rest = (n % 4) as u64;
            late("more", &held, (16, same(2), rest + 1 + f));
        }
        let mut held = opened.clone();
        for n in (0..9).rev() {
            let now = held.digest();
            held.drop(&now);
            let rest = (n % 4) as u64;
            late("fewer", &held, (16, same(n / 4), rest + 1 + f));
        }
    }
}

/// Mark 0 with a bit of each word another, with the words of each code, and with the next mark's.
fn started(report: &mut Report, numbers: &mut Numbers) {
    for (code, (w, _)) in (1..).zip(CODES) {
        let truth = own(&sheet(numbers, code, 5));
        let mut judge = |what: String, marks: Vec<u32>, wrong: bool| {
            let wanted: &[u64] = if wrong { &[15] } else { &[] };
            let got = refusals(vec![], code, &Own { n: 5, marks });
            report.same(|| format!("{what}, code {code}"), &got[..], wanted);
        };
        judge("true marks".into(), truth.marks.clone(), false);
        for at in 0..truth.marks.len() {
            let mut marks = truth.marks.clone();
            marks[at] ^= 1 << (at % 32);
            judge(format!("a bit of word {at}"), marks, at < 8 * w);
        }
        for (other, (width, _)) in (1..).zip(CODES) {
            let mut marks = own(&sheet(numbers, other, 0)).marks;
            marks.extend([0; MARK_WORDS]);
            // A wider code begins with the same blocks, and a narrower one has zeros after its own.
            judge(format!("mark 0 of code {other}"), marks, width < w);
        }
        let next = truth.marks[MARK_WORDS..].repeat(2);
        judge("mark 1 as mark 0".into(), next, true);
        judge("zeros".into(), vec![0; 2 * MARK_WORDS], true);
    }
    // Without a code only the count and the room are judged.
    for code in [0, 5, (1 << 32) + 1, usize::MAX] {
        for (n, wanted) in [(7, &[1][..]), (8, &[1, 15]), (MOST + 1, &[1, 15])] {
            let marks = vec![0; 2 * MARK_WORDS];
            let got = refusals(vec![1], code, &Own { n, marks });
            report.same(|| format!("{n} records at code {code}"), &got[..], wanted);
        }
    }
}

/// Counts and words at their edges; products of over 64 bits are judged whole.
fn counts(report: &mut Report) {
    let most = usize::MAX;
    let wraps = most / 40 + 1;
    for (n, words, wanted) in [
        (0, 40, false),
        (0, 39, true),
        (0, 0, true),
        (3, 40, false),
        (3, 39, true),
        (4, 79, true),
        (4, 80, false),
        (7, 80, false),
        (8, 80, true),
        (8, 119, true),
        (8, 120, false),
        (1023, 10_240, false),
        (1023, 10_239, true),
        (MOST, 10_279, true),
        (MOST, 10_280, false),
        (MOST, most, false),
        (MOST + 1, 10_280, true),
        (MOST + 1, most, true),
        (1 << 32, most, true),
        ((1 << 32) + 4, 80, true),
        (wraps, most, true),
        (4 * wraps, most, true),
        (1 << 61, most, true),
        ((1 << 62) + 4, most, true),
        (1 << 63, most, true),
        (most, 0, true),
        (most, most, true),
    ] {
        let what = || format!("{n} records of a planner, {words} words");
        report.same(what, no_count(n, words), wanted);
    }
}

/// What the number of a plain save becomes, and where 15 stands among its refusals.
fn answers(report: &mut Report) {
    for number in [0, 1, 2, 5, 6, 7, 8, 9, 10, 15] {
        for compared in [same(0), same(3), group(0), group(7)] {
            let got = told(number, || compared);
            report.same(|| format!("{number} told"), got, (number, same(0)));
        }
    }
    for (compared, wanted) in [
        (same(0), 16),
        (same(1), 16),
        (same(256), 16),
        (group(0), 11),
        (group(255), 11),
    ] {
        let got = told(11, || compared);
        report.same(|| format!("{compared:?}"), got, (wanted, compared));
    }
    let none = Own::default();
    for plain in [vec![], vec![2], vec![5, 6, 10], vec![1, 6, 9]] {
        let mut wanted = plain.clone();
        wanted.push(15);
        let got = refusals(plain, 3, &none);
        report.same(|| "15 after the others".into(), got, wanted);
    }
}
