//! The kinds of mend that a whole run has to meet: every word of a mark wrong by itself at every code, every
//! sort of wrong marks at every code and with every rest of n by four, and each refusal at its edge.

use crate::histories::{words_for, EDGES};
use crate::mend_model::{MendAnswer, Mending};
use crate::mends::{Way, FEWER_WORDS, WAYS};
use crate::met::{answer_kinds, Met};
use crate::model::state_words;
use crate::outputs::NO_CODES;
use crate::plan_kinds::{See, LENGTHS};
use crate::plans::{TOO_MANY, TOO_SHORT};
use crate::sheet::{MARK_WORDS, RECORD_BYTES};

/// Which of a sheet's marks were wrong.
const SORTS: [&str; 9] = [
    "none",
    "the only one",
    "mark 0 alone",
    "the last alone",
    "one between",
    "some from mark 0 on",
    "some after mark 0",
    "all after mark 0",
    "all",
];

/// The sort of wrong marks, given in order, of a sheet with so many marks.
fn sort(wrong: &[usize], marks: usize) -> &'static str {
    SORTS[match (wrong, marks) {
        ([], _) => 0,
        (_, 1) => 1,
        ([0], _) => 2,
        ([m], _) if m + 1 == marks => 3,
        ([_], _) => 4,
        _ if wrong.len() == marks => 8,
        ([0, ..], _) => 5,
        _ if wrong.len() + 1 == marks => 7,
        _ => 6,
    }]
}

/// The call of what was lent, which left what it then held.
pub fn see(met: &mut Met, before: &Mending, after: &Mending, answer: &MendAnswer) {
    let hold = before.refusals();
    met.see_answer("Mend", answer.number, &hold);
    if !hold.is_empty() {
        return;
    }
    let (code, n) = (before.code, before.n);
    let mut see = |what: String| met.see(format!("Mend {what}"));
    if n <= FEW || EDGES.contains(&n) {
        see(format!("done, n = {n}"));
    }
    for (what, more) in [
        ("sheet", before.sheet.len() - RECORD_BYTES * n),
        ("marks", before.marks.len() - words_for(n)),
    ] {
        see(format!("done, {what} {}", LENGTHS[more.min(2)]));
    }
    let words = before.marks.iter().zip(&after.marks).enumerate();
    let differ: Vec<(usize, u32)> = words
        .filter(|(_, (was, is))| was != is)
        .map(|(at, (was, is))| (at, was ^ is))
        .collect();
    let mut wrong: Vec<usize> = differ.iter().map(|(at, _)| at / MARK_WORDS).collect();
    wrong.dedup();
    let sort = sort(&wrong, n / 4 + 1);
    see(format!("{sort} wrong, code {code}, n % 4 = {}", n % 4));
    if let [(at, bits)] = differ[..] {
        see(format!("word {} alone, code {code}", at % MARK_WORDS));
        if bits.is_power_of_two() {
            see(format!("bit {} alone", bits.trailing_zeros()));
        }
    }
    for (what, number) in [("wrong", answer.wrong), ("first", answer.first)] {
        if number > 255 {
            see(format!("{what} over 255"));
        }
    }
}

/// Up to so many records, each number must be met.
pub const FEW: usize = 19;

/// In which ways a call was refused.
pub fn see_refused(met: &mut Met, ways: &[String]) {
    if let [way] = ways {
        met.see(format!("Mend refused: {way}"));
    }
}

/// Prints the counts, and answers the kinds that should have been met and weren't.
pub fn print(met: &Met) -> Vec<String> {
    println!("mends, by the number answered:");
    met.print_answers("Mend", &NUMBERS);
    met.unmet(wanted())
}

const NUMBERS: [u64; 4] = [0, 1, 5, 6];

/// What any call must meet that has a code, a sheet and its marks.
pub fn want_refused(want: See) {
    for code in NO_CODES {
        want(format!("refused: code {code}"));
    }
    want_no_sheet(want);
    for (name, _) in FEWER_WORDS {
        want(format!("refused: marks {name} short"));
    }
}

/// What any call must meet that has a sheet.
pub fn want_no_sheet(want: See) {
    for (name, _) in TOO_MANY {
        want(format!("refused: n is {name}"));
    }
    want("refused: 1,025 with room".into());
    for (name, _) in TOO_SHORT {
        want(format!("refused: sheet {name} short"));
    }
}

/// Each way in which marks are spoiled, at each code.
pub fn want_ways(want: See) {
    for (way, code) in WAYS
        .iter()
        .flat_map(|way| (1..=4).map(move |code| (way, code)))
    {
        // Code 4 uses all words.
        if *way != Way::Unused || state_words(code) < MARK_WORDS {
            want(format!("{way:?}, code {code}"));
        }
    }
}

fn wanted() -> Vec<String> {
    let mut kinds = answer_kinds("Mend", &NUMBERS, &NUMBERS[1..]);
    let want: See = &mut |what| kinds.push(format!("Mend {what}"));
    for n in (0..=FEW).chain(EDGES) {
        want(format!("done, n = {n}"));
    }
    for length in LENGTHS {
        want(format!("done, sheet {length}"));
        want(format!("done, marks {length}"));
    }
    for code in 1..=4 {
        for (sort, r) in SORTS.iter().flat_map(|sort| (0..4).map(move |r| (sort, r))) {
            want(format!("{sort} wrong, code {code}, n % 4 = {r}"));
        }
        for k in 0..MARK_WORDS {
            want(format!("word {k} alone, code {code}"));
        }
    }
    for bit in 0..32 {
        want(format!("bit {bit} alone"));
    }
    want_ways(want);
    want("wrong over 255".into());
    want("first over 255".into());
    want_refused(want);
    kinds
}
