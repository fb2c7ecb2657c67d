//! The kinds of batch that a whole run has to meet: sets of no place, of one, of few and of as many as there may
//! be, at every code, wherever they lie, over true marks and false; and each refusal at its edge.

use crate::batches::{
    FEWER_BYTES, MORE_BYTES, NOT_RISING, NO_PLACES, OTHER_CLAIMS, PAIRS, REFUSED_PLACES, RISING,
    SETS, STALE_CLAIMS, TOO_MANY_CHANGES,
};
use crate::histories::words_for;
use crate::mend_kinds::{want_refused, want_ways};
use crate::met::Met;
use crate::model::digest_bytes;
use crate::plan_kinds::{See, LENGTHS};
use crate::sheet::{GROUP, RECORD_BYTES};
use crate::sheet_model::{Answer, Call, Given};

pub const MARKS: [&str; 2] = ["false", "true"];

/// Where the lowest place is.
pub const LOWEST: [&str; 4] = [
    "after the last group",
    "in the last group",
    "in the first group",
    "in another group",
];

/// How the places of a set lie.
const SPREADS: [&str; 3] = ["in one group", "in groups in a row", "in groups apart"];

/// How many of the new records are those held.
const ALIKE: [&str; 3] = ["none", "some", "all"];

/// The call of what was lent.
pub fn see(met: &mut Met, before: &Given, answer: &Answer, true_marks: bool) {
    let (code, n) = (before.code, before.n);
    let places = &before.places[..];
    let count = places.len();
    let mut see = |what: String| met.see(format!("Batch {what}"));
    let set = format!(
        "{}, marks {}",
        SETS[count.min(2)],
        MARKS[usize::from(true_marks)]
    );
    match answer.number {
        0 => see(format!("done, {set}, code {code}")),
        11 => return see(format!("stale, {set}, code {code}")),
        _ => return,
    }
    see(format!("done, {count} places, code {code}"));
    if n <= FEW {
        see(format!("done, {count} places of {n}"));
    }
    for (what, more) in [
        ("sheet", before.sheet.len() - RECORD_BYTES * n),
        ("marks", before.marks.len() - words_for(n)),
        ("output", before.out.len() - digest_bytes(code)),
    ] {
        see(format!("done, {what} {}", LENGTHS[more.min(2)]));
    }
    let [lowest, ..] = *places else { return };
    see(format!("done, lowest {}, n % 4 = {}", at(lowest, n), n % 4));
    see(format!("done, lowest % 4 = {}", lowest % 4));
    if count > 1 {
        see(format!("done, {}, code {code}", spread(places)));
    }
    let alike = places.iter().zip(before.records.chunks(RECORD_BYTES));
    let alike = alike.filter(|(&place, new)| before.sheet[RECORD_BYTES * place..].starts_with(new));
    let alike = match alike.count() {
        0 => ALIKE[0],
        all if all == count => ALIKE[2],
        _ => ALIKE[1],
    };
    see(format!("done, {alike} as held"));
}

pub fn at(place: usize, n: usize) -> &'static str {
    LOWEST[match (place / GROUP, n / GROUP) {
        (group, groups) if group == groups => 0,
        (group, groups) if group + 1 == groups => 1,
        (0, _) => 2,
        _ => 3,
    }]
}

fn spread(places: &[usize]) -> &'static str {
    let mut groups: Vec<usize> = places.iter().map(|place| place / GROUP).collect();
    groups.dedup();
    let row = groups.windows(2).all(|two| two[0] + 1 == two[1]);
    SPREADS[match (groups.len(), row) {
        (1, _) => 0,
        (_, true) => 1,
        _ => 2,
    }]
}

/// Up to so many records, each number of places must be met.
const FEW: usize = 5;

/// In which ways a call was refused.
pub fn see_refused(met: &mut Met, call: Call, ways: &[(u64, String)], answer: &Answer) {
    match ways {
        [(number, way)] if *number == answer.number => met.see(format!("{call:?} refused: {way}")),
        _ => (),
    }
}

/// Prints the counts, and answers the kinds that should have been met and weren't.
pub fn print(met: &Met) -> Vec<String> {
    println!("many changes in one save:");
    met.unmet(wanted())
}

fn wanted() -> Vec<String> {
    let mut kinds = vec![];
    let want: See = &mut |what| kinds.push(format!("Batch {what}"));
    for code in 1..=4 {
        for (set, marks) in SETS.iter().flat_map(|set| MARKS.map(|marks| (set, marks))) {
            want(format!("done, {set}, marks {marks}, code {code}"));
            want(format!("stale, {set}, marks {marks}, code {code}"));
        }
        for count in [0, 1, 2, 3, 4, 5, 63, 64] {
            want(format!("done, {count} places, code {code}"));
        }
        for spread in SPREADS {
            want(format!("done, {spread}, code {code}"));
        }
    }
    want_ways(want);
    for n in 0..=FEW {
        for count in 0..=n {
            want(format!("done, {count} places of {n}"));
        }
    }
    for length in LENGTHS {
        for what in ["sheet", "marks", "output"] {
            want(format!("done, {what} {length}"));
        }
    }
    for r in 0..4 {
        want(format!("done, lowest % 4 = {r}"));
        // Where r is 0 no record comes after the last group.
        for at in &LOWEST[usize::from(r == 0)..] {
            want(format!("done, lowest {at}, n % 4 = {r}"));
        }
    }
    for alike in ALIKE {
        want(format!("done, {alike} as held"));
    }
    want_refused_save(want);
    for rising in RISING {
        want(format!("refused: {rising}"));
    }
    for count in TOO_MANY_CHANGES {
        want(format!("refused: {count} places"));
    }
    for (way, pair) in NOT_RISING
        .iter()
        .flat_map(|way| PAIRS.map(|pair| (way, pair)))
    {
        want(format!("refused: {way}, the {pair} two"));
    }
    for (name, _) in NO_PLACES {
        for which in REFUSED_PLACES {
            want(format!("refused: {name}, {which}"));
        }
    }
    for set in SETS {
        for (way, _) in MORE_BYTES {
            want(format!("refused: records {way} long, {set}"));
        }
    }
    for set in &SETS[1..] {
        for (way, _) in FEWER_BYTES {
            want(format!("refused: records {way} short, {set}"));
        }
    }
    kinds
}

/// What any save must meet that has cases of its own.
pub fn want_refused_save(want: See) {
    want_refused(want);
    for name in ["a byte", "all"] {
        want(format!("refused: output {name} short"));
    }
    for claim in OTHER_CLAIMS {
        want(format!("refused: claim {claim}"));
    }
    for claim in STALE_CLAIMS {
        want(format!("refused: claim: {claim}"));
    }
}
