//! The kinds of closing up that a whole run has to meet: every set of struck records of a few, at every code, over
//! true marks and false; the first of them wherever it lies; no mark, one and many that are rewritten and that are
//! zeroed; every byte that keeps a record from being struck; every set of refusals at once; and each refusal at its
//! edge.

use crate::batch_kinds::{at, want_refused_save, LOWEST, MARKS};
use crate::close_up::{is_struck, mark_used};
use crate::close_ups::{FEWER_PLACES, STRUCK};
use crate::histories::{words_for, EDGES};
use crate::mend_kinds::want_ways;
use crate::met::{sets, Met};
use crate::model::digest_bytes;
use crate::plan_kinds::{See, LENGTHS};
use crate::sheet::{Record, GROUP, MOST, RECORD_BYTES};
use crate::sheet_model::{held, refusals, Answer, Call, Given};

/// How many records of a sheet are struck.
const SETS: [&str; 5] = ["no records", "none", "one", "some", "all"];

/// How many marks.
const MANY: [&str; 3] = ["no mark", "one mark", "marks"];

/// What keeps a record from being struck, beside a single byte.
const KEPT: [&str; 2] = ["its note alone", "all but its note"];

/// The call of what was lent, which left what it then held.
pub fn see(met: &mut Met, before: &Given, after: &Given, answer: &Answer, true_marks: bool) {
    let mut see = |what: String| met.see(format!("CloseUp {what}"));
    let mut hold = refusals(Call::CloseUp, before);
    // Only these two leave a digest and a claim that can be compared with it.
    let judged = hold.iter().all(|number| [2, 23].contains(number));
    if judged && held(before).0 != before.claim {
        hold.push(11);
    }
    if hold.len() > 1 {
        see(format!("with {hold:?}"));
    }
    let (code, n) = (before.code, before.n);
    let records = match answer.number {
        0 | 11 => &before.sheet.as_chunks::<RECORD_BYTES>().0[..n],
        _ => return,
    };
    let struck = records.iter().filter(|record| is_struck(record)).count();
    let set = SETS[match struck {
        _ if n == 0 => 0,
        0 => 1,
        _ if struck == n => 4,
        1 => 2,
        _ => 3,
    }];
    let marks = MARKS[usize::from(true_marks)];
    let done = if answer.number == 0 { "done" } else { "stale" };
    see(format!("{done}, {set} struck, marks {marks}, code {code}"));
    if answer.number == 0 {
        let see: See = &mut |what| see(format!("done, {what}"));
        see_done(see, before, after, records);
        if n == MOST {
            see(format!("{set} struck of {n}"));
        }
    }
}

/// What was closed up, of these records.
fn see_done(see: See, before: &Given, after: &Given, records: &[Record]) {
    let (code, n, left) = (before.code, before.n, after.n);
    if n <= FEW {
        let set = records.iter().map(|record| u8::from(is_struck(record)));
        see(format!("{:?} struck", set.collect::<Vec<u8>>()));
    }
    if EDGES.contains(&n) && left < n {
        see(format!("n = {n}, some struck"));
    }
    for (what, more) in [
        ("sheet", before.sheet.len() - RECORD_BYTES * n),
        ("marks", before.marks.len() - words_for(n)),
        ("list", before.list.len() - n),
        ("output", before.out.len() - digest_bytes(code)),
    ] {
        see(format!("{what} {}", LENGTHS[more.min(2)]));
    }
    for k in [8, 16] {
        if before.list.len() == (1 << k) + n - 1 {
            see(format!("list of 2^{k} + n - 1"));
        }
    }
    if before.sheet[RECORD_BYTES * n..].starts_with(&[0; RECORD_BYTES]) {
        see("like a struck record behind the sheet".into());
    }
    if left > 256 {
        see("a new place over 255".into());
    }
    if after.list[..left]
        .iter()
        .zip(0..)
        .any(|(&old, new)| old > 255 && old != new)
    {
        see("another old place over 255".into());
    }
    for kept in records.iter().filter(|record| !is_struck(record)) {
        let set: Vec<usize> = (0..RECORD_BYTES).filter(|&k| kept[k] != 0).collect();
        match set[..] {
            [byte] => see(format!("byte {byte} alone kept")),
            [first, ..] if first >= 24 => see(format!("kept by {}", KEPT[0])),
            [.., last] if last < 24 => see(format!("kept by {}", KEPT[1])),
            _ => (),
        }
    }
    let Some(first) = records.iter().position(is_struck) else {
        return;
    };
    see(format!("first {}, n % 4 = {}", at(first, n), n % 4));
    see(format!("first % 4 = {}", first % 4));
    see(format!("n % 4 = {}, left % 4 = {}", n % 4, left % 4));
    let many = |marks: usize| MANY[marks.min(2)];
    let zeroed = many(n / GROUP - left / GROUP);
    let rewritten = many(left / GROUP - mark_used(records));
    see(format!(
        "{rewritten} rewritten, {zeroed} zeroed, code {code}"
    ));
}

/// Up to so many records, each set of struck ones must be met.
const FEW: usize = 4;

/// Prints the counts, and answers the kinds that should have been met and weren't.
pub fn print(met: &Met) -> Vec<String> {
    println!("closing up:");
    met.unmet(wanted())
}

fn wanted() -> Vec<String> {
    let mut kinds = vec![];
    let want: See = &mut |what| kinds.push(format!("CloseUp {what}"));
    for code in 1..=4 {
        for (set, marks) in SETS.iter().flat_map(|set| MARKS.map(|marks| (set, marks))) {
            for done in ["done", "stale"] {
                want(format!("{done}, {set} struck, marks {marks}, code {code}"));
            }
        }
        for struck in STRUCK {
            want(format!("{struck:?} struck, code {code}"));
        }
    }
    want_ways(want);
    want_done(&mut |what| want(format!("done, {what}")));
    // An unknown code has no digest length, and only some leave a claim to be judged.
    for refusals in [&[1, 5, 6, 23][..], &[2, 5, 6, 23, 10], &[2, 23, 11]] {
        for hold in sets(refusals) {
            want(format!("with {hold:?}"));
        }
    }
    want_refused_save(want);
    for places in FEWER_PLACES {
        want(format!("refused: list {places}"));
    }
    kinds
}

fn want_done(want: See) {
    for n in 0..=FEW {
        for set in 0..1 << n {
            let set: Vec<u8> = (0..n).map(|k| set >> k & 1).collect();
            want(format!("{set:?} struck"));
        }
    }
    for n in EDGES.iter().filter(|&&n| n > 0) {
        want(format!("n = {n}, some struck"));
    }
    for set in [SETS[1], SETS[3], SETS[4]] {
        want(format!("{set} struck of {MOST}"));
    }
    for (what, length) in ["sheet", "marks", "list", "output"]
        .iter()
        .flat_map(|what| LENGTHS.map(|length| (what, length)))
    {
        want(format!("{what} {length}"));
    }
    for what in [
        "list of 2^8 + n - 1",
        "list of 2^16 + n - 1",
        "like a struck record behind the sheet",
        "a new place over 255",
        "another old place over 255",
    ] {
        want(what.into());
    }
    for byte in 0..RECORD_BYTES {
        want(format!("byte {byte} alone kept"));
    }
    for kept in KEPT {
        want(format!("kept by {kept}"));
    }
    for r in 0..4 {
        want(format!("first % 4 = {r}"));
        // Where r is 0 no record comes after the last group.
        for at in &LOWEST[usize::from(r == 0)..] {
            want(format!("first {at}, n % 4 = {r}"));
        }
        for left in 0..4 {
            want(format!("n % 4 = {r}, left % 4 = {left}"));
        }
    }
    for (rewritten, zeroed) in MANY
        .iter()
        .flat_map(|rewritten| MANY.map(|zeroed| (rewritten, zeroed)))
    {
        for code in 1..=4 {
            want(format!(
                "{rewritten} rewritten, {zeroed} zeroed, code {code}"
            ));
        }
    }
}
