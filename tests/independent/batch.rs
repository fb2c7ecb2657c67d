//! Many changes in one save (document 02), all at once: the new records are laid over the old ones, each at its
//! place, and what is then read from above is hashed whole. No change follows another, and none is made by its turn.

use crate::output::holding;
use crate::sheet::{Lengths, Record, Saved, Sheet, GROUP, RECORD_BYTES};
use std::collections::{BTreeMap, BTreeSet};

/// The most changes that a save takes.
pub const MOST_CHANGES: usize = 64;

/// 14: too many, or they aren't what they are once sorted, each of them kept once.
fn no_set(places: &[usize]) -> bool {
    let rising: BTreeSet<usize> = places.iter().copied().collect();
    places.len() > MOST_CHANGES || !rising.iter().eq(places)
}

/// 7: some place is that of no record.
fn no_place(n: usize, places: &[usize]) -> bool {
    places.iter().max().is_some_and(|&highest| highest >= n)
}

/// Every refusal that holds, in the request's order, but for 11, for which the sheet is hashed. The new records have so
/// many bytes.
pub fn refusals(code: usize, places: &[usize], records: usize, lent: Lengths) -> Vec<u64> {
    let bytes = RECORD_BYTES as u128 * places.len() as u128;
    let ([width, out, sheet, marks], claim) = lent.judged(code);
    holding([
        width,
        out,
        sheet,
        marks,
        (14, no_set(places)),
        (7, no_place(lent.n, places)),
        (9, records as u128 != bytes),
        claim,
    ])
}

/// The save, each change a place and its new record. Where there is none, the rounds are those of the check.
pub fn save(sheet: &mut Sheet, changes: &[(usize, Record)], claim: &[u8]) -> Saved {
    let places: Vec<usize> = changes.iter().map(|change| change.0).collect();
    if no_set(&places) {
        return Saved::NoSet;
    }
    if no_place(sheet.records.len(), &places) {
        return Saved::NoPlace;
    }
    let checked = match sheet.check(claim) {
        Ok(rounds) => rounds,
        Err(stale) => return stale,
    };
    let over: BTreeMap<usize, Record> = changes.iter().copied().collect();
    let old = sheet.records.iter().enumerate();
    sheet.records = old
        .map(|(place, old)| *over.get(&place).unwrap_or(old))
        .collect();
    let lowest = places.iter().map(|place| place / GROUP).min();
    let worked = lowest.map_or(0, |group| sheet.hashed(group).1);
    Saved::Done(checked + worked)
}
