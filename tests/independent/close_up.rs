//! Closing up struck wells (document 02), by sorting: every record takes its place along, the struck ones go behind
//! all others, and are let go there. What is left is hashed whole.

use crate::output::holding;
use crate::sheet::{Lengths, Mark, Record, Saved, Sheet, GROUP, MARK_WORDS, RECORD_BYTES};

/// Every refusal that holds, in the request's order, but for 11, for which the sheet is hashed. The list has so many
/// places.
pub fn refusals(code: usize, places: usize, lent: Lengths) -> Vec<u64> {
    let ([width, out, sheet, marks], claim) = lent.judged(code);
    holding([width, out, sheet, marks, (23, places < lent.n), claim])
}

/// A record is struck by its 40 bytes alone.
pub fn is_struck(record: &Record) -> bool {
    *record == [0; RECORD_BYTES]
}

/// The mark that the work starts from: that before the group of the first struck place, or the last.
pub fn mark_used(records: &[Record]) -> usize {
    let first = records.iter().position(is_struck);
    first.unwrap_or(records.len()) / GROUP
}

/// The save, and for each new place the old one where it is done.
pub fn save(sheet: &mut Sheet, claim: &[u8]) -> (Saved, Vec<usize>) {
    let checked = match sheet.check(claim) {
        Ok(rounds) => rounds,
        Err(stale) => return (stale, vec![]),
    };
    let used = mark_used(&sheet.records);
    let mut all: Vec<(usize, Record)> = sheet.records.drain(..).enumerate().collect();
    // Records that are alike in this keep their order.
    all.sort_by_key(|(_, record)| is_struck(record));
    all.truncate(all.partition_point(|(_, record)| !is_struck(record)));
    let (places, records) = all.into_iter().unzip();
    sheet.records = records;
    (Saved::Done(checked + sheet.hashed(used).1), places)
}

/// What the marks of n records hold once they are closed up to this sheet, where they were true: its own, and zeros
/// past its last.
pub fn marks_left(n: usize, closed: &Sheet) -> Vec<Mark> {
    let mut marks = closed.marks();
    marks.resize(n / GROUP + 1, [0; MARK_WORDS]);
    marks
}
