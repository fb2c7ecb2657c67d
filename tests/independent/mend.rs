//! Mending marks (document 02). The true marks are worked out by halves: whatever was found, the state in the
//! middle comes from the whole first half as one piece, and then each half is halved again. What is wrong is
//! found afterwards, mark by mark.

use crate::luffa::{Luffa, CODES};
use crate::output::holding;
use crate::sheet::{no_marks, no_sheet, Mark, Record, Sheet, GROUP};

/// Every refusal that holds, in the request's order. The sheet's length is in bytes, the marks' in words.
pub fn refusals(code: usize, sheet_len: usize, n: usize, marks_len: usize) -> Vec<u64> {
    holding([
        (1, !(1..=CODES.len()).contains(&code)),
        (5, no_sheet(n, sheet_len)),
        (6, no_marks(n, marks_len)),
    ])
}

/// What a mender says: the marks that were wrong, by their numbers, and the rounds.
#[derive(Debug, PartialEq)]
pub struct Mended {
    pub wrong: Vec<usize>,
    pub rounds: u64,
}

type Group = [Record; GROUP];

fn fed(before: &Luffa, groups: &[Group]) -> Luffa {
    let mut hash = before.clone();
    hash.update(groups.as_flattened().as_flattened());
    hash
}

/// The mark after each of these groups, from the hash before the first.
fn after_each(before: &Luffa, groups: &[Group]) -> Vec<Mark> {
    if groups.len() < 2 {
        return groups.iter().map(|_| fed(before, groups).state()).collect();
    }
    let (left, right) = groups.split_at(groups.len() / 2);
    let middle = fed(before, left);
    [after_each(before, left), after_each(&middle, right)].concat()
}

/// Makes the marks found, which are as many as the sheet has, the true ones. All 40 words of each count,
/// and the rounds are those of the full groups hashed once.
pub fn mend(sheet: &Sheet, marks: &mut [Mark]) -> Mended {
    let start = Luffa::new(CODES[sheet.code - 1].0);
    let groups = sheet.records.as_chunks().0;
    let mut truth = vec![start.state()];
    truth.extend(after_each(&start, groups));
    let wrong = (0..truth.len()).filter(|&m| marks[m] != truth[m]).collect();
    marks.copy_from_slice(&truth);
    Mended {
        wrong,
        rounds: fed(&start, groups).rounds,
    }
}
