//! A stale save that says where (document 02), by two routes. Of any marks: the first w blocks of each, from mark 1 on,
//! are laid end to end as one line of words, and the word at which two lines part tells the group. Of marks that are
//! true: by no mark, but by the longest beginning of whole groups that the records of both sheets share.

use crate::luffa::{CODES, V};
use crate::sheet::{no_marks, Record, Sheet, GROUP, MARK_WORDS, MOST};

/// A planner's count, and the words lent as the marks.
#[derive(Clone, Debug, Default)]
pub struct Own {
    pub n: usize,
    pub marks: Vec<u32>,
}

/// What is said of two sets of marks.
#[derive(Clone, Copy, Debug, PartialEq)]
pub enum Said {
    Same,
    Group(usize),
}

/// This, and how many pairs of marks were compared for it.
#[derive(Clone, Copy, Debug, PartialEq)]
pub struct Where {
    pub said: Said,
    pub pairs: usize,
}

/// 15, of a count and so many words, whatever they are.
pub fn no_count(n: usize, words: usize) -> bool {
    n > MOST || no_marks(n, words)
}

/// 15. An unknown code has no starting variables, and so no mark 0 is wrong.
fn no_own(code: usize, own: &Own) -> bool {
    let known = code.checked_sub(1).and_then(|k| CODES.get(k));
    let started = |w| own.marks.starts_with(V[..w].as_flattened());
    no_count(own.n, own.marks.len()) || known.is_some_and(|&(w, _)| !started(w))
}

/// Every refusal that holds where these do of the plain save, 11 and 16 left out: 15 comes after them.
pub fn refusals(mut plain: Vec<u64>, code: usize, own: &Own) -> Vec<u64> {
    plain.extend(no_own(code, own).then_some(15));
    plain
}

/// What is said where so many groups are alike from the first on, of those that both sheets have whole.
fn parted(alike: usize, both: usize) -> Where {
    match alike < both {
        true => Where {
            said: Said::Group(alike),
            pairs: alike + 1,
        },
        false => Where {
            said: Said::Same,
            pairs: both,
        },
    }
}

/// Where the marks of n records held and the planner's part.
pub fn by_marks(code: usize, n: usize, held: &[u32], own: &Own) -> Where {
    let words = 8 * CODES[code - 1].0;
    let line = |n: usize, marks: &[u32]| -> Vec<u32> {
        let marks = &marks.as_chunks::<MARK_WORDS>().0[1..=n / GROUP];
        marks
            .iter()
            .flat_map(|mark| &mark[..words])
            .copied()
            .collect()
    };
    let (held, own) = (line(n, held), line(own.n, &own.marks));
    let alike = held.iter().zip(&own).take_while(|(a, b)| a == b).count();
    parted(alike / words, held.len().min(own.len()) / words)
}

/// The same where both sets of marks are true: groups that are alike leave states that are, and the first that isn't
/// leaves another.
pub fn by_records(held: &Sheet, own: &Sheet) -> Where {
    let groups = |sheet: &Sheet| -> Vec<[Record; GROUP]> { sheet.records.as_chunks().0.to_vec() };
    let (held, own) = (groups(held), groups(own));
    let both = held.len().min(own.len());
    let alike = (0..=both).rev().find(|&g| held[..g] == own[..g]);
    parted(alike.unwrap(), both)
}

/// What a save with own marks answers where the plain save gives this number: 11 says where, or becomes 16, and every
/// other one says same and 0 pairs.
pub fn told(number: u64, compare: impl FnOnce() -> Where) -> (u64, Where) {
    if number != 11 {
        return (number, parted(0, 0));
    }
    let compared = compare();
    match compared.said {
        Said::Group(_) => (11, compared),
        Said::Same => (16, compared),
    }
}
