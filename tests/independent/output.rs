//! Longer output: document 02's request on the final stage of sections 3.3 and 5 of the Luffa
//! specification 2.0.1. What is refused, of a message and out of a record, and what is answered; the
//! rounds are counted as they are run.

use crate::bits::allowed;
use crate::luffa::{Luffa, CODES};

/// The most words that are given.
pub const MOST_WORDS: usize = 64;

/// The words asked for, and the bytes of the buffer lent for them.
#[derive(Clone, Copy, Debug)]
pub struct Asked {
    pub words: usize,
    pub room: usize,
}

impl Asked {
    /// 12.
    fn no_number(self) -> bool {
        !(1..=MOST_WORDS).contains(&self.words)
    }

    /// 2: under four bytes a word, for any number of them. So no word needs no byte, and for too many
    /// the buffer is at times too short as well.
    fn no_room(self) -> bool {
        (self.room as u128) < 4 * self.words as u128
    }
}

/// The refusals that hold, in the order in which they are given.
pub fn holding<const N: usize>(judged: [(u64, bool); N]) -> Vec<u64> {
    let hold = judged.into_iter().filter(|&(_, holds)| holds);
    hold.map(|(number, _)| number).collect()
}

/// Every refusal that holds for a message of so many bytes; with `odd` from 1 to 7, so many bits of the
/// last one are the message's. None but 1 and 4 asks for the code, and an unknown one has no limit.
pub fn of_message(code: usize, asked: Asked, bytes: usize, odd: usize) -> Vec<u64> {
    let no_odd = odd > 7 || odd > 0 && bytes == 0;
    let bits = match odd {
        1..=7 if bytes > 0 => 8 * (bytes as u128 - 1) + odd as u128,
        _ => 8 * bytes as u128,
    };
    holding([
        (1, !(1..=CODES.len()).contains(&code)),
        (12, asked.no_number()),
        (2, asked.no_room()),
        (17, no_odd),
        (4, !allowed(code, Some(bits))),
    ])
}

/// Every refusal that holds out of a record.
pub fn of_record(well_formed: bool, asked: Asked) -> Vec<u64> {
    holding([
        (12, asked.no_number()),
        (3, !well_formed),
        (2, asked.no_room()),
    ])
}

/// An answer: done, with the rounds of the final stage and its words, or a refusal's number alone.
#[derive(Debug, Default, PartialEq)]
pub struct Output {
    pub number: u64,
    pub rounds: u64,
    pub words: Vec<u32>,
}

/// What is answered where these refusals hold. `padded` gives the hash with its last block taken; it is
/// asked where none holds.
pub fn output(hold: &[u64], asked: Asked, padded: impl FnOnce() -> Luffa) -> Output {
    if let Some(&number) = hold.first() {
        return Output {
            number,
            ..Output::default()
        };
    }
    let (words, rounds) = padded().final_stage(asked.words);
    Output {
        number: 0,
        rounds,
        words,
    }
}
