//! The kinds of call for longer output that a whole run has to meet: every number of words at every code
//! and in every length of buffer, every number of odd bits at every index, each refusal alone and beside
//! each other one, and every way in which a record or a struct is malformed.

use crate::hash_kinds::{no_odd, see_low_bits};
use crate::hashes::{malformed_kinds, WIDE_ODD};
use crate::met::{answer_kinds, Met};
use crate::model::{length, Hash, MOST_ODD};
use crate::output::{Asked, MOST_WORDS};
use crate::outputs::NO_WORDS;

/// The calls out of a record and out of a struct.
const FINISHES: [&str; 2] = ["finish output", "lent finish output"];

/// By how much a buffer is longer than the words need.
const MORE: [&str; 3] = ["just enough", "a byte more", "more"];

fn see(met: &mut Met, call: &str, asked: Asked, hold: &[u64]) {
    let Asked { words, room } = asked;
    let number = hold.first().copied().unwrap_or(0);
    met.see_answer(call, number, hold);
    match hold {
        [12, ..] => met.see(format!("{call} 12, {words} words")),
        [2, ..] if room + 1 == 4 * words => met.see(format!("{call} 2 by a byte, {words} words")),
        [] => {
            let more = MORE[(room - 4 * words).min(2)];
            met.see(format!("{call} done, {words} words, {more}"));
        }
        _ => (),
    }
}

pub fn see_message(
    met: &mut Met,
    code: usize,
    asked: Asked,
    message: &[u8],
    odd: usize,
    hold: &[u64],
) {
    see(met, "output", asked, hold);
    if hold == [17] {
        met.see(no_odd("output", message, odd));
    }
    if hold.is_empty() {
        let index = length(message, odd) / 8 % 32;
        met.see(format!("output done, code {code}, {} words", asked.words));
        met.see(format!("output done, odd {odd}, index {index}"));
        see_low_bits(met, "output", message, odd);
    }
}

pub fn see_finish(met: &mut Met, call: &str, hash: Option<&Hash>, asked: Asked, hold: &[u64]) {
    see(met, call, asked, hold);
    if let (Some(hash), []) = (hash, hold) {
        let (code, odd, index) = (hash.code, hash.odd, hash.count() % 32);
        met.see(format!("{call} done, code {code}, {} words", asked.words));
        met.see(format!("{call} done, odd {odd}, index {index}"));
    }
}

/// Prints the counts, and answers the kinds that should have been met and weren't.
pub fn print(met: &Met) -> Vec<String> {
    println!("calls for longer output, by the number answered:");
    met.print_answers("output", &[0, 1, 12, 2, 17]);
    for call in FINISHES {
        met.print_answers(call, &[0, 12, 3, 2]);
    }
    met.unmet(wanted())
}

fn wanted() -> Vec<String> {
    // No machine can lend a message that would be refused 4.
    let mut kinds = answer_kinds("output", &[0, 1, 12, 2, 17], &[1, 12, 2, 17]);
    for call in FINISHES {
        kinds.extend(answer_kinds(call, &[0, 12, 3, 2], &[12, 3, 2]));
    }
    for call in ["output"].into_iter().chain(FINISHES) {
        kinds.extend(NO_WORDS.map(|words| format!("{call} 12, {words} words")));
        for words in 1..=MOST_WORDS {
            kinds.push(format!("{call} 2 by a byte, {words} words"));
            kinds.extend(MORE.map(|more| format!("{call} done, {words} words, {more}")));
            kinds.extend((1..=4).map(|code| format!("{call} done, code {code}, {words} words")));
        }
        for odd in 0..=MOST_ODD {
            kinds.extend((0..32).map(|index| format!("{call} done, odd {odd}, index {index}")));
        }
    }
    kinds.extend(WIDE_ODD.map(|odd| format!("output 17, odd {odd}")));
    for odd in 1..=MOST_ODD {
        kinds.push(format!("output 17, odd {odd} of no bytes"));
        kinds.push(format!("output done, odd {odd}, low bits set"));
    }
    let malformed = malformed_kinds().into_iter();
    kinds.extend(malformed.map(|kind| format!("longer output, {kind}")));
    kinds
}
