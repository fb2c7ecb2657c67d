//! The kinds of call over a message that a whole run has to meet: every number of odd bits at every
//! index of the pending bytes, every refusal alone and beside each other one, and each edge of Table 1.

use crate::bits::most_bits;
use crate::hashes::{malformed_kinds, WIDE_ODD};
use crate::met::{answer_kinds, Met};
use crate::model::{length, Hash, MOST_ODD};

fn answer(hold: &[u64]) -> u64 {
    hold.first().copied().unwrap_or(0)
}

/// The calls that take pieces and those that give digests, over a record and over a struct.
const FEEDS: [&str; 2] = ["feed", "lent feed"];
const FINISHES: [&str; 2] = ["finish", "lent finish"];

pub fn see_digest(met: &mut Met, message: &[u8], odd: usize, hold: &[u64]) {
    met.see_answer("digest", answer(hold), hold);
    if hold == [17] {
        met.see(no_odd("digest", message, odd));
    }
    if hold.is_empty() {
        let index = length(message, odd) / 8 % 32;
        met.see(format!("digest done, odd {odd}, index {index}"));
        see_low_bits(met, "digest", message, odd);
    }
}

/// In which way there are no such odd bits.
pub fn no_odd(call: &str, bytes: &[u8], odd: usize) -> String {
    match bytes {
        _ if odd > MOST_ODD => format!("{call} 17, odd {odd}"),
        [] => format!("{call} 17, odd {odd} of no bytes"),
        _ => unreachable!("{call} has odd bits, and they are refused"),
    }
}

/// Whether the odd byte has bits set that aren't the message's.
pub fn see_low_bits(met: &mut Met, call: &str, bytes: &[u8], odd: usize) {
    if odd > 0 && bytes.last().is_some_and(|last| last << odd != 0) {
        met.see(format!("{call} done, odd {odd}, low bits set"));
    }
}

pub fn see_feed(
    met: &mut Met,
    call: &str,
    hash: Option<&Hash>,
    piece: &[u8],
    odd: usize,
    hold: &[u64],
) {
    met.see_answer(call, answer(hold), hold);
    let Some(hash) = hash else {
        return;
    };
    let code = hash.code;
    let more = length(piece, odd);
    match hold {
        [17] if hash.odd == 0 => met.see(no_odd(call, piece, odd)),
        [17] => {
            let piece = if piece.is_empty() {
                "no piece"
            } else {
                "a piece"
            };
            met.see(format!("{call} 17, {piece} after odd {}", hash.odd));
        }
        [4] if hash.count() + (more / 8) as u128 == most_bits(code) / 8 + 1 => {
            met.see(format!("{call} 4 by a byte, code {code}, odd {odd}"));
        }
        [] => {
            let bits = hash.bits().unwrap() + more as u128;
            let (count, index) = (bits / 8, bits / 8 % 32);
            met.see(format!(
                "{call} done, code {code}, odd {odd}, index {index}"
            ));
            see_low_bits(met, call, piece, odd);
            if count == most_bits(code) / 8 {
                met.see(format!(
                    "{call} done, code {code}, the most bytes, odd {odd}"
                ));
            }
            if count >> 64 != hash.count() >> 64 {
                met.see(format!(
                    "{call} done, code {code}, count carries, odd {odd}"
                ));
            }
        }
        _ => (),
    }
}

pub fn see_finish(met: &mut Met, call: &str, hash: Option<&Hash>, hold: &[u64]) {
    met.see_answer(call, answer(hold), hold);
    if let (Some(hash), []) = (hash, hold) {
        let (code, odd, index) = (hash.code, hash.odd, hash.count() % 32);
        met.see(format!(
            "{call} done, code {code}, odd {odd}, index {index}"
        ));
    }
}

/// Prints the counts, and answers the kinds that should have been met and weren't.
pub fn print(met: &Met) -> Vec<String> {
    println!("calls over a message, by the number answered:");
    met.print_answers("digest", &[0, 1, 2, 17]);
    met.print_answers("start", &[0, 1, 3]);
    met.print_answers("lent start", &[0, 1]);
    for (feed, finish) in FEEDS.into_iter().zip(FINISHES) {
        met.print_answers(feed, &[0, 3, 17, 4]);
        met.print_answers(finish, &[0, 3, 2]);
    }
    met.unmet(wanted())
}

fn wanted() -> Vec<String> {
    // No machine can lend a message that a digest would refuse 4.
    let mut kinds = answer_kinds("digest", &[0, 1, 2, 17], &[1, 2, 17]);
    // An unknown code has no digest that a buffer could be too short for.
    kinds.retain(|kind| kind != "digest with 1 and 2");
    kinds.extend(answer_kinds("start", &[0, 1, 3], &[1, 3]));
    kinds.extend(answer_kinds("lent start", &[0, 1], &[1]));
    for call in FEEDS {
        kinds.extend(answer_kinds(call, &[0, 3, 17, 4], &[3, 17, 4]));
        kinds.extend((1..=MOST_ODD).map(|odd| format!("{call} 17, no piece after odd {odd}")));
        kinds.extend((1..=MOST_ODD).map(|odd| format!("{call} 17, a piece after odd {odd}")));
    }
    for call in FINISHES {
        kinds.extend(answer_kinds(call, &[0, 3, 2], &[3, 2]));
    }
    for call in ["digest"].into_iter().chain(FEEDS) {
        kinds.extend(WIDE_ODD.map(|odd| format!("{call} 17, odd {odd}")));
        kinds.extend((1..=MOST_ODD).map(|odd| format!("{call} 17, odd {odd} of no bytes")));
        kinds.extend((1..=MOST_ODD).map(|odd| format!("{call} done, odd {odd}, low bits set")));
    }
    for odd in 0..=MOST_ODD {
        kinds.extend((0..32).map(|index| format!("digest done, odd {odd}, index {index}")));
    }
    for (code, odd) in (1..=4).flat_map(|code| (0..=MOST_ODD).map(move |odd| (code, odd))) {
        for call in FEEDS.into_iter().chain(FINISHES) {
            let places = (0..32).map(|i| format!("{call} done, code {code}, odd {odd}, index {i}"));
            kinds.extend(places);
        }
        for call in FEEDS {
            kinds.push(format!("{call} 4 by a byte, code {code}, odd {odd}"));
            kinds.push(format!(
                "{call} done, code {code}, the most bytes, odd {odd}"
            ));
            if code > 2 {
                kinds.push(format!(
                    "{call} done, code {code}, count carries, odd {odd}"
                ));
            }
        }
    }
    kinds.extend(malformed_kinds());
    kinds
}
