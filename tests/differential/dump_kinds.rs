//! The kinds of call over dumps that a whole run has to meet: each number and both refusals at once, each wrong length
//! of each buffer at each code, every unknown code with lengths that would do, each special form, one bit in every word
//! and at every position, and every value in every column of each matrix.

use crate::columns::POSITIONS;
use crate::dump_calls::{width, Call, Given, CALLS};
use crate::dumps::{BUFFERS, MOST_CHAIN, MOST_ROUNDS, WRONG};
use crate::hashes::WIDE_BITS;
use crate::met::{answer_kinds, Met};
use crate::outputs::NO_CODES;

/// The numbers that document 02 lets the calls give, the refusals in their order.
fn numbers(call: Call) -> &'static [u64] {
    match call {
        Call::FromMessage => &[0, 24],
        _ => &[0, 1, 24],
    }
}

const FORMS: [&str; 4] = ["zeros", "ones", "one bit", "any"];

fn form(bytes: &[u8]) -> &'static str {
    let ones: u32 = bytes.iter().map(|byte| byte.count_ones()).sum();
    FORMS[match ones {
        0 => 0,
        1 => 2,
        _ if ones as usize == 8 * bytes.len() => 1,
        _ => 3,
    }]
}

/// The word and the bit of it that the only bit of a buffer is, where a call at w reads or alters a state there.
fn place(call: Call, w: usize, bytes: &[u8]) -> (usize, usize) {
    let at = bytes.iter().position(|byte| *byte != 0).expect("a bit");
    let bit = bytes[at].ilog2() as usize;
    match call {
        Call::FromWords => {
            let word = u32::from_ne_bytes(bytes.as_chunks().0[at / 4]);
            (at / 4, word.ilog2() as usize)
        }
        Call::FromMessage => (at / 4, 8 * (3 - at % 4) + bit),
        Call::ToWords | Call::Inject => (8 * (at % w) + bit, at / w),
    }
}

/// The call as it was given, with the refusals that hold.
pub fn see(met: &mut Met, given: &Given, hold: &[u64]) {
    let Given { call, code, .. } = *given;
    let number = hold.first().copied().unwrap_or(0);
    met.see_answer(&format!("{call:?}"), number, hold);
    if !hold.is_empty() {
        return;
    }
    let mut see = |what: String| met.see(format!("{call:?} done at code {code}, {what}"));
    let state = match call {
        Call::Inject => &given.written,
        _ => &given.read,
    };
    if form(state) == "one bit" {
        let (word, bit) = place(call, call.blocks(code), state);
        see(format!("word {word}"));
        see(format!("bit {bit}"));
    }
    see(form(state).into());
    if call == Call::Inject {
        let message = form(&given.read);
        see(format!("{} with a message of {message}", form(state)));
        if message == "one bit" {
            let (word, bit) = place(call, 1, &given.read);
            see(format!("message word {word}"));
            see(format!("message bit {bit}"));
        }
    }
}

/// The 32 values from `first` on in one column of the matrix.
pub fn see_values(met: &mut Met, code: usize, column: usize, first: usize) {
    met.see(format!(
        "Inject at code {code}, column {column}, {first} on"
    ));
}

/// In which ways a call was refused, each of them alone.
pub fn see_refused(met: &mut Met, call: Call, ways: &[String]) {
    if let [way] = ways {
        met.see(format!("{call:?} refused: {way}"));
    }
}

pub fn see_back(met: &mut Met, there: Call, code: usize, start: &[u8]) {
    met.see(format!(
        "{there:?} and back at code {code}, {}",
        form(start)
    ));
}

pub fn see_chain(met: &mut Met, code: usize, blocks: usize) {
    met.see(format!("Inject at code {code}, {blocks} in a row"));
}

pub fn see_rounds(met: &mut Met, code: usize, rounds: usize) {
    met.see(format!("Inject at code {code}, {rounds} beside a record"));
}

/// Prints the counts, and answers the kinds that should have been met and weren't.
pub fn print(met: &Met) -> Vec<String> {
    println!("calls over columns, by the number answered:");
    for call in CALLS {
        met.print_answers(&format!("{call:?}"), numbers(call));
    }
    met.unmet(wanted())
}

fn wanted() -> Vec<String> {
    let mut kinds = vec![];
    for call in CALLS {
        let numbers = numbers(call);
        kinds.extend(answer_kinds(&format!("{call:?}"), numbers, &numbers[1..]));
        let refused = format!("{call:?} refused:");
        if call.codes() > 1 {
            kinds.extend(NO_CODES.map(|code| format!("{refused} code {code}")));
        }
        for code in 1..=call.codes() {
            want_done(&mut kinds, call, code);
            for (buffer, (name, _)) in BUFFERS
                .iter()
                .flat_map(|buffer| WRONG.map(|wrong| (buffer, wrong)))
            {
                kinds.push(format!("{refused} {buffer} {name} at code {code}"));
            }
            if call.codes() == 1 {
                continue;
            }
            for other in (3..=5).filter(|w| *w != width(code)) {
                kinds.push(format!("{refused} as of {other} blocks at code {code}"));
            }
            kinds.extend(WIDE_BITS.map(|bit| format!("{refused} code {}", code | 1 << bit)));
        }
    }
    for code in 1..=4 {
        let inject = format!("Inject at code {code},");
        for column in 0..=width(code) {
            let firsts = (0..256).step_by(POSITIONS);
            kinds.extend(firsts.map(|first| format!("{inject} column {column}, {first} on")));
        }
        kinds.extend((1..=MOST_CHAIN).map(|blocks| format!("{inject} {blocks} in a row")));
        kinds.extend((1..=MOST_ROUNDS).map(|rounds| format!("{inject} {rounds} beside a record")));
        for there in [Call::FromWords, Call::ToWords] {
            kinds.extend(FORMS.map(|form| format!("{there:?} and back at code {code}, {form}")));
        }
    }
    kinds
}

/// What calls that aren't refused have to meet.
fn want_done(kinds: &mut Vec<String>, call: Call, code: usize) {
    let mut want = |what: String| kinds.push(format!("{call:?} done at code {code}, {what}"));
    (0..8 * call.blocks(code)).for_each(|word| want(format!("word {word}")));
    (0..POSITIONS).for_each(|bit| want(format!("bit {bit}")));
    FORMS.iter().for_each(|form| want(form.to_string()));
    if call == Call::Inject {
        for form in FORMS {
            let messages = FORMS.iter();
            messages.for_each(|message| want(format!("{form} with a message of {message}")));
        }
        (0..8).for_each(|word| want(format!("message word {word}")));
        (0..POSITIONS).for_each(|bit| want(format!("message bit {bit}")));
    }
}
