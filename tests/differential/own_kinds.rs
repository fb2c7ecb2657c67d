//! The kinds of save with own marks that a whole run has to meet: each word of a shared mark the only one that differs,
//! at every code; the first, the last and every other shared mark the first that differs; no pair, one and as many as
//! there can be that agree; over marks that are true and that aren't, on either side; and each refusal at its edge.

use crate::histories::{words_for, EDGES};
use crate::luffa::V;
use crate::mends::FEWER_WORDS;
use crate::met::{answer_kinds, Met};
use crate::model::{known, state_words};
use crate::own::Own;
use crate::own_model::{refusals, OwnAnswer};
use crate::owns::{CALLS, NO_STARTS, OPENED};
use crate::plan_kinds::{See, LENGTHS};
use crate::plans::TOO_MANY;
use crate::sheet::{GROUP, MARK_WORDS, MOST};
use crate::sheet_model::{Call, Given};

/// Which of the shared marks is the first that differs.
const FIRST: [&str; 4] = ["the only one", "the first", "one between", "the last"];

/// How many pairs agree.
const PAIRS: [&str; 3] = ["no pair", "one pair", "pairs"];

/// The planner's marks beside those held.
const BESIDE: [&str; 3] = ["fewer", "as many", "more"];

/// Of marks that are compared, or would be.
const DIFFER: [&str; 2] = ["agree", "differ"];

const TRUE: [&str; 2] = ["false", "true"];

/// Who has no mark but mark 0.
const NO_PAIR: [&str; 3] = ["neither", "the held", "the planner's"];

/// The claim that is refused 15.
const CLAIMS: [&str; 2] = ["stale", "right"];

fn name(call: Call) -> String {
    format!("{call:?} own")
}

/// The call of what was lent. Which of the marks are true, those held and the planner's, is said.
pub fn see(
    met: &mut Met,
    call: Call,
    before: &Given,
    own: &Own,
    answer: &OwnAnswer,
    true_marks: [bool; 2],
) {
    let (code, n, number) = (before.code, before.n, answer.number);
    let (name, hold) = (name(call), refusals(call, before, own));
    met.see(format!("{name} answered {number}"));
    let code_name = match known(code) {
        true => format!("code {code}"),
        false => "no code".into(),
    };
    met.see_answer(&format!("{name}, {code_name}"), number, &hold);
    if !hold.is_empty() {
        return;
    }
    let (held, owned) = (n / GROUP, own.n / GROUP);
    let shared = held.min(owned);
    let used = state_words(code);
    let words = before.marks.iter().zip(&own.marks).enumerate();
    let words = words.take(MARK_WORDS * (shared + 1)).skip(MARK_WORDS);
    let differ = words.filter(|(_, (a, b))| a != b);
    let (differ, unused): (Vec<_>, Vec<_>) = differ
        .map(|(at, (a, b))| (at / MARK_WORDS, at % MARK_WORDS, a ^ b))
        .partition(|&(_, k, _)| k < used);

    let mut see = |what: String| met.see(format!("{name} {number}, {what}, code {code}"));
    let beside = BESIDE[1 + usize::from(owned > held) - usize::from(owned < held)];
    see(format!("{beside} marks"));
    match number {
        11 => see(format!("{} differs", first(answer.group as usize, shared))),
        16 => see(format!("{} agree", PAIRS[shared.min(2)])),
        _ => see(format!("marks {}", DIFFER[usize::from(!differ.is_empty())])),
    }

    let mut see = |what: String| met.see(format!("Own {number}, {what}"));
    let [marks, owns] = true_marks.map(|is| TRUE[usize::from(is)]);
    see(format!("marks {marks}, own {owns}, code {code}"));
    see(format!("n % 4 = {}, own n % 4 = {}", n % 4, own.n % 4));
    if EDGES.contains(&own.n) {
        see(format!("own n = {}", own.n));
    }
    let more = own.marks.len() - words_for(own.n);
    see(format!("own {}", LENGTHS[more.min(2)]));
    if before.marks[..used] != V.as_flattened()[..used] {
        see(format!("mark 0 false, code {code}"));
    }
    if own.marks[used..MARK_WORDS].iter().any(|&word| word != 0) {
        see(format!("own mark 0 with unused words, code {code}"));
    }
    if shared == MOST / GROUP {
        see(format!("{} pairs", answer.pairs));
    }
    match number {
        11 => {
            let m = answer.group as usize + 1;
            if m < shared {
                let later = differ.iter().any(|&(mark, ..)| mark > m);
                let later = DIFFER[usize::from(later)];
                see(format!("later marks {later}, code {code}"));
            }
            if unused.iter().any(|&(mark, ..)| mark < m) {
                see(format!("unused words before it, code {code}"));
            }
            if let [(_, k, bits)] = differ[..] {
                see(format!("word {k} alone, code {code}"));
                if bits.is_power_of_two() {
                    see(format!("bit {} alone", bits.trailing_zeros()));
                }
            }
        }
        16 => {
            if !unused.is_empty() {
                see(format!("unused words differ, code {code}"));
            }
            match (held, owned) {
                (0, 0) => see(NO_PAIR[0].into()),
                (0, _) => see(NO_PAIR[1].into()),
                (_, 0) => see(NO_PAIR[2].into()),
                _ => (),
            }
        }
        _ => (),
    }
}

/// Where the mark after group g is among the marks that both have, mark 0 left out.
fn first(g: usize, shared: usize) -> &'static str {
    FIRST[match (g, shared) {
        (_, 1) => 0,
        (0, _) => 1,
        _ if g + 1 < shared => 2,
        _ => 3,
    }]
}

/// In which ways a call was refused 15, and whether its claim was the digest held.
pub fn see_refused(met: &mut Met, ways: &[(u64, String)], answer: &OwnAnswer, claimed: bool) {
    match ways {
        [(15, way)] if answer.number == 15 => {
            let claim = CLAIMS[usize::from(claimed)];
            // A bit of mark 0 has its word in its name.
            let sort = way.split(", word").next().unwrap();
            met.see(format!("Own refused: {sort}, claim {claim}"));
            met.see(format!("Own refused: {way}"));
        }
        _ => (),
    }
}

/// Prints the counts, and answers the kinds that should have been met and weren't.
pub fn print(met: &Met) -> Vec<String> {
    println!("saves with own marks, by the number answered:");
    for call in CALLS {
        let numbers = [&[0], refusals_of(call), &[11, 16]].concat();
        met.print_answers(&name(call), &numbers);
    }
    met.unmet(wanted())
}

/// The refusals of a call, but for 11 and 16.
fn refusals_of(call: Call) -> &'static [u64] {
    match call {
        Call::Change => &[1, 2, 5, 6, 7, 9, 10, 15],
        Call::Append => &[1, 2, 5, 6, 8, 9, 10, 15],
        _ => &[1, 2, 5, 6, 7, 10, 15],
    }
}

/// What a call can be refused where the code is known, alone and in twos, and where it isn't.
fn want_answers(call: Call, kinds: &mut Vec<String>) {
    let name = name(call);
    let refusals = refusals_of(call);
    for code in 1..=4 {
        kinds.extend(answer_kinds(
            &format!("{name}, code {code}"),
            &[0, 11, 16],
            &refusals[1..],
        ));
    }
    kinds.push(format!("{name}, no code with 1 alone"));
    // An unknown code has no digest length.
    let others = refusals[1..]
        .iter()
        .filter(|number| ![2, 10].contains(*number));
    kinds.extend(others.map(|number| format!("{name}, no code with 1 and {number}")));
}

fn wanted() -> Vec<String> {
    let mut kinds = vec![];
    for call in CALLS {
        want_answers(call, &mut kinds);
        let name = name(call);
        let numbers = [0, 11, 16].map(|number| BESIDE.map(|beside| (number, beside)));
        for code in 1..=4 {
            let want: See = &mut |what| kinds.push(format!("{name} {what}, code {code}"));
            for (number, beside) in numbers.as_flattened() {
                want(format!("{number}, {beside} marks"));
            }
            for first in FIRST {
                want(format!("11, {first} differs"));
            }
            for pairs in PAIRS {
                want(format!("16, {pairs} agree"));
            }
            for differ in DIFFER {
                want(format!("0, marks {differ}"));
            }
        }
    }
    kinds.retain(|kind| {
        !IMPOSSIBLE
            .iter()
            .any(|(call, end)| kind.starts_with(call) && kind.ends_with(end))
    });

    let want: See = &mut |what| kinds.push(format!("Own {what}"));
    for number in [0, 11, 16] {
        for code in 1..=4 {
            for (marks, owns) in TRUE.iter().flat_map(|marks| TRUE.map(|owns| (marks, owns))) {
                want(format!("{number}, marks {marks}, own {owns}, code {code}"));
            }
            want(format!("{number}, mark 0 false, code {code}"));
            // Code 4 uses all words.
            if code < 4 {
                want(format!(
                    "{number}, own mark 0 with unused words, code {code}"
                ));
            }
        }
        for r in 0..16 {
            want(format!(
                "{number}, n % 4 = {}, own n % 4 = {}",
                r / 4,
                r % 4
            ));
        }
        // Fewer than four records have no mark that could differ.
        for n in EDGES.iter().filter(|&&n| number != 11 || n >= GROUP) {
            want(format!("{number}, own n = {n}"));
        }
        for length in LENGTHS {
            want(format!("{number}, own {length}"));
        }
    }
    for pairs in ["11, 1 pairs", "11, 256 pairs", "16, 256 pairs"] {
        want(pairs.into());
    }
    for code in 1..=4 {
        for later in DIFFER {
            want(format!("11, later marks {later}, code {code}"));
        }
        if code < 4 {
            want(format!("11, unused words before it, code {code}"));
            want(format!("16, unused words differ, code {code}"));
        }
        for k in 0..state_words(code) {
            want(format!("11, word {k} alone, code {code}"));
            want(format!("refused: own mark 0, word {k}, code {code}"));
        }
    }
    for bit in 0..32 {
        want(format!("11, bit {bit} alone"));
    }
    for no_pair in NO_PAIR {
        want(format!("16, {no_pair}"));
    }
    for way in OPENED {
        // Records that are only more or fewer name no group.
        if way.ends_with("changed") || way == "another" {
            want(format!("11, opened: {way}"));
        }
        want(format!("16, opened: {way}"));
    }
    for claim in CLAIMS {
        let want: See = &mut |what| want(format!("refused: own {what}, claim {claim}"));
        for (name, _) in TOO_MANY {
            want(format!("n is {name}"));
        }
        want("1,025 with room".into());
        for (name, _) in FEWER_WORDS {
            want(format!("marks {name} short"));
        }
        want("mark 0".into());
        for start in NO_STARTS {
            want(format!("mark 0 {start}"));
        }
    }
    kinds
}

/// A sheet of no records is never too short, and marks too few for n are too few for n + 1.
const IMPOSSIBLE: [(&str, &str); 2] = [("Drop", "with 5 and 7"), ("Append", "with 6 alone")];
