//! The kinds of step back that a whole run has to meet at each code: every power of two as the count, its edges and the
//! borrow between its halves; every byte of a block that wasn't fed; everything that can be missing, alone and beside
//! each other; every way in which a record is malformed, alone where it can be; and what is done in histories.

use crate::back::BLOCK_BYTES;
use crate::back_model::{missing, MISSING};
use crate::backs::{NO_BLOCKS, NO_RECORDS};
use crate::bits::most_bits;
use crate::hashes::malformed_kinds;
use crate::met::{answer_kinds, Met};
use crate::model::{read, write, Hash, MOST_ODD};

/// The numbers that document 02 lets the call give, the refusals in their order.
const NUMBERS: [u64; 3] = [0, 3, 18];

/// Counts up to this are each met.
pub const FEW: usize = BLOCK_BYTES + 1;

/// Powers of two with a block more that are met: 8, 16, 32 and 64 bits of the count become zero.
const MORE: [usize; 4] = [8, 16, 32, 64];

/// The powers of two that counts of whole blocks can be at a code.
fn powers(code: usize) -> std::ops::RangeInclusive<usize> {
    5..=most_bits(code).ilog2() as usize - 3
}

/// The call with this record, if it could be read, which left what stands in its place then.
pub fn see(met: &mut Met, hash: Option<&Hash>, block: &[u8], hold: &[u64], after: &[u8]) {
    let number = hold.first().copied().unwrap_or(0);
    met.see_answer("back", number, hold);
    let Some(hash) = hash else {
        return;
    };
    let (code, count) = (hash.code, hash.count());
    let mut see = |what: String| met.see(format!("back {number}, code {code}, {what}"));
    match (number, &missing(Some(hash), block)[..]) {
        (0, _) => {
            for name in count_names(hash) {
                see(name);
            }
            for all in [0, 0xff] {
                if block == [all; BLOCK_BYTES] {
                    see(format!("a block of {all}"));
                }
            }
            if hash.state == [0; 40] {
                see("a state of zeros".into());
            }
            if hash.state == Hash::start(code).state {
                see("the starting variables".into());
            }
            if count == 32 {
                let start = after == write(&Hash::start(code));
                see(if start { "to the start" } else { "to no start" }.into());
            }
        }
        (18, held) => {
            see(held.join(", "));
            if hash.pending == [0; 32] {
                see(format!("{}, of zeros", held.join(", ")));
            }
            match held {
                [one] if *one == MISSING[0] => see(format!("{} pending", count % 32)),
                [one] if *one == MISSING[1] => see(format!("odd {}", hash.odd)),
                [one] if *one == MISSING[3] => see(format!("a block of {} bytes", block.len())),
                _ => (),
            }
            if count <= FEW as u128 && hash.odd == 0 && block.len() == BLOCK_BYTES {
                see(format!("count {count}"));
            }
            if count == most_bits(code) / 8 {
                see(format!("the most bytes, odd {}", hash.odd));
            }
        }
        _ => (),
    }
}

/// What there is to say of the count of a record that is taken back.
fn count_names(hash: &Hash) -> Vec<String> {
    let (count, most) = (hash.count(), most_bits(hash.code) / 8 + 1);
    let mut names = vec![];
    if count.is_power_of_two() {
        names.push(format!("count 2^{}", count.ilog2()));
    }
    if (count - 32).is_power_of_two() {
        names.push(format!("count 2^{} + 32", (count - 32).ilog2()));
    }
    if count == most - 32 {
        names.push("the last block".into());
    }
    if count == most - 64 {
        names.push("the last block but one".into());
    }
    // Of 2^64 itself the high half becomes zero, and here it doesn't.
    if hash.count_high > 1 && hash.count_low == 0 {
        names.push("count borrows".into());
    }
    names
}

/// A call with another block than the one that would lead to the earlier record.
pub fn see_other(met: &mut Met, code: usize, block: &[u8], other: &[u8]) {
    let differ = (0..BLOCK_BYTES).filter(|&at| block[at] != other[at]);
    match differ.collect::<Vec<_>>()[..] {
        [at] => {
            let bit = (block[at] ^ other[at]).ilog2();
            met.see(format!("back, other block at code {code}, byte {at}"));
            met.see(format!("back, other block at code {code}, bit {bit}"));
        }
        _ => met.see(format!("back, other block at code {code}, bytes")),
    }
}

/// The number that was answered to a block fed before one was taken back.
pub fn see_forward(met: &mut Met, code: usize, number: u32) {
    met.see(format!("back, forward first at code {code}: {number}"));
}

/// A record spoiled in this way, and the number answered.
pub fn see_malformed(met: &mut Met, way: &str, record: &[u8], block: &[u8], number: u32) {
    if number == 3 {
        met.see(format!("back, {way}"));
        if missing(read(record).as_ref(), block).is_empty() {
            met.see(format!("back, {way} alone"));
        }
    }
}

/// What is done in histories.
const HISTORY: [&str; 12] = [
    "a piece",
    "to the end of a block",
    "one back",
    "two back",
    "more back",
    "to the start",
    "sent again",
    "one other",
    "some others",
    "18 at the start",
    "18, pending",
    "18, odd bits",
];

pub fn see_history(met: &mut Met, code: usize, what: &str) {
    assert!(HISTORY.contains(&what), "{what} is no kind");
    met.see(format!("back, history at code {code}: {what}"));
}

/// Prints the counts, and answers the kinds that should have been met and weren't.
pub fn print(met: &Met) -> Vec<String> {
    println!("steps back, by the number answered:");
    met.print_answers("back", &NUMBERS);
    met.unmet(wanted())
}

fn wanted() -> Vec<String> {
    let mut kinds = answer_kinds("back", &NUMBERS, &NUMBERS[1..]);
    for code in 1..=4 {
        let mut want = |number: u64, what: String| {
            kinds.push(format!("back {number}, code {code}, {what}"));
        };
        for k in powers(code) {
            want(0, format!("count 2^{k}"));
        }
        for k in MORE.into_iter().filter(|k| powers(code).contains(k)) {
            want(0, format!("count 2^{k} + 32"));
        }
        for what in [
            "the last block",
            "the last block but one",
            "a block of 0",
            "a block of 255",
            "a state of zeros",
            "the starting variables",
            "to the start",
            "to no start",
        ] {
            want(0, what.into());
        }
        if code > 2 {
            want(0, "count borrows".into());
        }
        for set in 1..1 << MISSING.len() {
            let held = (0..MISSING.len()).filter(|k| set >> k & 1 == 1);
            let held: Vec<&str> = held.map(|k| MISSING[k]).collect();
            want(18, held.join(", "));
            want(18, format!("{}, of zeros", held.join(", ")));
        }
        for pending in 1..BLOCK_BYTES {
            want(18, format!("{pending} pending"));
        }
        for odd in 1..=MOST_ODD {
            want(18, format!("odd {odd}"));
        }
        for n in NO_BLOCKS {
            want(18, format!("a block of {n} bytes"));
        }
        for count in (0..=FEW).filter(|&count| count != BLOCK_BYTES) {
            want(18, format!("count {count}"));
        }
        for odd in 0..=MOST_ODD {
            want(18, format!("the most bytes, odd {odd}"));
        }
        let at = (0..BLOCK_BYTES).map(|at| format!("byte {at}"));
        let bit = (0..8).map(|bit| format!("bit {bit}"));
        for what in at.chain(bit).chain(["bytes".into()]) {
            kinds.push(format!("back, other block at code {code}, {what}"));
        }
        for number in [0, 4] {
            kinds.push(format!("back, forward first at code {code}: {number}"));
        }
        for what in HISTORY {
            kinds.push(format!("back, history at code {code}: {what}"));
        }
        let over = format!("back, malformed: a byte over the most at code {code}");
        kinds.extend([format!("{over} alone"), over]);
    }
    // A record's bytes have no room for a struct's wide numbers.
    let ways = malformed_kinds().into_iter();
    let longer = NO_RECORDS.map(|n| format!("malformed: {n} bytes"));
    for way in ways.filter(|way| !way.contains("struct")).chain(longer) {
        kinds.push(format!("back, {way}"));
        // A record with odd bits is refused for them too.
        if !way.contains("odd") || way.ends_with("at odd 0") {
            kinds.push(format!("back, {way} alone"));
        }
    }
    kinds
}
