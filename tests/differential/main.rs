//! The archive against a model of its calls over the separately written program, on random messages, cuts, records,
//! steps back, numbers of words, dumps by columns, sheets, marks, sets of changes, struck wells, pairs of desks,
//! planners' own marks, plans, their wells and batches of them: differential [SEED [CASES]]. Case k of a seed is case 0
//! of the seed k higher, so that one that failed is run again alone.

mod back_calls;
mod back_kinds;
mod back_model;
mod backs;
mod batch_kinds;
mod batches;
mod brine_kinds;
mod brine_model;
mod brines;
mod calls;
mod close_up_kinds;
mod close_ups;
mod desks;
mod dump_calls;
mod dump_kinds;
mod dumps;
mod hash_calls;
mod hash_kinds;
mod hashes;
mod histories;
mod mend_kinds;
mod mend_model;
mod mends;
mod met;
mod model;
mod output_calls;
mod output_kinds;
mod outputs;
mod own_kinds;
mod own_model;
mod owns;
mod plan_kinds;
mod plan_model;
mod plans;
mod reach_kinds;
mod reach_model;
mod reaches;
mod sheet_model;

#[path = "../independent/back.rs"]
mod back;
#[path = "../independent/batch.rs"]
mod batch;
#[path = "../independent/bits.rs"]
#[allow(dead_code)]
mod bits;
#[path = "../independent/brine.rs"]
mod brine;
#[path = "../independent/close_up.rs"]
mod close_up;
#[path = "../independent/columns.rs"]
mod columns;
#[path = "../independent/luffa.rs"]
#[allow(dead_code)]
mod luffa;
#[path = "../independent/mend.rs"]
mod mend;
#[path = "../independent/output.rs"]
mod output;
#[path = "../independent/own.rs"]
mod own;
#[path = "../independent/plan.rs"]
#[allow(dead_code)]
mod plan;
#[path = "../independent/reach.rs"]
mod reach;
#[path = "../independent/record.rs"]
mod record;
#[path = "../independent/sheet.rs"]
#[allow(dead_code)]
mod sheet;

use met::Met;
use model::digest_bytes;
use std::time::SystemTime;

/// Random numbers (splitmix64): seeds that follow each other give unlike ones.
struct Numbers(u64);

impl Numbers {
    fn next(&mut self) -> u64 {
        self.0 = self.0.wrapping_add(0x9e37_79b9_7f4a_7c15);
        let x = (self.0 ^ self.0 >> 30).wrapping_mul(0xbf58_476d_1ce4_e5b9);
        let x = (x ^ x >> 27).wrapping_mul(0x94d0_49bb_1331_11eb);
        x ^ x >> 31
    }

    /// From `from` to `to`, both among them.
    fn between(&mut self, from: usize, to: usize) -> usize {
        from + (self.next() % (to - from + 1) as u64) as usize
    }

    fn bytes(&mut self, n: usize) -> Vec<u8> {
        (0..n).map(|_| self.next() as u8).collect()
    }

    fn one_of<T: Copy>(&mut self, all: &[T]) -> T {
        all[self.between(0, all.len() - 1)]
    }

    fn code(&mut self) -> usize {
        self.between(1, 4)
    }

    /// Lengths of all sizes up to `most`; small ones and those about a whole block are as frequent.
    fn length(&mut self, most: usize) -> usize {
        let n = match self.between(0, 2) {
            0 => self.between(0, most),
            1 => self.between(0, 100),
            _ => (32 * self.between(0, most / 32) + self.between(0, 2)).saturating_sub(1),
        };
        n.min(most)
    }

    /// A piece for a message of which `most` bytes are left: any length, or some bytes.
    fn piece(&mut self, most: usize) -> usize {
        match self.between(0, 3) {
            0 => self.between(0, most),
            1 => self.between(0, 1).min(most),
            _ => self.between(0, 70).min(most),
        }
    }

    /// An output buffer with a byte too few, the digest's length, or more.
    fn output(&mut self, code: usize) -> Vec<u8> {
        let n = digest_bytes(code);
        let n = match self.between(0, 5) {
            0 => n - 1,
            1 => self.between(0, n - 1),
            2 => n,
            3 => n + 1,
            _ => self.between(n, 200),
        };
        self.bytes(n)
    }
}

type Agreed = Result<(), String>;

/// The cases of a run that isn't told how many.
const CASES: u64 = 8000;

/// The records of whole blocks of a case from which one is taken back, those that refuse it, and those that are spoiled
/// in each way.
const BACKS: usize = 3;
const NO_BACKS: usize = 4;
const SPOILED_BACKS: usize = 2;

/// The messages and free records of a case that longer output is asked of.
const OUTPUTS: usize = 4;

/// The states and message blocks of a case that each call over dumps is made of.
const DUMPS: usize = 2;

/// The sheets of a case whose marks are mended.
const MENDS: usize = 2;

/// The sheets of a case that are changed in many places by one save.
const BATCHES: usize = 1;

/// The sheets of a case whose struck wells are closed up.
const CLOSE_UPS: usize = 2;

/// The sheets of a case that two desks change.
const DESKS: usize = 3;

/// The sheets of a case that are saved with a planner's own marks.
const OWNS: usize = 1;

/// The plans of a case.
const PLANS: usize = 6;

/// The plans of a case of which it is asked who depends on a well.
const REACHES: usize = 2;

fn case(seed: u64, met: &mut Met) -> Agreed {
    let numbers = &mut Numbers(seed);
    hashes::message(numbers, met)?;
    for _ in 0..3 {
        hashes::free_record(numbers, met)?;
        hashes::near_limit(numbers, met)?;
        hashes::malformed(numbers, met)?;
        hashes::malformed_struct(numbers, met)?;
        hashes::arguments(numbers, met)?;
    }
    for _ in 0..BACKS {
        backs::free(numbers, met)?;
    }
    for _ in 0..NO_BACKS {
        backs::refused(numbers, met)?;
    }
    backs::edges(numbers, met)?;
    for _ in 0..SPOILED_BACKS {
        backs::malformed(numbers, met)?;
    }
    backs::history(numbers, met)?;
    for _ in 0..OUTPUTS {
        outputs::message(numbers, met)?;
        outputs::free_record(numbers, met)?;
    }
    for _ in 0..DUMPS {
        dumps::dump(numbers, met)?;
    }
    dumps::values(numbers, met)?;
    dumps::there_and_back(numbers, met)?;
    dumps::chain(numbers, met)?;
    dumps::rounds(numbers, met)?;
    histories::history(numbers, met)?;
    for _ in 0..MENDS {
        mends::mend(numbers, met)?;
    }
    for _ in 0..BATCHES {
        batches::batch(numbers, met)?;
    }
    for _ in 0..CLOSE_UPS {
        close_ups::close_up(numbers, met)?;
    }
    for _ in 0..DESKS {
        desks::desks(numbers, met)?;
    }
    for _ in 0..OWNS {
        owns::own(numbers, met)?;
    }
    for _ in 0..PLANS {
        plans::plan(numbers, met)?;
    }
    for _ in 0..REACHES {
        reaches::reach(numbers, met)?;
    }
    brines::brine(numbers, met)
}

fn main() {
    let given: Vec<u64> = std::env::args()
        .skip(1)
        .map(|word| word.parse().expect("differential [SEED [CASES]]"))
        .collect();
    let now = SystemTime::now()
        .duration_since(SystemTime::UNIX_EPOCH)
        .unwrap();
    let seed = given.first().copied().unwrap_or(now.as_nanos() as u64);
    let cases = given.get(1).copied().unwrap_or(CASES);
    println!("differential: seed {seed}, {cases} cases");
    let mut met = Met::default();
    for k in 0..cases {
        let this = seed.wrapping_add(k);
        if let Err(what) = case(this, &mut met) {
            println!("{what}run again: tests/differential/run {this} 1");
            std::process::exit(1);
        }
    }
    let unmet = [
        hash_kinds::print(&met),
        back_kinds::print(&met),
        output_kinds::print(&met),
        dump_kinds::print(&met),
        histories::print(&met),
        batch_kinds::print(&met),
        close_up_kinds::print(&met),
        desks::print(&met),
        own_kinds::print(&met),
        mend_kinds::print(&met),
        plan_kinds::print(&met),
        brine_kinds::print(&met),
        reach_kinds::print(&met),
    ];
    let unmet = unmet.concat();
    // A few cases can't meet everything.
    if cases >= CASES && !unmet.is_empty() {
        println!("never met: {}", unmet.join("; "));
        std::process::exit(1);
    }
    println!("differential: all agree");
}
