//! How often each kind of thing was met. A run that doesn't meet a kind it should has failed: it
//! would have shown nothing there.

use std::collections::BTreeMap;

#[derive(Default)]
pub struct Met(BTreeMap<String, u64>);

impl Met {
    pub fn see(&mut self, kind: String) {
        *self.0.entry(kind).or_default() += 1;
    }

    pub fn times(&self, kind: &str) -> u64 {
        self.0.get(kind).copied().unwrap_or(0)
    }

    /// What a call answered, and which refusals held.
    pub fn see_answer(&mut self, call: &str, number: u64, hold: &[u64]) {
        self.see(format!("{call} answered {number}"));
        if let [one] = hold {
            self.see(format!("{call} with {one} alone"));
        }
        for (i, a) in hold.iter().enumerate() {
            for b in &hold[i + 1..] {
                self.see(format!("{call} with {a} and {b}"));
            }
        }
    }

    /// Prints how often a call answered each of these numbers.
    pub fn print_answers(&self, call: &str, numbers: &[u64]) {
        let times = |number| self.times(&format!("{call} answered {number}"));
        let line = numbers.iter().map(|n| format!(" {n}: {}", times(n)));
        println!("  {call:<10}{}", line.collect::<String>());
    }

    /// Prints how often the rarest of these kinds came, and answers those that never did.
    pub fn unmet(&self, kinds: Vec<String>) -> Vec<String> {
        if let Some(rarest) = kinds.iter().min_by_key(|kind| self.times(kind)) {
            let (all, times) = (kinds.len(), self.times(rarest));
            println!("  of {all} kinds to be met, the rarest came {times} times: {rarest}");
        }
        let unmet = kinds.into_iter().filter(|kind| self.times(kind) == 0);
        unmet.collect()
    }
}

/// Every set of two or more of these refusals, which hold together.
pub fn sets(refusals: &[u64]) -> Vec<Vec<u64>> {
    let set = |chosen: usize| {
        let hold = refusals.iter().enumerate();
        let hold = hold.filter(|(k, _)| chosen >> k & 1 == 1);
        hold.map(|(_, number)| *number).collect()
    };
    let sets = (0..1 << refusals.len()).map(set);
    sets.filter(|hold: &Vec<u64>| hold.len() > 1).collect()
}

/// What see_answer has to meet of a call: each number, and of the refusals that are judged together,
/// given in their order, each alone and each two.
pub fn answer_kinds(call: &str, numbers: &[u64], refusals: &[u64]) -> Vec<String> {
    let mut kinds: Vec<String> = vec![];
    kinds.extend(numbers.iter().map(|n| format!("{call} answered {n}")));
    for (i, a) in refusals.iter().enumerate() {
        kinds.push(format!("{call} with {a} alone"));
        for b in &refusals[i + 1..] {
            kinds.push(format!("{call} with {a} and {b}"));
        }
    }
    kinds
}
