//! The order of a call's refusals, for the tests: each alone and with every set of the others.

pub const MAX: usize = usize::MAX;
pub const WIDE: usize = 1 << 32;

/// Makes a call meet a refusal.
pub type Way<C> = fn(&mut C);

/// Makes one of these calls meet every set of refusals, each in each of its ways, and tries it: the answer is
/// the first of the set in the order in which they are judged, or 0.
///
/// No way may undo one that stands before it, unless it has the earlier number of the two in the order.
pub fn every_set<C: Clone>(
    calls: &[C],
    order: &[u64],
    ways: &[(u64, &[Way<C>])],
    answers: impl Fn(C, u64),
) {
    for number in order {
        let met = ways.iter().any(|(met, _)| met == number);
        assert!(met, "there is no way to meet {number}");
    }
    let most = ways.iter().map(|(_, ways)| ways.len()).max().unwrap();
    let sets = 0..1 << ways.len();
    for (set, way) in sets.flat_map(|set| (0..most).map(move |way| (set, way))) {
        let mut call = calls[(set + way) % calls.len()].clone();
        let mut wrong = vec![];
        for (k, (number, ways)) in ways.iter().enumerate() {
            if set >> k & 1 == 1 {
                ways[way % ways.len()](&mut call);
                wrong.push(number);
            }
        }
        let first = order.iter().find(|number| wrong.contains(number));
        answers(call, first.copied().unwrap_or(0));
    }
}
