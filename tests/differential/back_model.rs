//! The step back over a block by document 02's text and the fields of a record: what is missing for it, and which
//! refusals hold. What it leaves is the separately written program's to say.

use crate::back::BLOCK_BYTES;
use crate::model::Hash;

/// What 18 is given for.
pub const MISSING: [&str; 4] = [
    "pending bytes",
    "odd bits",
    "a count under 32",
    "not a block",
];

/// Which of these hold. None is a record that can't be read; of one that isn't well formed, the fields are looked at.
pub fn missing(hash: Option<&Hash>, block: &[u8]) -> Vec<&'static str> {
    let held = |what: fn(&Hash) -> bool| hash.is_some_and(what);
    let hold = [
        held(|hash| hash.count_low % 32 != 0),
        held(|hash| hash.odd != 0),
        held(|hash| hash.count_high == 0 && hash.count_low < 32),
        block.len() != BLOCK_BYTES,
    ];
    let hold = MISSING.into_iter().zip(hold).filter(|(_, holds)| *holds);
    hold.map(|(what, _)| what).collect()
}

/// Every refusal that holds, in order.
pub fn refusals(hash: Option<&Hash>, block: &[u8]) -> Vec<u64> {
    let malformed = !hash.is_some_and(Hash::well_formed);
    let missing = !missing(hash, block).is_empty();
    let hold = [(3, malformed), (18, missing)].into_iter();
    hold.filter(|(_, holds)| *holds).map(|(n, _)| n).collect()
}
