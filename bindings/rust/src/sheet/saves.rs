//! What the tests of all saves share: ways to meet the refusals that each of them has, and wrong claims.

use super::held::Held;
use crate::order::{MAX, WIDE, Way};

/// A call of a save, which is lent a sheet and a claim, whatever else it is lent.
pub trait Save: Clone + 'static {
    fn held(&mut self) -> &mut Held;
    fn claim(&mut self) -> &mut Vec<u8>;
}

/// Ways to meet each refusal that every save has: 6 before 5, and 2 and 11 before 10, as these change the count
/// or the claim by which those are met.
pub fn ways<C: Save>() -> [(u64, &'static [Way<C>]); 6] {
    [
        (
            1,
            &[
                |c| c.held().code = 0,
                |c| c.held().code = 5,
                |c| c.held().code += WIDE,
                |c| c.held().code = MAX,
            ],
        ),
        (
            2,
            &[
                |c| c.held().out.clear(),
                |c| {
                    let bytes = c.claim().len();
                    c.held().out.truncate(bytes - 1);
                },
            ],
        ),
        (
            6,
            &[
                |c| c.held().marks.clear(),
                |c| {
                    let held = c.held();
                    held.marks.truncate(40 * (held.n / 4));
                },
                |c| {
                    let held = c.held();
                    held.marks.truncate(40 * (held.n / 4) + 39);
                },
            ],
        ),
        (
            5,
            &[
                // No sheet is too short for no record.
                |c| {
                    let held = c.held();
                    held.n = held.n.max(1);
                    held.sheet.truncate(40 * held.n - 1);
                },
                |c| {
                    let held = c.held();
                    held.n = held.n.max(1);
                    held.sheet.clear();
                },
                |c| c.held().n = 1025,
                |c| c.held().n += WIDE,
                |c| c.held().n = MAX,
            ],
        ),
        (
            11,
            &[
                |c| c.claim()[0] ^= 0x80,
                |c| *c.claim().last_mut().unwrap() ^= 1,
            ],
        ),
        (
            10,
            &[
                |c| c.claim().push(0),
                |c| {
                    c.claim().pop();
                },
                |c| c.claim().clear(),
            ],
        ),
    ]
}

/// Tries a call whose claim is right with each bit of it wrong, and with every other length up to 70 bytes.
pub fn wrong_claims<C: Save>(mut call: C, answers: impl Fn(C, u64)) {
    let right = call.claim().len();
    for bit in 0..8 * right {
        let mut call = call.clone();
        call.claim()[bit / 8] ^= 1 << (bit % 8);
        answers(call, 11);
    }
    for bytes in (0..=70).filter(|bytes| *bytes != right) {
        let mut call = call.clone();
        call.claim().resize(bytes, 0);
        answers(call, 10);
    }
}
