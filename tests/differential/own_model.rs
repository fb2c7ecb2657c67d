//! Saves with the planner's own marks by document 02's text: the plain save of sheet_model.rs, unless 15 refuses it, and
//! what is said of two sets of marks where it is stale.

use crate::own::{self, Own, Said, Where};
use crate::sheet_model::{self, Answer, Call, Given};

/// As C has it.
#[repr(C)]
#[derive(Clone, Copy, Debug, PartialEq)]
pub struct OwnAnswer {
    pub number: u64,
    pub count: u64,
    pub rounds: u64,
    pub kind: u64,
    pub group: u64,
    pub pairs: u64,
}

impl OwnAnswer {
    /// What the plain save answers, and what is said where it is stale.
    pub fn new(plain: Answer, compare: impl FnOnce() -> Where) -> OwnAnswer {
        let (number, Where { said, pairs }) = own::told(plain.number, compare);
        let (kind, group) = match said {
            Said::Same => (0, 0),
            Said::Group(g) => (1, g as u64),
        };
        OwnAnswer {
            number,
            count: plain.count,
            rounds: plain.rounds,
            kind,
            group,
            pairs: pairs as u64,
        }
    }

    /// Stale is 11 or 16.
    pub fn stale(&self) -> bool {
        [11, 16].contains(&self.number)
    }

    /// What the plain save would have answered, where it wasn't refused 15.
    pub fn plain(&self) -> Answer {
        Answer {
            number: if self.stale() { 11 } else { self.number },
            count: self.count,
            rounds: self.rounds,
        }
    }
}

/// Every refusal that holds, in the call's order, but for 11 and 16.
pub fn refusals(call: Call, given: &Given, own: &Own) -> Vec<u64> {
    own::refusals(sheet_model::refusals(call, given), given.code, own)
}

/// The call: `given` gets what its buffers then hold. Where it is stale that is what they held.
pub fn answer(call: Call, given: &mut Given, own: &Own) -> OwnAnswer {
    let plain = match refusals(call, given, own).first() {
        Some(&number) => Answer {
            number,
            count: given.n as u64,
            rounds: 0,
        },
        None => sheet_model::answer(call, given),
    };
    OwnAnswer::new(plain, || {
        own::by_marks(given.code, given.n, &given.marks, own)
    })
}
