//! Mending by document 02's text: from what is lent to the answer and to what the marks then hold, refusals
//! included.

use crate::mend;
use crate::sheet::{Sheet, GROUP};

/// As C has it.
#[repr(C)]
#[derive(Clone, Copy, Debug, Default, PartialEq)]
pub struct MendAnswer {
    pub number: u64,
    pub wrong: u64,
    pub first: u64,
    pub rounds: u64,
}

/// What the call is given and lent.
#[derive(Clone)]
pub struct Mending {
    pub code: usize,
    pub sheet: Vec<u8>,
    pub n: usize,
    pub marks: Vec<u32>,
}

impl Mending {
    /// Every refusal that holds, in order.
    pub fn refusals(&self) -> Vec<u64> {
        mend::refusals(self.code, self.sheet.len(), self.n, self.marks.len())
    }

    /// The sheet, where nothing is refused.
    pub fn plain(&self) -> Sheet {
        Sheet {
            code: self.code,
            records: self.sheet.as_chunks().0[..self.n].to_vec(),
        }
    }

    /// The call: the marks get what they then hold.
    pub fn answer(&mut self) -> MendAnswer {
        if let Some(&number) = self.refusals().first() {
            return MendAnswer {
                number,
                ..MendAnswer::default()
            };
        }
        let plain = self.plain();
        let marks = &mut self.marks.as_chunks_mut().0[..self.n / GROUP + 1];
        let mended = mend::mend(&plain, marks);
        MendAnswer {
            number: 0,
            wrong: mended.wrong.len() as u64,
            first: mended.wrong.first().map_or(0, |&m| m as u64),
            rounds: mended.rounds,
        }
    }
}
