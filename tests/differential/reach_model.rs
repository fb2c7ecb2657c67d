//! The search for who depends on a well by document 02's text: from what is lent to the number answered and to what
//! the marks then hold, refusals included.

use crate::reach::{Asked, Net};

/// What the call is given and lent.
#[derive(Clone)]
pub struct Search {
    pub sheet: Vec<u8>,
    pub n: usize,
    pub well: usize,
    pub hops: usize,
    pub reached: Vec<u8>,
}

/// Each function takes the net of the sheet's first n records: what many calls ask of is read once.
impl Search {
    /// Every refusal that holds, in order.
    pub fn refusals(&self, net: &Net) -> Vec<u64> {
        net.refusals(Asked {
            sheet_len: self.sheet.len(),
            n: self.n,
            well: self.well,
            hops: self.hops,
            room: self.reached.len(),
        })
    }

    /// The call: the marks get what they then hold.
    pub fn answer(&mut self, net: &Net) -> u32 {
        if let Some(&number) = self.refusals(net).first() {
            return number as u32;
        }
        let from = net.place(self.well).expect("a well of the sheet");
        for (mark, far) in self.reached.iter_mut().zip(net.distances(from)) {
            *mark = u8::from(far <= self.hops);
        }
        0
    }
}
