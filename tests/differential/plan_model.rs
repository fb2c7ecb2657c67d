//! The check of content by document 02's text: from what is lent to the answer, the refusal included.

use crate::plan;
use crate::sheet::MOST;

/// As C has it.
#[repr(C)]
#[derive(Clone, Copy, Debug, PartialEq)]
pub struct ContentAnswer {
    pub number: u64,
    pub rule: u64,
    pub place: u64,
}

pub fn answer(sheet: &[u8], n: usize) -> ContentAnswer {
    let refused = n > MOST || (sheet.len() as u128) < 40 * n as u128;
    let fault = match refused {
        true => None,
        false => plan::fault(&plan::wells(sheet, n)),
    };
    let (place, rule) = fault.map_or((0, 0), |(place, rule)| (place, rule as u64));
    ContentAnswer {
        number: if refused { 5 } else { 0 },
        rule,
        place: place as u64,
    }
}
