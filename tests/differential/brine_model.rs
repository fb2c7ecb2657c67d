//! The brine statement by document 02's text: from what is lent to the answer and to what the lists
//! then hold, refusals included.

use crate::brine;

/// As C has it.
#[repr(C)]
#[derive(Clone, Copy, Debug, Default, PartialEq)]
pub struct BrineAnswer {
    pub number: u64,
    pub sound: u64,
    pub faulted: u64,
    pub intake: u64,
    pub overloaded: u64,
}

/// What the call is given and lent.
#[derive(Clone)]
pub struct Batch {
    pub sheets: Vec<u8>,
    pub counts: Vec<usize>,
    pub intake: Vec<u64>,
    pub spare: Vec<i64>,
}

/// Every refusal that holds, in order.
pub fn refusals(batch: &Batch) -> Vec<u64> {
    let places = batch.intake.len().min(batch.spare.len());
    brine::refusals(batch.sheets.len(), &batch.counts, places)
}

/// The call: `batch` gets what its lists then hold.
pub fn answer(batch: &mut Batch) -> BrineAnswer {
    if let Some(&number) = refusals(batch).first() {
        return BrineAnswer {
            number,
            ..BrineAnswer::default()
        };
    }
    let page = brine::page(&brine::sheets(&batch.sheets, &batch.counts));
    let fits = "a figure of 64 bits";
    for (place, figures) in page.figures.iter().enumerate() {
        let figures = figures.unwrap_or_default();
        batch.intake[place] = figures.intake.try_into().expect(fits);
        batch.spare[place] = figures.spare.try_into().expect(fits);
    }
    BrineAnswer {
        number: 0,
        sound: page.sound as u64,
        faulted: page.faulted as u64,
        intake: page.intake.try_into().expect(fits),
        overloaded: page.overloaded as u64,
    }
}
