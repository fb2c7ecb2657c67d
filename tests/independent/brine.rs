//! The brine statement (document 02) as a clerk would draw it up: all that the links of a batch send is
//! a pile of consignments, each addressed to a sheet and a number. The pile is sorted by address and
//! added up, and then every injector asks for its own. Figures have 128 bits.

use crate::plan::{self, Well, INJECTOR};
use crate::sheet::{MOST, RECORD_BYTES};

pub const MOST_SHEETS: usize = 64;

/// An injector's, in kilograms a day.
#[derive(Clone, Copy, Debug, Default, PartialEq)]
pub struct Figures {
    pub intake: i128,
    pub spare: i128,
}

#[derive(Debug, Default, PartialEq)]
pub struct Page {
    /// One for each record of the batch; none for a producer, for a struck record, which is no injector, and for every
    /// record of a faulted sheet.
    pub figures: Vec<Option<Figures>>,
    pub sound: usize,
    pub faulted: usize,
    pub intake: i128,
    pub overloaded: usize,
}

/// The records of the batch, however many the counts say.
fn records(counts: &[usize]) -> u128 {
    counts.iter().map(|&n| n as u128).sum()
}

/// Every refusal that holds, in the request's order; `places` are those of the shorter list.
pub fn refusals(sheets_len: usize, counts: &[usize], places: usize) -> Vec<u64> {
    let records = records(counts);
    let too_short = (sheets_len as u128) < RECORD_BYTES as u128 * records;
    let judged = [
        (13, counts.len() > MOST_SHEETS),
        (5, counts.iter().any(|&n| n > MOST) || too_short),
        (25, (places as u128) < records),
    ];
    let hold = judged.into_iter().filter(|&(_, holds)| holds);
    hold.map(|(number, _)| number).collect()
}

/// The sheets of a batch that isn't refused.
pub fn sheets(bytes: &[u8], counts: &[usize]) -> Vec<Vec<Well>> {
    let mut wells = bytes.as_chunks().0.iter().map(Well::read);
    let sheet = |&n| wells.by_ref().take(n).collect();
    counts.iter().map(sheet).collect()
}

/// A sheet's place in the batch, and a well's number there.
type Address = (usize, u16);

pub fn page(sheets: &[Vec<Well>]) -> Page {
    let sound: Vec<bool> = sheets.iter().map(|s| plan::fault(s).is_none()).collect();
    let mut consignments: Vec<(Address, i128)> = vec![];
    for (k, wells) in sheets.iter().enumerate().filter(|&(k, _)| sound[k]) {
        for well in wells {
            let sent = |share| i128::from(well.rate) * i128::from(share);
            let used = well.used().iter();
            consignments.extend(used.map(|link| ((k, link.injector), sent(link.share))));
        }
    }
    consignments.sort();
    let arrived: Vec<(Address, i128)> = consignments
        .chunk_by(|one, next| one.0 == next.0)
        .map(|alike| (alike[0].0, alike.iter().map(|one| one.1).sum()))
        .collect();

    let asks = |k: usize, well: &Well| {
        if well.kind != INJECTOR || !sound[k] {
            return None;
        }
        let found = arrived.binary_search_by_key(&(k, well.number), |one| one.0);
        let intake = found.map_or(0, |at| arrived[at].1);
        let spare = 1000 * i128::from(well.rate) - intake;
        Some(Figures { intake, spare })
    };
    let figures: Vec<Option<Figures>> = (0..)
        .zip(sheets)
        .flat_map(|(k, wells)| wells.iter().map(move |well| asks(k, well)))
        .collect();
    let overloaded = figures.iter().flatten().filter(|one| one.spare < 0);
    Page {
        sound: sound.iter().filter(|&&is| is).count(),
        faulted: sound.iter().filter(|&&is| !is).count(),
        intake: consignments.iter().map(|one| one.1).sum(),
        overloaded: overloaded.count(),
        figures,
    }
}
