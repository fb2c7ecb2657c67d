//! Batches for the brine statement: sheets of all sorts one after another, sound and mistyped, whose
//! injectors are overloaded, just filled or not used, at times with struck records; and what is refused. Every
//! call goes through calls.rs.

use crate::brine::{self, MOST_SHEETS};
use crate::brine_kinds::{see_page, see_refused};
use crate::brine_model::Batch;
use crate::calls;
use crate::met::Met;
use crate::plan::{Well, INJECTOR};
use crate::plans::{at_rest, TOO_MANY, TOO_SHORT};
use crate::sheet::{MOST, RECORD_BYTES};
use crate::{Agreed, Numbers};

impl Numbers {
    /// How many sheets: few, or now and then about as many as a batch can have.
    fn sheet_count(&mut self) -> usize {
        match self.between(0, 49) {
            0 => self.between(MOST_SHEETS - 1, MOST_SHEETS),
            1..=3 => 0,
            _ => self.between(1, 5),
        }
    }

    /// A sheet that sends as much as it can, all of it to one injector.
    pub fn one_takes_all(&mut self, n: usize) -> Vec<Well> {
        let all = self.well_numbers(n);
        let at = self.some_place(n);
        let mut wells: Vec<Well> = all
            .iter()
            .map(|&number| Well {
                rate: 100_000,
                ..self.producer(number, 1, &all[at..at + 1])
            })
            .collect();
        wells[at] = Well {
            rate: self.one_of(&[0, 100_000]),
            ..at_rest(all[at], INJECTOR)
        };
        wells
    }

    /// A sheet of producers with injectors of their own, all of which are overloaded.
    pub fn all_overloaded(&mut self, n: usize) -> Vec<Well> {
        let all = self.well_numbers(n);
        let mut wells = vec![];
        for group in all.chunks(5) {
            let (producer, own) = (group[0], &group[1..]);
            wells.push(self.producer(producer, own.len(), own));
            wells.extend(own.iter().map(|&number| at_rest(number, INJECTOR)));
        }
        wells
    }

    /// The wells of another sheet in another order, some at other rates: what a number means outside
    /// its sheet is nothing.
    fn twin(&mut self, wells: &[Well]) -> Vec<Well> {
        let mut twin = wells.to_vec();
        twin.reverse();
        for well in twin.iter_mut().filter(|well| well.rate != 0) {
            let other = self.rate();
            well.rate = self.one_of(&[well.rate, other]);
        }
        twin
    }

    /// Gives the injectors of a sound sheet rates about what they are sent: a tonne less, as much, or a
    /// tonne more.
    fn fit(&mut self, wells: &mut [Well]) {
        let page = brine::page(&[wells.to_vec()]);
        for (well, figures) in wells.iter_mut().zip(page.figures) {
            let Some(figures) = figures else { continue };
            let about = figures.intake / 1000 + self.between(0, 2) as i128 - 1;
            well.rate = about.clamp(0, 100_000) as u32;
        }
    }

    /// The sheets of a batch.
    fn sheets(&mut self) -> Vec<Vec<Well>> {
        if self.between(0, 399) == 0 {
            return vec![self.one_takes_all(MOST); MOST_SHEETS];
        }
        let count = self.sheet_count();
        let mut sheets: Vec<Vec<Well>> = vec![];
        while sheets.len() < count {
            let n = self.wells();
            let mut wells = match (self.between(0, 9), sheets.last()) {
                (0 | 1, Some(last)) => self.twin(last),
                (2, _) if n > 0 => self.one_takes_all(n),
                (3, _) => self.all_overloaded(n),
                (4, _) => vec![],
                _ => self.sound_wells(n),
            };
            self.strike_some(&mut wells);
            if self.between(0, 2) == 0 {
                self.fit(&mut wells);
            }
            let times = self.one_of(&[0, 0, 0, 1, 1, 2]);
            self.mistype_some(&mut wells, times);
            // At times the rest of the wells are the next sheet, and links to them come to nothing.
            if sheets.len() + 1 < count && self.between(0, 9) == 0 {
                let rest = wells.split_off(self.between(0, wells.len()));
                sheets.push(wells);
                wells = rest;
            }
            sheets.push(wells);
        }
        sheets
    }

    /// What is lent for these sheets, just enough of it or more.
    fn batch(&mut self, sheets: &[Vec<Well>]) -> Batch {
        let mut bytes: Vec<u8> = sheets.iter().flat_map(|wells| self.sheet(wells)).collect();
        let records = bytes.len() / RECORD_BYTES;
        bytes.extend(self.behind(sheets.last().map_or(&[], |wells| wells)));
        let mut list = || {
            let places = records + self.one_of(&MORE_PLACES);
            (0..places).map(|_| self.next()).collect::<Vec<u64>>()
        };
        Batch {
            sheets: bytes,
            counts: sheets.iter().map(Vec::len).collect(),
            intake: list(),
            spare: list().into_iter().map(|any| any as i64).collect(),
        }
    }

    /// Has one refusal hold, or more of them, and says in which ways. The counts are lengthened last:
    /// until then they say what the batch has.
    fn spoil(&mut self, batch: &mut Batch, records: usize) -> Vec<String> {
        let (lists, sheets, counts) = (1, 2, 4);
        let all = lists | sheets | counts;
        let one = self.one_of(&[lists, sheets, sheets, sheets, counts]);
        let some = self.between(1, all);
        let hold = self.one_of(&[one, some]);
        let mut ways = vec![];
        if hold & lists != 0 {
            ways.push(self.spoil_lists(batch, records));
        }
        if hold & sheets != 0 {
            ways.push(self.spoil_sheets(batch, records));
        }
        if hold & counts != 0 {
            ways.push(self.spoil_counts(batch));
        }
        ways
    }

    /// Takes places from one list or from both.
    fn spoil_lists(&mut self, batch: &mut Batch, records: usize) -> String {
        let (name, fewer) = self.one_of(&FEWER);
        let short = records.saturating_sub(fewer);
        let lists = self.one_of(&LISTS);
        if lists != "spare" {
            batch.intake.truncate(short);
        }
        if lists != "intake" {
            batch.spare.truncate(short);
        }
        format!("{lists} short by {name}")
    }

    /// Makes the counts too large, or the buffer too short for them.
    fn spoil_sheets(&mut self, batch: &mut Batch, records: usize) -> String {
        let at = self.some_place(batch.counts.len());
        match self.between(0, 5) {
            0..=2 => {
                let (name, many) = self.one_of(&TOO_MANY);
                let n = batch.counts[at];
                batch.counts[at] = many + if name.ends_with('n') { n } else { 0 };
                format!("a count of {name}")
            }
            3 => {
                let (name, counts) = self.one_of(&FEW_ONCE_CUT);
                batch.counts.truncate(MOST_SHEETS - counts.len());
                batch.counts.extend(counts);
                format!("counts of {name}")
            }
            4 => {
                // Too many, though there is room for them.
                let more = MOST + 1 - batch.counts[at];
                batch.counts[at] = MOST + 1;
                batch.sheets.resize(RECORD_BYTES * (records + more), 0);
                batch.intake.resize(records + more, 0);
                batch.spare.resize(records + more, 0);
                "a count of 1,025 with room".into()
            }
            _ => {
                let (name, short) = self.one_of(&TOO_SHORT);
                let short = (RECORD_BYTES * records).saturating_sub(short);
                batch.sheets.truncate(short);
                format!("a batch {name} short")
            }
        }
    }

    /// Adds sheets that are too many: empty ones, or some of any count.
    fn spoil_counts(&mut self, batch: &mut Batch) -> String {
        let n = batch.counts.len();
        let (name, many) = self.one_of(&TOO_MANY_SHEETS);
        let many = many + if name.ends_with('n') { n } else { 0 };
        let count = self.one_of(&[0, 0, 1, usize::MAX]);
        batch.counts.resize(many, count);
        format!("{name} sheets")
    }
}

/// Places of a list that the records don't need.
pub const MORE_PLACES: [usize; 5] = [0, 0, 0, 1, 5];

/// Places of a list that the records need and aren't there, by name.
pub const FEWER: [(&str, usize); 2] = [("one", 1), ("all", usize::MAX)];
pub const LISTS: [&str; 3] = ["intake", "spare", "both lists"];

/// Counts, by name, whose sum or its bytes are few once they are cut to 64 bits.
pub const FEW_ONCE_CUT: [(&str, [usize; 2]); 4] = [
    ("2^63", [1 << 63; 2]),
    ("2^60", [1 << 60; 2]),
    ("1 and 2^64 - 1", [1, usize::MAX]),
    ("2^64 - 1024 and 1024", [usize::MAX - 1023, MOST]),
];

/// Numbers of sheets that are too many, by name; `n` is added to the last, which is few once it is cut
/// to a byte.
pub const TOO_MANY_SHEETS: [(&str, usize); 3] = [
    ("65", MOST_SHEETS + 1),
    ("66", MOST_SHEETS + 2),
    ("2^8 + n", 1 << 8),
];

/// The calls on a batch that are refused.
const REFUSED: usize = 2;

/// A batch and its page, and then what is refused of it.
pub fn brine(numbers: &mut Numbers, met: &mut Met) -> Agreed {
    let sheets = numbers.sheets();
    let lent = numbers.batch(&sheets);
    let mut batch = lent.clone();
    let answer = calls::brine(&mut batch)?;
    see_page(met, &sheets, &batch, &answer);

    let records = sheets.iter().map(Vec::len).sum();
    if records == 0 {
        return Ok(());
    }
    for _ in 0..REFUSED {
        let mut spoilt = lent.clone();
        let ways = numbers.spoil(&mut spoilt, records);
        let answer = calls::brine(&mut spoilt)?;
        see_refused(met, &spoilt, &ways, &answer);
    }
    Ok(())
}
