//! The brine statement: one page over a batch of sheets, with what each injector is sent and has to
//! spare.

use crate::{Error, ffi, sheet};

#[cfg(test)]
mod batches;
#[cfg(test)]
mod refusals;
#[cfg(test)]
mod tests;

/// The brine statement over a batch of sheets: slices of bytes, or [`Sheet`](crate::Sheet)s.
///
/// A faulted sheet has rows of zeros and counts in [`Totals::faulted`] alone; which fault it is,
/// [`check`](super::check) says. A [struck](crate::Sheet::STRUCK) record has a row of zeros too, and its
/// sheet may be sound. Refused are more sheets than [`Page::SHEETS_MOST`], by [`Error::Batch`], and a sheet
/// of more than [`Sheet::MOST`](crate::Sheet::MOST) records or whose last isn't whole, by
/// [`Error::Sheet`].
///
/// The sheets are copied one after another, as the library wants them. [`brine_into`] takes them so,
/// and allocates nothing.
///
/// ```
/// use luffa::plan::{self, Link, Row, Well};
/// use luffa::{Code, Sheet};
///
/// let half = |injector| Link { injector, share: 500 };
/// let all = |injector| Link { injector, share: 1000 };
/// let plant = [
///     Well::producer(1).with_rate(500).with_links(&[half(14), half(15)])?,
///     Well::producer(2).with_rate(400).with_links(&[all(14)])?,
///     Well::injector(14).with_rate(600),
///     Well::injector(15).with_rate(300),
/// ];
/// // The same, with a link mistyped.
/// let mut mistyped = plant;
/// mistyped[1] = mistyped[1].with_links(&[all(41)])?;
///
/// let sheet = |wells: [Well; 4]| {
///     Sheet::from_records(Code::Luffa256, &wells.map(|well| well.to_record()))
/// };
/// let page = plan::brine([sheet(plant)?, sheet(mistyped)?])?;
/// // 250 and 400 of its 600 tonnes: injector 14 is overloaded.
/// assert_eq!(page.rows[0][2], Row { intake: 650_000, spare: -50_000 });
/// assert_eq!(page.rows[0][3], Row { intake: 250_000, spare: 50_000 });
/// assert_eq!(page.rows[1], [Row::default(); 4]);
/// let totals = page.totals;
/// assert_eq!((totals.sound, totals.faulted), (1, 1));
/// assert_eq!((totals.intake, totals.overloaded), (900_000, 1));
/// # Ok::<(), Box<dyn std::error::Error>>(())
/// ```
pub fn brine<S: AsRef<[u8]>>(sheets: impl IntoIterator<Item = S>) -> Result<Page, Error> {
    let (mut bytes, mut counts) = (Vec::new(), Vec::new());
    // One sheet too many is refused like any more, and sheets without end aren't waited for.
    for sheet in sheets.into_iter().take(Page::SHEETS_MOST + 1) {
        let sheet = sheet.as_ref();
        counts.push(sheet::records_in(sheet));
        bytes.extend_from_slice(sheet);
    }
    let records = counts.iter().sum();
    let (mut intake, mut spare) = (vec![0; records], vec![0; records]);
    let totals = brine_into(&bytes, &counts, &mut intake, &mut spare)?;
    let mut all = intake
        .into_iter()
        .zip(spare)
        .map(|(intake, spare)| Row { intake, spare });
    let rows = counts
        .into_iter()
        .map(|n| all.by_ref().take(n).collect())
        .collect();
    Ok(Page { totals, rows })
}

/// The brine statement over sheets that lie one after another, `counts[k]` records each, written to
/// two lists.
///
/// Both have a place for each record of the batch, in order: intake and spare of an injector of a
/// sound sheet, else 0 in both. Places beyond stay as they were, and so do both lists where the
/// answer is an error: [`Error::Batch`] if there are more counts than [`Page::SHEETS_MOST`],
/// [`Error::Sheet`] if one is over [`Sheet::MOST`](crate::Sheet::MOST) or there are fewer than 40
/// bytes for each record, [`Error::List`] if there are more records than places in either list. The
/// library takes up to 160 KiB of stack for it.
///
/// ```
/// use luffa::plan::{self, Link, Well};
///
/// let all = Link { injector: 14, share: 1000 };
/// let wells = [
///     Well::injector(14).with_rate(600),
///     Well::injector(14).with_rate(300),
///     Well::producer(3).with_rate(300).with_links(&[all])?,
/// ];
/// let sheets = wells.map(|well| well.to_record());
/// let (mut intake, mut spare) = ([0; 3], [0; 3]);
/// // The first sheet has one well.
/// let totals = plan::brine_into(sheets.as_flattened(), &[1, 2], &mut intake, &mut spare)?;
/// assert_eq!((intake, spare), ([0, 300_000, 0], [600_000, 0, 0]));
/// assert_eq!((totals.sound, totals.overloaded), (2, 0));
/// # Ok::<(), Box<dyn std::error::Error>>(())
/// ```
pub fn brine_into(
    sheets: &[u8],
    counts: &[usize],
    intake: &mut [u64],
    spare: &mut [i64],
) -> Result<Totals, Error> {
    let answer = ffi::plan_brine(sheets, counts, intake, spare);
    Error::judge(answer.number, 0)?;
    Ok(Totals {
        sound: answer.sound as usize,
        faulted: answer.faulted as usize,
        intake: answer.intake,
        overloaded: answer.overloaded as usize,
    })
}

/// What [`brine()`] says of a batch.
#[derive(Clone, Debug, PartialEq, Eq)]
pub struct Page {
    /// What is said over the batch.
    pub totals: Totals,
    /// A row for each record, by sheet and place, both counted from 0. Those of producers, of struck
    /// records and of faulted sheets are zeros.
    pub rows: Vec<Vec<Row>>,
}

impl Page {
    /// The most sheets that a page may be over.
    pub const SHEETS_MOST: usize = 64;
}

/// An injector's figures, in kilograms a day.
#[derive(Clone, Copy, Debug, Default, PartialEq, Eq, Hash)]
pub struct Row {
    /// What it is sent: over all producers of its sheet and their links that name it, rate times share.
    pub intake: u64,
    /// Its spare capacity: 1000 times its rate less the intake.
    pub spare: i64,
}

impl Row {
    /// Whether it is sent more than its rate.
    ///
    /// ```
    /// use luffa::plan::Row;
    ///
    /// let full = Row { intake: 600_000, spare: 0 };
    /// assert!(!full.is_overloaded());
    /// assert!(Row { intake: 600_001, spare: -1 }.is_overloaded());
    /// ```
    pub fn is_overloaded(&self) -> bool {
        self.spare < 0
    }
}

/// What a brine statement says over the batch.
#[derive(Clone, Copy, Debug, Default, PartialEq, Eq)]
pub struct Totals {
    /// The sheets that are sound. One of no records is.
    pub sound: usize,
    /// The sheets that aren't.
    pub faulted: usize,
    /// The intake of all injectors: 1000 times the rates of the producers of the sound sheets.
    pub intake: u64,
    /// The injectors that are sent more than their rates.
    pub overloaded: usize,
}
