//! Who depends on a well: the wells that chains of links join to it.

use crate::{Error, Sheet, ffi, sheet};
use std::fmt;

#[cfg(test)]
mod laws;
#[cfg(test)]
mod order;
#[cfg(test)]
mod refusals;
#[cfg(test)]
mod search;
#[cfg(test)]
mod tests;

/// Who depends on the well of this number: the wells that a chain of at most `hops` links joins to it. The
/// sheet is a slice of bytes, or a [`Sheet`].
///
/// A link joins a producer and the injector that it names, both ways and whatever the share. The well
/// itself is reached by no hop. More hops never lose a well, and one that is reached reaches this one in
/// as many. A [struck](Sheet::STRUCK) record is no well: it is never reached, and 0 is nobody's number.
///
/// Refused: [`Error::Sheet`] if there are more than [`Sheet::MOST`] records or the last isn't whole,
/// [`Error::Hops`] if `hops` is over [`Reached::HOPS_MOST`], [`Error::Unsound`] if the sheet has a
/// fault, which [`check`](super::check) names, and [`Error::Well`] if no record has the number. Nothing
/// but the answer is allocated; [`reach_into`] writes to bytes that are lent.
///
/// ```
/// use luffa::plan::{self, Link, Well};
/// use luffa::{Code, Sheet};
///
/// let half = |injector| Link { injector, share: 500 };
/// let all = |injector| Link { injector, share: 1000 };
/// let wells = [
///     Well::injector(14),
///     Well::producer(1).with_rate(500).with_links(&[half(14), half(15)])?,
///     Well::producer(2).with_rate(400).with_links(&[all(15)])?,
///     Well::injector(15),
///     Well::injector(16),
/// ];
/// let sheet = Sheet::from_records(Code::Luffa256, &wells.map(|well| well.to_record()))?;
///
/// // Injector 14 is to be shut. Who sends to it?
/// let reached = plan::reach(&sheet, 14, 1)?;
/// assert!(reached.places().eq([0, 1]));
/// // Where else do they send, and who sends there too?
/// let reached = plan::reach(&sheet, 14, 3)?;
/// assert!(reached.places().eq([0, 1, 2, 3]));
/// assert!(!reached.contains(4));
/// # Ok::<(), Box<dyn std::error::Error>>(())
/// ```
pub fn reach(sheet: impl AsRef<[u8]>, well: u16, hops: usize) -> Result<Reached, Error> {
    let sheet = sheet.as_ref();
    // The library refuses more records before it asks for their bytes.
    let mut marked = vec![0; sheet::records_in(sheet).min(Sheet::MOST)];
    reach_into(sheet, well, hops, &mut marked)?;
    Ok(Reached { marked })
}

/// [`reach()`], written to bytes that are lent, one for each record: 1 if it is reached, else 0.
///
/// Bytes beyond stay as they were, and so do all where the answer is an error. After those of
/// [`reach()`] this is [`Error::Reach`], if there are fewer bytes than records. The library takes at most
/// 25 KiB of stack for it.
///
/// ```
/// use luffa::Error;
/// use luffa::plan::{self, Link, Well};
///
/// let all = Link { injector: 14, share: 1000 };
/// let wells = [
///     Well::producer(3).with_rate(300).with_links(&[all])?,
///     Well::injector(15),
///     Well::injector(14),
/// ];
/// let sheet = wells.map(|well| well.to_record()).concat();
/// let mut reached = [7; 4];
/// plan::reach_into(&sheet, 3, 1, &mut reached)?;
/// assert_eq!(reached, [1, 0, 1, 7]);
/// assert_eq!(plan::reach_into(&sheet, 3, 1, &mut reached[..2]), Err(Error::Reach));
/// # Ok::<(), Box<dyn std::error::Error>>(())
/// ```
pub fn reach_into(sheet: &[u8], well: u16, hops: usize, reached: &mut [u8]) -> Result<(), Error> {
    ffi::plan_reach(sheet, sheet::records_in(sheet), well.into(), hops, reached)
}

/// What [`reach()`] says of a sheet's records.
///
/// ```
/// use luffa::Error;
/// use luffa::plan::{self, Reached, Well};
///
/// let sheet = Well::injector(14).to_record();
/// let reached = plan::reach(sheet, 14, Reached::HOPS_MOST)?;
/// // Nobody depends on it.
/// assert_eq!(reached.places().count(), 1);
/// assert_eq!(format!("{reached:?}"), "{0}");
/// # Ok::<(), Error>(())
/// ```
#[derive(Clone, PartialEq, Eq)]
pub struct Reached {
    /// One for each record: 1 or 0.
    marked: Vec<u8>,
}

impl Reached {
    /// The most links that a chain may have.
    pub const HOPS_MOST: usize = 3;

    /// The places of the records that are reached, counted from 0 and rising, the well's own among them.
    ///
    /// ```
    /// use luffa::plan::{self, Link, Well};
    /// use luffa::{Code, Sheet};
    ///
    /// let all = Link { injector: 14, share: 1000 };
    /// let wells = [
    ///     Well::injector(15),
    ///     Well::injector(14),
    ///     Well::producer(3).with_rate(300).with_links(&[all])?,
    /// ];
    /// let sheet = Sheet::from_records(Code::Luffa256, &wells.map(|well| well.to_record()))?;
    /// let reached = plan::reach(&sheet, 14, 1)?;
    /// let numbers = reached.places().map(|place| wells[place].number());
    /// assert!(numbers.eq([14, 3]));
    /// # Ok::<(), Box<dyn std::error::Error>>(())
    /// ```
    pub fn places(&self) -> impl Iterator<Item = usize> {
        (0..self.marked.len()).filter(|place| self.contains(*place))
    }

    /// Whether the record at this place is reached. One that the sheet hasn't isn't.
    ///
    /// ```
    /// use luffa::Error;
    /// use luffa::plan::{self, Well};
    ///
    /// let wells = [Well::injector(14), Well::injector(15)];
    /// let reached = plan::reach(wells.map(|well| well.to_record()).concat(), 15, 3)?;
    /// assert_eq!([0, 1, 2].map(|place| reached.contains(place)), [false, true, false]);
    /// # Ok::<(), Error>(())
    /// ```
    pub fn contains(&self, place: usize) -> bool {
        self.marked.get(place) == Some(&1)
    }
}

/// The set of places.
impl fmt::Debug for Reached {
    fn fmt(&self, f: &mut fmt::Formatter) -> fmt::Result {
        f.debug_set().entries(self.places()).finish()
    }
}
