//! Closing up: one save takes every struck record away, and says where each of the others stood.

use super::{Saved, Sheet};
use crate::{Digest, Error, ffi};
use std::fmt;

#[cfg(test)]
mod moved;
#[cfg(test)]
mod order;
#[cfg(test)]
mod refusals;
#[cfg(test)]
mod tests;

/// Struck records, and the save that takes them away.
impl Sheet {
    /// A struck record, which stands where a well was abandoned: all of its bytes are zero. It is no well, and
    /// [`check`](Sheet::check) exempts it from all rules.
    ///
    /// Many are struck in one save by [`change_all`](Sheet::change_all):
    ///
    /// ```
    /// use luffa::{Code, Sheet};
    ///
    /// let mut sheet = Sheet::from_records(Code::Luffa256, &[[1; 40]; 9])?;
    /// let claim = sheet.digest();
    /// sheet.change_all([2, 3, 7].map(|place| (place, Sheet::STRUCK)), &claim)?;
    /// assert_eq!(sheet.record(7), Some(&Sheet::STRUCK));
    /// # Ok::<(), luffa::Error>(())
    /// ```
    pub const STRUCK: [u8; 40] = [0; 40];

    /// Strikes the record at `place`, counted from 0. The others stay where they are until the sheet is
    /// [closed up](Sheet::close_up). It is a [`change`](Sheet::change) to [`Sheet::STRUCK`], and refused as
    /// one.
    ///
    /// ```
    /// use luffa::{Code, Sheet};
    ///
    /// let mut sheet = Sheet::from_records(Code::Luffa256, &[[1; 40], [2; 40]])?;
    /// let claim = sheet.digest();
    /// sheet.strike(0, &claim)?;
    /// assert_eq!(sheet.records(), [[0; 40], [2; 40]]);
    /// # Ok::<(), luffa::Error>(())
    /// ```
    pub fn strike(&mut self, place: usize, claim: &Digest) -> Result<Saved, Error> {
        self.change(place, &Sheet::STRUCK, claim)
    }

    /// The places of the struck records, counted from 0 and rising: those that
    /// [`close_up`](Sheet::close_up) would take away.
    ///
    /// ```
    /// use luffa::{Code, Sheet};
    ///
    /// let sheet = Sheet::from_records(Code::Luffa256, &[[0; 40], [1; 40], [0; 40]])?;
    /// assert!(sheet.struck().eq([0, 2]));
    /// # Ok::<(), luffa::Error>(())
    /// ```
    pub fn struck(&self) -> impl Iterator<Item = usize> {
        let records = self.records().iter().enumerate();
        records.filter_map(|(place, record)| (*record == Sheet::STRUCK).then_some(place))
    }

    /// Takes every struck record away. The others keep their order, and [`Moved`] says where each of them
    /// stood. The room that becomes free serves later appends.
    ///
    /// A record is struck by its 40 bytes alone: one with nothing but a note stays. What comes after the first
    /// of them is hashed once. Where none is struck the sheet stays as it is, and its digest too.
    ///
    /// Refused, with nothing changed: [`Error::Claim`] and [`Error::Stale`] as in
    /// [`change`](Sheet::change). Nothing but the list of places is allocated;
    /// [`close_up_into`](Sheet::close_up_into) writes to one that is lent.
    ///
    /// ```
    /// use luffa::{Code, Error, Sheet};
    ///
    /// let wells = [[1; 40], Sheet::STRUCK, [3; 40], Sheet::STRUCK, [5; 40]];
    /// let mut sheet = Sheet::from_records(Code::Luffa256, &wells)?;
    /// let seen = sheet.digest();
    /// let (saved, moved) = sheet.close_up(&seen)?;
    /// assert_eq!(sheet.records(), [[1; 40], [3; 40], [5; 40]]);
    /// assert_eq!((saved.digest, saved.rounds), (sheet.digest(), 8));
    /// assert!(moved.old_places().eq([0, 2, 4]));
    ///
    /// // Somebody who saw the sheet before that would strike another well than is meant.
    /// assert_eq!(sheet.strike(2, &seen), Err(Error::Stale { rounds: 5 }));
    /// # Ok::<(), Error>(())
    /// ```
    pub fn close_up(&mut self, claim: &Digest) -> Result<(Saved, Moved), Error> {
        let mut old = vec![0; self.n];
        let saved = self.close_up_into(claim, &mut old)?;
        old.truncate(self.n);
        Ok((saved, Moved { old }))
    }

    /// [`close_up`](Sheet::close_up), with the list of places written to one that is lent: for each record of
    /// the sheet as it is now, the place where it stood. There are [`len`](Sheet::len) of them.
    ///
    /// Those beyond stay as they were, and so do all where the answer is an error. Before those of
    /// [`close_up`](Sheet::close_up) this is [`Error::Places`], if the list has fewer places than the sheet has
    /// records, the struck ones too.
    ///
    /// ```
    /// use luffa::{Code, Error, Sheet};
    ///
    /// let wells = [Sheet::STRUCK, [2; 40], Sheet::STRUCK, [4; 40]];
    /// let mut sheet = Sheet::from_records(Code::Luffa256, &wells)?;
    /// let claim = sheet.digest();
    /// let mut places = [7; 5];
    /// assert_eq!(sheet.close_up_into(&claim, &mut places[..3]), Err(Error::Places));
    /// sheet.close_up_into(&claim, &mut places)?;
    /// assert_eq!(places[..sheet.len()], [1, 3]);
    /// assert_eq!(places[2..], [7; 3]);
    /// # Ok::<(), Error>(())
    /// ```
    pub fn close_up_into(&mut self, claim: &Digest, places: &mut [u16]) -> Result<Saved, Error> {
        self.save(|sheet, out| ffi::close_up(sheet, claim.as_bytes(), places, out))
    }
}

/// Which record stands where, after [`Sheet::close_up`].
///
/// ```
/// use luffa::{Code, Sheet};
///
/// let wells = [Sheet::STRUCK, [2; 40], Sheet::STRUCK, [4; 40]];
/// let mut sheet = Sheet::from_records(Code::Luffa256, &wells)?;
/// let (_, moved) = sheet.close_up(&sheet.digest())?;
/// // The record at place 1 now stood at place 3, and so the other way.
/// assert_eq!(moved.old_place(1), Some(3));
/// assert_eq!(moved.new_place(3), Some(1));
/// // What stood at place 2 was struck.
/// assert_eq!(moved.new_place(2), None);
/// assert_eq!(format!("{moved:?}"), "[1, 3]");
/// # Ok::<(), luffa::Error>(())
/// ```
#[derive(Clone, PartialEq, Eq)]
pub struct Moved {
    /// The old place of the record at each new one. They rise.
    old: Vec<u16>,
}

impl Moved {
    /// The place where each record of the sheet stood before, in the order in which they stand now. They rise
    /// strictly.
    ///
    /// ```
    /// use luffa::{Code, Sheet};
    ///
    /// let wells = [[1; 40], Sheet::STRUCK, [3; 40]];
    /// let mut sheet = Sheet::from_records(Code::Luffa256, &wells)?;
    /// let (_, moved) = sheet.close_up(&sheet.digest())?;
    /// for (record, old) in sheet.records().iter().zip(moved.old_places()) {
    ///     assert_eq!(*record, wells[old]);
    /// }
    /// # Ok::<(), luffa::Error>(())
    /// ```
    pub fn old_places(&self) -> impl Iterator<Item = usize> {
        self.old.iter().copied().map(usize::from)
    }

    /// Where the record stood that is at this place now, if there is one.
    pub fn old_place(&self, new: usize) -> Option<usize> {
        self.old.get(new).copied().map(usize::from)
    }

    /// Where the record stands now that was at this place, if there was one and it wasn't struck.
    pub fn new_place(&self, old: usize) -> Option<usize> {
        let old = u16::try_from(old).ok()?;
        self.old.binary_search(&old).ok()
    }
}

/// The list of old places.
impl fmt::Debug for Moved {
    fn fmt(&self, f: &mut fmt::Formatter) -> fmt::Result {
        f.debug_list().entries(self.old_places()).finish()
    }
}
