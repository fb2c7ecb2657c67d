//! Many changes in one save: an evening's work, under one claim.

use super::{Saved, Sheet};
use crate::{Digest, Error, ffi};

#[cfg(test)]
mod order;
#[cfg(test)]
mod refusals;
#[cfg(test)]
mod tests;

/// Many changes in one save.
impl Sheet {
    /// The most changes that one save may have.
    pub const CHANGES_MOST: usize = 64;

    /// Puts a record in the place of each of those at the places given, all of them or none.
    ///
    /// Each place is above the one before it. A map by place has them so, and the last word on each:
    /// `BTreeMap<usize, [u8; 40]>`. The sheet and its digest are those that the changes leave when they are
    /// saved one by one, and the rounds are no more: the claim is checked once, and what comes after the
    /// lowest place hashed once. Without a change the claim alone is checked.
    ///
    /// Refused, with nothing changed: [`Error::Set`] if there are more than [`Sheet::CHANGES_MOST`] changes
    /// or a place isn't above the one before it, [`Error::Place`] if there is no record at one of them,
    /// [`Error::Claim`] and [`Error::Stale`] as in [`change`](Sheet::change).
    ///
    /// ```
    /// use luffa::{Code, Error, Sheet};
    /// use std::collections::BTreeMap;
    ///
    /// let mut sheet = Sheet::from_records(Code::Luffa256, &[[1; 40]; 9])?;
    /// let seen = sheet.digest();
    /// let mut evening = BTreeMap::new();
    /// for (place, record) in [(7, [2; 40]), (1, [3; 40]), (7, [4; 40])] {
    ///     evening.insert(place, record);
    /// }
    /// let saved = sheet.change_all(evening, &seen)?;
    /// assert_eq!(saved.rounds, 16);
    /// assert_eq!(sheet.records()[1], [3; 40]);
    /// assert_eq!(sheet.records()[7], [4; 40]);
    ///
    /// // Somebody who saw the sheet before that is turned away with both of these.
    /// let late = sheet.change_all([(0, [5; 40]), (8, [5; 40])], &seen);
    /// assert_eq!(late, Err(Error::Stale { rounds: 3 }));
    /// let twice = sheet.change_all([(0, [5; 40]), (0, [6; 40])], &saved.digest);
    /// assert_eq!(twice, Err(Error::Set));
    /// # Ok::<(), Error>(())
    /// ```
    pub fn change_all(
        &mut self,
        changes: impl IntoIterator<Item = (usize, [u8; 40])>,
        claim: &Digest,
    ) -> Result<Saved, Error> {
        // One change too many is refused like any more, and changes without end aren't waited for.
        let judged = changes.into_iter().take(Sheet::CHANGES_MOST + 1);
        let (places, records): (Vec<_>, Vec<_>) = judged.unzip();
        let records = records.as_flattened();
        self.save(|sheet, out| ffi::batch(sheet, &places, records, claim.as_bytes(), out))
    }
}
