//! Saves that bring the sheet as their planner opened it, and are told where it has changed since.

use super::{Saved, Sheet};
use crate::ffi::{self, Lent, Own, WhereAnswer};
use crate::{Digest, Error};
use std::fmt;

#[cfg(test)]
mod call;
#[cfg(test)]
mod desks;
#[cfg(test)]
mod done;
#[cfg(test)]
mod order;
#[cfg(test)]
mod refusals;
#[cfg(test)]
mod tests;
#[cfg(test)]
mod words;

/// A sheet as a planner opened it: its digest, the number of its records, and its marks.
///
/// A save that brings it claims its digest. If somebody else has saved since, the answer isn't
/// [`Error::Stale`], which sends the planner through the whole sheet. It is [`Error::StaleGroup`] with the
/// first four records that differ, or [`Error::StaleTail`] if all marks agree that both sheets have;
/// [`Error::places`] says where to look. Many changes in one save have no such form, nor has closing up.
///
/// It is taken by [`Sheet::opened`] beside what the planner sees, and again after each of his saves. It holds
/// no records, and 160 bytes for the beginning and for each four of them.
///
/// ```
/// use luffa::{Code, Error, Sheet};
///
/// let mut sheet = Sheet::from_records(Code::Luffa256, &[[1; 40]; 1000])?;
/// let (anna, ben) = (sheet.opened(), sheet.opened());
/// sheet.change_from(613, &[2; 40], &anna)?;
///
/// let refused = sheet.change_from(5, &[3; 40], &ben).unwrap_err();
/// assert_eq!(refused, Error::StaleGroup { group: 153, pairs: 154, rounds: 2 });
/// assert_eq!(refused.places(), Some(612..616));
/// # Ok::<(), Error>(())
/// ```
#[derive(Clone, PartialEq, Eq)]
pub struct Opened {
    digest: Digest,
    len: usize,
    marks: Vec<u32>,
}

impl Opened {
    /// What was opened, from its parts: the digest, the number of records and the marks, as
    /// [`Sheet::digest`], [`Sheet::len`] and [`Sheet::marks`] gave them to a desk that is elsewhere.
    ///
    /// A save judges them. It answers [`Error::Own`] if there are more than [`Sheet::MOST`] records or fewer
    /// words than their marks have, or if mark 0 doesn't begin as that of a sheet at the code of the one held.
    /// Whether they are the marks of the records that were seen it can't know, and where it says to look is
    /// only as right as they are. Words past the last mark don't matter.
    ///
    /// ```
    /// use luffa::{Code, Error, Opened, Sheet};
    ///
    /// let mut sheet = Sheet::from_records(Code::Luffa512, &[[1; 40]; 9])?;
    /// let (digest, len, marks) = (sheet.digest(), sheet.len(), sheet.marks().to_vec());
    /// let ben = Opened::from_parts(digest, len, marks);
    /// assert_eq!(ben, sheet.opened());
    ///
    /// // The marks of the same records at another code.
    /// let other = Sheet::from_bytes(Code::Luffa256, sheet.bytes())?;
    /// let mixed = Opened::from_parts(digest, len, other.marks());
    /// assert_eq!(sheet.drop_last_from(&mixed), Err(Error::Own));
    /// sheet.drop_last_from(&ben)?;
    /// # Ok::<(), Error>(())
    /// ```
    pub fn from_parts(digest: Digest, len: usize, marks: impl Into<Vec<u32>>) -> Opened {
        Opened {
            digest,
            len,
            marks: marks.into(),
        }
    }

    /// The digest, which a save claims.
    pub fn digest(&self) -> Digest {
        self.digest
    }

    /// The number of records.
    pub fn len(&self) -> usize {
        self.len
    }

    /// Whether there were no records.
    pub fn is_empty(&self) -> bool {
        self.len == 0
    }

    /// The marks, as [`Sheet::marks`] has them.
    pub fn marks(&self) -> &[u32] {
        &self.marks
    }
}

/// [`Sheet::opened`].
impl From<&Sheet> for Opened {
    fn from(sheet: &Sheet) -> Opened {
        Opened::from_parts(sheet.digest(), sheet.len(), sheet.marks())
    }
}

impl fmt::Debug for Opened {
    fn fmt(&self, f: &mut fmt::Formatter) -> fmt::Result {
        f.debug_struct("Opened")
            .field("digest", &self.digest)
            .field("len", &self.len)
            .finish_non_exhaustive()
    }
}

/// Saves that bring the sheet as their planner opened it.
impl Sheet {
    /// The sheet as it is now, for a planner who opens it. Nothing is hashed, and at most 41,120 bytes of marks
    /// are copied.
    ///
    /// ```
    /// use luffa::{Code, Sheet};
    ///
    /// let sheet = Sheet::from_records(Code::Luffa256, &[[1; 40]; 9])?;
    /// let ben = sheet.opened();
    /// assert_eq!((ben.digest(), ben.len()), (sheet.digest(), 9));
    /// # Ok::<(), luffa::Error>(())
    /// ```
    pub fn opened(&self) -> Opened {
        Opened::from(self)
    }

    /// [`change`](Sheet::change), by a planner who brings what was opened. Where done, all is as there.
    ///
    /// Refused, with nothing changed: [`Error::Place`] and [`Error::Claim`] as there, [`Error::Own`] if what is
    /// brought was [put together](Opened::from_parts) wrongly, then [`Error::StaleGroup`] or
    /// [`Error::StaleTail`] if the sheet isn't the one that was opened.
    ///
    /// ```
    /// use luffa::{Code, Error, Sheet};
    ///
    /// let mut sheet = Sheet::from_records(Code::Luffa256, &[[1; 40]; 9])?;
    /// let (anna, ben) = (sheet.opened(), sheet.opened());
    /// sheet.change_from(6, &[2; 40], &anna)?;
    /// let group = Error::StaleGroup { group: 1, pairs: 2, rounds: 3 };
    /// assert_eq!(sheet.change_from(0, &[3; 40], &ben), Err(group));
    /// assert_eq!(group.places(), Some(4..8));
    ///
    /// // Ben looks at these four, and saves upon what he sees now.
    /// let ben = sheet.opened();
    /// sheet.change_from(0, &[3; 40], &ben)?;
    /// # Ok::<(), Error>(())
    /// ```
    pub fn change_from(
        &mut self,
        place: usize,
        record: &[u8; 40],
        from: &Opened,
    ) -> Result<Saved, Error> {
        self.save_from(from, |sheet, claim, own, out| {
            ffi::change_own(sheet, place, record, claim, own, out)
        })
    }

    /// [`append`](Sheet::append), by a planner who brings what was opened. Where done, all is as there.
    ///
    /// Refused, with nothing changed: [`Error::Full`] and [`Error::Claim`] as there, then as in
    /// [`change_from`](Sheet::change_from).
    ///
    /// ```
    /// use luffa::{Code, Error, Sheet};
    ///
    /// let mut sheet = Sheet::from_records(Code::Luffa256, &[[1; 40]; 9])?;
    /// let (anna, ben) = (sheet.opened(), sheet.opened());
    /// sheet.append_from(&[2; 40], &anna)?;
    /// // The eight records before are as Ben opened them.
    /// let tail = Error::StaleTail { pairs: 2, longer: 10, rounds: 4 };
    /// assert_eq!(sheet.append_from(&[3; 40], &ben), Err(tail));
    /// assert_eq!(tail.places(), Some(8..10));
    /// # Ok::<(), Error>(())
    /// ```
    pub fn append_from(&mut self, record: &[u8; 40], from: &Opened) -> Result<Saved, Error> {
        self.make_room();
        self.save_from(from, |sheet, claim, own, out| {
            ffi::append_own(sheet, record, claim, own, out)
        })
    }

    /// [`drop_last`](Sheet::drop_last), by a planner who brings what was opened. Where done, all is as there.
    ///
    /// Refused, with nothing changed: [`Error::Place`] and [`Error::Claim`] as there, then as in
    /// [`change_from`](Sheet::change_from).
    ///
    /// ```
    /// use luffa::{Code, Sheet};
    ///
    /// let mut sheet = Sheet::from_records(Code::Luffa256, &[[1; 40]; 9])?;
    /// let (anna, ben) = (sheet.opened(), sheet.opened());
    /// sheet.drop_last_from(&anna)?;
    /// // The one that Ben would drop is gone, and the one before it isn't dropped.
    /// let refused = sheet.drop_last_from(&ben).unwrap_err();
    /// assert_eq!((refused.number(), refused.places()), (16, Some(8..9)));
    /// assert_eq!(sheet.len(), 8);
    /// # Ok::<(), luffa::Error>(())
    /// ```
    pub fn drop_last_from(&mut self, from: &Opened) -> Result<Saved, Error> {
        self.save_from(from, ffi::drop_own)
    }

    /// A save that brings what was opened: lends the call its claim, and its count and marks.
    fn save_from(
        &mut self,
        from: &Opened,
        call: impl FnOnce(&mut Lent, &[u8], &Own, &mut [u8]) -> WhereAnswer,
    ) -> Result<Saved, Error> {
        let own = Own {
            n: from.len,
            marks: &from.marks,
        };
        let (digest, answer) =
            self.lend(|sheet, out| call(sheet, from.digest.as_bytes(), &own, out));
        Error::judge_where(&answer, from.len.max(self.n))?;
        Ok(self.taken_over(digest, answer.count, answer.rounds))
    }
}
