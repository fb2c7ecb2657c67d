//! The refusals of the library, by their numbers.

use crate::ffi::{self, WhereAnswer};
use std::fmt;
use std::ops::Range;

#[cfg(test)]
mod tests;

/// Why a call was refused. A refused call has changed nothing.
///
/// The numbers are those of luffa.h. Some are never met through this crate, as its types leave no way
/// to them: they stand here so that each number has a name.
///
/// ```
/// use luffa::{Code, Error, Sheet};
///
/// let mut sheet = Sheet::new(Code::Luffa256);
/// let claim = sheet.digest();
/// let refused = sheet.change(0, &[0; 40], &claim).unwrap_err();
/// assert_eq!(refused, Error::Place);
/// assert_eq!(refused.number(), 7);
/// assert_eq!(refused.to_string(), "there is no record at this place");
/// ```
#[derive(Clone, Copy, Debug, PartialEq, Eq, Hash)]
#[non_exhaustive]
pub enum Error {
    /// 1: the code isn't 1 to 4. [`Code::from_number`](crate::Code::from_number) alone gives it.
    Width,
    /// 2: the output buffer is shorter than the digest, which is never met, or longer output was asked
    /// for and its last word isn't whole.
    Out,
    /// 3: the hash record isn't well formed, or is of another code or length.
    Record,
    /// 4: the message would have more than [`Code::most_bits`](crate::Code::most_bits).
    Long,
    /// 5: a sheet of more than 1,024 records, or bytes that aren't whole records.
    Sheet,
    /// 6: too few words for the marks. [`Sheet::from_kept`](crate::Sheet::from_kept) and
    /// [`Sheet::mend_marks`](crate::Sheet::mend_marks) alone give it.
    Marks,
    /// 7: there is no record at this place.
    Place,
    /// 8: the sheet has 1,024 records already.
    Full,
    /// 9: the new record isn't 40 bytes, or new records aren't 40 for each place. Never met.
    Size,
    /// 10: the claim is a digest of another length, or bytes are no digest's length.
    Claim,
    /// 11: the claim isn't the digest of the sheet held.
    Stale {
        /// The rounds of Luffa in which that was found out.
        rounds: u64,
    },
    /// 11 of a save that brings an [`Opened`](crate::Opened) sheet: its marks and those held agree up to a group
    /// of four records, and differ after it. So these records differ, if the marks are those of the sheet that
    /// was seen; [`Error::places`] has their places.
    StaleGroup {
        /// The group, counted from 0.
        group: usize,
        /// The pairs of marks that were compared, the last of which differs.
        pairs: usize,
        /// The rounds of Luffa in which the claim was found out.
        rounds: u64,
    },
    /// 12: longer output of no word, or of more than 64, was asked for.
    Words,
    /// 13: a batch of more than 64 sheets.
    Batch,
    /// 14: more than 64 changes in one save, or a place that isn't above the one before it.
    /// [`Sheet::change_all`](crate::Sheet::change_all) alone gives it.
    Set,
    /// 15: what was [opened](crate::Opened) has more than 1,024 records or too few words for their marks, or
    /// its first mark doesn't begin as that of a sheet at this code.
    /// [`Opened::from_parts`](crate::Opened::from_parts) alone leads to it.
    Own,
    /// 16, in the place of 11, of such a save: all marks agree that both sheets have. [`Error::places`] has the
    /// places after them.
    StaleTail {
        /// The pairs of marks that were compared, one for each four records that both sheets have.
        pairs: usize,
        /// The number of records of the longer sheet.
        longer: usize,
        /// The rounds of Luffa in which the claim was found out.
        rounds: u64,
    },
    /// 17: more than 7 odd bits, odd bits without a byte that has them, or a record whose message has
    /// ended with odd bits.
    Odd,
    /// 18: the message doesn't end with a whole block that could be taken back. `take_back` alone gives it, as
    /// [`Luffa256::take_back`](crate::Luffa256::take_back) does; a block that isn't 32 bytes is never met.
    Back,
    /// 19: a chain of more than three links was asked for. [`plan::reach()`](crate::plan::reach()) and
    /// [`plan::reach_into`](crate::plan::reach_into) alone give it and the two after it.
    Hops,
    /// 20: the sheet has a fault, which [`plan::check`](crate::plan::check) names.
    Unsound,
    /// 21: no well of the sheet has this number.
    Well,
    /// 22: there are fewer bytes than the sheet has records.
    /// [`plan::reach_into`](crate::plan::reach_into) alone gives it.
    Reach,
    /// 23: a list has fewer places than the sheet has records.
    /// [`Sheet::close_up_into`](crate::Sheet::close_up_into) alone gives it.
    Places,
    /// 24: a dump or the words of a state have another length than they have at the code.
    /// [`columns`](crate::columns) alone gives it; a message dump that isn't 32 bytes is never met.
    Columns,
    /// 25: a list has fewer places than the batch has records.
    /// [`plan::brine_into`](crate::plan::brine_into) alone gives it.
    List,
}

impl Error {
    /// The number in luffa.h.
    pub const fn number(self) -> u32 {
        match self {
            Error::Width => 1,
            Error::Out => 2,
            Error::Record => 3,
            Error::Long => 4,
            Error::Sheet => 5,
            Error::Marks => 6,
            Error::Place => 7,
            Error::Full => 8,
            Error::Size => 9,
            Error::Claim => 10,
            Error::Stale { .. } | Error::StaleGroup { .. } => 11,
            Error::Words => 12,
            Error::Batch => 13,
            Error::Set => 14,
            Error::Own => 15,
            Error::StaleTail { .. } => 16,
            Error::Odd => 17,
            Error::Back => 18,
            Error::Hops => 19,
            Error::Unsound => 20,
            Error::Well => 21,
            Error::Reach => 22,
            Error::Places => 23,
            Error::Columns => 24,
            Error::List => 25,
        }
    }

    /// Whether somebody else has saved since: 11 or 16, of any save.
    ///
    /// ```
    /// use luffa::{Code, Sheet};
    ///
    /// let mut sheet = Sheet::new(Code::Luffa256);
    /// let ben = sheet.opened();
    /// sheet.append(&[1; 40], &sheet.digest())?;
    /// assert!(sheet.append(&[2; 40], &ben.digest()).unwrap_err().is_stale());
    /// assert!(sheet.append_from(&[2; 40], &ben).unwrap_err().is_stale());
    /// # Ok::<(), luffa::Error>(())
    /// ```
    pub const fn is_stale(self) -> bool {
        matches!(self.number(), 11 | 16)
    }

    /// Where to look for what somebody else has saved, if the error says so: the places of the four records of
    /// [`Error::StaleGroup`], or those after the marks of [`Error::StaleTail`] to the end of the longer sheet.
    ///
    /// ```
    /// use luffa::Error;
    ///
    /// let group = Error::StaleGroup { group: 24, pairs: 25, rounds: 2 };
    /// assert_eq!(group.places(), Some(96..100));
    /// let tail = Error::StaleTail { pairs: 25, longer: 103, rounds: 2 };
    /// assert_eq!(tail.places(), Some(100..103));
    /// assert_eq!(Error::Stale { rounds: 2 }.places(), None);
    /// ```
    pub const fn places(self) -> Option<Range<usize>> {
        match self {
            Error::StaleGroup { group, .. } => Some(4 * group..4 * group + 4),
            Error::StaleTail { pairs, longer, .. } => Some(4 * pairs..longer),
            _ => None,
        }
    }

    /// What a save gave that brought an opened sheet; the longer of that and the one held has so many records.
    pub(crate) fn judge_where(answer: &WhereAnswer, longer: usize) -> Result<(), Error> {
        let (pairs, rounds) = (answer.pairs as usize, answer.rounds);
        match (answer.number, answer.kind) {
            (11, ffi::WHERE_GROUP) => Err(Error::StaleGroup {
                group: answer.group as usize,
                pairs,
                rounds,
            }),
            (16, _) => Err(Error::StaleTail {
                pairs,
                longer,
                rounds,
            }),
            (number, _) => Error::judge(number, rounds),
        }
    }

    /// What a call with this answer gave; the rounds are told by the sheet calls alone.
    pub(crate) fn judge(number: u64, rounds: u64) -> Result<(), Error> {
        if number == 0 {
            return Ok(());
        }
        let all = [
            Error::Width,
            Error::Out,
            Error::Record,
            Error::Long,
            Error::Sheet,
            Error::Marks,
            Error::Place,
            Error::Full,
            Error::Size,
            Error::Claim,
            Error::Stale { rounds },
            Error::Words,
            Error::Batch,
            Error::Set,
            Error::Own,
            Error::Odd,
            Error::Back,
            Error::Hops,
            Error::Unsound,
            Error::Well,
            Error::Reach,
            Error::Places,
            Error::Columns,
            Error::List,
        ];
        match all.into_iter().find(|e| u64::from(e.number()) == number) {
            Some(refusal) => Err(refusal),
            // Another library than the one declared in ffi.rs was linked.
            None => panic!("libluffa.a answered {number}, which this crate doesn't know"),
        }
    }
}

impl fmt::Display for Error {
    fn fmt(&self, f: &mut fmt::Formatter) -> fmt::Result {
        let stale = "the sheet isn't the one whose digest is claimed";
        f.write_str(match self {
            Error::Width => "the code isn't 1 to 4",
            Error::Out => "the output is shorter than the digest, or its last word isn't whole",
            Error::Record => "this isn't a well-formed hash record of this code",
            Error::Long => "the message would have too many bits for the code",
            Error::Sheet => "a sheet is at most 1,024 whole records of 40 bytes",
            Error::Marks => "there are too few words for the marks",
            Error::Place => "there is no record at this place",
            Error::Full => "the sheet has no room for another record",
            Error::Size => "the new record isn't 40 bytes",
            Error::Claim => "the claimed digest has another length",
            Error::Stale { .. } => stale,
            Error::StaleGroup { group, .. } => {
                let first = 4 * group;
                return write!(f, "{stale}: look at places {first} to {}", first + 3);
            }
            Error::StaleTail { pairs, .. } => {
                return write!(f, "{stale}: look from place {} on", 4 * pairs);
            }
            Error::Words => "no word is asked for, or more than 64",
            Error::Batch => "a batch is at most 64 sheets",
            Error::Set => "there are more than 64 changes in one save, or their places don't rise",
            Error::Own => "these can't be the count and the marks of a sheet at this code",
            Error::Odd => "no message has these odd bits, or it has ended with odd bits already",
            Error::Back => "there is no whole block to take back, or the block isn't 32 bytes",
            Error::Hops => "a chain of more than 3 links is asked for",
            Error::Unsound => "the sheet has a fault, which the check names",
            Error::Well => "no well of the sheet has this number",
            Error::Reach => "there are fewer bytes than the sheet has records",
            Error::Places => "the list has fewer places than the sheet has records",
            Error::Columns => "a dump, its words or the message block have another length",
            Error::List => "a list has fewer places than the batch has records",
        })
    }
}

impl std::error::Error for Error {}
