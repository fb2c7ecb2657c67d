//! Mending: marks that were kept are compared with the states of their sheet, and those that a disk has
//! spoiled are written anew.

use super::{Sheet, marks_for, records_in};
use crate::{Code, Digest, Error, ffi};

#[cfg(test)]
mod refusals;
#[cfg(test)]
pub(super) mod tests;

/// What mending found.
///
/// ```
/// use luffa::{Code, Mended, Sheet};
///
/// let sheet = Sheet::from_records(Code::Luffa256, &[[1; 40]; 9])?;
/// let (_, mended) = Sheet::from_kept(sheet.code(), sheet.bytes(), sheet.marks())?;
/// assert_eq!(mended, Mended { wrong: 0, first: None, rounds: 10 });
/// # Ok::<(), luffa::Error>(())
/// ```
#[derive(Clone, Copy, Debug, PartialEq, Eq)]
pub struct Mended {
    /// How many marks were wrong, and were written anew.
    pub wrong: usize,
    /// The first of them, counted from 0, if there was one.
    pub first: Option<usize>,
    /// The rounds of Luffa that the mending took: five for each four records.
    pub rounds: u64,
}

/// Marks that are kept with a sheet, and mended.
impl Sheet {
    /// The words of a mark.
    pub const MARK_WORDS: usize = 40;

    /// The sheet's marks, one after the other: to keep with [`bytes`](Sheet::bytes), for
    /// [`from_kept`](Sheet::from_kept) or for a program that uses luffa.h.
    ///
    /// Mark m is the state after the first 4m records; there are marks 0 to `len() / 4`. A word is the same
    /// number on every machine, but its bytes in memory aren't.
    ///
    /// ```
    /// use luffa::{Code, Sheet};
    ///
    /// let sheet = Sheet::from_records(Code::Luffa256, &[[1; 40]; 9])?;
    /// assert_eq!(sheet.marks().len(), 3 * Sheet::MARK_WORDS);
    /// // Mark 1 says nothing of the records from place 4 on.
    /// let other = Sheet::from_records(Code::Luffa256, &[[1; 40]; 4])?;
    /// assert!(sheet.marks().starts_with(other.marks()));
    /// # Ok::<(), luffa::Error>(())
    /// ```
    pub fn marks(&self) -> &[u32] {
        &self.marks[..marks_for(self.n)]
    }

    /// A sheet of the records that stand one after the other in these bytes, with marks that were kept
    /// with them, mended.
    ///
    /// It takes up to twice the rounds of [`from_bytes`](Sheet::from_bytes), which asks for no marks, and
    /// tells what has become of them. Whether the records are those that were kept, it can't tell: for this
    /// compare the digest. Words past the last mark don't matter.
    ///
    /// Refused: [`Error::Sheet`] as in [`from_bytes`](Sheet::from_bytes), then [`Error::Marks`] if there
    /// are fewer words than the sheet's [`marks`](Sheet::marks) have.
    ///
    /// ```
    /// use luffa::{Code, Error, Mended, Sheet};
    ///
    /// let kept = Sheet::from_records(Code::Luffa256, &[[1; 40]; 9])?;
    /// let mut marks = kept.marks().to_vec();
    /// marks[Sheet::MARK_WORDS] ^= 1;
    /// let (mut sheet, mended) = Sheet::from_kept(kept.code(), kept.bytes(), &marks)?;
    /// assert_eq!(mended, Mended { wrong: 1, first: Some(1), rounds: 10 });
    /// assert_eq!(sheet.marks(), kept.marks());
    /// sheet.change(8, &[2; 40], &kept.digest())?;
    ///
    /// let few = Sheet::from_kept(kept.code(), kept.bytes(), &marks[1..]);
    /// assert_eq!(few.err(), Some(Error::Marks));
    /// # Ok::<(), Error>(())
    /// ```
    pub fn from_kept(code: Code, bytes: &[u8], marks: &[u32]) -> Result<(Sheet, Mended), Error> {
        // Where there are too few, the library says so.
        let own = marks.get(..marks_for(records_in(bytes))).unwrap_or(marks);
        let mut marks = own.to_vec();
        let mended = Sheet::mend_marks(code, bytes, &mut marks)?;
        // Mending gives no digest.
        let digest = Digest::of(code, bytes);
        Ok((Sheet::holding(code, bytes, marks, digest), mended))
    }

    /// Mends marks where they stand, without making a sheet of them and their records: each that isn't the
    /// state after its records is written anew, also one that has a word set where the code uses none.
    ///
    /// Afterwards the marks are those of [`Sheet::marks`]; words past the last stay as they were. Where
    /// refused, as in [`from_kept`](Sheet::from_kept), all stay. Nothing is allocated.
    ///
    /// ```
    /// use luffa::{Code, Mended, Sheet};
    ///
    /// let mut marks = [7; 3 * Sheet::MARK_WORDS];
    /// let mended = Sheet::mend_marks(Code::Luffa256, &[1; 7 * 40], &mut marks)?;
    /// assert_eq!(mended, Mended { wrong: 2, first: Some(0), rounds: 5 });
    /// assert_eq!(marks[2 * Sheet::MARK_WORDS..], [7; Sheet::MARK_WORDS]);
    /// # Ok::<(), luffa::Error>(())
    /// ```
    pub fn mend_marks(code: Code, bytes: &[u8], marks: &mut [u32]) -> Result<Mended, Error> {
        let answer = ffi::mend(code.number(), bytes, records_in(bytes), marks);
        Error::judge(answer.number, answer.rounds)?;
        Ok(Mended {
            wrong: answer.wrong as usize,
            // The library says 0 where there is none.
            first: (answer.wrong > 0).then_some(answer.first as usize),
            rounds: answer.rounds,
        })
    }
}
