//! A sheet of records that is saved under its digest.

use crate::ffi::{self, Answer, Lent};
use crate::plan::{self, Verdict};
use crate::{Code, Digest, Error};
use std::fmt;

mod batch;
mod close_up;
#[cfg(test)]
mod held;
#[cfg(test)]
mod history;
mod mend;
mod opened;
#[cfg(test)]
mod saves;
#[cfg(test)]
mod tests;

pub use close_up::Moved;
pub use mend::Mended;
pub use opened::Opened;

/// The words that the marks of n records need.
const fn marks_for(n: usize) -> usize {
    Sheet::MARK_WORDS * (n / 4 + 1)
}

/// The records in these bytes. One that isn't whole is counted, so that the library finds too few bytes
/// for them all.
pub(crate) fn records_in(bytes: &[u8]) -> usize {
    bytes.len().div_ceil(Sheet::RECORD_BYTES)
}

/// Up to 1,024 records of 40 bytes, whose digest is that of these bytes.
///
/// A save carries a claim, the digest of the sheet that its planner saw. If somebody else has saved
/// since, the answer is [`Error::Stale`] and nothing is changed. A claim speaks of content: a sheet
/// that was changed and changed back has its old digest again. A save that brings an [`Opened`] sheet is
/// told where to look.
///
/// The sheet holds the library's marks and lets nobody write to them, so that a save hashes only what
/// comes after the place it changes and always answers the digest of the whole sheet. Whoever keeps
/// them with the records opens the sheet by [`from_kept`](Sheet::from_kept), which mends them.
///
/// ```
/// use luffa::{Code, Sheet};
///
/// let mut sheet = Sheet::new(Code::Luffa256);
/// let mut claim = sheet.digest();
/// for record in [[1; 40], [2; 40], [3; 40]] {
///     claim = sheet.append(&record, &claim)?.digest;
/// }
/// claim = sheet.change(1, &[9; 40], &claim)?.digest;
/// sheet.drop_last(&claim)?;
/// assert_eq!(sheet.records(), [[1; 40], [9; 40]]);
/// # Ok::<(), luffa::Error>(())
/// ```
#[derive(Clone)]
pub struct Sheet {
    code: Code,
    /// The records, and behind them room for appends.
    records: Vec<[u8; Sheet::RECORD_BYTES]>,
    /// The number of records.
    n: usize,
    /// The marks of the records, and words for those of the room.
    marks: Vec<u32>,
    digest: Digest,
}

/// What a save gave.
///
/// ```
/// use luffa::{Code, Saved, Sheet};
///
/// let mut sheet = Sheet::from_records(Code::Luffa256, &[[1; 40]; 3])?;
/// let Saved { digest, rounds } = sheet.append(&[2; 40], &sheet.digest())?;
/// assert_eq!(rounds, 12);
/// sheet.drop_last(&digest)?;
/// # Ok::<(), luffa::Error>(())
/// ```
#[derive(Clone, Copy, Debug, PartialEq, Eq)]
pub struct Saved {
    /// The digest of the sheet as it is now: the claim of the next save.
    pub digest: Digest,
    /// The rounds of Luffa that the save took.
    pub rounds: u64,
}

impl Sheet {
    /// The bytes of a record.
    pub const RECORD_BYTES: usize = 40;

    /// The most records that a sheet may have.
    pub const MOST: usize = 1024;

    /// A sheet of no records.
    ///
    /// ```
    /// use luffa::{Code, Digest, Sheet};
    ///
    /// let sheet = Sheet::new(Code::Luffa384);
    /// assert!(sheet.is_empty());
    /// assert_eq!(sheet.digest(), Digest::of(Code::Luffa384, ""));
    /// ```
    pub fn new(code: Code) -> Sheet {
        Sheet::from_bytes(code, &[]).expect("a sheet may be empty")
    }

    /// A sheet of these records, or [`Error::Sheet`] if they are more than [`Sheet::MOST`].
    ///
    /// ```
    /// use luffa::{Code, Error, Sheet};
    ///
    /// let sheet = Sheet::from_records(Code::Luffa256, &[[1; 40]; 1024])?;
    /// assert_eq!(sheet.len(), 1024);
    /// let more = Sheet::from_records(Code::Luffa256, &[[1; 40]; 1025]);
    /// assert_eq!(more.err(), Some(Error::Sheet));
    /// # Ok::<(), Error>(())
    /// ```
    pub fn from_records(code: Code, records: &[[u8; 40]]) -> Result<Sheet, Error> {
        Sheet::from_bytes(code, records.as_flattened())
    }

    /// A sheet of the records that stand one after the other in these bytes, or [`Error::Sheet`] if
    /// they are more than [`Sheet::MOST`] or the last isn't whole.
    ///
    /// ```
    /// use luffa::{Code, Error, Sheet};
    ///
    /// let sheet = Sheet::from_bytes(Code::Luffa256, &[5; 80])?;
    /// assert_eq!(sheet.records(), [[5; 40], [5; 40]]);
    /// assert_eq!(Sheet::from_bytes(Code::Luffa256, &[5; 79]).err(), Some(Error::Sheet));
    /// # Ok::<(), Error>(())
    /// ```
    pub fn from_bytes(code: Code, bytes: &[u8]) -> Result<Sheet, Error> {
        let n = records_in(bytes);
        let mut marks = vec![0; marks_for(n.min(Sheet::MOST))];
        let (digest, answer) = Digest::written(code, |out| {
            ffi::build(code.number(), bytes, n, &mut marks, out)
        });
        Error::judge(answer.number, answer.rounds)?;
        Ok(Sheet::holding(code, bytes, marks, digest))
    }

    /// A sheet of whole records, with their marks and their digest.
    fn holding(code: Code, bytes: &[u8], marks: Vec<u32>, digest: Digest) -> Sheet {
        let n = records_in(bytes);
        let mut records = vec![[0; Sheet::RECORD_BYTES]; n];
        records.as_flattened_mut().copy_from_slice(bytes);
        Sheet {
            code,
            records,
            n,
            marks,
            digest,
        }
    }

    /// The code of the sheet's digests.
    pub fn code(&self) -> Code {
        self.code
    }

    /// The records.
    ///
    /// ```
    /// use luffa::{Code, Sheet};
    ///
    /// let sheet = Sheet::from_records(Code::Luffa256, &[[1; 40], [2; 40]])?;
    /// assert_eq!(sheet.records().last(), Some(&[2; 40]));
    /// assert_eq!(sheet.records().len(), sheet.len());
    /// # Ok::<(), luffa::Error>(())
    /// ```
    pub fn records(&self) -> &[[u8; 40]] {
        &self.records[..self.n]
    }

    /// The record at a place counted from 0, if there is one.
    ///
    /// ```
    /// use luffa::{Code, Sheet};
    ///
    /// let sheet = Sheet::from_records(Code::Luffa256, &[[6; 40]])?;
    /// assert_eq!(sheet.record(0), Some(&[6; 40]));
    /// assert_eq!(sheet.record(1), None);
    /// # Ok::<(), luffa::Error>(())
    /// ```
    pub fn record(&self, place: usize) -> Option<&[u8; 40]> {
        self.records().get(place)
    }

    /// The number of records.
    pub fn len(&self) -> usize {
        self.n
    }

    /// Whether there are no records.
    pub fn is_empty(&self) -> bool {
        self.n == 0
    }

    /// The records' bytes, one after the other: what to keep of the sheet, and what its digest is of.
    ///
    /// ```
    /// use luffa::{Code, Digest, Sheet};
    ///
    /// let sheet = Sheet::from_records(Code::Luffa256, &[[1; 40], [2; 40]])?;
    /// let again = Sheet::from_bytes(sheet.code(), sheet.bytes())?;
    /// assert_eq!(again, sheet);
    /// assert_eq!(again.digest(), Digest::of(Code::Luffa256, sheet.bytes()));
    /// # Ok::<(), luffa::Error>(())
    /// ```
    pub fn bytes(&self) -> &[u8] {
        self.records().as_flattened()
    }

    /// The digest of the sheet, to keep beside what the planner sees. It is kept too, so that asking
    /// for it hashes nothing.
    ///
    /// ```
    /// use luffa::{Code, Luffa224, Sheet};
    ///
    /// let sheet = Sheet::from_records(Code::Luffa224, &[[1; 40]])?;
    /// assert_eq!(sheet.digest().as_bytes(), Luffa224::digest([1; 40]));
    /// # Ok::<(), luffa::Error>(())
    /// ```
    pub fn digest(&self) -> Digest {
        self.digest
    }

    /// Whether the records are sound wells or [struck](Sheet::STRUCK), or the lowest faulty place and the first
    /// rule broken there. A sheet of no records is sound. A save never asks, and saves any 40 bytes.
    ///
    /// ```
    /// use luffa::plan::{Fault, Rule, Well};
    /// use luffa::{Code, Sheet};
    ///
    /// let wells = [Well::injector(14).with_rate(600), Well::producer(3).with_rate(500)];
    /// let sheet = Sheet::from_records(Code::Luffa256, &wells.map(|well| well.to_record()))?;
    /// // The producer's links were forgotten.
    /// let fault = Fault { place: 1, rule: Rule::LinkCount };
    /// assert_eq!(sheet.check(), Err(fault));
    /// # Ok::<(), luffa::Error>(())
    /// ```
    pub fn check(&self) -> Verdict {
        plan::check(self.bytes()).expect("a sheet is at most 1,024 whole records")
    }

    /// Puts a record in the place of the one at `place`, counted from 0.
    ///
    /// Refused, with nothing changed: [`Error::Place`] if there is no such record, [`Error::Claim`] if
    /// the claim is of another code, [`Error::Stale`] if it isn't the digest of this sheet.
    ///
    /// ```
    /// use luffa::{Code, Error, Sheet};
    ///
    /// let mut sheet = Sheet::from_records(Code::Luffa256, &[[1; 40]; 5])?;
    /// let seen = sheet.digest();
    /// let saved = sheet.change(4, &[2; 40], &seen)?;
    /// assert_eq!(saved.rounds, 6);
    /// assert_eq!(saved.digest, sheet.digest());
    /// assert_eq!(sheet.change(0, &[3; 40], &seen), Err(Error::Stale { rounds: 3 }));
    /// # Ok::<(), Error>(())
    /// ```
    pub fn change(
        &mut self,
        place: usize,
        record: &[u8; 40],
        claim: &Digest,
    ) -> Result<Saved, Error> {
        self.save(|sheet, out| ffi::change(sheet, place, record, claim.as_bytes(), out))
    }

    /// Adds a record after the last.
    ///
    /// Refused, with nothing changed: [`Error::Full`] if there are [`Sheet::MOST`] records,
    /// [`Error::Claim`] and [`Error::Stale`] as in [`change`](Sheet::change).
    ///
    /// ```
    /// use luffa::{Code, Sheet};
    ///
    /// let mut sheet = Sheet::new(Code::Luffa256);
    /// let claim = sheet.digest();
    /// sheet.append(&[1; 40], &claim)?;
    /// assert_eq!(sheet.records(), [[1; 40]]);
    /// # Ok::<(), luffa::Error>(())
    /// ```
    pub fn append(&mut self, record: &[u8; 40], claim: &Digest) -> Result<Saved, Error> {
        self.make_room();
        self.save(|sheet, out| ffi::append(sheet, record, claim.as_bytes(), out))
    }

    /// Takes the last record away.
    ///
    /// Refused, with nothing changed: [`Error::Place`] if there is none, [`Error::Claim`] and
    /// [`Error::Stale`] as in [`change`](Sheet::change).
    ///
    /// ```
    /// use luffa::{Code, Error, Sheet};
    ///
    /// let mut sheet = Sheet::from_records(Code::Luffa256, &[[1; 40]])?;
    /// let claim = sheet.digest();
    /// let saved = sheet.drop_last(&claim)?;
    /// assert!(sheet.is_empty());
    /// assert_eq!(sheet.drop_last(&saved.digest), Err(Error::Place));
    /// # Ok::<(), Error>(())
    /// ```
    pub fn drop_last(&mut self, claim: &Digest) -> Result<Saved, Error> {
        self.save(|sheet, out| ffi::drop_last(sheet, claim.as_bytes(), out))
    }

    /// Room for one record more, if the sheet may have one. It grows twofold, so that many appends
    /// copy little.
    fn make_room(&mut self) {
        if self.n == self.records.len() {
            let room = (2 * self.n).clamp(4, Sheet::MOST);
            self.records.resize(room, [0; Sheet::RECORD_BYTES]);
            self.marks.resize(marks_for(room), 0);
        }
    }

    /// A save. The library writes nothing where it refuses.
    fn save(&mut self, call: impl FnOnce(&mut Lent, &mut [u8]) -> Answer) -> Result<Saved, Error> {
        let (digest, answer) = self.lend(call);
        Error::judge(answer.number, answer.rounds)?;
        Ok(self.taken_over(digest, answer.count, answer.rounds))
    }

    /// Lends the sheet to a save: the digest that it wrote, if it was done, and its answer.
    fn lend<T>(&mut self, call: impl FnOnce(&mut Lent, &mut [u8]) -> T) -> (Digest, T) {
        let mut lent = Lent {
            code: self.code.number(),
            sheet: self.records.as_flattened_mut(),
            n: self.n,
            marks: &mut self.marks,
        };
        Digest::written(self.code, |out| call(&mut lent, out))
    }

    /// Takes over the digest and the number of records of a save that was done.
    fn taken_over(&mut self, digest: Digest, count: u64, rounds: u64) -> Saved {
        self.n = count as usize;
        self.digest = digest;
        Saved { digest, rounds }
    }
}

/// [`Sheet::bytes`].
impl AsRef<[u8]> for Sheet {
    fn as_ref(&self) -> &[u8] {
        self.bytes()
    }
}

/// Sheets are equal that have the same code and records.
impl PartialEq for Sheet {
    fn eq(&self, other: &Sheet) -> bool {
        self.code == other.code && self.records() == other.records()
    }
}

impl Eq for Sheet {}

impl fmt::Debug for Sheet {
    fn fmt(&self, f: &mut fmt::Formatter) -> fmt::Result {
        f.debug_struct("Sheet")
            .field("code", &self.code)
            .field("len", &self.n)
            .field("digest", &self.digest)
            .finish_non_exhaustive()
    }
}
