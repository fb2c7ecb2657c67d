//! The calls of include/luffa.h over slices. All that is unsafe in this crate is here.
//!
//! The library judges every number and every length, so these functions ask nothing of their caller.
//! What it can't judge, Rust's references promise: a slice is valid for its length, for writing if it
//! is `&mut`, and nothing else that is lent to the call overlaps a `&mut` one. An empty slice's pointer
//! isn't read, as luffa.h allows a null one there.

#![allow(unsafe_code)]

use crate::Error;

/// struct luffa_output_answer.
#[repr(C)]
pub struct OutputAnswer {
    pub number: u64,
    pub rounds: u64,
}

/// struct luffa_sheet_answer.
#[repr(C)]
pub struct Answer {
    pub number: u64,
    pub count: u64,
    pub rounds: u64,
}

/// struct luffa_sheet_where.
#[repr(C)]
pub struct WhereAnswer {
    pub number: u64,
    pub count: u64,
    pub rounds: u64,
    pub kind: u64,
    pub group: u64,
    pub pairs: u64,
}

/// LUFFA_WHERE_GROUP: a group is named.
pub const WHERE_GROUP: u64 = 1;

/// struct luffa_mend_answer.
#[repr(C)]
pub struct MendAnswer {
    pub number: u64,
    pub wrong: u64,
    pub first: u64,
    pub rounds: u64,
}

/// struct luffa_content_answer.
#[repr(C)]
pub struct ContentAnswer {
    pub number: u64,
    pub rule: u64,
    pub place: u64,
}

/// struct luffa_brine_answer.
#[repr(C)]
pub struct BrineAnswer {
    pub number: u64,
    pub sound: u64,
    pub faulted: u64,
    pub intake: u64,
    pub overloaded: u64,
}

// SAFETY: these are luffa.h's declarations, with size_t as usize.
#[link(name = "luffa", kind = "static")]
unsafe extern "C" {
    fn luffa_digest(
        code: usize,
        message: *const u8,
        message_len: usize,
        out: *mut u8,
        out_len: usize,
    ) -> u32;
    fn luffa_digest_bits(
        code: usize,
        message: *const u8,
        message_len: usize,
        odd: usize,
        out: *mut u8,
        out_len: usize,
    ) -> u32;
    fn luffa_output(
        code: usize,
        words: usize,
        message: *const u8,
        message_len: usize,
        out: *mut u8,
        out_len: usize,
    ) -> OutputAnswer;
    fn luffa_output_bits(
        code: usize,
        words: usize,
        message: *const u8,
        message_len: usize,
        odd: usize,
        out: *mut u8,
        out_len: usize,
    ) -> OutputAnswer;
    fn luffa_start(code: usize, record: *mut u8, record_len: usize) -> u32;
    fn luffa_feed(record: *mut u8, record_len: usize, piece: *const u8, piece_len: usize) -> u32;
    fn luffa_feed_bits(
        record: *mut u8,
        record_len: usize,
        piece: *const u8,
        piece_len: usize,
        odd: usize,
    ) -> u32;
    fn luffa_back(record: *mut u8, record_len: usize, block: *const u8, block_len: usize) -> u32;
    fn luffa_finish(record: *const u8, record_len: usize, out: *mut u8, out_len: usize) -> u32;
    fn luffa_finish_output(
        record: *const u8,
        record_len: usize,
        words: usize,
        out: *mut u8,
        out_len: usize,
    ) -> OutputAnswer;
    fn luffa_columns_from_words(
        code: usize,
        words: *const u32,
        words_len: usize,
        dump: *mut u8,
        dump_len: usize,
    ) -> u32;
    fn luffa_words_from_columns(
        code: usize,
        dump: *const u8,
        dump_len: usize,
        words: *mut u32,
        words_len: usize,
    ) -> u32;
    fn luffa_columns_from_message(
        block: *const u8,
        block_len: usize,
        dump: *mut u8,
        dump_len: usize,
    ) -> u32;
    fn luffa_columns_inject(
        code: usize,
        dump: *mut u8,
        dump_len: usize,
        message: *const u8,
        message_len: usize,
    ) -> u32;
    fn luffa_sheet_build(
        code: usize,
        sheet: *const u8,
        sheet_len: usize,
        n: usize,
        marks: *mut u32,
        marks_len: usize,
        out: *mut u8,
        out_len: usize,
    ) -> Answer;
    fn luffa_sheet_mend(
        code: usize,
        sheet: *const u8,
        sheet_len: usize,
        n: usize,
        marks: *mut u32,
        marks_len: usize,
    ) -> MendAnswer;
    fn luffa_sheet_change(
        code: usize,
        sheet: *mut u8,
        sheet_len: usize,
        n: usize,
        marks: *mut u32,
        marks_len: usize,
        place: usize,
        record: *const u8,
        record_len: usize,
        claim: *const u8,
        claim_len: usize,
        out: *mut u8,
        out_len: usize,
    ) -> Answer;
    fn luffa_sheet_batch(
        code: usize,
        sheet: *mut u8,
        sheet_len: usize,
        n: usize,
        marks: *mut u32,
        marks_len: usize,
        places: *const usize,
        places_len: usize,
        records: *const u8,
        records_len: usize,
        claim: *const u8,
        claim_len: usize,
        out: *mut u8,
        out_len: usize,
    ) -> Answer;
    fn luffa_sheet_append(
        code: usize,
        sheet: *mut u8,
        sheet_len: usize,
        n: usize,
        marks: *mut u32,
        marks_len: usize,
        record: *const u8,
        record_len: usize,
        claim: *const u8,
        claim_len: usize,
        out: *mut u8,
        out_len: usize,
    ) -> Answer;
    fn luffa_sheet_drop(
        code: usize,
        sheet: *mut u8,
        sheet_len: usize,
        n: usize,
        marks: *mut u32,
        marks_len: usize,
        claim: *const u8,
        claim_len: usize,
        out: *mut u8,
        out_len: usize,
    ) -> Answer;
    fn luffa_sheet_close_up(
        code: usize,
        sheet: *mut u8,
        sheet_len: usize,
        n: usize,
        marks: *mut u32,
        marks_len: usize,
        claim: *const u8,
        claim_len: usize,
        places: *mut u16,
        places_len: usize,
        out: *mut u8,
        out_len: usize,
    ) -> Answer;
    fn luffa_sheet_change_own(
        code: usize,
        sheet: *mut u8,
        sheet_len: usize,
        n: usize,
        marks: *mut u32,
        marks_len: usize,
        place: usize,
        record: *const u8,
        record_len: usize,
        claim: *const u8,
        claim_len: usize,
        own_n: usize,
        own: *const u32,
        own_len: usize,
        out: *mut u8,
        out_len: usize,
    ) -> WhereAnswer;
    fn luffa_sheet_append_own(
        code: usize,
        sheet: *mut u8,
        sheet_len: usize,
        n: usize,
        marks: *mut u32,
        marks_len: usize,
        record: *const u8,
        record_len: usize,
        claim: *const u8,
        claim_len: usize,
        own_n: usize,
        own: *const u32,
        own_len: usize,
        out: *mut u8,
        out_len: usize,
    ) -> WhereAnswer;
    fn luffa_sheet_drop_own(
        code: usize,
        sheet: *mut u8,
        sheet_len: usize,
        n: usize,
        marks: *mut u32,
        marks_len: usize,
        claim: *const u8,
        claim_len: usize,
        own_n: usize,
        own: *const u32,
        own_len: usize,
        out: *mut u8,
        out_len: usize,
    ) -> WhereAnswer;
    fn luffa_plan_check(sheet: *const u8, sheet_len: usize, n: usize) -> ContentAnswer;
    fn luffa_plan_brine(
        sheets: *const u8,
        sheets_len: usize,
        counts: *const usize,
        counts_len: usize,
        intake: *mut u64,
        intake_len: usize,
        spare: *mut i64,
        spare_len: usize,
    ) -> BrineAnswer;
    fn luffa_plan_reach(
        sheet: *const u8,
        sheet_len: usize,
        n: usize,
        well: usize,
        hops: usize,
        reached: *mut u8,
        reached_len: usize,
    ) -> u32;
}

pub fn digest(code: usize, message: &[u8], out: &mut [u8]) -> Result<(), Error> {
    let (message_len, out_len) = (message.len(), out.len());
    // SAFETY: `message` is read and `out` is written within their lengths; they are distinct borrows.
    let number = unsafe {
        luffa_digest(
            code,
            message.as_ptr(),
            message_len,
            out.as_mut_ptr(),
            out_len,
        )
    };
    Error::judge(number.into(), 0)
}

pub fn digest_bits(code: usize, message: &[u8], odd: usize, out: &mut [u8]) -> Result<(), Error> {
    let (message_len, out_len) = (message.len(), out.len());
    // SAFETY: as in `digest`; the library judges `odd`.
    let number = unsafe {
        luffa_digest_bits(
            code,
            message.as_ptr(),
            message_len,
            odd,
            out.as_mut_ptr(),
            out_len,
        )
    };
    Error::judge(number.into(), 0)
}

pub fn output(code: usize, words: usize, message: &[u8], out: &mut [u8]) -> OutputAnswer {
    // SAFETY: as in `digest`; the library judges `words`.
    unsafe {
        luffa_output(
            code,
            words,
            message.as_ptr(),
            message.len(),
            out.as_mut_ptr(),
            out.len(),
        )
    }
}

pub fn output_bits(
    code: usize,
    words: usize,
    message: &[u8],
    odd: usize,
    out: &mut [u8],
) -> OutputAnswer {
    // SAFETY: as in `digest`; the library judges `words` and `odd`.
    unsafe {
        luffa_output_bits(
            code,
            words,
            message.as_ptr(),
            message.len(),
            odd,
            out.as_mut_ptr(),
            out.len(),
        )
    }
}

pub fn start(code: usize, record: &mut [u8]) -> Result<(), Error> {
    // SAFETY: `record` is written within its length, and is the one buffer lent.
    let number = unsafe { luffa_start(code, record.as_mut_ptr(), record.len()) };
    Error::judge(number.into(), 0)
}

pub fn feed(record: &mut [u8], piece: &[u8]) -> Result<(), Error> {
    let (record_len, piece_len) = (record.len(), piece.len());
    // SAFETY: `record` is read and written and `piece` is read within their lengths; they are
    // distinct borrows.
    let number = unsafe { luffa_feed(record.as_mut_ptr(), record_len, piece.as_ptr(), piece_len) };
    Error::judge(number.into(), 0)
}

pub fn feed_bits(record: &mut [u8], piece: &[u8], odd: usize) -> Result<(), Error> {
    let (record_len, piece_len) = (record.len(), piece.len());
    // SAFETY: as in `feed`; the library judges `odd`.
    let number = unsafe {
        luffa_feed_bits(
            record.as_mut_ptr(),
            record_len,
            piece.as_ptr(),
            piece_len,
            odd,
        )
    };
    Error::judge(number.into(), 0)
}

pub fn back(record: &mut [u8], block: &[u8]) -> Result<(), Error> {
    let (record_len, block_len) = (record.len(), block.len());
    // SAFETY: as in `feed`.
    let number = unsafe { luffa_back(record.as_mut_ptr(), record_len, block.as_ptr(), block_len) };
    Error::judge(number.into(), 0)
}

pub fn finish(record: &[u8], out: &mut [u8]) -> Result<(), Error> {
    let (record_len, out_len) = (record.len(), out.len());
    // SAFETY: `record` is read and `out` is written within their lengths; they are distinct borrows.
    let number = unsafe { luffa_finish(record.as_ptr(), record_len, out.as_mut_ptr(), out_len) };
    Error::judge(number.into(), 0)
}

pub fn finish_output(record: &[u8], words: usize, out: &mut [u8]) -> OutputAnswer {
    // SAFETY: as in `finish`; the library judges `words`.
    unsafe {
        luffa_finish_output(
            record.as_ptr(),
            record.len(),
            words,
            out.as_mut_ptr(),
            out.len(),
        )
    }
}

pub fn columns_from_words(code: usize, words: &[u32], dump: &mut [u8]) -> Result<(), Error> {
    let (words_len, dump_len) = (words.len(), dump.len());
    let (words, dump) = (words.as_ptr(), dump.as_mut_ptr());
    // SAFETY: `words` are read and `dump` is written within their lengths, that of words in elements; they
    // are distinct borrows.
    let number = unsafe { luffa_columns_from_words(code, words, words_len, dump, dump_len) };
    Error::judge(number.into(), 0)
}

pub fn words_from_columns(code: usize, dump: &[u8], words: &mut [u32]) -> Result<(), Error> {
    let (dump_len, words_len) = (dump.len(), words.len());
    let (dump, words) = (dump.as_ptr(), words.as_mut_ptr());
    // SAFETY: as in `columns_from_words`, the other one read.
    let number = unsafe { luffa_words_from_columns(code, dump, dump_len, words, words_len) };
    Error::judge(number.into(), 0)
}

pub fn columns_from_message(block: &[u8], dump: &mut [u8]) -> Result<(), Error> {
    let (block_len, dump_len) = (block.len(), dump.len());
    let (block, dump) = (block.as_ptr(), dump.as_mut_ptr());
    // SAFETY: `block` is read and `dump` is written within their lengths; they are distinct borrows.
    let number = unsafe { luffa_columns_from_message(block, block_len, dump, dump_len) };
    Error::judge(number.into(), 0)
}

pub fn columns_inject(code: usize, dump: &mut [u8], message: &[u8]) -> Result<(), Error> {
    let (dump_len, message_len) = (dump.len(), message.len());
    let (dump, message) = (dump.as_mut_ptr(), message.as_ptr());
    // SAFETY: `dump` is read and written, `message` is read within their lengths; they are distinct borrows.
    let number = unsafe { luffa_columns_inject(code, dump, dump_len, message, message_len) };
    Error::judge(number.into(), 0)
}

/// A sheet as it is lent to a save: its code, its records and marks with the room behind them, and the
/// number of records.
pub struct Lent<'a> {
    pub code: usize,
    pub sheet: &'a mut [u8],
    pub n: usize,
    pub marks: &'a mut [u32],
}

pub fn build(code: usize, sheet: &[u8], n: usize, marks: &mut [u32], out: &mut [u8]) -> Answer {
    // SAFETY: `sheet` is read, `marks` and `out` are written within their lengths, that of marks in
    // words; they are distinct borrows.
    unsafe {
        luffa_sheet_build(
            code,
            sheet.as_ptr(),
            sheet.len(),
            n,
            marks.as_mut_ptr(),
            marks.len(),
            out.as_mut_ptr(),
            out.len(),
        )
    }
}

pub fn mend(code: usize, sheet: &[u8], n: usize, marks: &mut [u32]) -> MendAnswer {
    // SAFETY: `sheet` is read, `marks` are read and written within their lengths, that of marks in words;
    // they are distinct borrows.
    unsafe {
        luffa_sheet_mend(
            code,
            sheet.as_ptr(),
            sheet.len(),
            n,
            marks.as_mut_ptr(),
            marks.len(),
        )
    }
}

pub fn change(
    lent: &mut Lent,
    place: usize,
    record: &[u8],
    claim: &[u8],
    out: &mut [u8],
) -> Answer {
    // SAFETY: `lent.sheet` and `lent.marks` are read and written, `record` and `claim` are read, `out`
    // is written, each within its length; those that are written are distinct borrows from all others.
    unsafe {
        luffa_sheet_change(
            lent.code,
            lent.sheet.as_mut_ptr(),
            lent.sheet.len(),
            lent.n,
            lent.marks.as_mut_ptr(),
            lent.marks.len(),
            place,
            record.as_ptr(),
            record.len(),
            claim.as_ptr(),
            claim.len(),
            out.as_mut_ptr(),
            out.len(),
        )
    }
}

pub fn batch(
    lent: &mut Lent,
    places: &[usize],
    records: &[u8],
    claim: &[u8],
    out: &mut [u8],
) -> Answer {
    // SAFETY: as in `change`; `places` are read within their length, which is in elements.
    unsafe {
        luffa_sheet_batch(
            lent.code,
            lent.sheet.as_mut_ptr(),
            lent.sheet.len(),
            lent.n,
            lent.marks.as_mut_ptr(),
            lent.marks.len(),
            places.as_ptr(),
            places.len(),
            records.as_ptr(),
            records.len(),
            claim.as_ptr(),
            claim.len(),
            out.as_mut_ptr(),
            out.len(),
        )
    }
}

pub fn append(lent: &mut Lent, record: &[u8], claim: &[u8], out: &mut [u8]) -> Answer {
    // SAFETY: as in `change`.
    unsafe {
        luffa_sheet_append(
            lent.code,
            lent.sheet.as_mut_ptr(),
            lent.sheet.len(),
            lent.n,
            lent.marks.as_mut_ptr(),
            lent.marks.len(),
            record.as_ptr(),
            record.len(),
            claim.as_ptr(),
            claim.len(),
            out.as_mut_ptr(),
            out.len(),
        )
    }
}

pub fn drop_last(lent: &mut Lent, claim: &[u8], out: &mut [u8]) -> Answer {
    // SAFETY: as in `change`, with no new record.
    unsafe {
        luffa_sheet_drop(
            lent.code,
            lent.sheet.as_mut_ptr(),
            lent.sheet.len(),
            lent.n,
            lent.marks.as_mut_ptr(),
            lent.marks.len(),
            claim.as_ptr(),
            claim.len(),
            out.as_mut_ptr(),
            out.len(),
        )
    }
}

pub fn close_up(lent: &mut Lent, claim: &[u8], places: &mut [u16], out: &mut [u8]) -> Answer {
    // SAFETY: as in `drop_last`; `places` are written within their length, which is in elements.
    unsafe {
        luffa_sheet_close_up(
            lent.code,
            lent.sheet.as_mut_ptr(),
            lent.sheet.len(),
            lent.n,
            lent.marks.as_mut_ptr(),
            lent.marks.len(),
            claim.as_ptr(),
            claim.len(),
            places.as_mut_ptr(),
            places.len(),
            out.as_mut_ptr(),
            out.len(),
        )
    }
}

/// A planner's own sheet as it is lent to a save: the number of its records, and its marks.
pub struct Own<'a> {
    pub n: usize,
    pub marks: &'a [u32],
}

pub fn change_own(
    lent: &mut Lent,
    place: usize,
    record: &[u8],
    claim: &[u8],
    own: &Own,
    out: &mut [u8],
) -> WhereAnswer {
    // SAFETY: as in `change`; `own.marks` are read within their length, which is in words.
    unsafe {
        luffa_sheet_change_own(
            lent.code,
            lent.sheet.as_mut_ptr(),
            lent.sheet.len(),
            lent.n,
            lent.marks.as_mut_ptr(),
            lent.marks.len(),
            place,
            record.as_ptr(),
            record.len(),
            claim.as_ptr(),
            claim.len(),
            own.n,
            own.marks.as_ptr(),
            own.marks.len(),
            out.as_mut_ptr(),
            out.len(),
        )
    }
}

pub fn append_own(
    lent: &mut Lent,
    record: &[u8],
    claim: &[u8],
    own: &Own,
    out: &mut [u8],
) -> WhereAnswer {
    // SAFETY: as in `change_own`.
    unsafe {
        luffa_sheet_append_own(
            lent.code,
            lent.sheet.as_mut_ptr(),
            lent.sheet.len(),
            lent.n,
            lent.marks.as_mut_ptr(),
            lent.marks.len(),
            record.as_ptr(),
            record.len(),
            claim.as_ptr(),
            claim.len(),
            own.n,
            own.marks.as_ptr(),
            own.marks.len(),
            out.as_mut_ptr(),
            out.len(),
        )
    }
}

pub fn drop_own(lent: &mut Lent, claim: &[u8], own: &Own, out: &mut [u8]) -> WhereAnswer {
    // SAFETY: as in `change_own`, with no new record.
    unsafe {
        luffa_sheet_drop_own(
            lent.code,
            lent.sheet.as_mut_ptr(),
            lent.sheet.len(),
            lent.n,
            lent.marks.as_mut_ptr(),
            lent.marks.len(),
            claim.as_ptr(),
            claim.len(),
            own.n,
            own.marks.as_ptr(),
            own.marks.len(),
            out.as_mut_ptr(),
            out.len(),
        )
    }
}

pub fn plan_check(sheet: &[u8], n: usize) -> ContentAnswer {
    // SAFETY: `sheet` is read within its length, and is the one buffer lent.
    unsafe { luffa_plan_check(sheet.as_ptr(), sheet.len(), n) }
}

pub fn plan_brine(
    sheets: &[u8],
    counts: &[usize],
    intake: &mut [u64],
    spare: &mut [i64],
) -> BrineAnswer {
    // SAFETY: `sheets` and `counts` are read, `intake` and `spare` are written within their lengths,
    // all but that of sheets in elements; those that are written are distinct borrows from all others.
    unsafe {
        luffa_plan_brine(
            sheets.as_ptr(),
            sheets.len(),
            counts.as_ptr(),
            counts.len(),
            intake.as_mut_ptr(),
            intake.len(),
            spare.as_mut_ptr(),
            spare.len(),
        )
    }
}

pub fn plan_reach(
    sheet: &[u8],
    n: usize,
    well: usize,
    hops: usize,
    reached: &mut [u8],
) -> Result<(), Error> {
    // SAFETY: `sheet` is read and `reached` is written within their lengths; they are distinct borrows.
    let number = unsafe {
        luffa_plan_reach(
            sheet.as_ptr(),
            sheet.len(),
            n,
            well,
            hops,
            reached.as_mut_ptr(),
            reached.len(),
        )
    };
    Error::judge(number.into(), 0)
}
