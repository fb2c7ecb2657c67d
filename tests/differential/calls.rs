//! Each call made twice on the same bytes, by the archive and by the model: the number answered and
//! every byte lent, with those around it, must agree. The calls over a message are in hash_calls.rs
//! and output_calls.rs.

use crate::brine_model::{self, Batch, BrineAnswer};
use crate::mend_model::{MendAnswer, Mending};
use crate::own::Own;
use crate::own_model::{self, OwnAnswer};
use crate::plan_model::{self, ContentAnswer};
use crate::reach::Net;
use crate::reach_model::Search;
use crate::sheet_model::{self, Answer, Call, Given};
use std::fmt::{Debug, Write};

extern "C" {
    fn luffa_sheet_build(
        code: usize,
        sheet: *const u8,
        sheet_len: usize,
        n: usize,
        marks: *mut u32,
        marks_len: usize,
        out: *mut u8,
        out_len: usize,
    ) -> Answer;
    fn luffa_sheet_mend(
        code: usize,
        sheet: *const u8,
        sheet_len: usize,
        n: usize,
        marks: *mut u32,
        marks_len: usize,
    ) -> MendAnswer;
    fn luffa_sheet_change(
        code: usize,
        sheet: *mut u8,
        sheet_len: usize,
        n: usize,
        marks: *mut u32,
        marks_len: usize,
        place: usize,
        record: *const u8,
        record_len: usize,
        claim: *const u8,
        claim_len: usize,
        out: *mut u8,
        out_len: usize,
    ) -> Answer;
    fn luffa_sheet_batch(
        code: usize,
        sheet: *mut u8,
        sheet_len: usize,
        n: usize,
        marks: *mut u32,
        marks_len: usize,
        places: *const usize,
        places_len: usize,
        records: *const u8,
        records_len: usize,
        claim: *const u8,
        claim_len: usize,
        out: *mut u8,
        out_len: usize,
    ) -> Answer;
    fn luffa_sheet_append(
        code: usize,
        sheet: *mut u8,
        sheet_len: usize,
        n: usize,
        marks: *mut u32,
        marks_len: usize,
        record: *const u8,
        record_len: usize,
        claim: *const u8,
        claim_len: usize,
        out: *mut u8,
        out_len: usize,
    ) -> Answer;
    fn luffa_sheet_drop(
        code: usize,
        sheet: *mut u8,
        sheet_len: usize,
        n: usize,
        marks: *mut u32,
        marks_len: usize,
        claim: *const u8,
        claim_len: usize,
        out: *mut u8,
        out_len: usize,
    ) -> Answer;
    fn luffa_sheet_close_up(
        code: usize,
        sheet: *mut u8,
        sheet_len: usize,
        n: usize,
        marks: *mut u32,
        marks_len: usize,
        claim: *const u8,
        claim_len: usize,
        places: *mut u16,
        places_len: usize,
        out: *mut u8,
        out_len: usize,
    ) -> Answer;
    fn luffa_sheet_change_own(
        code: usize,
        sheet: *mut u8,
        sheet_len: usize,
        n: usize,
        marks: *mut u32,
        marks_len: usize,
        place: usize,
        record: *const u8,
        record_len: usize,
        claim: *const u8,
        claim_len: usize,
        own_n: usize,
        own: *const u32,
        own_len: usize,
        out: *mut u8,
        out_len: usize,
    ) -> OwnAnswer;
    fn luffa_sheet_append_own(
        code: usize,
        sheet: *mut u8,
        sheet_len: usize,
        n: usize,
        marks: *mut u32,
        marks_len: usize,
        record: *const u8,
        record_len: usize,
        claim: *const u8,
        claim_len: usize,
        own_n: usize,
        own: *const u32,
        own_len: usize,
        out: *mut u8,
        out_len: usize,
    ) -> OwnAnswer;
    fn luffa_sheet_drop_own(
        code: usize,
        sheet: *mut u8,
        sheet_len: usize,
        n: usize,
        marks: *mut u32,
        marks_len: usize,
        claim: *const u8,
        claim_len: usize,
        own_n: usize,
        own: *const u32,
        own_len: usize,
        out: *mut u8,
        out_len: usize,
    ) -> OwnAnswer;
    fn luffa_plan_check(sheet: *const u8, sheet_len: usize, n: usize) -> ContentAnswer;
    fn luffa_plan_brine(
        sheets: *const u8,
        sheets_len: usize,
        counts: *const usize,
        counts_len: usize,
        intake: *mut u64,
        intake_len: usize,
        spare: *mut i64,
        spare_len: usize,
    ) -> BrineAnswer;
    fn luffa_plan_reach(
        sheet: *const u8,
        sheet_len: usize,
        n: usize,
        well: usize,
        hops: usize,
        reached: *mut u8,
        reached_len: usize,
    ) -> u32;
}

/// A buffer to lend, with watched bytes on both sides.
pub struct Lent {
    all: Vec<u8>,
    before: usize,
}

/// The bytes watched on each side; where elements stand at a multiple, a few more come before them.
const EDGE: usize = 61;

impl Lent {
    fn after(before: usize, bytes: &[u8]) -> Lent {
        let all = [&vec![0xa5; before], bytes, &[0x5a; EDGE]].concat();
        Lent { all, before }
    }

    /// Bytes at an odd address.
    pub fn new(bytes: &[u8]) -> Lent {
        Lent::after(EDGE, bytes)
    }

    /// Words, which must stand at a multiple of four.
    pub fn words(words: &[u32]) -> Lent {
        Lent::elements(words.iter().map(|word| word.to_ne_bytes()).collect())
    }

    /// Elements of N bytes, which must stand at a multiple of N.
    pub fn elements<const N: usize>(elements: Vec<[u8; N]>) -> Lent {
        // Memory mostly begins at a multiple, and then the first is one.
        let before = EDGE.next_multiple_of(N);
        (before..before + N)
            .map(|before| Lent::after(before, elements.as_flattened()))
            .find(|lent| lent.all[lent.before..].as_ptr() as usize % N == 0)
            .expect("memory at a multiple")
    }

    pub fn pointer(&mut self) -> *mut u8 {
        self.all[self.before..].as_mut_ptr()
    }

    pub fn inside(&self) -> &[u8] {
        &self.all[self.before..self.all.len() - EDGE]
    }
}

/// The bytes, as far as they help: longer messages come again with the seed.
fn hex(bytes: &[u8]) -> String {
    let end = if bytes.len() > 300 { ".." } else { "" };
    let digits: String = bytes.iter().take(300).map(|b| format!("{b:02x}")).collect();
    digits + end
}

/// Compares numbers and buffers; `call` and the buffers as they were tell what was called.
pub fn agree<T: PartialEq + Debug>(
    call: &str,
    before: &[&[u8]],
    got: T,
    want: T,
    after: &[(Lent, &[u8])],
) -> Result<T, String> {
    let mut different = String::new();
    if got != want {
        writeln!(different, "  answered {got:?}, wanted {want:?}").unwrap();
    }
    for (k, (lent, wanted)) in after.iter().enumerate() {
        let wanted = Lent::after(lent.before, wanted);
        // Whether they differ is sooner found than where.
        let differs = || (0..wanted.all.len()).find(|&i| lent.all[i] != wanted.all[i]);
        if let Some(at) = (lent.all != wanted.all).then(differs).flatten() {
            let at = at as isize - lent.before as isize;
            writeln!(different, "  buffer {k} differs, first at byte {at}").unwrap();
            writeln!(different, "    holds  {}", hex(lent.inside())).unwrap();
            writeln!(different, "    wanted {}", hex(wanted.inside())).unwrap();
        }
    }
    if different.is_empty() {
        return Ok(want);
    }
    for (k, bytes) in before.iter().enumerate() {
        writeln!(
            different,
            "  buffer {k} was {} bytes: {}",
            bytes.len(),
            hex(bytes)
        )
        .unwrap();
    }
    Err(format!("{call}\n{different}"))
}

/// What the sheet calls are lent: the sheet, the marks, the record, the places and their records, the claim, the list
/// of old places and the output.
fn lend(given: &Given) -> [Lent; 8] {
    let places = given.places.iter().map(|place| place.to_ne_bytes());
    let list = given.list.iter().map(|place| place.to_ne_bytes());
    [
        Lent::new(&given.sheet),
        Lent::words(&given.marks),
        Lent::new(&given.record),
        Lent::elements(places.collect()),
        Lent::new(&given.records),
        Lent::new(&given.claim),
        Lent::elements(list.collect()),
        Lent::new(&given.out),
    ]
}

/// The archive's answer, and what was lent as it left it.
fn archive(call: Call, given: &Given) -> (Answer, [Lent; 8]) {
    let mut lent = lend(given);
    let [sheet, marks, record, places, records, claim, list, out] =
        lent.each_mut().map(Lent::pointer);
    let (code, n) = (given.code, given.n);
    let sheet_len = given.sheet.len();
    let (marks, marks_len) = (marks.cast(), given.marks.len());
    let record_len = given.record.len();
    let (places, places_len) = (places.cast(), given.places.len());
    let records_len = given.records.len();
    let claim_len = given.claim.len();
    let (list, list_len) = (list.cast(), given.list.len());
    let out_len = given.out.len();
    #[rustfmt::skip]
    let answer = unsafe {
        match call {
            Call::Build => luffa_sheet_build(
                code, sheet, sheet_len, n, marks, marks_len, out, out_len,
            ),
            Call::Change => luffa_sheet_change(
                code, sheet, sheet_len, n, marks, marks_len, given.place, record, record_len,
                claim, claim_len, out, out_len,
            ),
            Call::Batch => luffa_sheet_batch(
                code, sheet, sheet_len, n, marks, marks_len, places, places_len, records,
                records_len, claim, claim_len, out, out_len,
            ),
            Call::Append => luffa_sheet_append(
                code, sheet, sheet_len, n, marks, marks_len, record, record_len, claim, claim_len,
                out, out_len,
            ),
            Call::Drop => luffa_sheet_drop(
                code, sheet, sheet_len, n, marks, marks_len, claim, claim_len, out, out_len,
            ),
            Call::CloseUp => luffa_sheet_close_up(
                code, sheet, sheet_len, n, marks, marks_len, claim, claim_len, list, list_len, out,
                out_len,
            ),
        }
    };
    (answer, lent)
}

/// A call that the archive makes alone, and what it left.
pub fn alone(call: Call, given: &mut Given) -> Answer {
    let (answer, [sheet, marks, .., list, out]) = archive(call, given);
    given.sheet = sheet.inside().to_vec();
    let words = marks.inside().as_chunks().0.iter();
    given.marks = words.map(|&word| u32::from_ne_bytes(word)).collect();
    let places = list.inside().as_chunks().0.iter();
    given.list = places.map(|&place| u16::from_ne_bytes(place)).collect();
    given.out = out.inside().to_vec();
    answer
}

// Each function below leaves in the buffers what both sides left there.

pub fn sheet(call: Call, given: &mut Given) -> Result<Answer, String> {
    let before = lend(given);
    let (code, n, place) = (given.code, given.n, given.place);
    let (got, lent) = archive(call, given);
    let want = sheet_model::answer(call, given);
    let after = lend(given);
    let what = format!(
        "{call:?} at code {code}, n = {n}, place {place}: buffer 0 the sheet, 1 the marks, 2 the record, \
         3 the places, 4 their records, 5 the claim, 6 the list of old places, 7 the output"
    );
    agree_lent(&what, &before, got, want, lent, &after)
}

/// Compares numbers and all that was lent, as it was, as the archive left it and as the model did.
fn agree_lent<T: PartialEq + Debug, const N: usize>(
    call: &str,
    before: &[Lent; N],
    got: T,
    want: T,
    lent: [Lent; N],
    after: &[Lent; N],
) -> Result<T, String> {
    let inside = after.each_ref().map(Lent::inside);
    let left: Vec<(Lent, &[u8])> = lent.into_iter().zip(inside).collect();
    agree(call, &before.each_ref().map(Lent::inside), got, want, &left)
}

/// What the saves with own marks are lent: the sheet, the marks, the record, the claim, the planner's marks and the
/// output.
fn lend_own(given: &Given, own: &Own) -> [Lent; 6] {
    [
        Lent::new(&given.sheet),
        Lent::words(&given.marks),
        Lent::new(&given.record),
        Lent::new(&given.claim),
        Lent::words(&own.marks),
        Lent::new(&given.out),
    ]
}

/// The archive's answer to a save with own marks, and what was lent as it left it.
fn archive_own(call: Call, given: &Given, own: &Own) -> (OwnAnswer, [Lent; 6]) {
    let mut lent = lend_own(given, own);
    let [sheet, marks, record, claim, owns, out] = lent.each_mut().map(Lent::pointer);
    let (code, n, own_n) = (given.code, given.n, own.n);
    let sheet_len = given.sheet.len();
    let (marks, marks_len) = (marks.cast(), given.marks.len());
    let record_len = given.record.len();
    let claim_len = given.claim.len();
    let (own, own_len) = (owns.cast(), own.marks.len());
    let out_len = given.out.len();
    #[rustfmt::skip]
    let answer = unsafe {
        match call {
            Call::Change => luffa_sheet_change_own(
                code, sheet, sheet_len, n, marks, marks_len, given.place, record, record_len,
                claim, claim_len, own_n, own, own_len, out, out_len,
            ),
            Call::Append => luffa_sheet_append_own(
                code, sheet, sheet_len, n, marks, marks_len, record, record_len, claim, claim_len,
                own_n, own, own_len, out, out_len,
            ),
            Call::Drop => luffa_sheet_drop_own(
                code, sheet, sheet_len, n, marks, marks_len, claim, claim_len, own_n, own, own_len,
                out, out_len,
            ),
            Call::Build | Call::Batch | Call::CloseUp => panic!("{call:?} has no form with own marks"),
        }
    };
    (answer, lent)
}

/// A save with the planner's own marks, which stay as they were.
pub fn own(call: Call, given: &mut Given, own: &Own) -> Result<OwnAnswer, String> {
    let before = lend_own(given, own);
    let (code, n, place, own_n) = (given.code, given.n, given.place, own.n);
    let (got, lent) = archive_own(call, given, own);
    let want = own_model::answer(call, given, own);
    let after = lend_own(given, own);
    let what = format!(
        "{call:?} with own marks at code {code}, n = {n}, place {place}, own n = {own_n}: buffer 0 the sheet, \
         1 the marks, 2 the record, 3 the claim, 4 the own marks, 5 the output"
    );
    agree_lent(&what, &before, got, want, lent, &after)
}

pub fn mend(given: &mut Mending) -> Result<MendAnswer, String> {
    let before = given.clone();
    let want = given.answer();
    let (mut s, mut m) = (Lent::new(&before.sheet), Lent::words(&before.marks));
    let (code, n) = (before.code, before.n);
    let (sheet, sheet_len) = (s.pointer(), before.sheet.len());
    let (marks, marks_len) = (m.pointer().cast(), before.marks.len());
    let got = unsafe { luffa_sheet_mend(code, sheet, sheet_len, n, marks, marks_len) };
    let [held, left] = [&before.marks, &given.marks].map(|words| Lent::words(words));
    agree(
        &format!("luffa_sheet_mend at code {code}, n = {n}: buffer 0 the sheet, 1 the marks"),
        &[&before.sheet, held.inside()],
        got,
        want,
        &[(s, &before.sheet), (m, left.inside())],
    )
}

pub fn plan(sheet: &[u8], n: usize) -> Result<ContentAnswer, String> {
    let want = plan_model::answer(sheet, n);
    let mut s = Lent::new(sheet);
    let got = unsafe { luffa_plan_check(s.pointer(), sheet.len(), n) };
    let call = format!("luffa_plan_check of {n} records: buffer 0 the sheet");
    agree(&call, &[sheet], got, want, &[(s, sheet)])
}

/// The net is that of the sheet's first n records.
pub fn reach(given: &mut Search, net: &Net) -> Result<u32, String> {
    let before = given.clone();
    let want = given.answer(net);
    let (mut s, mut r) = (Lent::new(&before.sheet), Lent::new(&before.reached));
    let Search { n, well, hops, .. } = before;
    let (sheet, sheet_len) = (s.pointer(), before.sheet.len());
    let (reached, reached_len) = (r.pointer(), before.reached.len());
    let got = unsafe { luffa_plan_reach(sheet, sheet_len, n, well, hops, reached, reached_len) };
    let call = format!("luffa_plan_reach of {n} records, well {well}, {hops} hops");
    agree(
        &(call + ": buffer 0 the sheet, 1 the marks"),
        &[&before.sheet, &before.reached],
        got,
        want,
        &[(s, &before.sheet), (r, &given.reached)],
    )
}

pub fn brine(batch: &mut Batch) -> Result<BrineAnswer, String> {
    let lend = |batch: &Batch| {
        let counts = batch.counts.iter().map(|count| count.to_ne_bytes());
        let intake = batch.intake.iter().map(|figure| figure.to_ne_bytes());
        let spare = batch.spare.iter().map(|figure| figure.to_ne_bytes());
        [
            Lent::new(&batch.sheets),
            Lent::elements(counts.collect()),
            Lent::elements(intake.collect()),
            Lent::elements(spare.collect()),
        ]
    };
    let before = lend(batch);
    let [mut s, mut c, mut i, mut p] = lend(batch);
    let got = unsafe {
        luffa_plan_brine(
            s.pointer(),
            batch.sheets.len(),
            c.pointer().cast(),
            batch.counts.len(),
            i.pointer().cast(),
            batch.intake.len(),
            p.pointer().cast(),
            batch.spare.len(),
        )
    };
    let want = brine_model::answer(batch);
    let after = lend(batch);
    let [sheets, counts, intake, spare] = after.each_ref().map(Lent::inside);
    agree(
        "luffa_plan_brine: buffer 0 the sheets, 1 the counts, 2 the intake, 3 the spare",
        &before.each_ref().map(Lent::inside),
        got,
        want,
        &[(s, sheets), (c, counts), (i, intake), (p, spare)],
    )
}
