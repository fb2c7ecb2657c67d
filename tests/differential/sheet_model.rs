//! The sheet calls by document 01's text, and many changes in one save and closing up by document 02's: from what is
//! lent to the answer and what the buffers then hold, refusals included. Marks are taken as they are found, true or
//! false.

use crate::luffa::{Luffa, CODES};
use crate::mend_model::Mending;
use crate::model::{bytes_of, digest_bytes, known};
use crate::sheet::{Lengths, MARK_WORDS, MOST, RECORD_BYTES};
use crate::{batch, close_up};

#[derive(Clone, Copy, Debug, PartialEq)]
pub enum Call {
    Build,
    Change,
    Batch,
    Append,
    Drop,
    CloseUp,
}

/// What a call is given and lent. A build uses no claim, only a change a place, only a batch places and their records,
/// and only closing up a list for the old places.
#[derive(Clone)]
pub struct Given {
    pub code: usize,
    pub sheet: Vec<u8>,
    pub n: usize,
    pub marks: Vec<u32>,
    pub place: usize,
    pub record: Vec<u8>,
    pub places: Vec<usize>,
    pub records: Vec<u8>,
    pub claim: Vec<u8>,
    pub list: Vec<u16>,
    pub out: Vec<u8>,
}

impl From<Mending> for Given {
    /// A sheet and its marks, with nothing else yet.
    fn from(held: Mending) -> Given {
        Given {
            code: held.code,
            sheet: held.sheet,
            n: held.n,
            marks: held.marks,
            place: 0,
            record: vec![],
            places: vec![],
            records: vec![],
            claim: vec![],
            list: vec![],
            out: vec![],
        }
    }
}

/// As C has it.
#[repr(C)]
#[derive(Clone, Copy, Debug, PartialEq)]
pub struct Answer {
    pub number: u64,
    pub count: u64,
    pub rounds: u64,
}

/// Bytes and words of a group, that is five message blocks.
const GROUP_BYTES: usize = 4 * RECORD_BYTES;

/// Whether buffers of these lengths are too small for n records: the sheet, and the marks. Wide
/// numbers, since n may be any.
fn too_small(given: &Given, n: u128) -> (bool, bool) {
    (
        (given.sheet.len() as u128) < 40 * n,
        (given.marks.len() as u128) < 40 * (n / 4 + 1),
    )
}

/// How much any save is lent.
fn lent(given: &Given) -> Lengths {
    Lengths {
        out: given.out.len(),
        sheet: given.sheet.len(),
        n: given.n,
        marks: given.marks.len(),
        claim: given.claim.len(),
    }
}

/// Every refusal that holds, in the call's order, but for 11, which is judged only where no other holds.
pub fn refusals(call: Call, given: &Given) -> Vec<u64> {
    use Call::*;
    let (code, records) = (given.code, given.records.len());
    match call {
        Batch => return batch::refusals(code, &given.places, records, lent(given)),
        CloseUp => return close_up::refusals(code, given.list.len(), lent(given)),
        _ => (),
    }
    let n = given.n as u128;
    let digest = known(given.code).then(|| digest_bytes(given.code));
    let (sheet, marks) = too_small(given, n);
    let (next_sheet, next_marks) = too_small(given, n + 1);
    let saves = call != Build;
    let judged = [
        (1, true, digest.is_none()),
        (2, true, digest.is_some_and(|d| given.out.len() < d)),
        (5, true, n > MOST as u128 || sheet),
        (6, true, marks),
        (7, call == Change, given.place >= given.n),
        (7, call == Drop, n == 0),
        (
            8,
            call == Append,
            n == MOST as u128 || next_sheet || next_marks,
        ),
        (
            9,
            call == Change || call == Append,
            given.record.len() != RECORD_BYTES,
        ),
        (10, saves, digest.is_some_and(|d| given.claim.len() != d)),
    ];
    let hold = judged
        .iter()
        .filter(|(_, applies, holds)| *applies && *holds);
    hold.map(|(number, ..)| *number).collect()
}

/// Works on from mark m, as found, to the end of n records. The marks after it are rewritten.
/// Answers the digest and the rounds run.
fn work(code: usize, sheet: &[u8], n: usize, marks: &mut [u32], m: usize) -> (Vec<u8>, u64) {
    let (w, count) = CODES[code - 1];
    let mut hash = Luffa::at(w, &marks[MARK_WORDS * m..MARK_WORDS * (m + 1)]);
    let rest = &sheet[GROUP_BYTES * m..RECORD_BYTES * n];
    let groups = rest.chunks_exact(GROUP_BYTES);
    let after = groups.remainder();
    for (mark, group) in marks[MARK_WORDS * (m + 1)..]
        .chunks_mut(MARK_WORDS)
        .zip(groups)
    {
        hash.update(group);
        mark.copy_from_slice(&hash.state());
    }
    hash.update(after);
    let last = hash.padded();
    let rounds = last.rounds;
    let (z, blank_rounds) = last.final_stage(count);
    (bytes_of(&z), rounds + blank_rounds)
}

/// The digest of the sheet held, from its last mark as found, and the rounds. Nothing is written.
pub fn held(given: &Given) -> (Vec<u8>, u64) {
    let mut none_written = given.marks.clone();
    work(
        given.code,
        &given.sheet,
        given.n,
        &mut none_written,
        given.n / 4,
    )
}

/// The call: `given` gets what its buffers then hold.
pub fn answer(call: Call, given: &mut Given) -> Answer {
    let refused = |number, rounds| Answer {
        number,
        count: given.n as u64,
        rounds,
    };
    if let Some(&first) = refusals(call, given).first() {
        return refused(first, 0);
    }
    let mut checked = (vec![], 0);
    if call != Call::Build {
        checked = held(given);
        if checked.0 != given.claim {
            return refused(11, checked.1);
        }
    }
    let (n, q) = (given.n, given.n / 4);
    let place = |i: usize| RECORD_BYTES * i..RECORD_BYTES * (i + 1);
    let mark = |m: usize| MARK_WORDS * m..MARK_WORDS * (m + 1);
    let (count, from) = match call {
        Call::Build => {
            let start = Luffa::new(CODES[given.code - 1].0);
            given.marks[mark(0)].copy_from_slice(&start.state());
            (n, Some(0))
        }
        Call::Change => {
            given.sheet[place(given.place)].copy_from_slice(&given.record);
            (n, Some(given.place / 4))
        }
        Call::Batch => {
            for (&i, record) in given.places.iter().zip(given.records.chunks(RECORD_BYTES)) {
                given.sheet[place(i)].copy_from_slice(record);
            }
            (n, given.places.first().map(|i| i / 4))
        }
        Call::Append => {
            given.sheet[place(n)].copy_from_slice(&given.record);
            (n + 1, Some(q))
        }
        Call::Drop => {
            given.sheet[place(n - 1)].fill(0);
            if n % 4 == 0 {
                given.marks[mark(q)].fill(0);
            }
            (n - 1, Some((n - 1) / 4))
        }
        Call::CloseUp => {
            let (mut count, mut first) = (0, n);
            for i in 0..n {
                if given.sheet[place(i)].iter().all(|&byte| byte == 0) {
                    first = first.min(i);
                    continue;
                }
                given.sheet.copy_within(place(i), RECORD_BYTES * count);
                given.list[count] = i as u16;
                count += 1;
            }
            given.sheet[RECORD_BYTES * count..RECORD_BYTES * n].fill(0);
            given.marks[mark(count / 4).end..mark(q).end].fill(0);
            (count, Some(first / 4))
        }
    };
    // An empty batch has the digest of the check, and nothing to work on from.
    let (digest, rounds) = match from {
        Some(m) => work(given.code, &given.sheet, count, &mut given.marks, m),
        None => (checked.0, 0),
    };
    given.out[..digest.len()].copy_from_slice(&digest);
    given.n = count;
    Answer {
        number: 0,
        count: count as u64,
        rounds: checked.1 + rounds,
    }
}
