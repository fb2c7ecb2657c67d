//! The calls over a message, made by the archive and judged by the model: with odd bits and, where there
//! are none, by the call without `_bits` too; over a record, and over the struct that holds the same.

use crate::calls::{agree, Lent};
use crate::hash_kinds;
use crate::met::Met;
use crate::model::{self, Hash, RECORD};
use crate::Agreed;

extern "C" {
    fn luffa_digest(
        code: usize,
        message: *const u8,
        message_len: usize,
        out: *mut u8,
        out_len: usize,
    ) -> u32;
    fn luffa_digest_bits(
        code: usize,
        message: *const u8,
        message_len: usize,
        odd: usize,
        out: *mut u8,
        out_len: usize,
    ) -> u32;
    fn luffa_start(code: usize, record: *mut u8, record_len: usize) -> u32;
    fn luffa_feed(record: *mut u8, record_len: usize, piece: *const u8, piece_len: usize) -> u32;
    fn luffa_feed_bits(
        record: *mut u8,
        record_len: usize,
        piece: *const u8,
        piece_len: usize,
        odd: usize,
    ) -> u32;
    fn luffa_finish(record: *const u8, record_len: usize, out: *mut u8, out_len: usize) -> u32;
    fn luffa_hash_start(code: usize, hash: *mut Hash) -> u32;
    fn luffa_hash_feed(hash: *mut Hash, piece: *const u8, piece_len: usize) -> u32;
    fn luffa_hash_feed_bits(hash: *mut Hash, piece: *const u8, piece_len: usize, odd: usize)
        -> u32;
    fn luffa_hash_finish(hash: *const Hash, out: *mut u8, out_len: usize) -> u32;
}

/// The struct's memory, which has no bytes between the fields, in numbers of 64 bits.
const NUMBERS: usize = size_of::<Hash>() / 8;

pub fn lend(hash: &Hash) -> Lent {
    let numbers: [[u8; 8]; NUMBERS] = unsafe { std::mem::transmute(*hash) };
    Lent::elements(numbers.to_vec())
}

/// The number that is given where these refusals hold.
fn first(hold: &[u64]) -> u32 {
    hold.first().map_or(0, |number| *number as u32)
}

/// The calls that take these odd bits: that with `_bits`, and where there are none the other.
pub fn forms(odd: usize) -> &'static [bool] {
    if odd == 0 {
        &[true, false]
    } else {
        &[true]
    }
}

// Each function below leaves in the buffers what both sides left there.

pub fn digest(code: usize, message: &[u8], odd: usize, out: &mut [u8], met: &mut Met) -> Agreed {
    let before = out.to_vec();
    let hold = model::digest_refusals(code, message, odd, out);
    if hold.is_empty() {
        let digest = Hash::start(code).feed(message, odd).finish();
        out[..digest.len()].copy_from_slice(&digest);
    }
    hash_kinds::see_digest(met, message, odd, &hold);
    for bits in forms(odd) {
        let (mut m, mut o) = (Lent::new(message), Lent::new(&before));
        let (from, to) = (m.pointer(), o.pointer());
        let (n, room) = (message.len(), before.len());
        let got = match bits {
            true => unsafe { luffa_digest_bits(code, from, n, odd, to, room) },
            false => unsafe { luffa_digest(code, from, n, to, room) },
        };
        let what = if *bits { "_bits" } else { "" };
        agree(
            &format!(
                "luffa_digest{what} at code {code}, odd {odd}: buffer 0 the message, 1 the output"
            ),
            &[message, &before],
            got,
            first(&hold),
            &[(m, message), (o, out)],
        )?;
    }
    Ok(())
}

pub fn start(code: usize, record: &mut [u8], met: &mut Met) -> Agreed {
    let before = record.to_vec();
    let hold = model::start_refusals(code, record.len());
    met.see_answer("start", first(&hold).into(), &hold);
    if hold.is_empty() {
        record.copy_from_slice(&model::write(&Hash::start(code)));
    }
    let mut r = Lent::new(&before);
    let got = unsafe { luffa_start(code, r.pointer(), before.len()) };
    let call = format!("luffa_start at code {code}: buffer 0 the record");
    agree(&call, &[&before], got, first(&hold), &[(r, record)]).map(drop)
}

pub fn hash_start(code: usize, hash: &mut Hash, met: &mut Met) -> Agreed {
    let before = lend(hash);
    let mut h = lend(hash);
    // A struct has no length that could be wrong.
    let hold = model::start_refusals(code, RECORD);
    met.see_answer("lent start", first(&hold).into(), &hold);
    if hold.is_empty() {
        *hash = Hash::start(code);
    }
    let got = unsafe { luffa_hash_start(code, h.pointer().cast()) };
    let call = format!("luffa_hash_start at code {code}: buffer 0 the struct");
    let after = lend(hash);
    agree(
        &call,
        &[before.inside()],
        got,
        first(&hold),
        &[(h, after.inside())],
    )
    .map(drop)
}

/// Over a record, and over the struct that holds the same, if one can.
pub fn feed(record: &mut [u8], piece: &[u8], odd: usize, met: &mut Met) -> Agreed {
    let before = record.to_vec();
    let hash = model::read(record);
    let hold = model::feed_refusals(hash.as_ref(), piece, odd);
    hash_kinds::see_feed(met, "feed", hash.as_ref(), piece, odd, &hold);
    if let Some(mut hash) = hash {
        hash_feed(&mut hash, piece, odd, met)?;
        record.copy_from_slice(&model::write(&hash));
    }
    for bits in forms(odd) {
        let (mut r, mut p) = (Lent::new(&before), Lent::new(piece));
        let (to, n, from) = (r.pointer(), before.len(), p.pointer());
        let got = match bits {
            true => unsafe { luffa_feed_bits(to, n, from, piece.len(), odd) },
            false => unsafe { luffa_feed(to, n, from, piece.len()) },
        };
        let what = if *bits { "_bits" } else { "" };
        agree(
            &format!("luffa_feed{what}, odd {odd}: buffer 0 the record, 1 the piece"),
            &[&before, piece],
            got,
            first(&hold),
            &[(r, record), (p, piece)],
        )?;
    }
    Ok(())
}

/// Feeding that the archive does alone, and the record that it leaves.
pub fn feed_alone(record: &mut Vec<u8>, piece: &[u8]) -> u32 {
    let (mut r, mut p) = (Lent::new(record), Lent::new(piece));
    let number = unsafe { luffa_feed(r.pointer(), record.len(), p.pointer(), piece.len()) };
    *record = r.inside().to_vec();
    number
}

/// The record of a message that the archive starts and feeds alone, as one piece.
pub fn fed_alone(code: usize, message: &[u8]) -> Vec<u8> {
    let mut record = vec![0; RECORD];
    let number = unsafe { luffa_start(code, record.as_mut_ptr(), RECORD) };
    assert_eq!((number, feed_alone(&mut record, message)), (0, 0));
    record
}

pub fn hash_feed(hash: &mut Hash, piece: &[u8], odd: usize, met: &mut Met) -> Agreed {
    let before = *hash;
    let hold = model::feed_refusals(Some(hash), piece, odd);
    hash_kinds::see_feed(met, "lent feed", Some(hash), piece, odd, &hold);
    if hold.is_empty() {
        *hash = hash.feed(piece, odd);
    }
    for bits in forms(odd) {
        let (mut h, mut p) = (lend(&before), Lent::new(piece));
        let (to, from) = (h.pointer().cast(), p.pointer());
        let got = match bits {
            true => unsafe { luffa_hash_feed_bits(to, from, piece.len(), odd) },
            false => unsafe { luffa_hash_feed(to, from, piece.len()) },
        };
        let what = if *bits { "_bits" } else { "" };
        agree(
            &format!("luffa_hash_feed{what}, odd {odd}: buffer 0 the struct, 1 the piece"),
            &[lend(&before).inside(), piece],
            got,
            first(&hold),
            &[(h, lend(hash).inside()), (p, piece)],
        )?;
    }
    Ok(())
}

/// Over a record, and over the struct too.
pub fn finish(record: &[u8], out: &mut [u8], met: &mut Met) -> Agreed {
    let before = out.to_vec();
    let hash = model::read(record);
    let hold = model::finish_refusals(hash.as_ref(), out);
    hash_kinds::see_finish(met, "finish", hash.as_ref(), &hold);
    if let Some(hash) = &hash {
        hash_finish(hash, out, met)?;
    }
    let (mut r, mut o) = (Lent::new(record), Lent::new(&before));
    let got = unsafe { luffa_finish(r.pointer(), record.len(), o.pointer(), before.len()) };
    agree(
        "luffa_finish: buffer 0 the record, 1 the output",
        &[record, &before],
        got,
        first(&hold),
        &[(r, record), (o, out)],
    )
    .map(drop)
}

pub fn hash_finish(hash: &Hash, out: &mut [u8], met: &mut Met) -> Agreed {
    let before = out.to_vec();
    let hold = model::finish_refusals(Some(hash), out);
    hash_kinds::see_finish(met, "lent finish", Some(hash), &hold);
    if hold.is_empty() {
        let digest = hash.finish();
        out[..digest.len()].copy_from_slice(&digest);
    }
    let (mut h, mut o) = (lend(hash), Lent::new(&before));
    let got = unsafe { luffa_hash_finish(h.pointer().cast(), o.pointer(), before.len()) };
    let lent = lend(hash);
    agree(
        "luffa_hash_finish: buffer 0 the struct, 1 the output",
        &[lent.inside(), &before],
        got,
        first(&hold),
        &[(h, lent.inside()), (o, out)],
    )
    .map(drop)
}
