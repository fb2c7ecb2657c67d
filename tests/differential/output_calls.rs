//! The calls for longer output, made by the archive and judged by the separately written program: of a
//! message, with odd bits and, where there are none, by the call without `_bits` too; out of a record, and
//! out of the struct that holds the same.

use crate::calls::{agree, Lent};
use crate::hash_calls::{forms, lend};
use crate::luffa::Luffa;
use crate::met::Met;
use crate::model::{self, bytes_of, Hash};
use crate::output::{self, of_message, of_record, Asked};
use crate::output_kinds;
use crate::Agreed;

/// As C has it.
#[repr(C)]
#[derive(Clone, Copy, Debug, PartialEq)]
pub struct OutputAnswer {
    pub number: u64,
    pub rounds: u64,
}

extern "C" {
    fn luffa_output(
        code: usize,
        words: usize,
        message: *const u8,
        message_len: usize,
        out: *mut u8,
        out_len: usize,
    ) -> OutputAnswer;
    fn luffa_output_bits(
        code: usize,
        words: usize,
        message: *const u8,
        message_len: usize,
        odd: usize,
        out: *mut u8,
        out_len: usize,
    ) -> OutputAnswer;
    fn luffa_finish_output(
        record: *const u8,
        record_len: usize,
        words: usize,
        out: *mut u8,
        out_len: usize,
    ) -> OutputAnswer;
    fn luffa_hash_finish_output(
        hash: *const Hash,
        words: usize,
        out: *mut u8,
        out_len: usize,
    ) -> OutputAnswer;
}

/// What must be answered where these refusals hold; `out` gets what it must hold then.
fn want(
    hold: &[u64],
    asked: Asked,
    padded: impl FnOnce() -> Luffa,
    out: &mut [u8],
) -> OutputAnswer {
    let output = output::output(hold, asked, padded);
    let bytes = bytes_of(&output.words);
    out[..bytes.len()].copy_from_slice(&bytes);
    let (number, rounds) = (output.number, output.rounds);
    OutputAnswer { number, rounds }
}

// Each function below leaves in the buffer what both sides left there.

pub fn output(
    code: usize,
    words: usize,
    message: &[u8],
    odd: usize,
    out: &mut [u8],
    met: &mut Met,
) -> Agreed {
    let before = out.to_vec();
    let (n, room) = (message.len(), before.len());
    let asked = Asked { words, room };
    let hold = of_message(code, asked, n, odd);
    output_kinds::see_message(met, code, asked, message, odd, &hold);
    let padded = || Hash::start(code).feed(message, odd).padded();
    let want = want(&hold, asked, padded, out);
    for bits in forms(odd) {
        let (mut m, mut o) = (Lent::new(message), Lent::new(&before));
        let (from, to) = (m.pointer(), o.pointer());
        let got = match bits {
            true => unsafe { luffa_output_bits(code, words, from, n, odd, to, room) },
            false => unsafe { luffa_output(code, words, from, n, to, room) },
        };
        let what = if *bits { "_bits" } else { "" };
        agree(
            &format!(
                "luffa_output{what} of {words} words at code {code}, odd {odd}: buffer 0 the message, \
                 1 the output"
            ),
            &[message, &before],
            got,
            want,
            &[(m, message), (o, out)],
        )?;
    }
    Ok(())
}

/// Out of a record, and out of the struct too.
pub fn finish_output(
    record: &[u8],
    words: usize,
    out: &mut [u8],
    met: &mut Met,
) -> Result<OutputAnswer, String> {
    let before = out.to_vec();
    let room = before.len();
    let asked = Asked { words, room };
    let hash = model::read(record);
    let hold = of_record(hash.is_some_and(|hash| hash.well_formed()), asked);
    output_kinds::see_finish(met, "finish output", hash.as_ref(), asked, &hold);
    let want = match &hash {
        Some(hash) => hash_finish_output(hash, words, out, met)?,
        None => want(
            &hold,
            asked,
            || unreachable!("a record without fields"),
            out,
        ),
    };
    let (mut r, mut o) = (Lent::new(record), Lent::new(&before));
    let (from, to) = (r.pointer(), o.pointer());
    let got = unsafe { luffa_finish_output(from, record.len(), words, to, room) };
    agree(
        &format!("luffa_finish_output of {words} words: buffer 0 the record, 1 the output"),
        &[record, &before],
        got,
        want,
        &[(r, record), (o, out)],
    )
}

pub fn hash_finish_output(
    hash: &Hash,
    words: usize,
    out: &mut [u8],
    met: &mut Met,
) -> Result<OutputAnswer, String> {
    let before = out.to_vec();
    let room = before.len();
    let asked = Asked { words, room };
    let hold = of_record(hash.well_formed(), asked);
    output_kinds::see_finish(met, "lent finish output", Some(hash), asked, &hold);
    let want = want(&hold, asked, || hash.padded(), out);
    let (mut h, mut o) = (lend(hash), Lent::new(&before));
    let (from, to) = (h.pointer().cast(), o.pointer());
    let got = unsafe { luffa_hash_finish_output(from, words, to, room) };
    let lent = lend(hash);
    agree(
        &format!("luffa_hash_finish_output of {words} words: buffer 0 the struct, 1 the output"),
        &[lent.inside(), &before],
        got,
        want,
        &[(h, lent.inside()), (o, out)],
    )
}
