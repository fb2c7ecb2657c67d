//! The step back over a block, made by the archive and judged by the separately written program: the number answered,
//! the record and the block, with the bytes around them.

use crate::back;
use crate::back_kinds;
use crate::back_model::refusals;
use crate::calls::{agree, Lent};
use crate::met::Met;
use crate::model::read;

extern "C" {
    fn luffa_back(record: *mut u8, record_len: usize, block: *const u8, block_len: usize) -> u32;
}

/// Leaves in the record what both sides left there, and answers the number.
pub fn back(record: &mut [u8], block: &[u8], met: &mut Met) -> Result<u32, String> {
    let before = record.to_vec();
    let hash = read(&before);
    let hold = refusals(hash.as_ref(), block);
    let want = match back::back(&before, block) {
        Ok(earlier) => {
            record.copy_from_slice(&earlier);
            0
        }
        Err(number) => number,
    };
    // Which records are well formed is judged twice, by the fields and by what is read and written again.
    if hold.first().copied().unwrap_or(0) != want {
        return Err(format!(
            "back: {hold:?} hold by the fields, and not {want}\n"
        ));
    }
    back_kinds::see(met, hash.as_ref(), block, &hold, record);
    let (mut r, mut b) = (Lent::new(&before), Lent::new(block));
    let got = unsafe { luffa_back(r.pointer(), before.len(), b.pointer(), block.len()) };
    agree(
        "luffa_back: buffer 0 the record, 1 the block",
        &[&before, block],
        got,
        want as u32,
        &[(r, record), (b, block)],
    )
}
