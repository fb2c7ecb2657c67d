//! The order of the refusals of a search for who depends on a well: each alone and with every set of the others.

use super::tests::{along, line, number, place};
use crate::ffi;
use crate::order::{MAX, WIDE, Way, every_set};
use crate::plan::rules::injector;

/// A call, with all that it is lent.
#[derive(Clone)]
pub struct Call {
    pub sheet: Vec<u8>,
    pub n: usize,
    pub well: usize,
    pub hops: usize,
    pub reached: Vec<u8>,
    /// What is reached, if the call isn't refused.
    pub marks: Vec<u8>,
}

impl Call {
    /// From the p-th well of a line of n, with nothing wrong. Behind the line stand a sound well, which is no
    /// part of it, and zeros; what is lent for the answer is thrice as long, and has marks in it already.
    pub fn new(n: usize, p: usize, hops: usize) -> Call {
        Call {
            sheet: [line(n).concat(), injector(64).to_vec(), vec![0; 50]].concat(),
            n,
            well: number(p).into(),
            hops,
            reached: [1, 0xa5, 0].repeat(n),
            marks: along(n, p, hops),
        }
    }

    /// Where refused, nothing is written.
    #[track_caller]
    pub fn answers(mut self, number: u64) {
        let mut wanted = self.reached.clone();
        let answer = ffi::plan_reach(&self.sheet, self.n, self.well, self.hops, &mut self.reached);
        let told = answer.map_or_else(|refused| refused.number(), |()| 0);
        assert_eq!(u64::from(told), number);
        if number == 0 {
            wanted[..self.n].copy_from_slice(&self.marks);
        }
        assert_eq!(self.reached, wanted);
    }
}

/// The order in which they are judged.
const ORDER: [u64; 5] = [5, 19, 20, 21, 22];

/// Ways to meet each.
const WAYS: [(u64, &[Way<Call>]); 5] = [
    (
        22,
        &[
            |c| c.reached.clear(),
            |c| c.reached.truncate(c.n - 1),
            |c| c.reached.truncate(c.n / 2),
        ],
    ),
    (
        21,
        &[
            |c| c.well = 0,
            |c| c.well = 1,
            // That of the well behind the line.
            |c| c.well = 64,
            |c| c.well = usize::from((c.well as u16).swap_bytes()),
            |c| c.well += 1 << 16,
            |c| c.well += WIDE,
            |c| c.well += 1 << 63,
            |c| c.well = MAX,
        ],
    ),
    (
        20,
        // Each rule, in a record at the beginning or the end, or in the first producer of the line.
        &[
            |c| c.sheet[..2].fill(0),
            |c| c.sheet[40 * c.n - 38] = 3,
            |c| c.sheet[3] = 5,
            |c| c.sheet[40 * c.n - 36] = 1,
            |c| c.sheet[40 * place(1, c.n) + 8] ^= 0x80,
            |c| c.sheet[40 * place(1, c.n) + 11] ^= 1,
            |c| c.sheet[23] = 1,
            |c| c.sheet.copy_within(..2, 40 * c.n - 40),
        ],
    ),
    (
        19,
        &[
            |c| c.hops = 4,
            |c| c.hops = 5,
            |c| c.hops += 1 << 8,
            |c| c.hops += 1 << 16,
            |c| c.hops += WIDE,
            |c| c.hops += 1 << 63,
            |c| c.hops = MAX,
        ],
    ),
    (
        5,
        &[
            |c| c.sheet.truncate(40 * c.n - 1),
            |c| c.sheet.clear(),
            |c| c.n = c.sheet.len() / 40 + 1,
            |c| {
                c.n = 1025;
                c.sheet.resize(41_000, 0);
            },
            |c| c.n += WIDE,
            // 40n is 0 and 24 modulo 2^64.
            |c| c.n = 1 << 61,
            |c| c.n = MAX / 40 + 1,
            |c| c.n = MAX,
        ],
    ),
];

#[test]
fn every_set_of_refusals() {
    let calls = [(5, 2, 0), (8, 7, 1), (9, 0, 2), (10, 4, 3), (17, 9, 3)];
    let calls = calls.map(|(n, p, hops)| Call::new(n, p, hops));
    every_set(&calls, &ORDER, &WAYS, Call::answers);
}
