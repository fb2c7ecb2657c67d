//! The check of the hash over bits: its padding written out on bytes, whole bytes as the hash over
//! bytes has them, its cuts, and Table 1's numbers as the Luffa specification 2.0.1 prints them.

use crate::bits::{allowed, bits_of, digest, BitLuffa};
use crate::check::{fed, message, Numbers, Report};
use crate::luffa::{self, CODES};
use std::collections::HashSet;

/// Lengths that reach into a third block.
const MOST: usize = 520;

pub fn differences(report: &mut Report, numbers: &mut Numbers) {
    let bytes = message(numbers, MOST / 8 + 1);
    padding(report, &bytes);
    cuts(report, &bytes);
    table_1(report);
}

/// The first n bits, with what 3.1 appends to them put in by hand, are whole blocks for the hash over
/// bytes; and where n is a multiple of 8, that hash pads them itself. Of so many zeros, no two numbers
/// have the same hash value.
fn padding(report: &mut Report, bytes: &[u8]) {
    for (code, (w, count)) in (1..).zip(CODES) {
        let mut of_zeros = HashSet::new();
        for n in 0..=MOST {
            let got = digest(code, bits_of(bytes).take(n));
            let mut padded = bytes[..n / 8].to_vec();
            padded.push(match n % 8 {
                0 => 0x80,
                odd => bytes[n / 8] >> (8 - odd) << (8 - odd) | 0x80 >> odd,
            });
            padded.resize(32 * (n / 256 + 1), 0);
            let wanted = fed(w, [&padded[..]]).final_stage(count).0;
            report.same(|| format!("{n} bits at code {code}"), &got, &wanted);
            if n % 8 == 0 {
                let wanted = luffa::digest(code, &bytes[..n / 8]);
                report.same(
                    || format!("{n} bits as bytes at code {code}"),
                    &got,
                    &wanted,
                );
            }
            let zeros = digest(code, std::iter::repeat_n(false, n));
            let other = of_zeros.insert(zeros);
            report.same(
                || format!("{n} zeros at code {code} unlike fewer"),
                other,
                true,
            );
        }
    }
}

/// One call against two pieces, cut at any bit.
fn cuts(report: &mut Report, bytes: &[u8]) {
    for (code, (w, count)) in (1..).zip(CODES) {
        let wanted = digest(code, bits_of(bytes).take(MOST));
        for cut in 0..=MOST {
            let mut hash = BitLuffa::new(w);
            hash.update(bits_of(bytes).take(cut));
            hash.update(bits_of(bytes).take(MOST).skip(cut));
            let what = || format!("{MOST} bits at code {code} cut at {cut}");
            report.same(what, &hash.finish(count), &wanted);
        }
    }
}

fn table_1(report: &mut Report) {
    let two_to_64: u128 = 18_446_744_073_709_551_616;
    for (code, most) in (1..).zip([two_to_64 - 1, two_to_64 - 1, u128::MAX, u128::MAX]) {
        let got = [most, most - 1, 0].map(|bits| allowed(code, Some(bits)));
        report.same(|| format!("bits allowed at code {code}"), got, [true; 3]);
        let over = allowed(code, most.checked_add(1));
        report.same(|| format!("bits not allowed at code {code}"), over, false);
    }
}
