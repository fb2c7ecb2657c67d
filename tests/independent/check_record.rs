//! The check of the kept hash record: its bytes laid out by hand, each byte that must be zero, the counts about Table 1's
//! limits, and cuts of a message in two records that must be one.

use crate::bits::bits_of;
use crate::check::{message, Numbers, Report};
use crate::luffa::CODES;
use crate::record::{Kept, RECORD};

pub fn differences(report: &mut Report, numbers: &mut Numbers) {
    laid_out(report, numbers);
    zeros(report);
    limits(report);
    cuts(report, numbers);
}

/// Any state, and any bits held, after so many whole bytes and odd bits.
pub fn any_kept(numbers: &mut Numbers, code: usize, count: u128, odd: usize) -> Kept {
    let words = 8 * CODES[code - 1].0;
    let held = 8 * (count % 32) as usize + odd;
    Kept {
        code,
        state: (0..words).map(|_| numbers.next()).collect(),
        held: (0..held).map(|_| numbers.next() & 1 == 1).collect(),
        bits: 8 * count + odd as u128,
    }
}

/// The bytes are where documents 01 and 02 have them, and are read as what was written.
fn laid_out(report: &mut Report, numbers: &mut Numbers) {
    for (code, (w, _)) in (1..).zip(CODES) {
        for (count, odd) in (0..70).flat_map(|count| (0..8).map(move |odd| (count, odd))) {
            let kept = any_kept(numbers, code, count, odd);
            let mut wanted = vec![code as u8, odd as u8, 0, 0, 0, 0, 0, 0];
            wanted.extend(kept.state.iter().flat_map(|word| word.to_be_bytes()));
            wanted.resize(168, 0);
            let (bytes, rest) = kept.held.as_chunks::<8>();
            let byte = |bits: &[bool]| bits.iter().fold(0, |byte, &bit| byte << 1 | bit as u8);
            wanted.extend(bytes.iter().map(|bits| byte(bits)));
            if odd > 0 {
                wanted.push(byte(rest) << (8 - odd));
            }
            wanted.resize(215, 0);
            wanted.push(count as u8);
            let what = || format!("a record of {count} bytes, odd {odd}, w = {w}");
            report.same(what, &kept.write(), &wanted);
            report.same(|| what() + ", read", Kept::read(&wanted), Some(kept));
        }
    }
}

/// A record all of whose words and bits are ones, with three pending bytes and five odd bits: which single bits can be
/// others, and which codes and odd bits.
fn zeros(report: &mut Report) {
    for (code, (w, _)) in (1..).zip(CODES) {
        let kept = Kept {
            code,
            state: vec![u32::MAX; 8 * w],
            held: vec![true; 29],
            bits: 8 * (64 + 3) + 5,
        };
        let sound = kept.write();
        let mut well_formed = |at: usize, byte: u8, wanted: bool| {
            let mut other = sound.clone();
            other[at] = byte;
            let what = || format!("byte {at} {byte} in a record at code {code}, well formed");
            report.same(what, Kept::read(&other).is_some(), wanted);
        };
        for byte in 0..=255 {
            // A narrower code has words set that it doesn't use; a wider one finds zeros in those that it does.
            let w_of = [0, 3, 3, 4, 5].get(usize::from(byte));
            well_formed(0, byte, w_of.is_some_and(|&other| other >= w));
            // With fewer odd bits a bit is set that isn't the message's.
            well_formed(1, byte, (5..=7).contains(&byte));
        }
        for (at, bit) in (2..200).flat_map(|at| (0..8).map(move |bit| (at, bit))) {
            let words = (8..8 + 32 * w).contains(&at);
            let pending = (168..171).contains(&at) || at == 171 && bit >= 3;
            well_formed(at, sound[at] ^ 1 << bit, words || pending);
        }
        for length in (0..=2 * RECORD).filter(|&length| length != RECORD) {
            let mut other = sound.clone();
            other.resize(length, 0);
            let what = || format!("{length} bytes at code {code}");
            report.same(what, Kept::read(&other), None);
        }
        // Version 1's: its count had 8 bytes.
        let mut other = Kept::start(code).write();
        other.drain(200..208);
        report.same(|| "version 1's".into(), Kept::read(&other), None);
    }
}

/// Counts and odd bits about Table 1's limits, which are of bits.
fn limits(report: &mut Report) {
    let most = [(1 << 61) - 1, (1 << 61) - 1, (1 << 125) - 1, (1 << 125) - 1];
    for (code, most) in (1..).zip(most) {
        let start = Kept::start(code).write();
        let mut well_formed = |count: u128, odd: u8, wanted: bool| {
            let mut record = start.clone();
            record[1] = odd;
            record[200..].copy_from_slice(&count.to_be_bytes());
            let what = || format!("{count} bytes, odd {odd}, at code {code}, well formed");
            report.same(what, Kept::read(&record).is_some(), wanted);
        };
        for odd in 0..=8 {
            for count in [0, 1, 32, most - 32, most - 31, most - 1, most] {
                well_formed(count, odd, odd < 8);
            }
            for count in [
                most + 1,
                most + 2,
                most + 32,
                2 * most + 2,
                1 << 127,
                u128::MAX,
            ] {
                well_formed(count, odd, false);
            }
        }
    }
}

/// A message cut at any bit and kept between its two pieces.
fn cuts(report: &mut Report, numbers: &mut Numbers) {
    let bytes = message(numbers, 70);
    for code in 1..=CODES.len() {
        let whole = Kept::start(code).feed(bits_of(&bytes));
        for cut in 0..=8 * bytes.len() {
            let first = Kept::start(code).feed(bits_of(&bytes).take(cut));
            let kept = Kept::read(&first.write());
            let both = kept.map(|kept| kept.feed(bits_of(&bytes).skip(cut)));
            let what = || format!("70 bytes at code {code}, kept after {cut} bits");
            report.same(what, both.as_ref(), Some(&whole));
        }
    }
}
