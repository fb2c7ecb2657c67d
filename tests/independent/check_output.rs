//! The check of longer output: the digests as uses of it, shorter output as the beginning of longer,
//! its rounds by document 02's count, every Z by rounds over zero bytes and the words they leave, and the
//! refusals worked out by hand.

use crate::bits::{bits_of, BitLuffa};
use crate::check::{fed, message, Numbers, Report, ABC};
use crate::luffa::{self, Luffa, CODES};
use crate::output::{of_message, of_record, output, Asked, Output, MOST_WORDS};

pub fn differences(report: &mut Report, numbers: &mut Numbers) {
    digests(report, numbers);
    beginnings(report, numbers);
    every_z(report, numbers);
    refusals(report);
    refused(report);
}

/// The output of a hash with its last block taken, where nothing is refused.
fn words_of(padded: &Luffa, words: usize) -> Output {
    let asked = Asked {
        words,
        room: 4 * words,
    };
    output(&[], asked, || padded.clone())
}

/// The padded hash of the first n bits.
fn bit_hash(w: usize, bytes: &[u8], n: usize) -> Luffa {
    let mut hash = BitLuffa::new(w);
    hash.update(bits_of(bytes).take(n));
    hash.padded()
}

/// The four digests, with document 01's F.
fn digests(report: &mut Report, numbers: &mut Numbers) {
    let of = |code: usize, bytes: &[u8], words, f| {
        let got = words_of(&fed(CODES[code - 1].0, [bytes]).padded(), words);
        let digest = luffa::digest(code, bytes);
        let wanted = Output {
            number: 0,
            rounds: f,
            words: digest,
        };
        (got, wanted)
    };
    let bytes = message(numbers, 100);
    for (code, words, f) in [(1, 7, 1), (2, 8, 1), (3, 12, 2), (4, 16, 2)] {
        for n in 0..=bytes.len() {
            let (got, wanted) = of(code, &bytes[..n], words, f);
            let what = || format!("{words} words of {n} bytes at code {code}");
            report.same(what, got, wanted);
        }
        let (got, _) = of(code, b"abc", words, f);
        let what = || format!("{words} words of abc at code {code}");
        report.same(what, &got.words[..], ABC[code - 1]);
    }
}

/// Lengths in bits, at the edges of bytes and of blocks.
const LENGTHS: [usize; 12] = [0, 1, 7, 8, 9, 248, 255, 256, 257, 300, 511, 512];

/// At one code fewer words begin more of them, and at codes 1 and 2 they are the same. The rounds are
/// the words divided by eight, rounded up, as document 02 has them.
fn beginnings(report: &mut Report, numbers: &mut Numbers) {
    let bytes = message(numbers, 64);
    for n in LENGTHS {
        let mut of_256 = vec![];
        for (code, (w, _)) in (1..).zip(CODES) {
            let padded = bit_hash(w, &bytes, n);
            let longest = words_of(&padded, MOST_WORDS).words;
            for words in 1..=MOST_WORDS {
                let got = words_of(&padded, words);
                let what = || format!("{words} words of {n} bits at code {code}");
                report.same(what, &got.words[..], &longest[..words]);
                let eighths = (1..).find(|rounds| 8 * rounds >= words).unwrap();
                report.same(|| what() + ", rounds", got.rounds, eighths as u64);
            }
            match code {
                1 => of_256 = longest,
                2 => report.same(
                    || format!("{n} bits at codes 1 and 2"),
                    longest,
                    of_256.clone(),
                ),
                _ => (),
            }
        }
    }
}

/// Z_i by another route (3.3): a blank round is one with a message block of zeros. So the message is
/// padded by hand, i + 1 such blocks are appended, all of it is fed as bytes, and the words of the state
/// are added up, block upon block. No final stage is run.
fn every_z(report: &mut Report, numbers: &mut Numbers) {
    let bytes = message(numbers, 64);
    for n in LENGTHS {
        let mut padded = bytes[..n / 8].to_vec();
        padded.push(match n % 8 {
            0 => 0x80,
            odd => bytes[n / 8] & !(0xff >> odd) | 0x80 >> odd,
        });
        padded.resize(32 * (n / 256 + 1), 0);
        for (code, (w, _)) in (1..).zip(CODES) {
            let longest = words_of(&bit_hash(w, &bytes, n), MOST_WORDS).words;
            for i in 0..MOST_WORDS / 8 {
                let zeros = vec![0; 32 * (i + 1)];
                let state = fed(w, [&padded[..], &zeros]).state();
                let z =
                    [0, 1, 2, 3, 4, 5, 6, 7].map(|k| (0..w).fold(0, |z, j| z ^ state[8 * j + k]));
                let what = || format!("Z_{i} of {n} bits at code {code}");
                report.same(what, &longest[8 * i..][..8], &z[..]);
            }
        }
    }
}

/// Each refusal at its edge, and which hold together; products of over 64 bits are judged whole.
fn refusals(report: &mut Report) {
    let most = usize::MAX;
    let (whole, wraps) = (1 << 61, 1 << 62);
    // Code, words, room, message bytes, odd bits.
    let cases: [([usize; 5], &[u64]); 38] = [
        ([1, 1, 4, 0, 0], &[]),
        ([4, 64, 256, 9, 7], &[]),
        ([4, 64, most, 1, 1], &[]),
        ([0, 1, 4, 0, 0], &[1]),
        ([5, 64, 256, 0, 0], &[1]),
        ([(1 << 32) + 1, 1, 4, 0, 0], &[1]),
        ([1, 0, 0, 0, 0], &[12]),
        ([1, 0, most, 0, 0], &[12]),
        ([1, 65, 260, 0, 0], &[12]),
        ([1, 257, most, 0, 0], &[12]),
        ([1, (1 << 32) + 1, most, 0, 0], &[12]),
        ([1, 65, 259, 0, 0], &[12, 2]),
        ([1, (1 << 32) + 1, 4, 0, 0], &[12, 2]),
        ([1, wraps - 1, most, 0, 0], &[12]),
        ([1, wraps, most, 0, 0], &[12, 2]),
        ([1, wraps, 0, 0, 0], &[12, 2]),
        ([1, most, most, 0, 0], &[12, 2]),
        ([1, 1, 3, 0, 0], &[2]),
        ([1, 1, 0, 0, 0], &[2]),
        ([2, 64, 255, 0, 0], &[2]),
        ([3, 1, 4, 0, 1], &[17]),
        ([3, 1, 4, 1, 8], &[17]),
        ([3, 1, 4, 1, 256 + 1], &[17]),
        ([3, 1, 4, 0, most], &[17]),
        ([1, 1, 4, whole - 1, 0], &[]),
        ([1, 1, 4, whole, 0], &[4]),
        ([2, 1, 4, whole, 7], &[]),
        ([2, 1, 4, whole + 1, 1], &[4]),
        ([2, 1, 4, most, 0], &[4]),
        ([3, 1, 4, most, 0], &[]),
        ([4, 1, 4, most, 7], &[]),
        ([1, 1, 4, most, 8], &[17, 4]),
        ([1, 1, 3, most, 8], &[2, 17, 4]),
        ([1, 65, 259, most, 8], &[12, 2, 17, 4]),
        ([0, 65, 259, 0, 1], &[1, 12, 2, 17]),
        ([0, 65, 259, most, 8], &[1, 12, 2, 17]),
        ([5, 0, 0, 0, 7], &[1, 12, 17]),
        ([5, 2, 7, 0, 0], &[1, 2]),
    ];
    for ([code, words, room, bytes, odd], wanted) in cases {
        let asked = Asked { words, room };
        let what = || format!("{asked:?} of {bytes} bytes, odd {odd}, at code {code}");
        let got = of_message(code, asked, bytes, odd);
        report.same(what, &got[..], wanted);
    }
    // Words, room, and what is refused out of a record that isn't well formed; out of one that is, all
    // but 3.
    let cases: [([usize; 2], &[u64]); 9] = [
        ([1, 4], &[3]),
        ([64, 257], &[3]),
        ([1, 3], &[3, 2]),
        ([64, 255], &[3, 2]),
        ([0, 0], &[12, 3]),
        ([65, 260], &[12, 3]),
        ([65, 259], &[12, 3, 2]),
        ([wraps + 1, 4], &[12, 3, 2]),
        ([most, most], &[12, 3, 2]),
    ];
    for ([words, room], malformed) in cases {
        let asked = Asked { words, room };
        let sound: Vec<u64> = malformed.iter().copied().filter(|&n| n != 3).collect();
        for (well_formed, wanted) in [(false, malformed), (true, &sound[..])] {
            let what = || format!("{asked:?} of a record, well formed: {well_formed}");
            report.same(what, &of_record(well_formed, asked)[..], wanted);
        }
    }
}

/// A refused answer has the first number, no rounds and no words, and nothing is hashed for it.
fn refused(report: &mut Report) {
    let asked = Asked { words: 8, room: 32 };
    for hold in [&[1, 12, 2, 17][..], &[12, 3, 2], &[3, 2], &[2], &[4]] {
        let got = output(hold, asked, || panic!("a refused message is hashed"));
        let wanted = Output {
            number: hold[0],
            rounds: 0,
            words: vec![],
        };
        report.same(|| format!("the answer where {hold:?} hold"), got, wanted);
    }
}
