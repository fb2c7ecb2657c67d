//! The check of the columns: places and products worked out by hand, dumps against the columns in which the hash holds
//! its state, there and back, the injection against Appendix E on words and against the hash's own, and refusals.

use crate::back::{Inverses, BLOCK_BYTES};
use crate::check::{appendix_e, message, Numbers, Report, Words};
use crate::columns::*;
use crate::luffa::{matrix, Block, Tables, CODES};

pub fn differences(report: &mut Report, numbers: &mut Numbers) {
    places(report);
    single_bits(report);
    held_columns(report, numbers);
    message_places(report);
    products(report);
    coefficients(report);
    injections(report, numbers);
    judged(report);
}

/// A dump that is zero but for these bytes.
fn sparse(bytes: usize, set: &[(usize, u8)]) -> Vec<u8> {
    let mut dump = vec![0; bytes];
    set.iter().for_each(|&(at, byte)| dump[at] = byte);
    dump
}

/// Words that are zero but for one.
fn one_word(w: usize, i: usize, word: u32) -> Vec<u32> {
    let mut words = vec![0; BLOCK_WORDS * w];
    words[i] = word;
    words
}

/// Places of the request's sentence, by hand: w, the word and its value, and the bytes of the dump that aren't zero.
fn places(report: &mut Report) {
    let cases: [(usize, usize, u32, &[(usize, u8)]); 14] = [
        (3, 0, 1, &[(0, 1)]),
        (3, 1, 1, &[(0, 2)]),
        (3, 7, 1, &[(0, 0x80)]),
        (3, 8, 1, &[(1, 1)]),
        (3, 16, 1, &[(2, 1)]),
        (3, 0, 2, &[(3, 1)]),
        (3, 23, 0x8000_0000, &[(95, 0x80)]),
        (4, 0, 2, &[(4, 1)]),
        (4, 29, 0x0001_0100, &[(35, 0x20), (67, 0x20)]),
        (4, 31, 0x8000_0000, &[(127, 0x80)]),
        (5, 0, 0x8000_0000, &[(155, 1)]),
        (5, 32, 0x0000_0003, &[(4, 1), (9, 1)]),
        (5, 20, 0x4000_0001, &[(2, 0x10), (152, 0x10)]),
        (5, 39, 0x8000_0000, &[(159, 0x80)]),
    ];
    for (w, i, word, set) in cases {
        let (words, dump) = (one_word(w, i, word), sparse(32 * w, set));
        let what = || format!("word {i} = {word:x} at w = {w}");
        report.same(what, dump_of_words(&words), dump.clone());
        report.same(
            || what() + ", read back",
            words_of_dump(w, &dump),
            words.clone(),
        );
    }
}

/// Each bit of each word has a place of its own, and is found there again: no two states have one dump.
fn single_bits(report: &mut Report) {
    for w in 3..=5 {
        let mut all = vec![0; 32 * w];
        for (i, l) in (0..8 * w).flat_map(|i| (0..32).map(move |l| (i, l))) {
            let words = one_word(w, i, 1 << l);
            let dump = dump_of_words(&words);
            let what = |what: &str| format!("bit {l} of word {i} at w = {w}, {what}");
            let taken = all.iter().zip(&dump).any(|(a, b)| a & b != 0);
            let bits: u32 = dump.iter().map(|byte| byte.count_ones()).sum();
            report.same(|| what("in one place"), (bits, taken), (1, false));
            report.same(|| what("back"), words_of_dump(w, &dump), words);
            all.iter_mut().zip(&dump).for_each(|(a, b)| *a |= b);
        }
        report.same(|| format!("the places at w = {w}"), all, vec![0xff; 32 * w]);
    }
}

/// The blocks of any state, and a message block.
fn any(numbers: &mut Numbers, w: usize) -> (Vec<Words>, Vec<u8>) {
    let h = (0..w).map(|_| [(); 8].map(|_| numbers.next())).collect();
    (h, message(numbers, BLOCK_BYTES))
}

/// The columns in which the hash holds these blocks, put together by positions.
fn held(blocks: &[Block]) -> Vec<u8> {
    let columns: Vec<[u8; 32]> = blocks
        .iter()
        .map(|block| {
            let bytes = block.map(u64::to_le_bytes);
            bytes.as_flattened().try_into().expect("32 columns")
        })
        .collect();
    let position = |l: usize| columns.iter().map(move |column| column[l]);
    (0..32).flat_map(position).collect()
}

/// Dumps of any state and block are what the hash holds; and any dump is that of its words.
fn held_columns(report: &mut Report, numbers: &mut Numbers) {
    let t = Tables::get();
    for (w, _) in (3..=5).flat_map(|w| (0..50).map(move |n| (w, n))) {
        let (h, block) = any(numbers, w);
        let state = h.as_flattened();
        let dump = dump_of_words(state);
        let columns: Vec<Block> = h.iter().map(|h_j| t.columns(h_j)).collect();
        let what = |what: &str| format!("{what} of {h:x?}");
        report.same(|| what("the dump"), &dump, &held(&columns));
        report.same(
            || what("there and back"),
            &words_of_dump(w, &dump)[..],
            state,
        );
        let any = message(numbers, 32 * w);
        let got = dump_of_words(&words_of_dump(w, &any));
        report.same(|| format!("back and there of {any:x?}"), &got, &any);
        let m = t.message_columns(block[..].try_into().expect("a block"));
        let what = || format!("the dump of the block {block:x?}");
        report.same(what, dump_of_message(&block), held(&[m]));
    }
}

/// A bit of a message block is that bit of a state's block with the same words; the ends of words by hand.
fn message_places(report: &mut Report) {
    let cases = [
        (0, 0x80, 31, 0x01),
        (0, 0x01, 24, 0x01),
        (3, 0x01, 0, 0x01),
        (4, 0x80, 31, 0x02),
        (17, 0x02, 17, 0x10),
        (28, 0x80, 31, 0x80),
        (31, 0x80, 7, 0x80),
        (31, 0x01, 0, 0x80),
    ];
    for (at, byte, l, column) in cases {
        let got = dump_of_message(&sparse(32, &[(at, byte)]));
        let what = || format!("byte {at} = {byte:x} of a message block");
        report.same(what, got, sparse(32, &[(l, column)]));
    }
    for b in 0..256 {
        let block = sparse(32, &[(b / 8, 0x80 >> (b % 8))]);
        let words = block.as_chunks().0.iter();
        let words: Vec<u32> = words.map(|&word| u32::from_be_bytes(word)).collect();
        let what = || format!("bit {b} of a message block");
        report.same(what, dump_of_message(&block), dump_of_words(&words));
    }
}

/// Each element alone in each column, at one position and at all: what comes of it is what the pseudo code of 3.2 gives
/// by doubling and adding, at that position and no other.
fn products(report: &mut Report) {
    // x times x^7 is x^8, and x^4 times x^4 is too: document 01's doubling of (0,0,0,0,0,0,0,1).
    let zeros = [0; 32];
    let doubled = inject(3, &[0; 96], &sparse(32, &[(5, 0x80)]));
    let wanted = sparse(96, &[(15, 0x80), (16, 0x1b), (17, 0x36)]);
    report.same(|| "80 as a message at w = 3".into(), doubled, wanted);
    let got = inject(5, &[0; 160], &sparse(32, &[(0, 0x10)]));
    let wanted = sparse(
        160,
        &[(0, 0x10), (1, 0x20), (2, 0x40), (3, 0x80), (4, 0x1b)],
    );
    report.same(|| "10 as a message at w = 5".into(), got, wanted);
    let double = |v: u8| v << 1 ^ if v & 0x80 == 0 { 0 } else { 0x1b };
    for (w, v) in (3..=5).flat_map(|w| (0..=255u8).map(move |v| (w, v))) {
        let powers: Vec<u8> = std::iter::successors(Some(v), |&v| Some(double(v)))
            .take(5)
            .collect();
        let times = |c: u8| {
            (0..5)
                .filter(|i| c >> i & 1 == 1)
                .fold(0, |p, i| p ^ powers[i])
        };
        for k in 0..=w {
            let at = v as usize % 32;
            let (dump, m) = match k {
                k if k == w => (vec![0; 32 * w], sparse(32, &[(at, v)])),
                k => (sparse(32 * w, &[(w * at + k, v)]), zeros.to_vec()),
            };
            let column = matrix(w).iter().map(|row| times(row[k]));
            let set: Vec<(usize, u8)> = (w * at..).zip(column).collect();
            let what = || format!("{v:x} alone in column {k} at w = {w}");
            report.same(what, inject(w, &dump, &m), sparse(32 * w, &set));
        }
    }
}

/// The coefficients that the matrices have are the ten of the request.
fn coefficients(report: &mut Report) {
    let rows = (3..=5).flat_map(|w| matrix(w).iter().copied().flatten());
    let mut got: Vec<u8> = rows.copied().collect();
    got.sort();
    got.dedup();
    let wanted = vec![1, 2, 3, 4, 6, 7, 8, 0x0a, 0x0f, 0x10];
    report.same(|| "the coefficients".into(), got, wanted);
}

/// The injection on dumps is that on words, by Appendix E; it is the hash's own, by tables of products; and the inverse
/// matrix of the step back undoes it.
fn injections(report: &mut Report, numbers: &mut Numbers) {
    let t = Tables::get();
    for (w, n) in (3..=5).flat_map(|w| (0..102).map(move |n| (w, n))) {
        let (mut h, mut block) = any(numbers, w);
        if n < 2 {
            // All zero, and all one.
            let all = [0, 0xff][n];
            h = vec![[u32::from_ne_bytes([all; 4]); 8]; w];
            block = vec![all; BLOCK_BYTES];
        }
        let m = t.message_columns(block[..].try_into().expect("a block"));
        let words = crate::luffa::words(&m);
        let dump = dump_of_words(h.as_flattened());
        let got = inject(w, &dump, &dump_of_message(&block));
        let what = |what: &str| format!("{what} at w = {w}, {h:x?} and {block:x?}");
        let wanted = appendix_e(&h, words);
        let wanted = dump_of_words(wanted.as_flattened());
        report.same(|| what("Appendix E"), &got, &wanted);
        let mut x: Vec<Block> = h.iter().map(|h_j| t.columns(h_j)).collect();
        t.inject(&mut x, &m);
        report.same(|| what("the hash's injection"), &got, &held(&x));
        Inverses::get().eject(&mut x, &m);
        report.same(|| what("the dump before"), &dump, &held(&x));
    }
}

/// Refusals by hand. With an unknown code, lengths that are right at no code are 24 too.
fn judged(report: &mut Report) {
    let conversions: [(usize, usize, usize, &[u64]); 23] = [
        (1, 24, 96, &[]),
        (2, 24, 96, &[]),
        (3, 32, 128, &[]),
        (4, 40, 160, &[]),
        (1, 32, 128, &[24]),
        (2, 40, 160, &[24]),
        (3, 24, 96, &[24]),
        (4, 32, 128, &[24]),
        (1, 24, 95, &[24]),
        (2, 24, 97, &[24]),
        (3, 31, 128, &[24]),
        (4, 41, 160, &[24]),
        (4, 40, 32, &[24]),
        (1, 96, 96, &[24]),
        (1, 24, 24, &[24]),
        (3, 0, 0, &[24]),
        (0, 24, 96, &[1]),
        (5, 40, 160, &[1]),
        (257, 24, 96, &[1]),
        ((1 << 32) + 3, 32, 128, &[1]),
        (usize::MAX, 40, 160, &[1]),
        (0, 24, 128, &[1, 24]),
        (5, 48, 192, &[1, 24]),
    ];
    for (code, words, dump, wanted) in conversions {
        let what = || format!("{words} words and {dump} bytes at code {code}");
        report.same(what, &conversion_refusals(code, words, dump)[..], wanted);
    }
    let injections: [(usize, usize, usize, &[u64]); 14] = [
        (1, 96, 32, &[]),
        (2, 96, 32, &[]),
        (3, 128, 32, &[]),
        (4, 160, 32, &[]),
        (1, 96, 31, &[24]),
        (1, 96, 33, &[24]),
        (2, 128, 32, &[24]),
        (3, 128, 128, &[24]),
        (4, 32, 160, &[24]),
        (4, 0, 0, &[24]),
        (0, 96, 32, &[1]),
        (1 << 63, 160, 32, &[1]),
        (5, 96, 31, &[1, 24]),
        ((1 << 32) + 1, 0, 32, &[1, 24]),
    ];
    for (code, dump, message, wanted) in injections {
        let what = || format!("dumps of {dump} and {message} bytes at code {code}");
        report.same(what, &injection_refusals(code, dump, message)[..], wanted);
    }
    for (block, dump) in [0, 1, 31, 32, 33, 64].into_iter().zip([32; 6]) {
        let wanted = if block == 32 { vec![] } else { vec![24] };
        for (a, b) in [(block, dump), (dump, block)] {
            let what = || format!("a block of {a} bytes and a dump of {b}");
            report.same(what, message_refusals(a, b), wanted.clone());
        }
    }
    report.same(|| "the codes".into(), CODES.map(|(w, _)| w), [3, 3, 4, 5]);
}
