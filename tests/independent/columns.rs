//! Document 02's columns for the commissioning crew: the dump of a state and of a message block, and the injection of
//! 3.2.1 to 3.2.3 on dumps. A byte is a polynomial there: the terms of all products in a row are counted, and those of
//! degree 8 and more are divided by phi. There is no table of products, and no product by itself.

use crate::back::BLOCK_BYTES;
use crate::bits::bits_of;
use crate::luffa::{matrix, CODES, PHI};
use crate::output::holding;

/// The positions of a dump: the bits of a word.
pub const POSITIONS: usize = 32;

/// The words of a block: the bits of a byte.
pub const BLOCK_WORDS: usize = 8;

/// The bytes of a message dump, one a position.
pub const MESSAGE_DUMP: usize = POSITIONS;

/// The dump of a state's words: each bit that is 1 goes to its place by itself.
pub fn dump_of_words(words: &[u32]) -> Vec<u8> {
    let w = words.len() / BLOCK_WORDS;
    let mut dump = vec![0; POSITIONS * w];
    for (i, word) in words.iter().enumerate() {
        let (j, k) = (i / BLOCK_WORDS, i % BLOCK_WORDS);
        for l in (0..POSITIONS).filter(|l| word >> l & 1 == 1) {
            dump[w * l + j] |= 1 << k;
        }
    }
    dump
}

/// The words of a dump of w blocks: each is read off by itself, its highest bit first, from every w-th byte.
pub fn words_of_dump(w: usize, dump: &[u8]) -> Vec<u32> {
    let word = |i: usize| {
        let (j, k) = (i / BLOCK_WORDS, i % BLOCK_WORDS);
        let bits = dump[j..].iter().step_by(w).map(|byte| byte >> k & 1);
        bits.rev().fold(0, |word, bit| word << 1 | u32::from(bit))
    };
    (0..BLOCK_WORDS * w).map(word).collect()
}

/// The dump of a message block: its bits are counted from the first, and the first of each word is the word's highest.
pub fn dump_of_message(block: &[u8]) -> Vec<u8> {
    let mut dump = vec![0; MESSAGE_DUMP];
    for (b, _) in bits_of(block).enumerate().filter(|(_, bit)| *bit) {
        let (k, l) = (b / POSITIONS, POSITIONS - 1 - b % POSITIONS);
        dump[l] |= 1 << k;
    }
    dump
}

/// How many terms x^e there are, for each e that a product of two bytes can have.
type Terms = [u32; 15];

/// The exponents of a byte's terms.
fn exponents(byte: u8) -> impl Iterator<Item = usize> {
    (0..8).filter(move |e| byte >> e & 1 == 1)
}

/// A row of the matrix times a column (H_0, ..., H_{w-1}, M): each term of a coefficient meets each of its element.
fn row_times<'a>(row: &[u8], column: impl Iterator<Item = &'a u8>) -> Terms {
    let mut terms = [0; 15];
    for (&coefficient, &element) in row.iter().zip(column) {
        for a in exponents(coefficient) {
            exponents(element).for_each(|b| terms[a + b] += 1);
        }
    }
    terms
}

/// What is left of such a sum when it is divided by phi: from the highest degree down, x^8 is the rest of phi. Then two
/// terms alike are none.
fn divided(mut terms: Terms) -> u8 {
    for e in (8..terms.len()).rev() {
        for rest in &PHI[1..] {
            terms[e - 8 + *rest as usize] += terms[e];
        }
    }
    (0..8).fold(0, |byte, e| byte | ((terms[e] % 2) as u8) << e)
}

/// MI on the dump of a state of w blocks with the dump of a message block, position by position.
pub fn inject(w: usize, dump: &[u8], message: &[u8]) -> Vec<u8> {
    let positions = dump.chunks_exact(w).zip(message);
    let injected = positions.flat_map(|(h, m)| {
        let rows = matrix(w).iter();
        rows.map(move |row| divided(row_times(row, h.iter().chain([m]))))
    });
    injected.collect()
}

/// Every refusal that holds of a call at this code, whose lengths are right at w where `fit` says so. An unknown code
/// has no w: the lengths are wrong there if they are so at every w that there is.
fn refusals(code: usize, fit: impl Fn(usize) -> bool) -> Vec<u64> {
    let known = (1..=CODES.len()).contains(&code);
    let widths = if known {
        &CODES[code - 1..code]
    } else {
        &CODES[..]
    };
    let right = widths.iter().any(|&(w, _)| fit(w));
    holding([(1, !known), (24, !right)])
}

/// Those of a conversion between so many words and a dump of so many bytes, either way.
pub fn conversion_refusals(code: usize, words: usize, dump: usize) -> Vec<u64> {
    refusals(code, |w| words == BLOCK_WORDS * w && dump == POSITIONS * w)
}

/// Those of an injection, by the bytes of the two dumps.
pub fn injection_refusals(code: usize, dump: usize, message: usize) -> Vec<u64> {
    refusals(code, |w| dump == POSITIONS * w && message == MESSAGE_DUMP)
}

/// Those of a message block's dump, by the bytes of both.
pub fn message_refusals(block: usize, dump: usize) -> Vec<u64> {
    holding([(24, block != BLOCK_BYTES || dump != MESSAGE_DUMP)])
}
