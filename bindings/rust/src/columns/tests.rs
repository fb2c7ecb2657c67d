//! States by columns: each bit at its place, there and back, injections against products that are worked out
//! here, and through the hash itself.

use super::{from_message, from_words, from_words_into, inject, to_words, to_words_into};
use crate::random::Numbers;
use crate::{BLOCK_BYTES, Code, RECORD_BYTES, ffi};

type Block = [u8; BLOCK_BYTES];

pub fn state(code: Code, numbers: &mut Numbers) -> Vec<u32> {
    let words = (0..code.state_words()).map(|_| numbers.next() as u32);
    words.collect()
}

/// The product of 3.2, of polynomials modulo x^8 + x^4 + x^3 + x + 1.
fn product(a: u8, b: u8) -> u8 {
    (0..8).rev().fold(0, |sum: u8, bit| {
        let twice = sum << 1 ^ if sum >> 7 == 1 { 0x1b } else { 0 };
        twice ^ if b >> bit & 1 == 1 { a } else { 0 }
    })
}

/// 3.2.1 to 3.2.3: the row of a block, the last number the message's.
fn row(w: usize, i: usize) -> &'static [u8] {
    match w {
        3 => &[[3, 2, 2, 1], [2, 3, 2, 2], [2, 2, 3, 4]][i],
        4 => &[
            [4, 6, 6, 7, 1],
            [7, 4, 6, 6, 2],
            [6, 7, 4, 6, 4],
            [6, 6, 7, 4, 8],
        ][i],
        _ => &[
            [0x0f, 0x08, 0x0a, 0x0a, 0x08, 0x01],
            [0x08, 0x0f, 0x08, 0x0a, 0x0a, 0x02],
            [0x0a, 0x08, 0x0f, 0x08, 0x0a, 0x04],
            [0x0a, 0x0a, 0x08, 0x0f, 0x08, 0x08],
            [0x08, 0x0a, 0x0a, 0x08, 0x0f, 0x10],
        ][i],
    }
}

/// Injects, and compares with the matrix by the bytes of each position.
fn injected(code: Code, dump: &mut [u8], message: &Block) {
    let w = code.blocks();
    let mut wanted = vec![];
    for (state, &byte) in dump.chunks(w).zip(message) {
        let column = [state, &[byte]].concat();
        let sums = (0..w).map(|i| {
            let products = row(w, i).iter().zip(&column).map(|(&a, &b)| product(a, b));
            products.fold(0, |sum, product| sum ^ product)
        });
        wanted.extend(sums);
    }
    assert_eq!(inject(code, dump, message), Ok(()));
    assert_eq!(dump, wanted, "{code:?}");
}

/// Document 02's sentence, bit by bit, of a state with one bit set and of one with all others.
#[test]
fn every_bit() {
    for code in Code::ALL {
        let w = code.blocks();
        for (word, l) in (0..8 * w).flat_map(|word| (0..32).map(move |l| (word, l))) {
            for others in [0, 0xff] {
                let mut words = vec![u32::from_ne_bytes([others; 4]); 8 * w];
                let mut dump = vec![others; 32 * w];
                words[word] ^= 1 << l;
                dump[w * l + word / 8] ^= 1 << (word % 8);
                assert_eq!(from_words(code, &words).as_ref(), Ok(&dump));
                assert_eq!(to_words(code, &dump), Ok(words));
            }
        }
    }
}

/// The same of a message block.
#[test]
fn every_bit_of_a_message() {
    for (k, l) in (0..8).flat_map(|k| (0..32).map(move |l| (k, l))) {
        for others in [0, 0xff] {
            let (mut block, mut dump) = ([others; BLOCK_BYTES], [others; BLOCK_BYTES]);
            let word = u32::from_ne_bytes([others; 4]) ^ 1 << l;
            block[4 * k..][..4].copy_from_slice(&word.to_be_bytes());
            dump[l] ^= 1 << k;
            assert_eq!(from_message(&block), dump, "bit {l} of word {k}");
        }
    }
}

/// The dump of any state and the state of any dump lead back.
#[test]
fn there_and_back() {
    let mut numbers = Numbers(12);
    for code in Code::ALL {
        for _ in 0..100 {
            let words = state(code, &mut numbers);
            let dump = from_words(code, &words).unwrap();
            assert_eq!(to_words(code, &dump), Ok(words));
            let dump = numbers.bytes(code.dump_bytes());
            let words = to_words(code, &dump).unwrap();
            assert_eq!(from_words(code, &words), Ok(dump));
        }
    }
}

/// In lent buffers the same is written, and nothing behind them.
#[test]
fn lent() {
    fn sevens<T: PartialEq + From<u8>>(rest: &[T]) -> bool {
        rest.iter().all(|item| *item == 7.into())
    }
    let mut numbers = Numbers(12);
    for code in Code::ALL {
        let (mut bytes, mut words) = ([7; 200], [7; 50]);
        let given = state(code, &mut numbers);
        let (dump, rest) = bytes.split_at_mut(code.dump_bytes());
        assert_eq!(from_words_into(code, &given, dump), Ok(()));
        assert!(Ok(&*dump) == from_words(code, &given).as_deref() && sevens(rest));
        injected(code, dump, &numbers.block());
        assert!(sevens(rest));
        let (lent, behind) = words.split_at_mut(code.state_words());
        assert_eq!(to_words_into(code, dump, lent), Ok(()));
        assert!(Ok(&*lent) == to_words(code, dump).as_deref() && sevens(behind));
    }
    let (mut bytes, message) = ([7; 64], numbers.block());
    let (dump, rest) = bytes.split_at_mut(BLOCK_BYTES);
    assert_eq!(ffi::columns_from_message(&message, dump), Ok(()));
    assert!(dump == from_message(&message) && sevens(rest));
}

/// Each block in turn, and the message, has every byte at every position, another one at each; the others have
/// none, any or the same.
#[test]
fn every_product() {
    let mut numbers = Numbers(12);
    for code in Code::ALL {
        let w = code.blocks();
        for (j, first) in (0..=w).flat_map(|j| (0..=255u8).map(move |first| (j, first))) {
            let bytes: Block =
                std::array::from_fn(|l| first.wrapping_add(37u8.wrapping_mul(l as u8)));
            let same = bytes.iter().flat_map(|&byte| vec![byte; w]).collect();
            let kinds = [
                (vec![0; 32 * w], [0; BLOCK_BYTES]),
                (numbers.bytes(32 * w), numbers.block()),
                (same, bytes),
            ];
            for (mut dump, mut message) in kinds {
                if j == w {
                    message = bytes;
                } else {
                    let of_block = dump.iter_mut().skip(j).step_by(w);
                    of_block.zip(bytes).for_each(|(at, byte)| *at = byte);
                }
                injected(code, &mut dump, &message);
            }
        }
    }
}

/// One bit of the state, or of the message.
#[test]
fn single_bits_injected() {
    for code in Code::ALL {
        for bit in 0..8 * (code.dump_bytes() + BLOCK_BYTES) {
            let mut bytes = vec![0; code.dump_bytes() + BLOCK_BYTES];
            bytes[bit / 8] = 1 << (bit % 8);
            let (dump, message) = bytes.split_at_mut(code.dump_bytes());
            injected(code, dump, (&*message).try_into().unwrap());
        }
    }
}

/// The dump of a record's state with a block injected.
fn of_record(code: Code, record: &[u8; RECORD_BYTES], block: &Block) -> Vec<u8> {
    let words = record[8..].chunks_exact(4).take(code.state_words());
    let words = words.map(|word| u32::from_be_bytes(word.try_into().unwrap()));
    let words: Vec<u32> = words.collect();
    let mut dump = from_words(code, &words).unwrap();
    injected(code, &mut dump, &from_message(block));
    dump
}

/// A feed injects and permutes, and a step back undoes both: after one block fed and another taken back, the
/// other makes of the state what the one made of the state before.
#[test]
fn through_the_hash() {
    let mut numbers = Numbers(12);
    for code in Code::ALL {
        let mut record = [0; RECORD_BYTES];
        ffi::start(code.number(), &mut record).unwrap();
        for _ in 0..100 {
            let [one, other] = [(); 2].map(|_| numbers.block());
            let before = of_record(code, &record, &one);
            ffi::feed(&mut record, &one).unwrap();
            ffi::back(&mut record, &other).unwrap();
            assert_eq!(of_record(code, &record, &other), before, "{code:?}");
        }
    }
}
