//! What calls on columns are refused: buffers of every other length, and beneath the types every wrong code
//! before them.

use super::tests::state;
use super::{from_words, from_words_into, inject, to_words, to_words_into};
use crate::order::{MAX, WIDE, Way, every_set};
use crate::random::Numbers;
use crate::{BLOCK_BYTES, Code, Error, ffi};

/// Every length but the code's own, and nothing written.
#[test]
fn other_lengths() {
    let (bytes, words) = ([5; 640], [5; 640]);
    for (code, n) in Code::ALL
        .into_iter()
        .flat_map(|code| (0..=640).map(move |n| (code, n)))
    {
        let (state, dump) = (&words[..code.state_words()], &bytes[..code.dump_bytes()]);
        let number = |right: usize| if n == right { 0 } else { 24 };
        let (of_words, of_dump) = (number(state.len()), number(dump.len()));
        let answer = from_words(code, &words[..n]).map(|_| ());
        assert_eq!(answer, Error::judge(of_words, 0));
        let answer = to_words(code, &bytes[..n]).map(|_| ());
        assert_eq!(answer, Error::judge(of_dump, 0));

        let mut lent = words;
        let answer = to_words_into(code, dump, &mut lent[..n]);
        assert_eq!(answer, Error::judge(of_words, 0));
        assert_eq!(lent == words, of_words != 0);
        let mut lent = bytes;
        let answer = from_words_into(code, state, &mut lent[..n]);
        assert_eq!(answer, Error::judge(of_dump, 0));
        assert_eq!(lent == bytes, of_dump != 0);
        let mut lent = bytes;
        let answer = inject(code, &mut lent[..n], &[9; BLOCK_BYTES]);
        assert_eq!(answer, Error::judge(of_dump, 0));
        assert_eq!(lent == bytes, of_dump != 0);
    }
}

/// A call beneath the types.
#[derive(Clone)]
struct Call {
    code: usize,
    words: Vec<u32>,
    dump: Vec<u8>,
    message: Vec<u8>,
}

const CODES: &[Way<Call>] = &[
    |c| c.code = 0,
    |c| c.code = 5,
    |c| c.code += 256,
    |c| c.code += WIDE,
    |c| c.code |= 1 << 63,
    |c| c.code = MAX,
];

const WORDS: &[Way<Call>] = &[
    |c| c.words.clear(),
    |c| c.words.truncate(23),
    |c| c.words.push(0),
    |c| c.words.resize(4 * c.dump.len(), 0),
];

const DUMPS: &[Way<Call>] = &[
    |c| c.dump.clear(),
    |c| c.dump.truncate(95),
    |c| c.dump.push(0),
    |c| c.dump.resize(2 * c.dump.len(), 0),
    |c| c.dump.truncate(32),
];

const MESSAGES: &[Way<Call>] = &[
    |c| c.message.clear(),
    |c| c.message.truncate(31),
    |c| c.message.push(0),
    |c| c.message.resize(c.dump.len() + 64, 0),
];

fn calls() -> [Call; 4] {
    let mut numbers = Numbers(24);
    Code::ALL.map(|code| Call {
        code: code.number(),
        words: state(code, &mut numbers),
        dump: numbers.bytes(code.dump_bytes()),
        message: numbers.bytes(BLOCK_BYTES),
    })
}

#[test]
fn order_of_the_conversions() {
    let ways = [(24, WORDS), (24, DUMPS), (1, CODES)];
    every_set(&calls(), &[1, 24], &ways, |call, number| {
        let mut dump = call.dump.clone();
        let answer = ffi::columns_from_words(call.code, &call.words, &mut dump);
        assert_eq!(answer, Error::judge(number, 0));
        assert_eq!(dump == call.dump, number != 0);
        let mut words = call.words.clone();
        let answer = ffi::words_from_columns(call.code, &call.dump, &mut words);
        assert_eq!(answer, Error::judge(number, 0));
        assert_eq!(words == call.words, number != 0);
    });
}

#[test]
fn order_of_the_injection() {
    let ways = [(24, MESSAGES), (24, DUMPS), (1, CODES)];
    every_set(&calls(), &[1, 24], &ways, |call, number| {
        let mut dump = call.dump.clone();
        let answer = ffi::columns_inject(call.code, &mut dump, &call.message);
        assert_eq!(answer, Error::judge(number, 0));
        assert_eq!(dump == call.dump, number != 0);
    });
}

/// It has no code to be wrong.
#[test]
fn lengths_of_a_message() {
    let bytes = Numbers(24).bytes(160);
    for (block, dump) in (0..=160).flat_map(|n| [(n, 32), (32, n), (n, n), (n, 0)]) {
        let mut lent = vec![7; dump];
        let right = block == 32 && dump == 32;
        let answer = ffi::columns_from_message(&bytes[..block], &mut lent);
        assert_eq!(answer, if right { Ok(()) } else { Err(Error::Columns) });
        assert_eq!(lent.iter().all(|&byte| byte == 7), !right);
    }
}
