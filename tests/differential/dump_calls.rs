//! The calls over dumps by columns, made by the archive and judged by the separately written program: the number
//! answered, what is read and what is written, with the bytes around them.

use crate::calls::{agree, Lent};
use crate::columns::*;
use crate::dump_kinds;
use crate::luffa::CODES;
use crate::met::Met;

extern "C" {
    fn luffa_columns_from_words(
        code: usize,
        words: *const u32,
        words_len: usize,
        dump: *mut u8,
        dump_len: usize,
    ) -> u32;
    fn luffa_words_from_columns(
        code: usize,
        dump: *const u8,
        dump_len: usize,
        words: *mut u32,
        words_len: usize,
    ) -> u32;
    fn luffa_columns_from_message(
        block: *const u8,
        block_len: usize,
        dump: *mut u8,
        dump_len: usize,
    ) -> u32;
    fn luffa_columns_inject(
        code: usize,
        dump: *mut u8,
        dump_len: usize,
        message: *const u8,
        message_len: usize,
    ) -> u32;
}

#[derive(Clone, Copy, Debug, PartialEq)]
pub enum Call {
    FromWords,
    ToWords,
    FromMessage,
    Inject,
}

pub const CALLS: [Call; 4] = [
    Call::FromWords,
    Call::ToWords,
    Call::FromMessage,
    Call::Inject,
];

/// The blocks of a state at a known code.
pub fn width(code: usize) -> usize {
    CODES[code - 1].0
}

/// What a buffer must have room for: so many blocks, each of so many elements, each of so many bytes.
#[derive(Clone, Copy)]
pub struct Room {
    pub blocks: usize,
    pub block: usize,
    pub size: usize,
}

impl Room {
    /// The right length, as the call is told it.
    pub fn right(self) -> usize {
        self.blocks * self.block
    }

    pub fn bytes(self) -> usize {
        self.size * self.right()
    }
}

impl Call {
    /// The codes that the call is made with. The dump of a message block has none, and is made as if it were at code 1.
    pub fn codes(self) -> usize {
        match self {
            Call::FromMessage => 1,
            _ => CODES.len(),
        }
    }

    /// The blocks that it converts or alters at a known code.
    pub fn blocks(self, code: usize) -> usize {
        match self {
            Call::FromMessage => 1,
            _ => width(code),
        }
    }

    /// Of the buffer that the call reads alone, and of that which it writes to.
    pub fn rooms(self, w: usize) -> [Room; 2] {
        let dump = |blocks| Room {
            blocks,
            block: POSITIONS,
            size: 1,
        };
        let words = Room {
            blocks: w,
            block: BLOCK_WORDS,
            size: 4,
        };
        match self {
            Call::FromWords => [words, dump(w)],
            Call::ToWords => [dump(w), words],
            Call::FromMessage => [dump(1), dump(1)],
            Call::Inject => [dump(1), dump(w)],
        }
    }
}

/// Words in the machine's own form, as bytes.
pub fn own_bytes(words: &[u32]) -> Vec<u8> {
    words.iter().flat_map(|word| word.to_ne_bytes()).collect()
}

pub fn own_words(bytes: &[u8]) -> Vec<u32> {
    let words = bytes.as_chunks().0.iter();
    words.map(|&word| u32::from_ne_bytes(word)).collect()
}

/// What a call is given and lent, words as bytes too.
#[derive(Clone)]
pub struct Given {
    pub call: Call,
    pub code: usize,
    pub read: Vec<u8>,
    pub written: Vec<u8>,
}

impl Given {
    /// The lengths that the call is told. What an element has doesn't depend on w.
    fn lengths(&self) -> [usize; 2] {
        let [read, written] = self.call.rooms(0).map(|room| room.size);
        [self.read.len() / read, self.written.len() / written]
    }

    /// Every refusal that holds, in order.
    pub fn refusals(&self) -> Vec<u64> {
        let [read, written] = self.lengths();
        match self.call {
            Call::FromWords => conversion_refusals(self.code, read, written),
            Call::ToWords => conversion_refusals(self.code, written, read),
            Call::FromMessage => message_refusals(read, written),
            Call::Inject => injection_refusals(self.code, written, read),
        }
    }

    /// What is written where nothing is refused.
    fn done(&self) -> Vec<u8> {
        match self.call {
            Call::FromWords => dump_of_words(&own_words(&self.read)),
            Call::ToWords => own_bytes(&words_of_dump(width(self.code), &self.read)),
            Call::FromMessage => dump_of_message(&self.read),
            Call::Inject => inject(width(self.code), &self.written, &self.read),
        }
    }

    /// The archive's answer, and what was lent as it left it.
    fn archive(&self) -> (u32, [Lent; 2]) {
        let lend = |bytes: &[u8], size| match size {
            4 => Lent::words(&own_words(bytes)),
            _ => Lent::new(bytes),
        };
        let [read, written] = self.call.rooms(0).map(|room| room.size);
        let mut lent = [lend(&self.read, read), lend(&self.written, written)];
        let [from, to] = lent.each_mut().map(Lent::pointer);
        let (code, [n, room]) = (self.code, self.lengths());
        let number = unsafe {
            match self.call {
                Call::FromWords => luffa_columns_from_words(code, from.cast(), n, to, room),
                Call::ToWords => luffa_words_from_columns(code, from, n, to.cast(), room),
                Call::FromMessage => luffa_columns_from_message(from, n, to, room),
                Call::Inject => luffa_columns_inject(code, to, room, from, n),
            }
        };
        (number, lent)
    }
}

/// Leaves in the buffer that is written to what both sides left there, and answers the number.
pub fn call(given: &mut Given, met: &mut Met) -> Result<u32, String> {
    let before = given.clone();
    let hold = given.refusals();
    dump_kinds::see(met, &before, &hold);
    let want = match hold.first() {
        Some(&number) => number as u32,
        None => {
            given.written = before.done();
            0
        }
    };
    let (got, [read, written]) = before.archive();
    let Given { call, code, .. } = before;
    agree(
        &format!("{call:?} at code {code}: buffer 0 what is read, 1 what is written"),
        &[&before.read, &before.written],
        got,
        want,
        &[(read, &before.read), (written, &given.written)],
    )
}

/// A call that the archive makes alone and must not refuse, and what it wrote.
pub fn alone(given: Given) -> Result<Vec<u8>, String> {
    match given.archive() {
        (0, [_, written]) => Ok(written.inside().to_vec()),
        (number, _) => Err(format!("{:?} alone: refused {number}\n", given.call)),
    }
}
