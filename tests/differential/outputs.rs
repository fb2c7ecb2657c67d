//! Longer output of messages, records and structs, with as many words as there can be and with numbers
//! of words that there are none of, in buffers of every length about what they need.

use crate::hashes::WIDE_ODD;
use crate::met::Met;
use crate::model::{write, Hash, MOST_ODD};
use crate::output::MOST_WORDS;
use crate::output_calls::{finish_output, hash_finish_output, output};
use crate::{Agreed, Numbers};

/// Numbers of words that are refused, most of them such as would do once they are cut, or their bytes.
pub const NO_WORDS: [usize; 20] = [
    0,
    MOST_WORDS + 1,
    MOST_WORDS + 2,
    127,
    128,
    255,
    256,
    256 + 1,
    256 + MOST_WORDS,
    1 << 16,
    (1 << 16) + 8,
    1 << 31,
    1 << 32,
    (1 << 32) + 1,
    (1 << 32) + MOST_WORDS,
    1 << 62,
    (1 << 62) + 7,
    1 << 63,
    (1 << 63) + 12,
    usize::MAX,
];

/// Codes that there are none of, some of them such as would do once they are cut.
pub const NO_CODES: [usize; 8] = [0, 5, 6, 255, 256 + 1, (1 << 32) + 4, 1 << 63, usize::MAX];

/// The largest buffer that is lent. It has room for the smaller ones of NO_WORDS.
const MOST_ROOM: usize = 4 * (256 + MOST_WORDS) + 1;

impl Numbers {
    /// Which of so many refusals shall hold, as bits: half the time none, else one alone or some.
    pub fn refusals(&mut self, all: usize) -> usize {
        match self.between(0, 3) {
            0 | 1 => 0,
            2 => 1 << self.between(0, all - 1),
            _ => self.between(1, (1 << all) - 1),
        }
    }

    /// A number of words, and a buffer for them: short or not, as far as so many words allow it.
    fn asked(&mut self, no_words: bool, short: bool) -> (usize, Vec<u8>) {
        let words = match no_words {
            true => self.one_of(&NO_WORDS),
            false => self.between(1, MOST_WORDS),
        };
        let needed = words.saturating_mul(4);
        let room = if short && needed > 0 {
            let any = self.between(0, MOST_ROOM.min(needed - 1));
            self.one_of(&[needed - 1, needed - 1, needed - 1, needed - 4, 0, any])
        } else {
            let more = self.between(2, 70);
            needed.saturating_add(self.one_of(&[0, 0, 1, more]))
        };
        let room = if room > MOST_ROOM {
            self.between(0, MOST_ROOM)
        } else {
            room
        };
        (words, self.bytes(room))
    }

    /// Words for a record or a struct that may be refused as well.
    fn asked_of_record(&mut self) -> (usize, Vec<u8>) {
        let hold = self.refusals(2);
        self.asked(hold & 1 != 0, hold & 2 != 0)
    }
}

/// The longest message. Longer ones are fed to records.
const LONGEST: usize = 150;

/// Longer output of a message in one call.
pub fn message(numbers: &mut Numbers, met: &mut Met) -> Agreed {
    let hold = numbers.refusals(4);
    let code = match hold & 1 {
        0 => numbers.code(),
        _ => numbers.one_of(&NO_CODES),
    };
    let (words, mut out) = numbers.asked(hold & 2 != 0, hold & 4 != 0);
    let n = numbers.length(LONGEST);
    let some = numbers.between(1, MOST_ODD);
    let (n, odd) = match hold & 8 {
        0 if n == 0 => (0, 0),
        0 => (n, numbers.one_of(&[0, some, some, some])),
        _ => {
            let wide = numbers.one_of(&WIDE_ODD);
            numbers.one_of(&[(0, some), (0, wide), (n, wide)])
        }
    };
    output(code, words, &numbers.bytes(n), odd, &mut out, met)
}

/// Longer output out of a well-formed record that no message need give, and out of the struct.
pub fn free_record(numbers: &mut Numbers, met: &mut Met) -> Agreed {
    let code = numbers.code();
    let odd = numbers.between(0, MOST_ODD);
    let hash = numbers.any_hash(code, odd);
    of_record(numbers, &write(&hash), met).map(drop)
}

/// The number answered for longer output out of any record.
pub fn of_record(numbers: &mut Numbers, record: &[u8], met: &mut Met) -> Result<u64, String> {
    let (words, mut out) = numbers.asked_of_record();
    let answer = finish_output(record, words, &mut out, met)?;
    Ok(answer.number)
}

/// The same out of any struct.
pub fn of_struct(numbers: &mut Numbers, hash: &Hash, met: &mut Met) -> Result<u64, String> {
    let (words, mut out) = numbers.asked_of_record();
    let answer = hash_finish_output(hash, words, &mut out, met)?;
    Ok(answer.number)
}
