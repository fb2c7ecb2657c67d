//! Marks as a disk may give them back: true, or spoiled in one of many ways, in buffers that are just large
//! enough or larger, and what is refused of them. Every call goes through calls.rs.

use crate::calls;
use crate::histories::words_for;
use crate::mend_kinds::{see, see_refused, FEW};
use crate::mend_model::{MendAnswer, Mending};
use crate::met::Met;
use crate::model::state_words;
use crate::outputs::NO_CODES;
use crate::plans::{TOO_MANY, TOO_SHORT};
use crate::sheet::{Mark, Sheet, MARK_WORDS, MOST, RECORD_BYTES};
use crate::{Agreed, Numbers};

/// How marks are spoiled.
#[derive(Clone, Copy, Debug, PartialEq)]
pub enum Way {
    Not,
    First,
    Last,
    Some,
    All,
    /// A bit of a word that the code uses.
    Bit,
    /// A word that it doesn't use.
    Unused,
    /// These follow from each other as true ones do, but not from this sheet at this code.
    OtherCode,
    OtherRecord,
    /// Each is the next one's, and the last is left.
    Moved,
    /// The words as a machine with the other order of bytes has them.
    Swapped,
    Zeros,
}

pub const WAYS: [Way; 12] = [
    Way::Not,
    Way::First,
    Way::Last,
    Way::Some,
    Way::All,
    Way::Bit,
    Way::Unused,
    Way::OtherCode,
    Way::OtherRecord,
    Way::Moved,
    Way::Swapped,
    Way::Zeros,
];

impl Numbers {
    /// Spoils one mark in a bit, in a word, or altogether.
    fn spoil_mark(&mut self, mark: &mut Mark) {
        let k = self.between(0, MARK_WORDS - 1);
        match self.between(0, 3) {
            0 => mark[k] ^= 1 << self.between(0, 31),
            1 => mark[k] ^= self.between(1, u32::MAX as usize) as u32,
            2 => mark.copy_from_slice(&self.words(MARK_WORDS)),
            _ => mark.iter_mut().for_each(|word| *word = !*word),
        }
    }

    /// Spoils the marks of a sheet.
    pub fn spoil_marks(&mut self, way: Way, given: &mut Mending) {
        let plain = given.plain();
        let marks: &mut [Mark] = given.marks[..words_for(given.n)].as_chunks_mut().0;
        let last = marks.len() - 1;
        let any = self.between(0, last);
        let used = state_words(plain.code);
        match way {
            Way::Not => (),
            Way::First => self.spoil_mark(&mut marks[0]),
            Way::Last => self.spoil_mark(&mut marks[last]),
            Way::Some => {
                for _ in 0..self.one_of(&[1, 2, 2, 3]) {
                    let m = self.between(0, last);
                    self.spoil_mark(&mut marks[m]);
                }
            }
            Way::All => marks.iter_mut().for_each(|mark| self.spoil_mark(mark)),
            Way::Bit => marks[any][self.between(0, used - 1)] ^= 1 << self.between(0, 31),
            Way::Unused if used == MARK_WORDS => (),
            Way::Unused => {
                let k = self.between(used, MARK_WORDS - 1);
                marks[any][k] ^= 1 << self.between(0, 31);
            }
            Way::OtherCode => {
                let code = self.code();
                let records = plain.records.clone();
                marks.copy_from_slice(&Sheet { code, records }.marks());
            }
            Way::OtherRecord => {
                let mut other = plain.clone();
                if !other.records.is_empty() {
                    let place = self.between(0, other.records.len() - 1) * self.between(0, 1);
                    let byte = self.between(0, RECORD_BYTES - 1);
                    other.records[place][byte] ^= 1 << self.between(0, 7);
                }
                marks.copy_from_slice(&other.marks());
            }
            Way::Moved => marks.copy_within(1.., 0),
            Way::Swapped => marks
                .as_flattened_mut()
                .iter_mut()
                .for_each(|word| *word = word.swap_bytes()),
            Way::Zeros => marks.as_flattened_mut().fill(0),
        }
    }

    /// A number of records: few groups, or now and then about as many as a sheet can have, which takes long.
    fn marked(&mut self) -> usize {
        match self.between(0, 599) {
            0 => MOST,
            1 => self.one_of(&[1021, 1022, 1023, 1023]),
            2 => self.between(FEW, 150),
            _ => self.between(0, FEW),
        }
    }

    /// A sheet of n any records and its true marks.
    pub fn sheet_and_marks(&mut self, n: usize) -> Mending {
        let records = self.bytes(RECORD_BYTES * n);
        self.with_marks(records)
    }

    /// A sheet of these records and its true marks; what lies behind either is any bytes and words.
    pub fn with_marks(&mut self, mut sheet: Vec<u8>) -> Mending {
        let n = sheet.len() / RECORD_BYTES;
        let more = self.one_of(&[0, 0, 0, 1, 39, 40, 200]);
        sheet.extend(self.bytes(more));
        let marks = words_for(n) + self.one_of(&[0, 0, 0, 1, 39, 40, 85]);
        let mut given = Mending {
            code: self.code(),
            sheet,
            n,
            marks: self.words(marks),
        };
        let truth = given.plain().marks();
        given.marks[..words_for(n)].copy_from_slice(truth.as_flattened());
        given
    }

    /// Has one refusal hold, or more of them, and says in which ways, or leaves all as it is.
    fn refuse(&mut self, given: &mut Mending) -> Vec<String> {
        let (code, sheet, marks) = (1, 2, 4);
        let hold = self.refusals(3);
        let n = given.n;
        let mut ways = vec![];
        if hold & code != 0 {
            given.code = self.one_of(&NO_CODES);
            ways.push(format!("code {}", given.code));
        }
        if hold & sheet != 0 {
            let room = |n| given.marks.resize(words_for(n), 0);
            ways.push(self.refuse_sheet(&mut given.n, &mut given.sheet, room));
        }
        if hold & marks != 0 {
            ways.push(self.refuse_marks(n, &mut given.marks));
        }
        ways
    }

    /// Has n records be too many, or the sheet too short for them. `room` lends what so many of them need beside it.
    pub fn refuse_sheet(
        &mut self,
        n: &mut usize,
        sheet: &mut Vec<u8>,
        room: impl FnOnce(usize),
    ) -> String {
        match self.between(0, 2) {
            0 if *n > 0 => {
                let (name, short) = self.one_of(&TOO_SHORT);
                sheet.truncate((RECORD_BYTES * *n).saturating_sub(short));
                format!("sheet {name} short")
            }
            1 => {
                *n = MOST + 1;
                sheet.resize(RECORD_BYTES * *n, 0);
                room(*n);
                "1,025 with room".into()
            }
            _ => {
                let (name, many) = self.one_of(&TOO_MANY);
                *n = many + if name.ends_with('n') { *n } else { 0 };
                format!("n is {name}")
            }
        }
    }

    /// Has the marks be too few for n records.
    pub fn refuse_marks(&mut self, n: usize, marks: &mut Vec<u32>) -> String {
        let (name, fewer) = self.one_of(&FEWER_WORDS);
        marks.truncate(words_for(n).saturating_sub(fewer));
        format!("marks {name} short")
    }
}

/// Words of the marks that the records need and aren't there, by name.
pub const FEWER_WORDS: [(&str, usize); 4] = [
    ("a word", 1),
    ("39 words", MARK_WORDS - 1),
    ("a mark", MARK_WORDS),
    ("all", usize::MAX),
];

/// Makes the call on both sides, and notes what it was.
pub fn call(given: &mut Mending, met: &mut Met) -> Result<MendAnswer, String> {
    let before = given.clone();
    let answer = calls::mend(given)?;
    see(met, &before, given, &answer);
    Ok(answer)
}

/// A sheet whose marks are spoiled and mended, and then at times what is refused of it.
pub fn mend(numbers: &mut Numbers, met: &mut Met) -> Agreed {
    let n = numbers.marked();
    let mut given = numbers.sheet_and_marks(n);
    let any = numbers.one_of(&WAYS);
    // There are few large sheets, and their last mark is the only one whose number passes a byte.
    let way = match given.n {
        MOST => numbers.one_of(&[Way::Last, Way::All, any]),
        _ => any,
    };
    numbers.spoil_marks(way, &mut given);
    met.see(format!("Mend {way:?}, code {}", given.code));

    let mut spoilt = given.clone();
    let ways = numbers.refuse(&mut spoilt);
    call(&mut given, met)?;
    if !ways.is_empty() {
        call(&mut spoilt, met)?;
        see_refused(met, &ways);
    }
    Ok(())
}
