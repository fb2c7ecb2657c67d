//! Many changes in one save: sets of every size and spread, over marks as build leaves them or as a disk may give
//! them back, and what is refused of them. Every call goes through calls.rs, and the archive's changes one by one
//! must leave what its batch of them leaves.

use crate::batch::MOST_CHANGES;
use crate::batch_kinds::{see, see_refused};
use crate::calls;
use crate::histories::{words_for, History};
use crate::luffa;
use crate::mend_model::Mending;
use crate::mends::{Way, WAYS};
use crate::met::Met;
use crate::model::{bytes_of, digest_bytes};
use crate::outputs::NO_CODES;
use crate::sheet::RECORD_BYTES;
use crate::sheet_model::{self, Answer, Call, Given};
use crate::{Agreed, Numbers};

/// Judges a batch by the same changes one by one, where it was done and there are any, and notes what it was. Many
/// changes to a large sheet would take long.
pub fn judge(
    before: &Given,
    after: &Given,
    answer: &Answer,
    true_marks: bool,
    met: &mut Met,
) -> Agreed {
    let count = before.places.len();
    if answer.number == 0 && count > 0 && count * before.n < 5000 {
        one_by_one(before, after, answer)?;
    }
    see(met, before, answer, true_marks);
    Ok(())
}

/// The archive saves the changes one by one, each with the claim right at its time. They leave what the batch has
/// left, in no fewer rounds, and a single one in as many.
fn one_by_one(before: &Given, after: &Given, answer: &Answer) -> Agreed {
    let (code, n) = (before.code, before.n);
    let what = format!("{:?} at code {code}, n = {n}", before.places);
    let mut turned = Given {
        places: vec![],
        records: vec![],
        ..before.clone()
    };
    let mut rounds = 0;
    let records = before.records.chunks(RECORD_BYTES);
    for (&place, record) in before.places.iter().zip(records) {
        turned.place = place;
        turned.record = record.to_vec();
        let changed = calls::alone(Call::Change, &mut turned);
        if changed.number != 0 {
            return Err(format!("{what}: the change at {place} {changed:?}\n"));
        }
        rounds += changed.rounds;
        turned.claim = turned.out[..digest_bytes(code)].to_vec();
    }
    for (buffer, same) in [
        ("sheet", turned.sheet == after.sheet),
        ("marks", turned.marks == after.marks),
        ("output", turned.out == after.out),
    ] {
        if !same {
            return Err(format!("{what}: one by one leave another {buffer}\n"));
        }
    }
    let fair = match before.places.len() {
        1 => answer.rounds == rounds,
        _ => answer.rounds <= rounds,
    };
    match fair {
        true => Ok(()),
        false => Err(format!("{what}: {answer:?}, one by one {rounds}\n")),
    }
}

/// Sets of changes by how many there are.
pub const SETS: [&str; 3] = ["no place", "one place", "places"];

/// Numbers of places that are too many, most of them few once they are cut to a byte.
pub const TOO_MANY_CHANGES: [usize; 6] = [65, 66, 128, 256, 256 + 1, 256 + 64];

/// Places of no record, by name, most of them those of one once they are cut, or their bytes. `n` is added, and so
/// is the place that there was.
pub const NO_PLACES: [(&str, usize); 9] = [
    ("n", 0),
    ("n + 1", 1),
    ("n + the place", 0),
    ("2^16 + the place", 1 << 16),
    ("2^32 + the place", 1 << 32),
    ("2^61 + the place", 1 << 61),
    ("2^63 + the place", 1 << 63),
    ("2^64 / 40 + 1", usize::MAX / 40 + 1),
    ("2^64 - 1", usize::MAX),
];

/// Bytes more than the new records have, by name, and bytes fewer.
pub const MORE_BYTES: [(&str, isize); 3] = [("a byte", 1), ("39 bytes", 39), ("a record", 40)];
pub const FEWER_BYTES: [(&str, isize); 4] = [
    ("a byte", -1),
    ("39 bytes", -39),
    ("a record", -40),
    ("all", isize::MIN),
];

/// How two places that follow each other don't rise; those of the last two do once they are cut.
pub const NOT_RISING: [&str; 4] = ["equal", "falling", "2^32 too high", "2^63 too high"];

/// Which two places of the set these are.
pub const PAIRS: [&str; 4] = ["only", "first", "middle", "last"];

pub const OTHER_CLAIMS: [&str; 4] = ["a byte short", "a byte long", "empty", "another code's"];

/// Claims of the right length that aren't the digest held.
pub const STALE_CLAIMS: [&str; 6] = [
    "first byte",
    "any byte",
    "last byte",
    "any bytes",
    "the digest that it would leave",
    "the digest of the sheet, marks false",
];

impl Numbers {
    /// A number of records: few groups, or about as many as a set can have places.
    fn changed(&mut self) -> usize {
        match self.between(0, 19) {
            0 => self.between(MOST_CHANGES - 1, MOST_CHANGES + 12),
            1..=5 => self.one_of(&[0, 1, 3, 4, 5]),
            _ => self.between(0, 24),
        }
    }

    /// The places of a set of changes to n records: some of those in a part of the sheet, which may be all of it.
    pub fn places(&mut self, n: usize) -> Vec<usize> {
        let most = n.min(MOST_CHANGES);
        let (few, any) = (self.between(0, most.min(6)), self.between(0, most));
        let less = most.saturating_sub(1);
        let count = self.one_of(&[0, 1, 2, few, any, less, less, most, most]);
        let count = count.min(most);
        let part = self.one_of(&[count, count + 1, count + 3, n]).min(n);
        let any = self.between(0, n - part);
        let start = self.one_of(&[0, any, n - part]);
        let mut places = vec![];
        for place in start..start + part {
            if self.between(1, start + part - place) <= count - places.len() {
                places.push(place);
            }
        }
        places
    }

    /// Has the places of n records be too many, or not rise, and says how. Their records are as many.
    fn refuse_set(&mut self, n: usize, given: &mut Given) -> String {
        let places = &mut given.places;
        let way = match self.between(0, 5) {
            0..=3 if n > MOST_CHANGES => {
                let any = self.between(MOST_CHANGES + 1, n);
                let count = self.one_of(&[MOST_CHANGES + 1, any]);
                *places = (n - count..n).collect();
                RISING[usize::from(count > MOST_CHANGES + 1)].into()
            }
            0 | 1 => {
                let count = self.one_of(&TOO_MANY_CHANGES);
                *places = (0..count).map(|i| i * n / count).collect();
                format!("{count} places")
            }
            _ => {
                if places.len() < 2 {
                    let place = n.saturating_sub(2);
                    *places = vec![place, place + 1];
                }
                let last = places.len() - 1;
                let any = self.between(1, last);
                let at = self.one_of(&[1, any, any, last]);
                let way = self.one_of(&NOT_RISING);
                match way {
                    "equal" => places[at] = places[at - 1],
                    "falling" => places.swap(at - 1, at),
                    "2^32 too high" => places[at - 1] |= 1 << 32,
                    _ => places[at - 1] |= 1 << 63,
                }
                let pair = PAIRS[match at {
                    _ if last == 1 => 0,
                    1 => 1,
                    _ if at < last => 2,
                    _ => 3,
                }];
                format!("{way}, the {pair} two")
            }
        };
        given.records.resize(RECORD_BYTES * given.places.len(), 0);
        way
    }

    /// Has the last place, or all of them, be that of no record.
    fn refuse_place(&mut self, n: usize, given: &mut Given) -> String {
        let places = &mut given.places;
        if places.is_empty() {
            places.push(0);
            given.records.resize(RECORD_BYTES, 0);
        }
        let (name, wide) = self.one_of(&NO_PLACES);
        let wide = wide + if name.starts_with('n') { n } else { 0 };
        let last = places.len() - 1;
        if name.ends_with("place") {
            let from = self.one_of(&[0, last]);
            for place in &mut places[from..] {
                *place = place.wrapping_add(wide);
            }
            return format!("{name}, {}", REFUSED_PLACES[usize::from(from > 0)]);
        }
        places[last] = wide;
        format!("{name}, {}", REFUSED_PLACES[usize::from(last > 0)])
    }

    /// Has the new records be other than 40 bytes for each place.
    fn refuse_records(&mut self, given: &mut Given) -> String {
        let bytes = given.records.len();
        let (name, (way, other)) = match bytes > 0 && self.between(0, 1) == 0 {
            true => ("short", self.one_of(&FEWER_BYTES)),
            false => ("long", self.one_of(&MORE_BYTES)),
        };
        given.records.resize(bytes.saturating_add_signed(other), 0);
        let set = SETS[given.places.len().min(2)];
        format!("records {way} {name}, {set}")
    }

    /// Makes the right claim of a call another one of its length. The last two are at times the right one too.
    fn stale_claim(&mut self, call: Call, given: &mut Given) -> String {
        let way = self.one_of(&STALE_CLAIMS);
        let last = given.claim.len() - 1;
        let bit = 1 << self.between(0, 7);
        match way {
            "first byte" => given.claim[0] ^= bit,
            "last byte" => given.claim[last] ^= bit,
            "any byte" => given.claim[self.between(0, last)] ^= bit,
            "any bytes" => given.claim = self.bytes(last + 1),
            "the digest that it would leave" => {
                let mut saved = given.clone();
                sheet_model::answer(call, &mut saved);
                given.claim = saved.out[..=last].to_vec();
            }
            _ => {
                let sheet = &given.sheet[..RECORD_BYTES * given.n];
                given.claim = bytes_of(&luffa::digest(given.code, sheet));
            }
        }
        format!("claim: {way}")
    }

    /// Has this refusal of any save of n records hold, and says how: 1, 2, 5, 6 or 10.
    pub fn refuse_save(&mut self, number: u64, n: usize, given: &mut Given) -> String {
        match number {
            1 => {
                given.code = self.one_of(&NO_CODES);
                format!("code {}", given.code)
            }
            2 => {
                let d = digest_bytes(given.code);
                let (name, length) = self.one_of(&[("a byte", d - 1), ("all", 0)]);
                given.out.truncate(length);
                format!("output {name} short")
            }
            5 => {
                let room = |n| {
                    given.marks.resize(words_for(n), 0);
                    given.list.resize(n, 0);
                };
                self.refuse_sheet(&mut given.n, &mut given.sheet, room)
            }
            6 => self.refuse_marks(n, &mut given.marks),
            _ => {
                let d = digest_bytes(given.code);
                let way = self.one_of(&OTHER_CLAIMS);
                let any = [1, 2, 3, 4].map(digest_bytes);
                let other: Vec<usize> = any.into_iter().filter(|&bytes| bytes != d).collect();
                let length = match way {
                    "a byte short" => d - 1,
                    "a byte long" => d + 1,
                    "empty" => 0,
                    _ => self.one_of(&other),
                };
                given.claim.resize(length, 0);
                format!("claim {way}")
            }
        }
    }

    /// Has this refusal of a batch or of closing up hold, and says how.
    fn refuse_by(&mut self, number: u64, call: Call, n: usize, given: &mut Given) -> String {
        match number {
            7 => self.refuse_place(n, given),
            9 => self.refuse_records(given),
            11 => self.stale_claim(call, given),
            14 => self.refuse_set(n, given),
            23 => self.refuse_list(n, given),
            _ => self.refuse_save(number, n, given),
        }
    }

    /// Has one of these refusals hold, or some of them, in turn, and says how.
    pub fn refuse_some(
        &mut self,
        refusals: &[u64],
        call: Call,
        given: &mut Given,
    ) -> Vec<(u64, String)> {
        let n = given.n;
        let one = 1 << self.between(0, refusals.len() - 1);
        let some = self.between(1, (1 << refusals.len()) - 1);
        let hold = self.one_of(&[one, some]);
        let mut ways = vec![];
        for (k, &number) in refusals.iter().enumerate() {
            if hold >> k & 1 == 1 {
                ways.push((number, self.refuse_by(number, call, n, given)));
            }
        }
        ways
    }
}

/// Rising places that are too many.
pub const RISING: [&str; 2] = ["65 places, rising", "over 65 places, rising"];

/// Which of the set's places are those of no record.
pub const REFUSED_PLACES: [&str; 2] = ["all", "the last alone"];

/// Every refusal of a batch, in the order in which they can be had to hold together: a claim is outdated by the set
/// as it was meant, the records are as many as the places, and the code says how long a digest is.
const REFUSALS: [u64; 9] = [11, 14, 7, 9, 10, 2, 5, 6, 1];

/// The calls on a sheet that are refused, before one is done.
const REFUSED: usize = 4;

/// A batch of changes to a sheet, after what is refused of it.
pub fn batch(numbers: &mut Numbers, met: &mut Met) -> Agreed {
    let n = numbers.changed();
    let held = numbers.sheet_and_marks(n);
    save(Call::Batch, &REFUSALS, held, numbers, met)
}

/// A sheet whose marks are at times spoiled first: what is refused of a save of it, each time one of these refusals or
/// some of them, and then the save.
pub fn save(
    call: Call,
    refusals: &[u64],
    mut held: Mending,
    numbers: &mut Numbers,
    met: &mut Met,
) -> Agreed {
    let any = numbers.one_of(&WAYS);
    let way = numbers.one_of(&[Way::Not, any]);
    numbers.spoil_marks(way, &mut held);
    let mut history = History::found(held);
    let mut given = history.given(numbers, 0);
    given.claim = sheet_model::held(&given).0;
    for _ in 0..REFUSED {
        let mut refused = given.clone();
        let ways = numbers.refuse_some(refusals, call, &mut refused);
        let answer = history.clone().call(call, refused, met)?;
        see_refused(met, call, &ways, &answer);
    }
    // An empty batch doesn't work on from any mark.
    if call != Call::Batch || !given.places.is_empty() {
        met.see(format!("{call:?} {way:?}, code {}", given.code));
    }
    let answer = history.call(call, given, met)?;
    assert_eq!(answer.number, 0);
    Ok(())
}
