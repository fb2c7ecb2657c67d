//! Closing up struck wells: sheets in which none are struck, all of them, or some in one of many ways, over marks as
//! build leaves them or as a disk may give them back, and what is refused of them. Every call goes through calls.rs,
//! and what the archive does next with what is left must go with it.

use crate::batches;
use crate::brines::MORE_PLACES;
use crate::calls;
use crate::close_up::is_struck;
use crate::met::Met;
use crate::model::digest_bytes;
use crate::sheet::{Record, GROUP, MOST, RECORD_BYTES};
use crate::sheet_model::{Answer, Call, Given};
use crate::{Agreed, Numbers};

/// Which records of a sheet are struck.
#[derive(Clone, Copy, Debug, PartialEq)]
pub enum Struck {
    No,
    All,
    First,
    Last,
    One,
    AllButOne,
    Groups,
    EverySecond,
    Run,
    Any,
}

pub const STRUCK: [Struck; 10] = [
    Struck::No,
    Struck::All,
    Struck::First,
    Struck::Last,
    Struck::One,
    Struck::AllButOne,
    Struck::Groups,
    Struck::EverySecond,
    Struck::Run,
    Struck::Any,
];

/// Judges a call that was done by what its list says, and by what the archive does with what it left.
pub fn judge(before: &Given, after: &Given, answer: &Answer) -> Agreed {
    let mut closed = after.clone();
    closed.claim = after.out[..digest_bytes(after.code)].to_vec();
    let fault = [
        by_the_list(before, after),
        closed_again(&closed),
        in_freed_room(&closed, before.n),
    ];
    match fault.into_iter().flatten().next() {
        Some(fault) => {
            let (code, n) = (before.code, before.n);
            let what = format!("CloseUp at code {code}, n = {n}: {answer:?}");
            Err(format!("{what}, {fault}\n"))
        }
        None => Ok(()),
    }
}

/// The old places rise and are those of the records that aren't struck, and the record of each stands at its new place.
fn by_the_list(before: &Given, after: &Given) -> Option<String> {
    let [old, new] = [before, after].map(|given| given.sheet.as_chunks::<RECORD_BYTES>().0);
    let list = &after.list[..after.n];
    let rising = list.windows(2).all(|two| two[0] < two[1]);
    let listed = |place: usize| list.binary_search(&(place as u16)).is_ok();
    let unstruck = (0..before.n).all(|place| listed(place) != is_struck(&old[place]));
    let mut moved = list.iter().zip(new);
    let moved = moved.all(|(&place, record)| old[usize::from(place)] == *record);
    (!rising || !unstruck || !moved).then(|| format!("but the list has {list:?}"))
}

/// Closed up again, what was closed up stays as it is: only the list is written, with each place its own old one. It
/// costs the check twice.
fn closed_again(closed: &Given) -> Option<String> {
    let mut again = closed.clone();
    let answer = calls::alone(Call::CloseUp, &mut again);
    let f = [1, 1, 2, 2][closed.code - 1];
    let want = Answer {
        number: 0,
        count: closed.n as u64,
        rounds: 2 * (closed.n as u64 % 4 + 1 + f),
    };
    let own = (0..closed.n).map(|place| place as u16);
    let mut list: Vec<u16> = own.collect();
    list.extend(&closed.list[closed.n..]);
    let same = answer == want && again.list == list && left_alike(closed, &again);
    (!same).then(|| format!("and closed up again {answer:?}"))
}

/// A record appended where one was freed, and dropped from there, leaves what there was.
fn in_freed_room(closed: &Given, n: usize) -> Option<String> {
    if closed.n == n {
        return None;
    }
    let mut saved = closed.clone();
    saved.record = vec![0xff; RECORD_BYTES];
    let appended = calls::alone(Call::Append, &mut saved);
    saved.n += 1;
    saved.claim = saved.out[..closed.claim.len()].to_vec();
    let dropped = calls::alone(Call::Drop, &mut saved);
    let same = [appended, dropped].map(|answer| answer.number) == [0, 0]
        && left_alike(closed, &saved)
        && saved.out == closed.out;
    (!same).then(|| format!("and then an append {appended:?} and a drop {dropped:?}"))
}

fn left_alike(one: &Given, other: &Given) -> bool {
    one.sheet == other.sheet && one.marks == other.marks
}

impl Numbers {
    /// Strikes records of a sheet in this way. Of those that it leaves some are nearly struck.
    fn strike(&mut self, way: Struck, sheet: &mut [u8]) {
        let records: &mut [Record] = sheet.as_chunks_mut().0;
        let Some(last) = records.len().checked_sub(1) else {
            return;
        };
        let (one, other) = (self.between(0, last), self.between(0, last));
        let run = one.min(other)..=one.max(other);
        let groups: Vec<bool> = (0..=last / GROUP)
            .map(|_| self.between(0, 1) == 0)
            .collect();
        let of_four = self.between(1, 3);
        for (place, record) in records.iter_mut().enumerate() {
            let struck = match way {
                Struck::No => false,
                Struck::All => true,
                Struck::First => place == 0,
                Struck::Last => place == last,
                Struck::One => place == one,
                Struck::AllButOne => place != one,
                Struck::Groups => groups[place / GROUP],
                Struck::EverySecond => place % 2 == one % 2,
                Struck::Run => run.contains(&place),
                Struck::Any => self.between(1, 4) <= of_four,
            };
            if struck {
                record.fill(0);
            } else if self.between(0, 3) == 0 {
                *record = self.nearly_struck();
            }
        }
    }

    /// Strikes records of a sheet in any way.
    pub fn strike_any(&mut self, sheet: &mut [u8]) {
        let way = self.one_of(&STRUCK);
        self.strike(way, sheet);
    }

    /// A list that n places need, just enough of it or more; at times it is as long as would be too short once that is
    /// cut.
    pub fn list(&mut self, n: usize) -> Vec<u16> {
        let places = match self.between(0, 199) {
            0 if n > 0 => (1 << 16) + n - 1,
            1 if n > 0 => (1 << 8) + n - 1,
            _ => n + self.one_of(&MORE_PLACES),
        };
        (0..places).map(|_| self.next() as u16).collect()
    }

    /// Has the list be shorter than n records need, at times long enough for those that are left, and says how.
    pub fn refuse_list(&mut self, n: usize, given: &mut Given) -> String {
        let records = given.sheet.as_chunks::<RECORD_BYTES>().0.iter().take(n);
        let left = records.filter(|record| !is_struck(record)).count();
        let ways = [
            (FEWER_PLACES[0], n.saturating_sub(1)),
            (FEWER_PLACES[1], 0),
            (FEWER_PLACES[2], left),
        ];
        // Where none is struck, all places are needed.
        let ways = &ways[..if left < n { 3 } else { 2 }];
        let (name, places) = self.one_of(ways);
        given.list.truncate(places);
        format!("list {name}")
    }

    /// A number of records: few groups, or now and then about as many as a sheet can have.
    fn closing(&mut self) -> usize {
        match self.between(0, 399) {
            0 | 1 => MOST,
            2 => self.one_of(&[1021, 1022, 1023, 1023]),
            3 | 4 => self.between(25, 300),
            5..=60 => self.one_of(&[0, 1, 3, 4, 4, 5]),
            _ => self.between(0, 24),
        }
    }
}

/// How long a list is that is too short.
pub const FEWER_PLACES: [&str; 3] = ["one short", "empty", "as long as what is left"];

/// Every refusal of closing up, in the order in which they can be had to hold together: a claim is outdated by what
/// the sheet is, a count that is too high makes room for its list and its marks before they are too short, and the
/// code says how long a digest is.
const REFUSALS: [u64; 7] = [11, 10, 2, 5, 23, 6, 1];

/// A sheet with struck wells, closed up after what is refused of it. What lies behind it is at times like a struck
/// record.
pub fn close_up(numbers: &mut Numbers, met: &mut Met) -> Agreed {
    let n = numbers.closing();
    let any = numbers.one_of(&STRUCK);
    // There are few large sheets.
    let way = match n {
        MOST => numbers.one_of(&[Struck::No, Struck::All, any, any]),
        _ => numbers.one_of(&[any, any, Struck::Any]),
    };
    let mut records = numbers.bytes(RECORD_BYTES * n);
    numbers.strike(way, &mut records);
    let mut held = numbers.with_marks(records);
    if numbers.between(0, 1) == 0 {
        held.sheet[RECORD_BYTES * n..].fill(0);
    }
    met.see(format!("CloseUp {way:?} struck, code {}", held.code));
    batches::save(Call::CloseUp, &REFUSALS, held, numbers, met)
}
