//! Sheets of which it is asked who depends on a well: lines, stars, parts that nothing joins and any others, with
//! producers, injectors and struck records in any order; and what is refused of them. Every call goes through calls.rs.

use crate::brines::{FEWER, MORE_PLACES};
use crate::calls;
use crate::met::Met;
use crate::plan::{self, Well, INJECTOR};
use crate::plans::{at_rest, injectors};
use crate::reach::{Net, MOST_HOPS, UNJOINED};
use crate::reach_kinds::{see, see_from, see_refused};
use crate::reach_model::Search;
use crate::sheet::{MOST, RECORD_BYTES};
use crate::{Agreed, Numbers};

/// What a sheet is like. In a star all producers link one injector; parts are producers with up to four injectors of
/// their own.
pub const SHAPES: [&str; 4] = ["any", "line", "star", "parts"];

/// Numbers of hops that are refused, most of them few once they are cut.
pub const NO_HOPS: [usize; 14] = [
    MOST_HOPS + 1,
    MOST_HOPS + 2,
    255,
    256,
    256 + 1,
    1 << 16,
    (1 << 16) + 3,
    1 << 31,
    1 << 32,
    (1 << 32) + 1,
    (1 << 32) + 3,
    1 << 63,
    (1 << 63) + 2,
    usize::MAX,
];

/// Numbers of no well, by name: most of them those of a well once they are cut, and that of a record which comes after
/// the sheet's.
pub const NO_WELLS: [(&str, usize); 11] = [
    ("0", 0),
    ("2^16", 1 << 16),
    ("2^32", 1 << 32),
    ("2^64 - 1", usize::MAX),
    ("2^16 + the well", 1 << 16),
    ("2^31 + the well", 1 << 31),
    ("2^32 + the well", 1 << 32),
    ("2^48 + the well", 1 << 48),
    ("2^63 + the well", 1 << 63),
    ("a bit off", 0),
    ("behind the sheet", 0),
];

impl Numbers {
    /// Producers and injectors by turns, each producer with those beside it. Here and there a link is left out, and
    /// what comes after it is another part.
    fn line(&mut self, n: usize) -> Vec<Well> {
        let all = self.well_numbers(n);
        let first = self.between(0, 1);
        let well = |k: usize| {
            if k % 2 == first {
                return at_rest(all[k], INJECTOR);
            }
            let beside = [k.wrapping_sub(1), k + 1].map(|k| all.get(k));
            let beside = beside.into_iter().flatten().copied();
            let linked: Vec<u16> = beside.filter(|_| self.between(0, 11) > 0).collect();
            self.producer(all[k], linked.len(), &linked)
        };
        (0..n).map(well).collect()
    }

    /// A sound sheet with its shape. Mostly it isn't left in the order in which it was made.
    fn shaped(&mut self) -> (&'static str, Vec<Well>) {
        let n = match self.between(0, 399) {
            0 => self.between(0, MOST),
            1 | 2 => MOST,
            _ => self.wells(),
        };
        let shape = self.one_of(&SHAPES);
        let mut wells = match shape {
            "line" => self.line(n),
            "star" if n > 0 => self.one_takes_all(n),
            "parts" => self.all_overloaded(n),
            _ => self.sound_wells(n),
        };
        self.strike_unlinked(&mut wells);
        match self.between(0, 3) {
            0 => (),
            1 => wells.reverse(),
            _ => (1..n).for_each(|k| wells.swap(k, self.between(0, k))),
        }
        (shape, wells)
    }

    /// A producer that would be one more well of the sheet, and links its injectors.
    fn one_more(&mut self, wells: &[Well]) -> Well {
        let absent = |number: &u16| wells.iter().all(|well| well.number != *number);
        let number = (1..).find(absent).unwrap();
        let injectors = injectors(wells);
        self.producer(number, injectors.len().min(4), &injectors)
    }

    /// What is lent for a search of this sheet, just enough of it or more, and no well asked for yet. What the marks
    /// held before is anything.
    fn search(&mut self, wells: &[Well]) -> Search {
        let n = wells.len();
        let mut sheet = self.sheet(wells);
        let more = self.one_more(wells);
        sheet.extend(match self.between(0, 3) {
            0 => self.sheet(&[more]),
            _ => self.behind(wells),
        });
        // Both are at times as long as would be too short once it is cut.
        if n > 0 && self.between(0, 199) == 0 {
            sheet.resize((1 << 16) + RECORD_BYTES * n - 1, 0);
        }
        let room = match self.between(0, 199) {
            0 if n > 0 => (1 << 16) + n - 1,
            1 if n > 0 => (1 << 8) + n - 1,
            _ => n + self.one_of(&MORE_PLACES),
        };
        let any = self.bytes(room);
        let reached = match self.between(0, 5) {
            0 => vec![self.one_of(&STALE); room],
            1 => any.iter().map(|byte| STALE[*byte as usize % 4]).collect(),
            _ => any,
        };
        Search {
            sheet,
            n,
            well: 0,
            hops: 0,
            reached,
        }
    }

    /// A second record to ask for, beside the one from which all are so far: any that isn't struck, or one that a chain
    /// joins to it.
    fn other(&mut self, unstruck: &[usize], far: &[usize]) -> usize {
        let joined = |&place: &usize| far[place] != 0 && far[place] != UNJOINED;
        let joined: Vec<usize> = (0..far.len()).filter(joined).collect();
        let any = self.one_of(unstruck);
        if joined.is_empty() {
            return any;
        }
        let joined = self.one_of(&joined);
        self.one_of(&[any, joined, joined])
    }

    /// Has one refusal hold, or more of them, and says in which ways, or leaves all as it is.
    fn refuse_search(&mut self, wells: &mut [Well], given: &mut Search) -> Vec<String> {
        let (sheet, hops, unsound, well, marks) = (1, 2, 4, 8, 16);
        let hold = self.refusals(5);
        let n = given.n;
        let mut ways = vec![];
        if hold & unsound != 0 {
            let times = self.one_of(&[1, 1, 2]);
            self.mistype_some(wells, times);
            given.sheet = self.search(wells).sheet;
            ways.push("unsound".into());
        }
        if hold & hops != 0 {
            given.hops = self.one_of(&NO_HOPS);
            ways.push(format!("{} hops", given.hops));
        }
        if hold & well != 0 {
            ways.push(self.refuse_well(wells, given));
        }
        if hold & marks != 0 {
            let (name, fewer) = self.one_of(&FEWER);
            given.reached.truncate(n.saturating_sub(fewer));
            ways.push(format!("marks short by {name}"));
        }
        if hold & sheet != 0 {
            let room = |n| given.reached.resize(n, 0);
            ways.push(self.refuse_sheet(&mut given.n, &mut given.sheet, room));
        }
        ways
    }

    /// Asks for a well that the sheet hasn't.
    fn refuse_well(&mut self, wells: &[Well], given: &mut Search) -> String {
        // Number 0 might be taken for that of a struck record.
        let struck = wells.iter().any(Well::is_struck) && self.between(0, 3) == 0;
        let (name, wide) = self.one_of(&NO_WELLS[..if struck { 1 } else { NO_WELLS.len() }]);
        given.well = match name {
            "a bit off" => given.well ^ 1 << self.between(0, 15),
            "behind the sheet" => {
                let more = self.one_more(wells);
                given.sheet = [self.sheet(wells), self.sheet(&[more])].concat();
                more.number.into()
            }
            _ if name.ends_with("the well") => wide + given.well,
            _ => wide,
        };
        format!("well {name}")
    }
}

/// What a mark may hold before, as well as anything else: it may look like one, or be none.
pub const STALE: [u8; 4] = [0, 1, 2, 255];

/// Makes the call on both sides, and notes what it was.
fn call(given: &mut Search, net: &Net, met: &mut Met) -> Result<u32, String> {
    let before = given.clone();
    let number = calls::reach(given, net)?;
    see(met, &before, given, net);
    Ok(number)
}

/// Two wells, each asked for with every number of hops: more hops never unmark a record, and whether the one is marked
/// from the other is whether the other is from the one.
fn each_other(search: &Search, net: &Net, [one, other]: [usize; 2], met: &mut Met) -> Agreed {
    let mut before = [vec![0; search.n], vec![0; search.n]];
    for hops in 0..=MOST_HOPS {
        let mut marks = vec![];
        for (place, before) in [one, other].into_iter().zip(&mut before) {
            let well = net.wells[place].number.into();
            let mut given = Search {
                well,
                hops,
                ..search.clone()
            };
            call(&mut given, net, met)?;
            let now = &given.reached[..given.n];
            let mut pairs = before.iter().zip(now);
            if pairs.any(|(before, now)| before > now) {
                return Err(format!("well {well}: {hops} hops unmark a record\n"));
            }
            *before = now.to_vec();
            marks.push(given.reached);
        }
        if marks[0][other] != marks[1][one] {
            let what = format!("the wells at {one} and {other}, {hops} hops");
            return Err(format!("{what}: one is marked and the other isn't\n"));
        }
    }
    Ok(())
}

/// How often it is tried what is refused of a sheet.
const REFUSED: usize = 3;

/// A sheet, two of its wells asked for, and then at times what is refused of it.
pub fn reach(numbers: &mut Numbers, met: &mut Met) -> Agreed {
    let (shape, wells) = numbers.shaped();
    let mut search = numbers.search(&wells);
    let n = wells.len();
    let unstruck: Vec<usize> = (0..n).filter(|&place| !wells[place].is_struck()).collect();
    if !unstruck.is_empty() {
        let net = Net::new(plan::wells(&search.sheet, n));
        let one = unstruck[numbers.some_place(unstruck.len())];
        let far = net.distances(one);
        let other = numbers.other(&unstruck, &far);
        each_other(&search, &net, [one, other], met)?;
        see_from(met, shape, &search, &net, one, &far);
        search.well = wells[one].number.into();
    }
    search.hops = numbers.between(0, MOST_HOPS);
    for _ in 0..REFUSED {
        let mut spoilt = search.clone();
        let ways = numbers.refuse_search(&mut wells.clone(), &mut spoilt);
        if unstruck.is_empty() || !ways.is_empty() {
            let net = Net::new(plan::wells(&spoilt.sheet, spoilt.n));
            let number = call(&mut spoilt, &net, met)?;
            see_refused(met, &ways, number);
        }
    }
    Ok(())
}
