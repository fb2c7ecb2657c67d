//! Sheets for the check of content: sound ones, with numbers at the edge of each rule and at times with struck records,
//! and the same mistyped at a place or two on purpose. Every call goes through calls.rs.

use crate::calls;
use crate::met::Met;
use crate::plan::{self, Link, Rule, Well, INJECTOR, PRODUCER};
use crate::plan_kinds::see_plan;
use crate::sheet::{Record, MOST, RECORD_BYTES};
use crate::{Agreed, Numbers};
use std::collections::BTreeSet;

impl Numbers {
    /// A number of wells: few, or now and then as many as a sheet can have.
    pub fn wells(&mut self) -> usize {
        match self.between(0, 99) {
            0 => self.between(1023, MOST),
            1 => self.between(30, 100),
            2..=15 => self.between(0, 2),
            _ => self.between(3, 12),
        }
    }

    /// Different well numbers: any, in a row, or such as differ in few bits only.
    pub fn well_numbers(&mut self, n: usize) -> Vec<u16> {
        let any = self.next() as u16;
        let first = self.one_of(&[any, any, 1, 250, 65_530]);
        let way = self.between(0, 2);
        let mut all = vec![];
        for k in 0u32.. {
            if all.len() == n {
                break;
            }
            let number = match way {
                0 => self.next() as u16,
                1 => first.wrapping_add(k as u16),
                _ => (0..self.between(0, 4)).fold(first, |x, _| x ^ 1 << self.between(0, 15)),
            };
            if number != 0 && !all.contains(&number) {
                all.push(number);
            }
        }
        all
    }

    pub fn rate(&mut self) -> u32 {
        let any = self.between(1, 100_000) as u32;
        self.one_of(&[1, 65_536, 99_999, 100_000, any, any])
    }

    /// Shares that total 1000, at times all but one of them small.
    fn shares(&mut self, count: usize) -> Vec<u16> {
        let most = self.one_of(&[4, 999, 999]);
        let mut cuts = BTreeSet::from([0, 1000]);
        while cuts.len() < count + 1 {
            cuts.insert(self.between(1, most) as u16);
        }
        let cuts: Vec<u16> = cuts.into_iter().collect();
        let mut shares: Vec<u16> = cuts.windows(2).map(|two| two[1] - two[0]).collect();
        shares.rotate_left(self.between(0, count - 1));
        shares
    }

    /// A producer with this many links to different ones of these injectors.
    pub fn producer(&mut self, number: u16, count: usize, injectors: &[u16]) -> Well {
        let mut well = at_rest(number, PRODUCER);
        if count == 0 {
            return well;
        }
        (well.link_count, well.rate) = (count as u8, self.rate());
        let mut left = injectors.to_vec();
        for (link, share) in well.links.iter_mut().zip(self.shares(count)) {
            let injector = left.swap_remove(self.between(0, left.len() - 1));
            *link = Link { injector, share };
        }
        well
    }

    /// A sound sheet. At times its injectors stand all before its producers, or all after them.
    pub fn sound_wells(&mut self, n: usize) -> Vec<Well> {
        let of_four = self.one_of(&[0, 1, 2, 2, 2, 3, 3, 4]);
        let kind = |k| if k < of_four { INJECTOR } else { PRODUCER };
        let mut kinds: Vec<u8> = (0..n).map(|_| kind(self.between(0, 3))).collect();
        match self.between(0, 3) {
            0 => kinds.sort(),
            1 => kinds.sort_by(|a, b| b.cmp(a)),
            _ => (),
        }
        let wells: Vec<Well> = self
            .well_numbers(n)
            .into_iter()
            .zip(kinds)
            .map(|(number, kind)| at_rest(number, kind))
            .collect();
        let injectors = injectors(&wells);
        let most = injectors.len().min(4);
        wells
            .into_iter()
            .map(|well| match well.kind {
                PRODUCER => {
                    let any = self.between(0, most);
                    let count = self.one_of(&[any, any, most]);
                    self.producer(well.number, count, &injectors)
                }
                _ => Well {
                    rate: self.rate() * self.between(0, 1) as u32,
                    ..well
                },
            })
            .collect()
    }

    /// Has the well at this place break a rule in one of the ways there are, or come near it. Where
    /// it has no links to spoil, another well's are.
    fn mistype(&mut self, wells: &mut [Well], place: usize, rule: Rule) {
        let some_well = |numbers: &mut Numbers| wells[numbers.between(0, wells.len() - 1)];
        let (one, other) = (some_well(self), some_well(self));
        let injectors = injectors(wells);
        let linked = |place: &usize| !wells[*place].used().is_empty();
        let place = match rule {
            Rule::Links | Rule::Shares if !linked(&place) => {
                let all: Vec<usize> = (0..wells.len()).filter(linked).collect();
                if all.is_empty() {
                    return;
                }
                self.one_of(&all)
            }
            _ => place,
        };
        let well = &mut wells[place];
        let used = well.used().len();
        match rule {
            Rule::Number => self.renumber(wells, place, 0),
            Rule::Repeat => self.renumber(wells, place, one.number),
            Rule::Kind => well.kind = self.one_of(&[0, 3, 129, 130, 255]),
            Rule::LinkCount => match self.between(0, 4) {
                0 => well.link_count = self.one_of(&[1, 4, 5, 132, 255]),
                1 => well.rate = 0,
                2 => well.link_count = 0,
                3 if !injectors.is_empty() => {
                    // Links in good order, which an injector has not.
                    let linked = self.producer(well.number, 1, &injectors);
                    (well.link_count, well.links) = (1, linked.links);
                }
                _ => {
                    *well = at_rest(well.number, well.kind);
                    let over = self.one_of(&OVER_RATE);
                    well.rate = self.one_of(&[1, 65_536, 100_000, over]);
                }
            },
            Rule::Rate => well.rate = self.one_of(&OVER_RATE),
            Rule::Links => {
                let (k, m) = self.two_of(used);
                let off = well.links[k].injector ^ 1 << self.between(0, 15);
                let again = well.links[m].injector;
                let some = self.one_of(&[one.number, other.number, well.number, 0]);
                well.links[k].injector = self.one_of(&[off, off, again, some, some]);
            }
            Rule::Shares => self.spoil_shares(&mut well.links[..used]),
            Rule::UnusedLinks if used < 4 => {
                let link = &mut well.links[self.between(used, 3)];
                let bit = 1 << self.between(0, 15);
                match self.between(0, 1) {
                    0 => link.injector ^= bit,
                    _ => link.share ^= bit,
                }
            }
            Rule::UnusedLinks => (),
        }
    }

    /// Strikes some of the wells, now and then: mostly such as no other links, and else any one.
    pub fn strike_some(&mut self, wells: &mut [Well]) {
        match self.between(0, 19) {
            0 if !wells.is_empty() => wells[self.some_place(wells.len())] = Well::default(),
            _ => self.strike_unlinked(wells),
        }
    }

    /// Strikes one of the wells that no other links, or some of them, or altogether all, now and then. What was sound
    /// still is.
    pub fn strike_unlinked(&mut self, wells: &mut [Well]) {
        let links = wells.iter().flat_map(|well| well.used());
        let linked: BTreeSet<u16> = links.map(|link| link.injector).collect();
        let unlinked = |&place: &usize| !linked.contains(&wells[place].number);
        let unlinked: Vec<usize> = (0..wells.len()).filter(unlinked).collect();
        if unlinked.is_empty() {
            return;
        }
        let of_four = self.between(1, 3);
        match self.between(0, 11) {
            0 => wells.fill(Well::default()),
            1 => wells[self.one_of(&unlinked)] = Well::default(),
            2 | 3 => {
                for place in unlinked {
                    if self.between(1, 4) <= of_four {
                        wells[place] = Well::default();
                    }
                }
            }
            _ => (),
        }
    }

    /// A record of which one bit is set, or only a note, or all but the note.
    pub fn nearly_struck(&mut self) -> Record {
        let mut record = [0; RECORD_BYTES];
        match self.between(0, 5) {
            0 => record[24..].copy_from_slice(&self.bytes(16)),
            1 => record[..24].copy_from_slice(&self.bytes(24)),
            _ => record[self.between(0, RECORD_BYTES - 1)] = 1 << self.between(0, 7),
        }
        record
    }

    /// Mistypes a sheet so many times, often more than once at one place. At times the well there is nearly struck.
    pub fn mistype_some(&mut self, wells: &mut [Well], times: usize) {
        let n = wells.len();
        if n == 0 {
            return;
        }
        let mut place = self.some_place(n);
        for _ in 0..times {
            match self.between(0, 9) {
                0 => wells[place] = Well::read(&self.nearly_struck()),
                _ => {
                    let rule = self.one_of(&Rule::ALL);
                    self.mistype(wells, place, rule);
                }
            }
            place = match self.between(0, 1) {
                0 => place,
                _ => self.some_place(n),
            };
        }
    }

    /// Two of so many, different ones if there are two.
    fn two_of(&mut self, count: usize) -> (usize, usize) {
        let k = self.between(0, count - 1);
        (k, (k + self.between(1, (count - 1).max(1))) % count)
    }

    /// Gives a well another number; half of the time those that link it follow.
    fn renumber(&mut self, wells: &mut [Well], place: usize, number: u16) {
        let old = std::mem::replace(&mut wells[place].number, number);
        if self.between(0, 1) == 0 {
            return;
        }
        for well in wells {
            let used = well.used().len();
            let links = well.links[..used].iter_mut();
            links
                .filter(|link| link.injector == old)
                .for_each(|link| link.injector = number);
        }
    }

    fn spoil_shares(&mut self, links: &mut [Link]) {
        let used = links.len();
        let (k, m) = self.two_of(used);
        match self.between(0, 4) {
            0 => links[k].share = self.one_of(&[0, 1, 999, 1000, 1001, 65_535]),
            1 if k != m => {
                // The same total, and a share too small.
                let moved = std::mem::take(&mut links[k].share);
                links[m].share = links[m].share.wrapping_add(moved);
            }
            2 if k != m => {
                // The same total once it is cut to 16 bits.
                let moved = std::mem::replace(&mut links[k].share, 65_535);
                links[m].share = links[m].share.wrapping_add(moved).wrapping_add(1);
            }
            3 => {
                // Another total, with shares of 1 to 1000.
                let mut left = self.one_of(&TOTALS) as usize;
                for (after, link) in (0..used).rev().zip(links) {
                    link.share = left.saturating_sub(after).clamp(1, 1000) as u16;
                    left = left.saturating_sub(link.share as usize);
                }
            }
            _ => {
                let share = self.one_of(&[250, 500, 1000]);
                links.iter_mut().for_each(|link| link.share = share);
            }
        }
    }

    pub fn some_place(&mut self, n: usize) -> usize {
        let any = self.between(0, n - 1);
        self.one_of(&[0, n - 1, any])
    }

    /// The records of these wells. Mostly each with a number is given the same note.
    pub fn sheet(&mut self, wells: &[Well]) -> Vec<u8> {
        let note = self.note();
        let records = wells.iter().map(|well| bytes_of(well, note));
        records.collect::<Vec<Record>>().as_flattened().to_vec()
    }

    fn note(&mut self) -> [u8; 16] {
        let any = self.bytes(16).try_into().unwrap();
        self.one_of(&[any, any, [0; 16]])
    }

    /// What lies behind the n-th record: often nothing, or a byte, or records that would make another
    /// sheet of it.
    pub fn behind(&mut self, wells: &[Well]) -> Vec<u8> {
        let note = self.note();
        let record = |well: &Well| bytes_of(well, note).to_vec();
        match self.between(0, 7) {
            0 => self.bytes(1),
            1 => vec![0; RECORD_BYTES],
            2 => wells.first().map(record).unwrap_or_default(),
            3 | 4 => {
                // The injectors that a sheet may be missing.
                let links = wells.iter().flat_map(|well| well.used());
                let missing = links.map(|link| record(&at_rest(link.injector, INJECTOR)));
                missing.take(40).flatten().collect()
            }
            _ => vec![],
        }
    }
}

/// Rates that are too high, among them such as aren't once they are cut to fewer bytes, or signed.
pub const OVER_RATE: [u32; 5] = [100_001, 131_072, 165_536, 16_777_221, 1 << 31];

/// Totals that aren't 1000, among them such as are the same once they are cut to a few bits.
pub const TOTALS: [u16; 7] = [999, 1001, 744, 1256, 488, 1512, 2024];

pub fn at_rest(number: u16, kind: u8) -> Well {
    Well {
        number,
        kind,
        ..Well::default()
    }
}

pub fn injectors(wells: &[Well]) -> Vec<u16> {
    let injectors = wells.iter().filter(|well| well.kind == INJECTOR);
    injectors.map(|well| well.number).collect()
}

/// The record of a well, with this note unless it has no number: such a one may be struck, or nearly so.
pub fn bytes_of(well: &Well, note: [u8; 16]) -> Record {
    let note = if well.number == 0 { well.note } else { note };
    let links = well.links.map(|link| [link.injector, link.share]);
    let links: Vec<u8> = links
        .as_flattened()
        .iter()
        .flat_map(|number| number.to_be_bytes())
        .collect();
    let all = [
        &well.number.to_be_bytes(),
        &[well.kind, well.link_count][..],
        &well.rate.to_be_bytes(),
        &links,
        &note,
    ];
    all.concat().try_into().unwrap()
}

/// Numbers of records that are too many, by name; `n` is added to the last ones, which are few once
/// they or their bytes are cut to fewer bits.
pub const TOO_MANY: [(&str, usize); 14] = [
    ("1,025", MOST + 1),
    ("2^63", 1 << 63),
    ("2^64 - 1", usize::MAX),
    ("2^64 - 1024", usize::MAX - 1023),
    ("2^64 / 40 + 1", usize::MAX / 40 + 1),
    ("2^61", 1 << 61),
    ("2^32", 1 << 32),
    ("2^16", 1 << 16),
    ("2^63 + n", 1 << 63),
    ("2^62 + n", 1 << 62),
    ("2^61 + n", 1 << 61),
    ("2^32 + n", 1 << 32),
    ("2^16 + n", 1 << 16),
    ("2^11 + n", 1 << 11),
];

/// How much of n records a buffer lacks, by name: bytes, up to all that they have.
pub const TOO_SHORT: [(&str, usize); 4] = [
    ("a byte", 1),
    ("39 bytes", 39),
    ("a record", RECORD_BYTES),
    ("all", usize::MAX),
];

/// A sheet, checked, and at times once more with an n or a length that is refused.
pub fn plan(numbers: &mut Numbers, met: &mut Met) -> Agreed {
    let n = numbers.wells();
    let mut wells = numbers.sound_wells(n);
    numbers.strike_some(&mut wells);
    let times = numbers.one_of(&[0, 0, 1, 1, 1, 2, 2, 3]);
    numbers.mistype_some(&mut wells, times);
    let mut sheet = numbers.sheet(&wells);
    sheet.extend(numbers.behind(&wells));
    let answer = calls::plan(&sheet, n)?;
    let wells = plan::wells(&sheet, n);
    see_plan(met, &wells, &sheet[RECORD_BYTES * n..], &answer);

    match numbers.between(0, 15) {
        0..=3 => {
            let (name, many) = numbers.one_of(&TOO_MANY);
            let many = many + if name.ends_with('n') { n } else { 0 };
            calls::plan(&sheet, many)?;
            met.see(format!("refused: n is {name}"));
        }
        4 => {
            sheet.resize(RECORD_BYTES * (MOST + 2), 0);
            calls::plan(&sheet, MOST + 1)?;
            met.see("refused: 1,025 with room for them".into());
        }
        5 | 6 if n > 0 => {
            let (name, short) = numbers.one_of(&TOO_SHORT);
            sheet.truncate((RECORD_BYTES * n).saturating_sub(short));
            calls::plan(&sheet, n)?;
            met.see(format!("refused: {name} short"));
        }
        _ => (),
    }
    Ok(())
}
