//! Who depends on a well (document 02), by distances: each link of the sheet is a pair of places, and a record is as
//! far from the well as the shortest chain has links, however many. Every link draws its ends together until none
//! does any more, and only then are the hops asked for compared with what came out.

use crate::output::holding;
use crate::plan::{self, Rule, Well, INJECTOR};
use crate::sheet::no_sheet;
use std::collections::BTreeMap;

pub const MOST_HOPS: usize = 3;

/// How far a record is that no chain joins.
pub const UNJOINED: usize = usize::MAX;

/// What is asked of n records in a sheet of so many bytes, and the bytes lent for the marks.
#[derive(Clone, Copy, Debug)]
pub struct Asked {
    pub sheet_len: usize,
    pub n: usize,
    pub well: usize,
    pub hops: usize,
    pub room: usize,
}

/// The wells of a sheet, what the check of content says of them, and what joins them.
pub struct Net {
    pub wells: Vec<Well>,
    pub fault: Option<(usize, Rule)>,
    /// The place of a producer, and that of an injector that it links.
    links: Vec<(usize, usize)>,
}

impl Net {
    pub fn new(wells: Vec<Well>) -> Net {
        let injectors = (0..).zip(&wells).filter(|(_, well)| well.kind == INJECTOR);
        let places: BTreeMap<u16, usize> = injectors
            .map(|(place, well)| (well.number, place))
            .collect();
        let mut links = vec![];
        for (from, well) in wells.iter().enumerate() {
            let to = well.used().iter().filter_map(|l| places.get(&l.injector));
            links.extend(to.map(|&to| (from, to)));
        }
        Net {
            fault: plan::fault(&wells),
            wells,
            links,
        }
    }

    /// The place of the record with this number. A struck one is no well, and number 0 isn't its own.
    pub fn place(&self, well: usize) -> Option<usize> {
        let has = |one: &Well| !one.is_struck() && usize::from(one.number) == well;
        self.wells.iter().position(has)
    }

    /// Every refusal that holds, in the request's order. Of a sheet that isn't there whole, the wells are those that
    /// are.
    pub fn refusals(&self, asked: Asked) -> Vec<u64> {
        holding([
            (5, no_sheet(asked.n, asked.sheet_len)),
            (19, asked.hops > MOST_HOPS),
            (20, self.fault.is_some()),
            (21, self.place(asked.well).is_none()),
            (22, asked.room < asked.n),
        ])
    }

    /// How far each record of a sound sheet is from the one at this place.
    pub fn distances(&self, from: usize) -> Vec<usize> {
        let mut far = vec![UNJOINED; self.wells.len()];
        far[from] = 0;
        loop {
            let before = far.clone();
            for &(producer, injector) in &self.links {
                far[producer] = far[producer].min(far[injector].saturating_add(1));
                far[injector] = far[injector].min(far[producer].saturating_add(1));
            }
            if far == before {
                return far;
            }
        }
    }
}
