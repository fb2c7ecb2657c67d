//! Random sheets against the shortest chains between all their wells.

use super::{Reached, reach, reach_into};
use crate::Error;
use crate::plan::Well;
use crate::plan::given::{Given, any_wells};
use crate::random::Numbers;
use std::collections::BTreeMap;

/// More than any chain has.
const APART: usize = 1000;

/// Whether one is a producer that links the other.
pub fn links(one: &Well, other: &Well) -> bool {
    let mut named = one.links().iter().map(|link| link.injector);
    named.any(|injector| injector == other.number())
}

/// How many links the shortest chain has between each two wells: with every well in turn, the chains that go
/// by it. None goes by a struck record, or to one.
fn distances(wells: &[Option<Well>]) -> Vec<Vec<usize>> {
    let near = |one: &Option<Well>, other: &Option<Well>| match (one, other) {
        (Some(one), Some(other)) if one == other => 0,
        (Some(one), Some(other)) if links(one, other) || links(other, one) => 1,
        _ => APART,
    };
    let row = |one| wells.iter().map(|other| near(one, other)).collect();
    let mut all: Vec<Vec<_>> = wells.iter().map(row).collect();
    for by in 0..wells.len() {
        let from_by = all[by].clone();
        for row in &mut all {
            let to_by = row[by];
            for (links, on) in row.iter_mut().zip(&from_by) {
                *links = (*links).min(to_by + on);
            }
        }
    }
    all
}

#[test]
fn random_sheets() {
    let mut numbers = Numbers(10);
    let mut met = BTreeMap::new();
    for k in 0..200 {
        let n = numbers.below(25);
        let wells = any_wells(&mut numbers, n, 1 + k % 4);
        let given = Given::any(&mut numbers, wells);
        let n = given.wells.len();
        let (bytes, distances) = (given.bytes(), distances(&given.wells));
        let mut meet = |kind| *met.entry(kind).or_insert(0) += 1;
        let rows = given.wells.iter().zip(&distances);
        for (well, row) in rows.filter_map(|(well, row)| well.map(|well| (well, row))) {
            for hops in 0..=Reached::HOPS_MOST {
                let number = well.number();
                // With more bytes than the records need.
                let mut lent = numbers.bytes(n + k % 5);
                let mut wanted = lent.clone();
                let told = reach_into(&bytes, number, hops, &mut lent);
                if given.fault.is_none() {
                    assert_eq!(told, Ok(()));
                    for (byte, links) in wanted.iter_mut().zip(row) {
                        *byte = u8::from(*links <= hops);
                    }
                } else {
                    assert_eq!(told, Err(Error::Unsound));
                }
                assert_eq!(lent, wanted, "sheet {k}, well {number} in {hops}");
            }
            for (other, links) in given.wells.iter().zip(row) {
                meet(match (given.fault, other, *links) {
                    (Some(_), ..) => "unsound",
                    (_, None, _) => "struck",
                    (_, _, 0) => "itself",
                    (_, _, 1) => "one hop",
                    (_, _, 2) => "two hops",
                    (_, _, 3) => "three hops",
                    (_, _, APART) => "apart",
                    _ => "farther",
                });
            }
        }
        // The highest number that a well of so few may have is 64,441. A struck record has none, nor 0.
        let refused = given.fault.map_or(Error::Well, |_| Error::Unsound);
        for other in [65_535 - numbers.below(20) as u16, 0] {
            assert_eq!(reach(&bytes, other, k % 4), Err(refused));
        }
    }
    assert_eq!(met.len(), 8, "{met:?}");
    assert!(met.values().all(|times| *times > 1000), "{met:?}");
}
