//! What holds between the answers for all wells of a sheet, with no search beside the library's.

use super::search::links;
use super::{Reached, reach};
use crate::plan::Well;
use crate::plan::given::any_wells;
use crate::random::Numbers;
use std::sync::LazyLock;

/// A sheet's wells, and what each reaches in 0, 1, 2 and 3 hops.
struct Answers {
    wells: Vec<Well>,
    reached: [Vec<Reached>; 4],
}

/// Sheets of a hundred wells, whose producers have up to one, two, three and four links.
static SHEETS: LazyLock<[Answers; 4]> = LazyLock::new(|| {
    let mut numbers = Numbers(4);
    [1, 2, 3, 4].map(|most_links| {
        let wells = any_wells(&mut numbers, 100, most_links);
        let bytes: Vec<_> = wells.iter().flat_map(Well::to_record).collect();
        let from = |well: &Well, hops| reach(&bytes, well.number(), hops).unwrap();
        let reached = [0, 1, 2, 3].map(|hops| wells.iter().map(|well| from(well, hops)).collect());
        Answers { wells, reached }
    })
});

#[test]
fn no_hop_and_one() {
    for Answers { wells, reached } in SHEETS.iter() {
        for (place, well) in wells.iter().enumerate() {
            assert!(reached[0][place].places().eq([place]));
            for (at, other) in wells.iter().enumerate() {
                let joined = at == place || links(well, other) || links(other, well);
                assert_eq!(reached[1][place].contains(at), joined, "{place} and {at}");
            }
        }
    }
}

#[test]
fn more_hops_never_unmark() {
    for Answers { reached, .. } in SHEETS.iter() {
        for hops in reached.windows(2) {
            for (fewer, more) in hops[0].iter().zip(&hops[1]) {
                assert!(fewer.places().all(|place| more.contains(place)));
            }
        }
    }
}

#[test]
fn mutual() {
    for Answers { reached, .. } in SHEETS.iter() {
        for (hops, all) in reached.iter().enumerate() {
            for (place, from) in all.iter().enumerate() {
                for (at, back) in all.iter().enumerate() {
                    let both = (from.contains(at), back.contains(place));
                    assert_eq!(both.0, both.1, "{place} and {at} in {hops}");
                }
            }
        }
    }
}

/// A chain goes by a well after any of its hops.
#[test]
fn hop_after_hop() {
    for Answers { wells, reached } in SHEETS.iter() {
        for (before, after) in [(0, 3), (1, 1), (1, 2), (2, 1), (3, 0)] {
            for place in 0..wells.len() {
                let by = reached[before][place].places();
                let mut places: Vec<_> = by.flat_map(|by| reached[after][by].places()).collect();
                places.sort();
                places.dedup();
                let whole = &reached[before + after][place];
                assert!(whole.places().eq(places), "{place} in {before} and {after}");
            }
        }
    }
}
