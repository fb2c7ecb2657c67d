//! Random sheets of wells, some of which are struck and one of which may be mistyped.

use super::{Kind, Link, Well};
use crate::Sheet;
use crate::random::Numbers;

/// A random sheet.
pub(super) struct Given {
    /// Sound wells, and none where a record is struck.
    pub wells: Vec<Option<Well>>,
    /// Where the kind of one is mistyped, if it is.
    pub fault: Option<usize>,
}

impl Given {
    /// These wells, with up to eight struck records among them in half of all sheets. One record is mistyped in
    /// a quarter, at times a struck one.
    pub fn any(numbers: &mut Numbers, wells: Vec<Well>) -> Given {
        let mut wells: Vec<_> = wells.into_iter().map(Some).collect();
        for _ in 0..numbers.below(2) * numbers.below(9) {
            wells.insert(numbers.below(wells.len() + 1), None);
        }
        let mistyped = !wells.is_empty() && numbers.below(4) == 0;
        let fault = mistyped.then(|| numbers.below(wells.len()));
        Given { wells, fault }
    }

    pub fn bytes(&self) -> Vec<u8> {
        let record = |well: &Option<Well>| well.map_or(Sheet::STRUCK, |well| well.to_record());
        let mut records: Vec<_> = self.wells.iter().map(record).collect();
        if let Some(place) = self.fault {
            records[place][2] ^= 4;
        }
        records.concat()
    }
}

/// Up to 1,024 wells of both kinds, whose producers have at most so many links. Two sheets of few wells will
/// have some numbers in common.
pub(super) fn any_wells(numbers: &mut Numbers, n: usize, most_links: usize) -> Vec<Well> {
    // A prime, so that no number is met twice.
    let all = if n < 61 { 61 } else { 1031 };
    let (first, step) = (numbers.below(all), 1 + numbers.below(all - 1));
    let mut wells: Vec<_> = (0..n)
        .map(|place| 1 + 65_535 / all * ((first + step * place) % all))
        .map(|number| [Well::producer, Well::injector][numbers.below(2)](number as u16))
        .collect();
    let injectors: Vec<_> = wells
        .iter()
        .filter(|w| w.kind() == Kind::Injector)
        .map(Well::number)
        .collect();
    let producers = |w: &&mut Well| w.kind() == Kind::Producer;
    for well in wells.iter_mut().filter(producers) {
        let links = any_links(numbers, &injectors, most_links);
        if !links.is_empty() {
            let thousands = 1000 * (1 + numbers.below(100));
            let rate = [1, thousands, 1 + numbers.below(100_000)][numbers.below(3)];
            *well = well.with_rate(rate as u32).with_links(&links).unwrap();
        }
    }
    wells
}

/// None to so many of the injectors, with shares that add up.
fn any_links(numbers: &mut Numbers, injectors: &[u16], most: usize) -> Vec<Link> {
    let count = numbers.below(injectors.len().min(most) + 1);
    let (first, mut left) = (numbers.below(injectors.len().max(1)), 1000);
    let link = |k| {
        let share = match count - 1 - k {
            0 => left,
            behind => 1 + numbers.below(left - behind),
        };
        left -= share;
        Link {
            injector: injectors[(first + k) % injectors.len()],
            share: share as u16,
        }
    };
    (0..count).map(link).collect()
}
