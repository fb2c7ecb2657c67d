//! The order of the refusals of a save that brings what was opened: each alone and with every set of the others.

use super::Sheet;
use super::call::Call;
use super::tests::Kind;
use crate::Code;
use crate::order::{MAX, WIDE, Way, every_set};
use crate::sheet::saves;
use crate::sheet::tests::sheet;

// Ways to meet what each kind of save alone is refused for. They come before the others.
const NO_PLACE: &[Way<Call>] = &[
    |c| c.place = c.held.n,
    |c| c.place += WIDE,
    |c| c.place = MAX,
];
const NO_ROOM: &[Way<Call>] = &[
    |c| c.held.sheet.truncate(40 * c.held.n),
    |c| c.held.sheet.truncate(40 * c.held.n + 39),
];
const NO_RECORD: &[Way<Call>] = &[|c| c.held.n = 0];

/// Ways to meet the others that not every save has.
const WAYS: [(u64, &[Way<Call>]); 2] = [
    (
        9,
        &[
            |c| c.record.push(1),
            |c| c.record.truncate(39),
            |c| c.record.clear(),
            |c| c.record.extend([1; 40]),
        ],
    ),
    (
        15,
        &[
            |c| c.own_n = 1025,
            |c| c.own_n += WIDE,
            |c| c.own_n = MAX,
            |c| c.own.clear(),
            |c| c.own.truncate(40 * (c.own_n / 4) + 39),
            |c| c.own[0] ^= 1,
            |c| c.own[23] ^= 1 << 31,
        ],
    ),
];

#[test]
fn every_set_of_refusals() {
    // In the order in which they are judged, where 11 stands for 16 too.
    for (kind, order, own) in [
        (Kind::Change, &[1, 2, 5, 6, 7, 9, 10, 15, 11][..], NO_PLACE),
        (Kind::Append, &[1, 2, 5, 6, 8, 9, 10, 15, 11], NO_ROOM),
        (Kind::Drop, &[1, 2, 5, 6, 7, 10, 15, 11], NO_RECORD),
    ] {
        let ways: Vec<_> = [(order[4], own)]
            .into_iter()
            .chain(saves::ways())
            .chain(WAYS)
            .filter(|(number, _)| order.contains(number))
            .collect();
        for code in Code::ALL {
            // So many records at the beginning are the same: a group is named, or the tail.
            let calls = [(8, 13, 0), (9, 9, 9), (10, 3, 0), (11, 10, 4)].map(|(n, own_n, same)| {
                let held = sheet(code, n);
                let mut own = held.records()[..same].to_vec();
                own.resize(own_n, [1; 40]);
                Call::new(kind, &held, &Sheet::from_records(code, &own).unwrap())
            });
            every_set(&calls, order, &ways, Call::answers);
        }
    }
}
