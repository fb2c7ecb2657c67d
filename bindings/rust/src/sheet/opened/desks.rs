//! Desks that save in turn, each from what it opened last. One that is turned away is told where, against its own
//! list of records, and opens the sheet again, at times.

use super::tests::told;
use super::{Opened, Sheet};
use crate::Code;
use crate::random::Numbers;
use crate::sheet::history::{Plain, Save};
use std::collections::BTreeMap;

struct Desk {
    records: Vec<[u8; 40]>,
    opened: Opened,
}

impl Desk {
    fn open(sheet: &Sheet) -> Desk {
        Desk {
            records: sheet.records().to_vec(),
            opened: sheet.opened(),
        }
    }
}

fn any_save(numbers: &mut Numbers, n: usize) -> Save {
    // One of few, so that a sheet may become what it was.
    let record = [numbers.below(3) as u8; 40];
    match numbers.below(7) {
        0..3 => Save::Change(numbers.below(n + 1), record),
        3..5 => Save::Append(record),
        _ => Save::Drop,
    }
}

#[test]
fn random_desks() {
    let mut met = BTreeMap::new();
    for (code, start) in Code::ALL
        .into_iter()
        .flat_map(|code| [0, 5, 40, 1020].map(|start| (code, start)))
    {
        let mut numbers = Numbers((100_000 * code.number() + start) as u64);
        let mut sheet = Sheet::from_records(code, &vec![[0; 40]; start]).unwrap();
        let mut desks = [(); 4].map(|()| Desk::open(&sheet));
        // A long one takes long to hash.
        for k in 0..if start < 1000 { 300 } else { 80 } {
            let desk = &mut desks[numbers.below(4)];
            let save = any_save(&mut numbers, sheet.len());
            let mut plain = Plain::of(&sheet);
            let from = &desk.opened;
            let wanted = plain.save(&save, &from.digest()).map_err(|refused| {
                if refused.is_stale() {
                    told(&sheet, &desk.records)
                } else {
                    refused
                }
            });
            let (name, got) = match &save {
                Save::Change(place, record) => ("change", sheet.change_from(*place, record, from)),
                Save::Append(record) => ("append", sheet.append_from(record, from)),
                _ => ("drop", sheet.drop_last_from(from)),
            };
            assert_eq!(got, wanted, "{code:?}, from {start}: {name}, save {k}");
            assert!(sheet.records() == plain.records, "{name}, save {k}");
            if k % 10 == 0 {
                sheet.holds();
            }
            if got.is_ok() || numbers.below(2) == 0 {
                *desk = Desk::open(&sheet);
            }
            let number = got.map_or_else(|refused| refused.number(), |_| 0);
            *met.entry((name, number)).or_insert(0) += 1;
        }
        sheet.holds();
    }
    // Each save has been taken, and refused in each way that these can be.
    for (name, own) in [("change", 7), ("append", 8), ("drop", 7)] {
        for number in [0, own, 11, 16] {
            let times = met.get(&(name, number));
            assert!(times.is_some_and(|&times| times > 5), "{name}, {number}");
        }
    }
    assert_eq!(met.len(), 12);
}
