//! Random batches against sums that are worked out injector by injector.

use super::{Page, Row, Totals, brine, brine_into};
use crate::plan::given::{Given, any_wells};
use crate::plan::{Kind, Well};
use crate::random::Numbers;
use std::collections::BTreeMap;

impl Given {
    /// Each injector asks every producer what it sends.
    fn rows(&self) -> Vec<Row> {
        let row = |well: &Option<Well>| match well {
            Some(well) if self.fault.is_none() && well.kind() == Kind::Injector => {
                let intake = sent(self.wells.iter().flatten(), well.number());
                let spare = 1000 * i64::from(well.rate()) - intake as i64;
                Row { intake, spare }
            }
            _ => Row::default(),
        };
        self.wells.iter().map(row).collect()
    }

    /// What its producers give.
    fn given(&self) -> u64 {
        let wells = self.wells.iter().flatten();
        let producers = wells.filter(|w| w.kind() == Kind::Producer);
        producers.map(|w| 1000 * u64::from(w.rate())).sum()
    }
}

/// Kilograms that these wells send to an injector.
fn sent<'a>(wells: impl IntoIterator<Item = &'a Well>, injector: u16) -> u64 {
    let to = |well: &Well| {
        let named = well.links().iter().filter(|l| l.injector == injector);
        u64::from(well.rate()) * named.map(|l| u64::from(l.share)).sum::<u64>()
    };
    wells.into_iter().map(to).sum()
}

fn expected(batch: &[Given]) -> Page {
    let sound: Vec<_> = batch.iter().filter(|g| g.fault.is_none()).collect();
    let rows: Vec<_> = batch.iter().map(Given::rows).collect();
    let totals = Totals {
        sound: sound.len(),
        faulted: batch.len() - sound.len(),
        intake: sound.iter().map(|g| g.given()).sum(),
        overloaded: rows.concat().iter().filter(|r| r.spare < 0).count(),
    };
    Page { totals, rows }
}

/// Up to 24 wells of both kinds, the injectors with rates around what they are sent, as far as a rate may go.
fn any_rates(numbers: &mut Numbers) -> Vec<Well> {
    let n = numbers.below(25);
    let mut wells = any_wells(numbers, n, Well::LINKS_MOST);
    for place in 0..wells.len() {
        if wells[place].kind() == Kind::Injector {
            let sent = sent(&wells, wells[place].number()) as usize;
            let rates = [0, sent / 1000, sent.div_ceil(1000), numbers.below(100_001)];
            let rate = rates[numbers.below(4)].min(100_000);
            wells[place] = wells[place].with_rate(rate as u32);
        }
    }
    wells
}

#[test]
fn random_batches() {
    let mut numbers = Numbers(3);
    let mut met = BTreeMap::new();
    for k in 0..1000 {
        let given = |_| {
            let wells = any_rates(&mut numbers);
            Given::any(&mut numbers, wells)
        };
        let batch: Vec<_> = (0..k % 9).map(given).collect();
        let sheets: Vec<_> = batch.iter().map(Given::bytes).collect();
        let wanted = expected(&batch);
        assert_eq!(brine(&sheets).unwrap(), wanted, "batch {k}");

        // The same from one buffer, with more bytes and places than the batch needs.
        let rows = wanted.rows.concat();
        let bytes = [sheets.concat(), numbers.bytes(k % 50)].concat();
        let counts: Vec<_> = batch.iter().map(|g| g.wells.len()).collect();
        let (mut intake, mut spare) = (vec![5; rows.len() + 3], vec![-5; rows.len() + 4]);
        let totals = brine_into(&bytes, &counts, &mut intake, &mut spare).unwrap();
        assert_eq!(totals, wanted.totals, "batch {k}");
        let places = rows.iter().map(|row| row.intake).chain([5; 3]);
        assert!(places.eq(intake), "batch {k}: intake");
        let places = rows.iter().map(|row| row.spare).chain([-5; 4]);
        assert!(places.eq(spare), "batch {k}: spare");

        let mut meet = |kind| *met.entry(kind).or_insert(0) += 1;
        let records = batch.iter().flat_map(|given| &given.wells);
        for (row, record) in rows.iter().zip(records) {
            meet(match (record, row.intake, row.spare) {
                (None, ..) => "struck",
                (_, 0, 0) => "zeros",
                (_, 0, _) => "sent nothing",
                (_, _, 0) => "full",
                (_, _, 1..) => "some to spare",
                (_, _, ..0) => "overloaded",
            });
        }
        for given in &batch {
            meet(match (given.fault, given.wells.iter().flatten().count()) {
                (Some(_), _) => "faulted",
                (None, 0) => "no wells",
                (None, _) => "sound",
            });
        }
    }
    assert_eq!(met.len(), 9, "{met:?}");
    assert!(met.values().all(|times| *times > 100), "{met:?}");
}
