//! The brine statement on plants that were worked out by hand from document 02's sentences.

use crate::brine::{self, Figures, Page};
use crate::check::Report;
use crate::check_plan::{injector, producer, struck};
use crate::plan::{self, Well, PRODUCER};

pub fn differences(report: &mut Report) {
    small_plants(report);
    faulted_sheets(report);
    struck_records(report);
    nothing(report);
    largest(report);
    refusals(report);
}

/// A well, and what the page must have for it.
type Row = (Well, Option<Figures>);

fn sends(number: u16, rate: u32, links: &[(u16, u16)]) -> Row {
    (producer(number, rate, links), None)
}

fn takes(number: u16, rate: u32, intake: i128, spare: i128) -> Row {
    (injector(number, rate), Some(Figures { intake, spare }))
}

/// The page of the rows' wells must have their figures and these totals: sheets sound and faulted,
/// intake, injectors overloaded. And it keeps to the sentence that isn't used in making it: for every
/// sound sheet the intakes total 1000 times the producers' rates.
fn page(report: &mut Report, what: &str, rows: &[Vec<Row>], totals: [i128; 4]) {
    let wells = |sheet: &Vec<Row>| sheet.iter().map(|row| row.0).collect();
    let batch: Vec<Vec<Well>> = rows.iter().map(wells).collect();
    let [sound, faulted, intake, overloaded] = totals;
    let wanted = Page {
        figures: rows.iter().flatten().map(|row| row.1).collect(),
        sound: sound as usize,
        faulted: faulted as usize,
        intake,
        overloaded: overloaded as usize,
    };
    let got = brine::page(&batch);
    let mut rest = got.figures.iter();
    for (k, wells) in batch.iter().enumerate() {
        let here = rest.by_ref().take(wells.len());
        let intakes: i128 = here.flatten().map(|one| one.intake).sum();
        let producers = wells.iter().filter(|well| well.kind == PRODUCER);
        let rates: i128 = producers.map(|well| i128::from(well.rate)).sum();
        if plan::fault(wells).is_none() {
            report.same(|| format!("{what}, sheet {k}"), intakes, 1000 * rates);
        }
    }
    report.same(|| what.into(), got, wanted);
}

/// Room to spare, an exact fit by two producers, and an injector that isn't used; a kilogram too much
/// and a kilogram to spare; four links at the highest rate.
fn small_plants(report: &mut Report) {
    let plant = vec![
        sends(1, 500, &[(10, 400), (11, 600)]),
        takes(10, 300, 200_000, 100_000),
        sends(2, 20, &[(11, 1000)]),
        takes(11, 320, 320_000, 0),
        sends(3, 0, &[]),
        takes(12, 7, 0, 7_000),
    ];
    page(report, "a small plant", &[plant], [1, 0, 520_000, 0]);
    let plant = vec![
        takes(10, 0, 1, -1),
        takes(11, 1, 999, 1),
        sends(1, 1, &[(10, 1), (11, 999)]),
    ];
    page(report, "a kilogram", &[plant], [1, 0, 1_000, 1]);
    let plant = vec![
        takes(65_535, 100, 100_000, 0),
        takes(2, 99, 100_000, -1_000),
        sends(1, 100_000, &[(2, 1), (65_535, 1), (4, 997), (3, 1)]),
        takes(3, 101, 100_000, 1_000),
        takes(4, 99_700, 99_700_000, 0),
    ];
    page(report, "four links", &[plant], [1, 0, 100_000_000, 1]);
}

/// A faulted sheet between two sound ones, all three with the same numbers; and one that is faulted
/// because the injector that it names stands in the next.
fn faulted_sheets(report: &mut Report) {
    let first = vec![sends(1, 2, &[(5, 1000)]), takes(5, 1, 2_000, -1_000)];
    let faulted = vec![sends(1, 2, &[(5, 1000)]), (injector(5, 100_001), None)];
    let last = vec![
        takes(5, 9, 4_000, 5_000),
        sends(1, 4, &[(5, 1000)]),
        takes(6, 0, 0, 0),
    ];
    let batch = [first, faulted, last.clone()];
    page(report, "faulted between two", &batch, [2, 1, 6_000, 1]);

    let astray = vec![sends(1, 2, &[(6, 1000)]), (injector(5, 1), None)];
    let batch = [astray.clone(), last];
    page(report, "an injector next door", &batch, [1, 1, 4_000, 0]);
    page(report, "faulted alone", &[astray], [0, 1, 0, 0]);
}

/// Struck records before the wells of a sheet, among them and after them, a sheet of nothing else, and one that is
/// faulted because a record isn't quite struck.
fn struck_records(report: &mut Report) {
    let none = (struck(), None);
    let sound = vec![
        none,
        sends(1, 2, &[(5, 1000)]),
        none,
        none,
        takes(5, 1, 2_000, -1_000),
        none,
    ];
    let batch = [vec![none; 3], sound.clone()];
    page(report, "struck records", &batch, [2, 0, 2_000, 1]);
    let mut near = sound.clone();
    near[2].0.note[7] = 1;
    near[4].1 = None;
    let batch = [near, sound];
    page(report, "nearly struck", &batch, [1, 1, 2_000, 1]);
}

/// No sheets, and sheets without records: alone, and before, between and after others.
fn nothing(report: &mut Report) {
    page(report, "no sheets", &[], [0; 4]);
    page(report, "an empty sheet", &[vec![]], [1, 0, 0, 0]);
    let idle = || vec![takes(1, 100_000, 0, 100_000_000)];
    let batch = [vec![], idle(), vec![], idle(), vec![]];
    page(report, "empty sheets", &batch, [5, 0, 0, 0]);
}

/// As many sheets as a batch can have, all that a sheet can send going to one injector of rate 0.
fn largest(report: &mut Report) {
    let all = |number| sends(number, 100_000, &[(1024, 1000)]);
    let mut sheet: Vec<Row> = (1..1024).map(all).collect();
    sheet.push(takes(1024, 0, 102_300_000_000, -102_300_000_000));
    let batch = vec![sheet; 64];
    let totals = [64, 0, 6_547_200_000_000, 64];
    page(report, "the largest batch", &batch, totals);
}

/// Each refusal at its edge, and which hold together, though sums and products have over 64 bits.
fn refusals(report: &mut Report) {
    let most = usize::MAX;
    let full = &[1024; 64];
    let cases: [(usize, &[usize], usize, &[u64]); 17] = [
        (0, &[], 0, &[]),
        (0, &[0; 64], 0, &[]),
        (0, &[0; 65], 0, &[13]),
        (40 * 65_536, full, 65_536, &[]),
        (40 * 65_536 - 1, full, 65_536, &[5]),
        (40 * 65_536, full, 65_535, &[25]),
        (40 * 1025, &[1024], 1025, &[]),
        (40 * 1025, &[1025], 1025, &[5]),
        (40 * 1025, &[1, 0, 1025], 1026, &[5]),
        (80, &[1, 1], 2, &[]),
        (79, &[1, 1], 1, &[5, 25]),
        (79, &[1; 65], 1, &[13, 5, 25]),
        (40 * 65, &[1; 65], 64, &[13, 25]),
        (most, &[1 << 61], most, &[5]),
        (most, &[1 << 63, 1 << 63], most, &[5, 25]),
        (most, &[most, 1], most, &[5, 25]),
        (most, &[most; 65], most, &[13, 5, 25]),
    ];
    for (sheets_len, counts, places, wanted) in cases {
        let what = || format!("counts {counts:?} in {sheets_len} bytes, {places} places");
        let got = brine::refusals(sheets_len, counts, places);
        report.same(what, &got[..], wanted);
    }
}
