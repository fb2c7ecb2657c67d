//! Who depends on a well, worked out by hand: small sheets in every number of hops, full ones, and what
//! doesn't join two wells.

use super::{Reached, reach, reach_into};
use crate::order::{MAX, WIDE};
use crate::plan::Well;
use crate::plan::rules::{among_struck, injector, producer, with};
use crate::{Code, Sheet};
use std::collections::BTreeSet;

/// The places that are reached from a well in 0, 1, 2 and 3 hops. Among struck records the same wells are.
#[track_caller]
fn reaches(sheet: &[[u8; 40]], well: u16, wanted: [&[usize]; 4]) {
    marks(sheet, well, wanted);
    if let Some(among) = among_struck(sheet) {
        let moved = |places: &[usize]| places.iter().map(|place| 2 * place + 1).collect();
        let wanted: [Vec<_>; 4] = wanted.map(moved);
        marks(&among, well, wanted.each_ref().map(|places| &places[..]));
    }
}

#[track_caller]
fn marks(sheet: &[[u8; 40]], well: u16, wanted: [&[usize]; 4]) {
    for (hops, places) in wanted.into_iter().enumerate() {
        let reached = reach(sheet.as_flattened(), well, hops).unwrap();
        assert!(
            reached.places().eq(places.iter().copied()),
            "{well} in {hops}: {reached:?}"
        );
        // The same by place, and none beyond.
        for place in 0..sheet.len() + 3 {
            let wanted = places.binary_search(&place).is_ok();
            assert_eq!(reached.contains(place), wanted, "{well} in {hops}: {place}");
        }
        for far in [1 << 16, WIDE, 1 << 63, MAX] {
            assert!(!reached.contains(places[0] | far));
        }
        let set = BTreeSet::from_iter(places);
        assert_eq!(format!("{reached:?}"), format!("{set:?}"));
    }
}

#[test]
fn a_producer_of_four_injectors() {
    let sheet = [
        injector(31),
        producer(7, [(33, 997), (34, 1), (31, 1), (32, 1)]),
        injector(32),
        injector(33),
        injector(34),
        injector(35),
    ];
    let linked = &[0, 1, 2, 3, 4][..];
    reaches(&sheet, 7, [&[1], linked, linked, linked]);
    reaches(&sheet, 31, [&[0], &[0, 1], linked, linked]);
    reaches(&sheet, 32, [&[2], &[1, 2], linked, linked]);
    reaches(&sheet, 33, [&[3], &[1, 3], linked, linked]);
    reaches(&sheet, 34, [&[4], &[1, 4], linked, linked]);
    reaches(&sheet, 35, [&[5]; 4]);
}

/// Producers 1 and 2 share injector 14, and each has one of its own: 15, 1, 14, 2, 16 is the longest chain.
#[test]
fn an_injector_that_two_share() {
    let sheet = [
        producer(1, [(14, 500), (15, 500)]),
        injector(15),
        injector(14),
        injector(16),
        producer(2, [(16, 1), (14, 999)]),
    ];
    let all = &[0, 1, 2, 3, 4][..];
    reaches(&sheet, 14, [&[2], &[0, 2, 4], all, all]);
    reaches(&sheet, 1, [&[0], &[0, 1, 2], &[0, 1, 2, 4], all]);
    reaches(&sheet, 2, [&[4], &[2, 3, 4], &[0, 2, 3, 4], all]);
    reaches(&sheet, 15, [&[1], &[0, 1], &[0, 1, 2], &[0, 1, 2, 4]]);
    reaches(&sheet, 16, [&[3], &[3, 4], &[2, 3, 4], &[0, 2, 3, 4]]);
}

/// Two parts that no chain joins, and wells that no link joins to any.
#[test]
fn two_parts() {
    let sheet = [
        producer(4, [(2, 1000)]),
        injector(3),
        producer(1, [(3, 1000)]),
        Well::producer(5).to_record(),
        injector(2),
        injector(6),
        producer(7, [(3, 1000)]),
    ];
    reaches(&sheet, 4, [&[0], &[0, 4], &[0, 4], &[0, 4]]);
    reaches(&sheet, 2, [&[4], &[0, 4], &[0, 4], &[0, 4]]);
    reaches(&sheet, 3, [&[1], &[1, 2, 6], &[1, 2, 6], &[1, 2, 6]]);
    reaches(&sheet, 1, [&[2], &[1, 2], &[1, 2, 6], &[1, 2, 6]]);
    reaches(&sheet, 5, [&[3]; 4]);
    reaches(&sheet, 6, [&[5]; 4]);
}

/// Only links join two wells: no note that reads as one, and no number that shares a byte or has both
/// exchanged.
#[test]
fn what_joins_nobody() {
    let alike = [0x0102, 0x0201, 0x0101, 0x0202, 2, 0x0200, 0x0100];
    let [linked, others @ ..] = alike.map(injector);
    let note = [2, 1, 3, 232, 1, 1, 3, 232, 2, 2, 3, 232, 0, 2, 3, 232];
    let one = with(producer(0x0303, [(0x0102, 1000)]), 24, note);
    let sheet = [&[one, with(linked, 24, note)][..], &others].concat();
    assert_eq!(sheet.len(), 8);
    reaches(&sheet, 0x0303, [&[0], &[0, 1], &[0, 1], &[0, 1]]);
    reaches(&sheet, 0x0102, [&[1], &[0, 1], &[0, 1], &[0, 1]]);
    for (number, place) in alike.into_iter().zip(1..).skip(1) {
        reaches(&sheet, number, [&[place]; 4]);
    }
    // The bytes behind four links are the note's.
    let four = [(2, 250), (0x0100, 250), (0x0200, 250), (0x0102, 250)];
    let four = with(producer(0x0303, four), 24, note);
    let sheet = [&[four][..], &sheet[1..]].concat();
    let linked = &[0, 1, 5, 6, 7][..];
    reaches(&sheet, 0x0303, [&[0], linked, linked, linked]);
    reaches(&sheet, 0x0201, [&[2]; 4]);
}

/// The number of the p-th well of a line.
pub fn number(p: usize) -> u16 {
    64 * p as u16 + 63
}

/// The p-th well's place in a line of n: mixed, so that a chain goes to and fro.
pub fn place(p: usize, n: usize) -> usize {
    389 * p % n
}

/// Wells in a line, each linked with the next: every second is an injector.
pub fn line(n: usize) -> Vec<[u8; 40]> {
    let mut sheet = vec![[0; 40]; n];
    for p in 0..n {
        sheet[place(p, n)] = match p % 2 {
            0 => injector(number(p)),
            _ if p + 1 == n => producer(number(p), [(number(p - 1), 1000)]),
            _ => producer(number(p), [(number(p - 1), 999), (number(p + 1), 1)]),
        };
    }
    sheet
}

/// What is reached from the p-th well of a line of n: its neighbours on both sides, one for each hop.
pub fn along(n: usize, p: usize, hops: usize) -> Vec<u8> {
    let mut marks = vec![0; n];
    for q in p.saturating_sub(hops)..n.min(p + hops + 1) {
        marks[place(q, n)] = 1;
    }
    marks
}

#[test]
fn a_full_sheet_in_a_line() {
    for n in [1023, 1024] {
        let sheet = line(n);
        let ends = (0..5).chain(n - 5..n);
        for (p, hops) in ends
            .chain((5..n - 5).step_by(29))
            .flat_map(|p| (0..=3).map(move |h| (p, h)))
        {
            let mut lent = [7; 1030];
            reach_into(sheet.as_flattened(), number(p), hops, &mut lent).unwrap();
            assert!(lent[..n] == along(n, p, hops), "{n} wells, {p} in {hops}");
            assert!(lent[n..].iter().all(|byte| *byte == 7));
        }
    }
}

/// One injector that all others of a full sheet link.
#[test]
fn a_full_sheet_around_one() {
    let all: Vec<_> = (0..1024).collect();
    for (at, place) in [(0, 1), (511, 0), (511, 1023), (1023, 510)] {
        let mut sheet: Vec<_> = (1..=1024).map(|k| producer(k, [(9999, 1000)])).collect();
        sheet[at] = injector(9999);
        reaches(&sheet, 9999, [&[at], &all, &all, &all]);
        let two = [place.min(at), place.max(at)];
        reaches(&sheet, place as u16 + 1, [&[place], &two, &all, &all]);
    }
}

/// A sheet is taken without its room for appends, whatever its code.
#[test]
fn of_a_sheet() {
    let records = [producer(3, [(14, 1000)]), injector(15), injector(14)];
    let wanted = reach(records.concat(), 3, 1).unwrap();
    assert!(wanted.places().eq([0, 2]));
    for code in Code::ALL {
        let mut sheet = Sheet::new(code);
        for record in &records {
            sheet.append(record, &sheet.digest()).unwrap();
        }
        assert_eq!(reach(&sheet, 3, 1).as_ref(), Ok(&wanted));
        // As long as it may be.
        let mut lent = [7; 3];
        reach_into(sheet.bytes(), 3, 1, &mut lent).unwrap();
        assert_eq!(lent, [1, 0, 1]);
    }
    assert_ne!(reach(records.concat(), 3, 0).unwrap(), wanted);
    assert_eq!(Reached::HOPS_MOST, 3);
}
