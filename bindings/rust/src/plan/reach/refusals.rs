//! Each refusal of a search for who depends on a well at its edges, beside the same calls with just enough.

use super::order::Call;
use super::tests::{line, number};
use super::{reach, reach_into};
use crate::Error;
use crate::order::{MAX, WIDE};
use crate::plan::rules::{among_struck, injector, producer};

#[test]
fn just_enough() {
    for n in [1, 2, 3, 5, 388, 1023, 1024] {
        for (p, hops) in [(0, 3), (n / 2, 2), (n - 1, 1), (n - 1, 0)] {
            let mut call = Call::new(n, p, hops);
            call.sheet.truncate(40 * n);
            call.reached.truncate(n);
            call.clone().answers(0);
            // A byte fewer in either buffer, or in both.
            let mut short = call.clone();
            short.reached.truncate(n - 1);
            short.clone().answers(22);
            short.sheet.truncate(40 * n - 1);
            short.answers(5);
            call.sheet.truncate(40 * n - 1);
            call.answers(5);
        }
    }
}

#[test]
fn too_many_records() {
    for n in [1025, 1026, 1 << 16, (1 << 16) + 5, WIDE + 5, MAX - 4, MAX] {
        let mut call = Call::new(5, 2, 1);
        call.n = n;
        call.sheet.resize(41_040, 0);
        call.reached.resize(1026, 0xa5);
        call.answers(5);
    }
}

#[test]
fn too_many_hops() {
    for hops in 0..=300 {
        let mut call = Call::new(5, 2, hops.min(3));
        call.hops = hops;
        call.answers(if hops > 3 { 19 } else { 0 });
    }
}

/// Numbers that differ from a well's in any of 64 bits, or by one, and those at the ends.
#[test]
fn absent_wells() {
    let call = Call::new(5, 0, 0);
    let present: Vec<_> = (0..5).map(number).map(usize::from).collect();
    let near = |well: usize| (0..64).map(move |bit| well ^ (1 << bit)).chain([well + 1]);
    let all = present.iter().flat_map(|well| near(*well));
    for well in all.chain([0, 1, 65_535, 65_536, MAX]) {
        if !present.contains(&well) {
            let mut call = call.clone();
            call.well = well;
            call.answers(21);
        }
    }
    for p in 0..5 {
        Call::new(5, p, 0).answers(0);
    }
}

/// A sheet of no records has no well, whatever lies behind it.
#[test]
fn no_records() {
    for (well, sheet_len, reached_len) in [(0, 0, 0), (63, 40, 3), (64, 0, 3), (63, 100, 0)] {
        for (hops, number) in [(0, 21), (3, 21), (4, 19), (MAX, 19)] {
            let mut call = Call::new(1, 0, 0);
            (call.n, call.well, call.hops) = (0, well, hops);
            call.sheet.truncate(sheet_len);
            call.reached.truncate(reached_len);
            call.answers(number);
        }
    }
}

/// A struck record has no number, not even 0; but it has a byte.
#[test]
fn struck_records() {
    for (n, hops) in [(1, 0), (5, 1), (9, 2), (512, 3)] {
        let mut call = Call::new(n, 0, hops);
        call.sheet = among_struck(&line(n)).unwrap().concat();
        call.n = 2 * n;
        call.marks = call.marks.into_iter().flat_map(|mark| [0, mark]).collect();
        call.clone().answers(0);
        for few in [0, n, 2 * n - 1] {
            let mut call = call.clone();
            call.reached.truncate(few);
            call.answers(22);
        }
        for absent in [0, 1 << 16, WIDE] {
            let mut call = call.clone();
            call.well = absent;
            call.clone().answers(21);
            // All are struck.
            call.sheet.fill(0);
            call.answers(21);
        }
    }
}

/// What lies behind the n-th record is no part of the sheet: neither a well, nor the end of a link, nor a fault.
#[test]
fn behind_the_last() {
    let mut call = Call::new(2, 0, 0);
    call.sheet = [producer(127, [(63, 1000)]), injector(63), [9; 40]].concat();
    call.marks = vec![0, 1];
    for (n, answer) in [(0, 21), (1, 20), (2, 0), (3, 20)] {
        let mut call = call.clone();
        call.n = n;
        call.answers(answer);
    }
}

/// Through the types, whose count of records is that of the bytes.
#[test]
fn met_by_callers() {
    let sheet: Vec<_> = (1..=1025).flat_map(injector).collect();
    let refused = |bytes: &[u8], well, hops, len, why| {
        let mut lent = vec![5; len];
        let told = reach_into(bytes, well, hops, &mut lent);
        assert_eq!(told, Err(why), "{} bytes, {well} in {hops}", bytes.len());
        assert!(lent.iter().all(|byte| *byte == 5));
        if why != Error::Reach {
            assert_eq!(reach(bytes, well, hops), Err(why));
        }
    };
    for bytes in [1, 39, 41, 79, 40_959, 40_961, 41_000] {
        refused(&sheet[..bytes], 1, 0, 2000, Error::Sheet);
        refused(&sheet[..bytes], 0, 4, 0, Error::Sheet);
    }
    let mut faulty = sheet[..80].to_vec();
    faulty[2] = 7;
    for hops in [4, WIDE, MAX] {
        refused(&sheet[..80], 1, hops, 2, Error::Hops);
        refused(&faulty, 3, hops, 0, Error::Hops);
        refused(&[], 3, hops, 0, Error::Hops);
    }
    for hops in 0..=3 {
        refused(&faulty, 2, hops, 2, Error::Unsound);
        refused(&faulty, 3, hops, 0, Error::Unsound);
        refused(&sheet[..80], 3, hops, 2, Error::Well);
        refused(&sheet[..80], 0, hops, 0, Error::Well);
        refused(&[], 1, hops, 2, Error::Well);
        refused(&sheet[..80], 2, hops, 1, Error::Reach);
        refused(&sheet[..40_960], 1024, hops, 1023, Error::Reach);
        assert!(
            reach(&sheet[..40_960], 1024, hops)
                .unwrap()
                .places()
                .eq([1023])
        );
    }
}
