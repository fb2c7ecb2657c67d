//! Each refusal of many changes at its edges, beside the same calls with just enough.

use super::Sheet;
use super::order::Call;
use crate::order::{MAX, WIDE};
use crate::sheet::history::Plain;
use crate::sheet::saves;
use crate::sheet::tests::sheet;
use crate::{Code, Digest, Error};

#[test]
fn just_enough() {
    for code in Code::ALL {
        for n in [3, 4, 7, 64, 1024] {
            let mut call = Call::new(code, n, n.saturating_sub(64)..n);
            call.held.sheet.truncate(40 * n);
            call.held.marks.truncate(40 * (n / 4 + 1));
            call.held.out.truncate(code.digest_bytes());
            call.answers(0);
        }
    }
}

#[test]
fn too_many_changes() {
    for n in [0, 9, 64, 65, 1024] {
        // All at places of the sheet, or some beyond.
        for places in [0..65, 0..66, 0..300, 959..1024] {
            Call::new(Code::Luffa256, n, places).answers(14);
        }
        let most = if n < 64 { 7 } else { 0 };
        Call::new(Code::Luffa256, n, 0..64).answers(most);
    }
}

/// At each pair of places, whether there are records or not.
#[test]
fn places_that_dont_rise() {
    for (n, after) in [(0, 7), (130, 0)] {
        for count in [2, 3, 64] {
            let rising = Call::new(Code::Luffa384, n, (0..count).map(|k| 2 * k + 1));
            rising.clone().answers(after);
            for at in 1..count {
                let one_before = rising.places[at - 1];
                for place in [one_before, one_before - 1, 0] {
                    let mut call = rising.clone();
                    call.places[at] = place;
                    call.answers(14);
                }
            }
        }
    }
}

#[test]
fn places_beyond_the_sheet() {
    for n in [0, 1, 4, 9, 64] {
        Call::new(Code::Luffa512, n, [n]).answers(7);
        // So many of them are within.
        for within in 0..n {
            Call::new(Code::Luffa512, n, n - within..n + 1).answers(7);
            Call::new(Code::Luffa512, n, n - within..n).answers(0);
        }
    }
}

/// Some are small, rise or fall if they are cut to 32 bits, taken as signed, or multiplied by 40.
#[test]
fn wide_places() {
    let half = 1 << 63;
    for (number, places) in [
        (7, &[WIDE][..]),
        (7, &[WIDE + 1]),
        (7, &[1, WIDE + 3]),
        (7, &[5, WIDE + 1]),
        (7, &[5, WIDE + 5]),
        (7, &[WIDE + 1, WIDE + 3]),
        (7, &[WIDE + 5, 3 * WIDE + 1]),
        (14, &[WIDE + 1, 3]),
        (14, &[WIDE + 1, WIDE + 1]),
        (7, &[0, half]),
        (7, &[half, half + 1]),
        (14, &[half, 0]),
        (7, &[MAX / 40 + 1]),
        (7, &[0, MAX]),
        (14, &[MAX, 0]),
        (14, &[MAX, MAX]),
    ] {
        Call::new(Code::Luffa224, 9, places.iter().copied()).answers(number);
    }
}

#[test]
fn records_of_another_size() {
    for count in [1, 2, 64] {
        let call = Call::new(Code::Luffa256, 70, 3..3 + count);
        let right = 40 * count;
        for bytes in (0..=41).chain(right - 40..=right + 41) {
            let mut call = call.clone();
            call.records.resize(bytes, 1);
            call.answers(if bytes == right { 0 } else { 9 });
        }
    }
}

#[test]
fn wrong_claims() {
    for code in Code::ALL {
        for places in [&[][..], &[2, 5]] {
            let call = Call::new(code, 7, places.iter().copied());
            saves::wrong_claims(call, Call::answers);
        }
    }
}

/// Through the types, which lend no more than one change too many.
#[test]
fn met_by_callers() {
    let new = |place| (place, [7; 40]);
    for code in Code::ALL {
        let mut sheet = sheet(code, 70);
        let before = sheet.clone();
        let claim = sheet.digest();
        let old = Digest::of(code, "old");
        let other = Digest::of(Code::ALL[code.number() % 4], "of another code");
        let refused = Err(Error::Set);
        assert_eq!(sheet.change_all((0..65).map(new), &claim), refused);
        assert_eq!(sheet.change_all((0..).map(new), &claim), refused);
        assert_eq!(sheet.change_all(std::iter::repeat(new(0)), &claim), refused);
        assert_eq!(sheet.change_all([1, 1].map(new), &claim), refused);
        assert_eq!(sheet.change_all([5, 70, 6].map(new), &other), refused);
        let refused = Err(Error::Place);
        assert_eq!(sheet.change_all([5, 70].map(new), &claim), refused);
        assert_eq!(sheet.change_all([WIDE].map(new), &other), refused);
        let rounds = Plain::of(&sheet).rounds_from(70);
        for places in [&[][..], &[5], &[5, 69]] {
            let changes = || places.iter().copied().map(new);
            assert_eq!(sheet.change_all(changes(), &other), Err(Error::Claim));
            let stale = Err(Error::Stale { rounds });
            assert_eq!(sheet.change_all(changes(), &old), stale);
        }
        assert_eq!(sheet, before);
        assert_eq!(sheet.digest(), claim);
        sheet.holds();
        assert!(sheet.change_all((6..70).map(new), &claim).is_ok());
        assert_eq!(sheet.records()[6..], [[7; 40]; 64]);
        assert_eq!(sheet.records()[..6], before.records()[..6]);
    }
    assert_eq!(Sheet::CHANGES_MOST, 64);
}
