//! Which words of the marks are compared: in each mark those that the code uses, of both sheets, from mark 1 as far
//! as both have them. None is written, and the held marks are taken as they are found.

use super::call::Call;
use super::tests::Kind;
use super::{Opened, Sheet};
use crate::random::Numbers;
use crate::sheet::history::Plain;
use crate::sheet::marks_for;
use crate::sheet::mend::tests::spoil;
use crate::sheet::tests::sheet;
use crate::{Code, Digest, Error};

/// The words of a mark that a code uses: eight for each block.
fn used(code: Code) -> usize {
    [24, 24, 32, 40][code.number() - 1]
}

/// A claim that is never right.
fn wrong(code: Code) -> Digest {
    Digest::of(code, "another sheet")
}

/// A stale save's number, kind, group and pairs, the same for each kind of save. Nothing is written.
#[track_caller]
fn told(call: &Call) -> [u64; 4] {
    let answers = [Kind::Change, Kind::Append, Kind::Drop].map(|kind| {
        let mut made = Call {
            kind,
            ..call.clone()
        };
        let answer = made.make();
        assert!(made.held == call.held && made.own == call.own, "written");
        let rounds = if answer[0] == 15 { 0 } else { call.stale[2] };
        assert_eq!(answer[1..3], [call.held.n as u64, rounds]);
        [answer[0], answer[3], answer[4], answer[5]]
    });
    assert_eq!(answers[1..], [answers[0]; 2]);
    answers[0]
}

/// A save to a sheet of n records by one who brings the first of them, or more, with a claim that isn't right.
fn stale(code: Code, n: usize, own_n: usize) -> Call {
    let records = Numbers(3).records(50);
    let [held, own] = [n, own_n].map(|n| Sheet::from_records(code, &records[..n]).unwrap());
    let mut call = Call::new(Kind::Change, &held, &own);
    call.claim = wrong(code).as_bytes().to_vec();
    call
}

/// One bit of each word in turn, of the own marks or of those held, and of the words behind them.
#[test]
fn each_word() {
    for code in Code::ALL {
        for (n, own_n) in [(13, 13), (9, 14), (15, 8), (3, 7), (1, 1)] {
            let call = stale(code, n, own_n);
            let shared = n.min(own_n) / 4;
            let used = used(code);
            let wanted = |at: usize| match at / 40 {
                mark if (1..=shared).contains(&mark) && at % 40 < used => {
                    [11, 1, mark as u64 - 1, mark as u64]
                }
                _ => [16, 0, 0, shared as u64],
            };
            for at in 0..call.own.len() {
                let mut call = call.clone();
                call.own[at] ^= 1 << (at % 32);
                let own = [15, 0, 0, 0];
                let wanted = if at < used { own } else { wanted(at) };
                assert_eq!(told(&call), wanted, "own word {at}");
            }
            // The held mark 0 isn't tested.
            for at in 0..call.held.marks.len() {
                let mut call = call.clone();
                call.held.marks[at] ^= 1 << (at % 32);
                assert_eq!(told(&call), wanted(at), "held word {at}");
            }
        }
    }
}

/// Both spoiled at random: the first that differs, whichever side is false.
#[test]
fn marks_that_arent_true() {
    for code in Code::ALL {
        let mut numbers = Numbers(code.number() as u64);
        for _ in 0..100 {
            let (n, own_n) = (1 + numbers.below(50), numbers.below(50));
            let mut call = stale(code, n, own_n);
            spoil(&mut numbers, &mut call.held.marks[..marks_for(n)]);
            spoil(&mut numbers, &mut call.own[40..marks_for(own_n)]);
            let differs = |m: &usize| {
                let words = 40 * m..40 * m + used(code);
                call.held.marks[words.clone()] != call.own[words]
            };
            let shared = n.min(own_n) / 4;
            let wanted = match (1..=shared).find(differs) {
                Some(m) => [11, 1, m as u64 - 1, m as u64],
                None => [16, 0, 0, shared as u64],
            };
            assert_eq!(told(&call), wanted, "{own_n} beside {n}");
        }
    }
}

/// What a save does from held marks that aren't true is what the plain one does.
#[test]
fn done_from_false_marks() {
    for code in Code::ALL {
        let mut numbers = Numbers(code.number() as u64);
        for n in 1..=13 {
            let opened = sheet(code, n);
            for kind in Kind::of(n) {
                let mut call = Call::new(kind, &opened, &opened);
                spoil(&mut numbers, &mut call.held.marks[..marks_for(n)]);
                call.claim = call.held.digest(code).as_bytes().to_vec();
                call.answers(0);
            }
        }
    }
}

/// Mark 0 of a code with more blocks begins as that of one with fewer, so that its marks are no sheet's at this
/// code but are taken. Those of codes 1 and 2 are the same throughout.
#[test]
fn marks_of_another_code() {
    for n in [0, 6, 11] {
        let sheets = Code::ALL.map(|code| sheet(code, n));
        for (one, other) in sheets
            .iter()
            .flat_map(|one| sheets.each_ref().map(|other| (one, other)))
        {
            let (w, v) = (used(one.code()), used(other.code()));
            let mut held = one.clone();
            let rounds = Plain::of(one).rounds_from(n);
            let refused = if v < w {
                Error::Own
            } else if v == w || n < 4 {
                let (pairs, longer) = (n / 4, n);
                Error::StaleTail {
                    pairs,
                    longer,
                    rounds,
                }
            } else {
                let (group, pairs) = (0, 1);
                Error::StaleGroup {
                    group,
                    pairs,
                    rounds,
                }
            };
            let from = Opened::from_parts(wrong(one.code()), n, other.marks());
            assert_eq!(held.append_from(&[1; 40], &from), Err(refused));
            // It is judged with a claim that is right too.
            let from = Opened::from_parts(one.digest(), n, other.marks());
            let saved = held.append_from(&[1; 40], &from);
            assert_eq!(saved.err(), (v < w).then_some(Error::Own));
            held.holds();
            // All that was opened at another code is told by its digest.
            let saved = one.clone().append_from(&[1; 40], &other.opened());
            let refused = (one.code() != other.code()).then_some(Error::Claim);
            assert_eq!(saved.err(), refused);
        }
    }
}
