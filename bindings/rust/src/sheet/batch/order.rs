//! The order of the refusals of many changes: each alone and with every set of the others.

use crate::order::{MAX, WIDE, Way, every_set};
use crate::random::Numbers;
use crate::sheet::held::Held;
use crate::sheet::history::Plain;
use crate::sheet::saves::{self, Save};
use crate::sheet::tests::sheet;
use crate::{Code, ffi};

/// A call, with all that it is lent.
#[derive(Clone)]
pub struct Call {
    pub held: Held,
    pub places: Vec<usize>,
    pub records: Vec<u8>,
    pub claim: Vec<u8>,
    /// In which the claim is checked.
    rounds: u64,
}

impl Call {
    /// New records at these places of a sheet of n, with nothing else wrong.
    pub fn new(code: Code, n: usize, places: impl IntoIterator<Item = usize>) -> Call {
        let sheet = sheet(code, n);
        let places: Vec<_> = places.into_iter().collect();
        Call {
            held: Held::of(&sheet),
            records: Numbers(1).bytes(40 * places.len()),
            places,
            claim: sheet.digest().as_bytes().to_vec(),
            rounds: Plain::of(&sheet).rounds_from(n),
        }
    }

    /// Where refused, nothing is written, and the count is the one given.
    #[track_caller]
    pub fn answers(mut self, number: u64) {
        let before = self.held.clone();
        let (places, records, claim) = (&self.places, &self.records, &self.claim);
        let held = &mut self.held;
        let answer = held.save(|lent, out| ffi::batch(lent, places, records, claim, out));
        let n = before.n as u64;
        if number == 0 {
            assert_eq!(answer[..2], [0, n]);
            for (place, record) in places.iter().zip(records.chunks(40)) {
                assert_eq!(held.sheet[40 * place..][..40], *record);
            }
        } else {
            let rounds = if number == 11 { self.rounds } else { 0 };
            assert_eq!(answer, [number, n, rounds]);
            assert!(*held == before, "written");
        }
    }
}

impl Save for Call {
    fn held(&mut self) -> &mut Held {
        &mut self.held
    }

    fn claim(&mut self) -> &mut Vec<u8> {
        &mut self.claim
    }
}

/// The order in which they are judged.
const ORDER: [u64; 9] = [1, 2, 5, 6, 14, 7, 9, 10, 11];

/// Ways to meet those that not every save has, for three changes or more.
const WAYS: [(u64, &[Way<Call>]); 3] = [
    (
        7,
        &[
            |c| c.places[2] = c.held.n,
            |c| c.places[2] += WIDE,
            |c| c.places[2] = MAX,
        ],
    ),
    (
        14,
        &[
            |c| c.places[2] = c.places[1],
            |c| c.places.swap(1, 2),
            |c| c.places.swap(0, 1),
            |c| {
                c.places = (0..65).collect();
                c.records.resize(65 * 40, 1);
            },
        ],
    ),
    (
        9,
        &[
            |c| c.records.push(1),
            |c| c.records.truncate(c.records.len() - 1),
            |c| c.records.truncate(c.records.len() - 40),
            |c| c.records.extend([1; 40]),
            |c| c.records.clear(),
        ],
    ),
];

#[test]
fn every_set_of_refusals() {
    let ways = [&saves::ways()[..], &WAYS].concat();
    for code in Code::ALL {
        let calls = [8, 9, 10, 11].map(|n| Call::new(code, n, [1, 4, 6]));
        every_set(&calls, &ORDER, &ways, Call::answers);
    }
}

/// Without a change everything else is judged all the same, and a sheet of no records is a sheet.
#[test]
fn no_change() {
    for code in Code::ALL {
        for n in 0..=4 {
            let call = Call::new(code, n, []);
            call.clone().answers(0);
            for (number, ways) in saves::ways() {
                if number != 5 {
                    for way in ways {
                        let mut call = call.clone();
                        way(&mut call);
                        call.answers(number);
                    }
                }
            }
            for bytes in [1, 39, 40, 2560] {
                let mut call = call.clone();
                call.records.resize(bytes, 1);
                call.answers(9);
            }
            for n in [1025, WIDE, MAX] {
                let mut call = call.clone();
                call.held.n = n;
                call.answers(5);
            }
        }
    }
}
