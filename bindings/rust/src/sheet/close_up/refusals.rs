//! Each refusal of closing up at its edges, beside the same calls with just enough.

use super::Sheet;
use super::order::{Call, struck};
use crate::order::{MAX, WIDE};
use crate::sheet::history::Plain;
use crate::sheet::saves;
use crate::{Code, Digest, Error};

#[test]
fn just_enough() {
    for code in Code::ALL {
        for n in [0, 1, 3, 4, 7, 64, 1023, 1024] {
            for step in [1, 2, 5, n + 1] {
                let mut call = Call::new(&struck(code, n, (0..n).step_by(step)));
                call.held.sheet.truncate(40 * n);
                call.held.marks.truncate(40 * (n / 4 + 1));
                call.held.out.truncate(code.digest_bytes());
                call.places.truncate(n);
                call.answers(0);
            }
        }
    }
}

/// A list is asked for that would do if none were struck, whatever the number of those that stay.
#[test]
fn short_lists() {
    for code in Code::ALL {
        for n in [1, 2, 4, 9, 1024] {
            for places in [0..0, 0..1, n - 1..n, 0..n] {
                let call = Call::new(&struck(code, n, places.clone()));
                let stay = n - places.len();
                for few in [0, 1, stay.saturating_sub(1), stay, n / 2, n - 1] {
                    let mut call = call.clone();
                    call.places.truncate(few);
                    call.answers(if few < n { 23 } else { 0 });
                }
            }
        }
    }
}

/// A list may be of any length from there on: some of these are none, or few, if they are cut to 16 bits.
#[test]
fn long_lists() {
    for n in [0, 5, 9] {
        for places in [n, n + 1, 1024, 1025, 1 << 16, (1 << 16) + 1, 1 << 17] {
            let mut call = Call::new(&struck(Code::Luffa384, n, 0..n / 2));
            call.places.resize(places, 0x5a5a);
            call.answers(0);
        }
    }
}

#[test]
fn too_many_records() {
    // Modulo 2^64 some of these have 0 or 24 bytes, and modulo 2^32 or 2^16 few records.
    let wide = [1 << 16, (1 << 16) + 4, WIDE, WIDE + 4, 1 << 61, 1 << 63];
    let most = [MAX / 40 + 1, MAX / 10 + 1, MAX - 3, MAX];
    for n in [1025, 1028].into_iter().chain(wide).chain(most) {
        for places in [0, 5, 1028, 1 << 17] {
            let mut call = Call::new(&struck(Code::Luffa224, 5, [1]));
            call.held.sheet.resize(41_120, 0);
            call.held.marks.resize(10_320, 0);
            call.places.resize(places, 0x5a5a);
            call.held.n = n;
            call.answers(5);
        }
    }
}

#[test]
fn wrong_claims() {
    for code in Code::ALL {
        for (n, places) in [(0, 0..0), (7, 0..0), (7, 2..4), (7, 0..7)] {
            let call = Call::new(&struck(code, n, places));
            saves::wrong_claims(call, Call::answers);
        }
    }
}

/// A sheet of no records is a sheet: it needs no list, and everything else is judged all the same.
#[test]
fn no_records() {
    for code in Code::ALL {
        let mut call = Call::new(&Sheet::new(code));
        call.places.clear();
        call.clone().answers(0);
        for (number, ways) in saves::ways() {
            for way in ways {
                let mut call = call.clone();
                way(&mut call);
                call.answers(number);
            }
        }
    }
}

/// Through the types, which lend a list that is as long as it should be, or one that the caller lends.
#[test]
fn met_by_callers() {
    for code in Code::ALL {
        let mut sheet = struck(code, 9, [2, 3, 8]);
        let before = sheet.clone();
        let claim = sheet.digest();
        let other = Digest::of(Code::ALL[code.number() % 4], "of another code");
        let rounds = Plain::of(&sheet).rounds_from(9);
        let stale = Error::Stale { rounds };
        let mut list = [7; 12];
        for (claim, why) in [(Digest::of(code, "old"), stale), (other, Error::Claim)] {
            assert_eq!(sheet.close_up(&claim).err(), Some(why));
            assert_eq!(sheet.close_up_into(&claim, &mut list), Err(why));
            // The list is judged before the claim.
            let few = sheet.close_up_into(&claim, &mut list[..8]);
            assert_eq!(few, Err(Error::Places));
        }
        for few in 0..9 {
            let refused = sheet.close_up_into(&claim, &mut list[..few]);
            assert_eq!(refused, Err(Error::Places));
        }
        assert_eq!((&sheet, sheet.digest(), list), (&before, claim, [7; 12]));
        sheet.holds();
        let saved = sheet.close_up_into(&claim, &mut list[..9]).unwrap();
        assert_eq!(saved.digest, sheet.digest());
        assert_eq!(list, [0, 1, 4, 5, 6, 7, 7, 7, 7, 7, 7, 7]);
        assert_eq!(sheet.len(), 6);
        sheet.holds();
    }
}
