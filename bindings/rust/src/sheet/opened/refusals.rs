//! What was opened and can't be: each way at its edges, beside the same with just enough, whether the claim is
//! right or not.

use super::call::Call;
use super::tests::{Kind, told};
use super::{Opened, Sheet};
use crate::order::{MAX, WIDE};
use crate::sheet::saves;
use crate::sheet::tests::sheet;
use crate::{Code, Digest, Error};

/// Every kind of save to a sheet of five, with the claim right or wrong, by one who brings so many records and
/// words: refused 15, or not.
#[track_caller]
fn brings(code: Code, own_n: usize, words: usize, refused: bool) {
    let held = sheet(code, 5);
    // The marks may be any but the first, and no more than one is compared.
    let own = Sheet::from_records(code, &vec![[1; 40]; own_n.min(4)]).unwrap();
    for kind in Kind::of(5) {
        let mut call = Call::new(kind, &held, &own);
        call.own_n = own_n;
        call.own.resize(words, 0x5a);
        let mut stale = call.clone();
        stale.claim[5] ^= 4;
        call.answers(if refused { 15 } else { 0 });
        stale.answers(if refused { 15 } else { 11 });
    }
}

#[test]
fn too_many_records() {
    for code in Code::ALL {
        brings(code, 1024, 10_280, false);
        // Modulo 2^64 some of these have 0 or 24 words, and modulo 2^32 or 2^16 few records.
        let wide = [1 << 16, WIDE, WIDE + 4, 1 << 61, 1 << 62, 1 << 63];
        let most = [MAX / 40 + 1, MAX / 10 + 1, MAX - 3, MAX];
        for own_n in [1025, 1028, 4096].into_iter().chain(wide).chain(most) {
            brings(code, own_n, 41_000, true);
            brings(code, own_n, 40, true);
        }
    }
}

#[test]
fn too_few_words() {
    for code in Code::ALL {
        for own_n in [0, 1, 3, 4, 5, 7, 8, 1023, 1024] {
            let words = 40 * (own_n / 4 + 1);
            brings(code, own_n, words, false);
            // Longer is fine.
            brings(code, own_n, words + 1, false);
            brings(code, own_n, 10_400, false);
            for few in [0, 1, 24, 39, words - 40, words - 1] {
                brings(code, own_n, few, true);
            }
        }
    }
}

/// All buffers as short as they may be, and the longest sheets.
#[test]
fn just_enough() {
    for code in Code::ALL {
        for (n, own_n) in [(1, 4), (4, 1), (7, 1024), (1023, 1023), (1024, 1024)] {
            let (held, own) = (sheet(code, n), sheet(code, own_n));
            for kind in Kind::of(n) {
                let mut call = Call::new(kind, &held, &own);
                let room = if let Kind::Append = kind { n + 1 } else { n };
                call.held.sheet.truncate(40 * room);
                call.held.marks.truncate(40 * (room / 4 + 1));
                call.held.out.truncate(code.digest_bytes());
                call.own.truncate(40 * (own_n / 4 + 1));
                call.clone().answers(0);
                // Beside itself a sheet has the tail, and beside another the first group.
                call.claim.fill(0);
                call.answers(11);
            }
        }
        // A full sheet takes no other record, whatever is brought.
        let full = sheet(code, 1024);
        let mut call = Call::new(Kind::Append, &full, &full);
        call.held.sheet.resize(50_000, 0);
        call.held.marks.resize(12_000, 0);
        call.own_n = MAX;
        call.answers(8);
    }
}

#[test]
fn wrong_claims() {
    for code in Code::ALL {
        let (held, own) = (sheet(code, 7), sheet(code, 6));
        for kind in Kind::of(7) {
            saves::wrong_claims(Call::new(kind, &held, &own), Call::answers);
        }
    }
}

/// Through the types, where parts that don't belong together are told by their number.
#[test]
fn met_by_callers() {
    let new = [7; 40];
    for code in Code::ALL {
        let mut sheet = sheet(code, 9);
        let before = sheet.clone();
        let (claim, marks) = (sheet.digest(), sheet.marks().to_vec());
        let old = Digest::of(code, "old");
        let other = Digest::of(Code::ALL[code.number() % 4], "of another code");
        let first = marks[..40].to_vec();
        let many = [&first[..], &[0; 11_000]].concat();
        let zeros = vec![0; 120];
        for digest in [claim, old] {
            for (len, marks) in [
                (1025, &many),
                (MAX, &many),
                (12, &marks),
                (9, &first),
                (9, &zeros),
                (0, &vec![]),
            ] {
                let from = Opened::from_parts(digest, len, &marks[..]);
                let refused = Err(Error::Own);
                assert_eq!(sheet.change_from(8, &new, &from), refused);
                assert_eq!(sheet.append_from(&new, &from), refused);
                assert_eq!(sheet.drop_last_from(&from), refused);
                // Where others hold, their numbers come first.
                assert_eq!(sheet.change_from(9, &new, &from), Err(Error::Place));
                let from = Opened::from_parts(other, len, &marks[..]);
                assert_eq!(sheet.change_from(9, &new, &from), Err(Error::Place));
                assert_eq!(sheet.change_from(8, &new, &from), Err(Error::Claim));
                assert_eq!(sheet.drop_last_from(&from), Err(Error::Claim));
                assert_eq!(sheet.append_from(&new, &from), Err(Error::Claim));
            }
        }
        let from = Opened::from_parts(old, 9, marks);
        let tail = Err(told(&sheet, before.records()));
        assert_eq!(sheet.change_from(0, &new, &from), tail);
        assert_eq!(sheet.change_from(MAX, &new, &from), Err(Error::Place));
        assert_eq!((&sheet, sheet.digest()), (&before, claim));
        sheet.holds();

        let mut empty = Sheet::new(code);
        let mut full = Sheet::from_records(code, &[new; 1024]).unwrap();
        for from in [from, Opened::from_parts(old, MAX, zeros)] {
            assert_eq!(empty.drop_last_from(&from), Err(Error::Place));
            assert_eq!(full.append_from(&new, &from), Err(Error::Full));
        }
    }
}
