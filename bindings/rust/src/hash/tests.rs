//! The four hashes: document 01's digests, pieces against one call, kept records, and the limit.

use super::RECORD_BYTES;
use crate::random::Numbers;
use crate::{Code, Digest, Error};
use std::io::Write;

/// Where the parts of a record begin.
pub const STATE: usize = 8;
pub const PENDING: usize = 168;
pub const COUNT: usize = 200;

/// The same tests of each type: its number, the words of its state, and document 01's digest of `abc`.
macro_rules! tests_of {
    ($module:ident, $name:ident, $number:literal, $words:literal, $abc:literal) => {
        mod $module {
            use super::*;
            type Hash = crate::$name;

            /// The most whole bytes of a message.
            const MOST: u128 = Hash::MOST_BITS / 8;

            #[test]
            fn abc() {
                let got = Hash::digest("abc");
                assert_eq!(Digest::from(got).to_hex(), $abc);
                assert_eq!(Digest::of(Code::$name, "abc").to_hex(), $abc);
                assert_eq!(Hash::new().chain_update(b"abc").finalize(), got);
                assert_eq!(Hash::CODE.number(), $number);
                assert_eq!(Hash::BYTES, got.len());
            }

            #[test]
            fn every_cut_in_two() {
                let message = Numbers($number).bytes(130);
                for end in 0..=message.len() {
                    let whole = Hash::digest(&message[..end]);
                    for cut in 0..=end {
                        let mut hash = Hash::new();
                        hash.update(&message[..cut]);
                        hash.update(&message[cut..end]);
                        assert_eq!(hash.finalize(), whole, "{end} bytes cut at {cut}");
                    }
                }
            }

            #[test]
            fn many_pieces() {
                let mut numbers = Numbers($number);
                for _ in 0..300 {
                    let n = numbers.below(2000);
                    let message = numbers.bytes(n);
                    let (mut hash, mut rest) = (Hash::default(), &message[..]);
                    while !rest.is_empty() {
                        let most = rest.len().min(100);
                        let (piece, after) = rest.split_at(numbers.below(most + 1));
                        rest = after;
                        match numbers.below(3) {
                            0 => hash.update(piece),
                            1 => hash = hash.chain_update(piece),
                            _ => assert_eq!(hash.write(piece).unwrap(), piece.len()),
                        }
                    }
                    hash.flush().unwrap();
                    assert_eq!(hash.finalize(), Hash::digest(&message), "{n} bytes");
                }
            }

            #[test]
            fn begun_again() {
                let mut hash = Hash::new().chain_update("one");
                let other = hash.clone().chain_update(" and more");
                assert_eq!(hash.finalize_reset(), Hash::digest("one"));
                assert_eq!(hash.to_record(), Hash::new().to_record());
                hash.update("two");
                assert_eq!(hash.clone().finalize(), Hash::digest("two"));
                hash.reset();
                assert_eq!(hash.finalize(), Hash::digest(""));
                assert_eq!(other.finalize(), Hash::digest("one and more"));
            }

            #[test]
            fn kept_and_restored() {
                let message = Numbers($number).bytes(150);
                let whole = Hash::digest(&message);
                for cut in 0..=message.len() {
                    let kept = Hash::new().chain_update(&message[..cut]).to_record();
                    assert_eq!(kept[0], $number);
                    assert_eq!(kept[COUNT..], (cut as u128).to_be_bytes());
                    let pending = &message[cut / 32 * 32..cut];
                    assert_eq!(kept[PENDING..PENDING + pending.len()], *pending);
                    let hash = Hash::from_record(&kept).unwrap();
                    assert_eq!(hash.to_record(), kept);
                    let hash = hash.chain_update(&message[cut..]);
                    assert_eq!(hash.finalize(), whole, "kept after {cut} bytes");
                }
            }

            #[test]
            fn records_refused() {
                let refused =
                    |record: &[u8]| Hash::from_record(record).err() == Some(Error::Record);
                let good = Hash::new().chain_update([9; 70]).to_record();
                assert!(!refused(&good));
                // Another length.
                assert!(refused(&[]) && refused(&good[1..]) && refused(&good[..RECORD_BYTES - 1]));
                assert!(refused(&[&good[..], &[0]].concat()));
                // The 208 bytes that version 1 kept of the same message: the count had eight.
                assert!(refused(&[&good[..COUNT], &good[COUNT + 8..]].concat()));
                // A byte that must be zero: the six, words of unused blocks, after the pending six.
                let unused = STATE + 4 * $words..PENDING;
                for byte in (2..STATE).chain(unused).chain(PENDING + 6..COUNT) {
                    let mut record = good;
                    record[byte] = 1;
                    assert!(refused(&record), "byte {byte}");
                }
                // A state word that is used is free.
                let mut record = good;
                record[STATE + 4 * $words - 1] ^= 1;
                assert!(!refused(&record));
                // A count over the limit; the low five bits still say six pending bytes.
                record = good;
                record[COUNT..].copy_from_slice(&(MOST + 7).to_be_bytes());
                assert!(refused(&record));
                record[COUNT..].copy_from_slice(&(MOST - 25).to_be_bytes());
                assert!(!refused(&record));
            }

            #[test]
            fn of_its_own_code_alone() {
                let records = [
                    crate::Luffa224::new().to_record(),
                    crate::Luffa256::new().to_record(),
                    crate::Luffa384::new().to_record(),
                    crate::Luffa512::new().to_record(),
                ];
                for (code, record) in Code::ALL.into_iter().zip(records) {
                    let got = Hash::from_record(&record);
                    assert_eq!(got.is_ok(), code == Code::$name, "{code:?}");
                }
                for unknown in [0, 5, 255] {
                    let mut record = Hash::new().to_record();
                    record[0] = unknown;
                    assert_eq!(Hash::from_record(&record).err(), Some(Error::Record));
                }
            }

            /// A hash with two bytes to the limit.
            fn near_the_limit() -> Hash {
                let mut record = Hash::new().to_record();
                record[COUNT..].copy_from_slice(&(MOST - 2).to_be_bytes());
                Hash::from_record(&record).unwrap()
            }

            #[test]
            fn the_limit() {
                let mut hash = near_the_limit();
                let before = hash.to_record();
                assert_eq!(hash.try_update("abc"), Err(Error::Long));
                let failed = hash.write(b"abc").unwrap_err();
                let inside = failed.get_ref().unwrap().downcast_ref::<Error>();
                assert_eq!(inside, Some(&Error::Long));
                assert_eq!(hash.to_record(), before);
                assert_eq!(hash.try_update("ab"), Ok(()));
                assert_eq!(hash.to_record()[COUNT..], MOST.to_be_bytes());
                assert_eq!(hash.try_update("c"), Err(Error::Long));
                assert_eq!(hash.try_update(""), Ok(()));
            }

            /// At 384 and 512 bits the count goes on where eight bytes would be full.
            #[test]
            fn a_count_past_64_bits() {
                let mut record = Hash::new().to_record();
                let count = u128::from(u64::MAX);
                record[COUNT..].copy_from_slice(&count.to_be_bytes());
                let hash = Hash::from_record(&record);
                if Hash::BYTES < 48 {
                    assert_eq!(hash.err(), Some(Error::Record));
                } else {
                    let hash = hash.unwrap().chain_update("a");
                    assert_eq!(hash.to_record()[COUNT..], (count + 1).to_be_bytes());
                }
            }

            #[test]
            #[should_panic(expected = "the message would have too many bits for the code")]
            fn update_past_the_limit() {
                near_the_limit().update("abc");
            }

            #[test]
            fn shows_nothing_that_was_fed() {
                let shown = format!("{:?}", Hash::new().chain_update("abc"));
                assert_eq!(shown, concat!(stringify!($name), " { .. }"));
            }
        }
    };
}

tests_of!(
    luffa224,
    Luffa224,
    1,
    24,
    "f29311b87e9e40de7699be23fbeb5a47cb16ea4f5556d47ca40c12ad"
);
tests_of!(
    luffa256,
    Luffa256,
    2,
    24,
    "f29311b87e9e40de7699be23fbeb5a47cb16ea4f5556d47ca40c12ad764a73bd"
);
tests_of!(
    luffa384,
    Luffa384,
    3,
    32,
    "9a7abb797a840e2d423c34c91f559f6809bdb2916fb2e9effec2fa0a7a69881be9872480c635d20d2fd6e95d046601a7"
);
tests_of!(
    luffa512,
    Luffa512,
    4,
    40,
    "f40245973e80d79d0f4b9b202ddd4505b81b8830501bea31612b5817aae387921dcefd808ca2c78020aff59345d6f91f0ee6b2eee113f0cbcf22b64381387e8a"
);
