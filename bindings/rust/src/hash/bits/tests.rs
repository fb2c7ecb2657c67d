//! Messages that stop inside a byte: digests against those of blocks that are padded by hand, every cut,
//! kept records, refusals, and the limit in bits.

use crate::hash::by_hand;
use crate::hash::tests::{COUNT, PENDING};
use crate::random::Numbers;
use crate::{Code, Digest, Error};

/// Lengths around the end of a block; the last byte is the odd one.
const LENGTHS: [usize; 9] = [1, 2, 31, 32, 33, 63, 64, 65, 100];

macro_rules! tests_of {
    ($module:ident, $name:ident) => {
        mod $module {
            use super::*;
            type Hash = crate::$name;

            #[test]
            fn every_odd_bit() {
                for (message, odd) in by_hand::odd_messages() {
                    let got = Hash::digest_bits(&message, odd).unwrap();
                    let expected = by_hand::output(Code::$name, &message, odd);
                    assert_eq!(got, expected, "{message:02x?}, the last of {odd} bits");
                    let value = Digest::of_bits(Code::$name, &message, odd);
                    assert_eq!(value, Ok(Digest::from(got)));
                }
            }

            #[test]
            fn every_cut_in_two() {
                let mut numbers = Numbers(Hash::BYTES as u64);
                for n in LENGTHS {
                    let odd = 1 + numbers.below(7);
                    let message = numbers.bytes(n);
                    let whole = Hash::digest_bits(&message, odd);
                    for cut in 0..n {
                        let hash = Hash::new().chain_update(&message[..cut]);
                        let kept = hash.to_record_bits(&message[cut..], odd).unwrap();
                        let got = hash.finalize_bits(&message[cut..], odd);
                        assert_eq!(got, whole, "{n} bytes cut at {cut}");
                        assert_eq!(Hash::finalize_record(&kept), whole, "kept, cut at {cut}");
                    }
                }
            }

            #[test]
            fn no_odd_bits() {
                let message = Numbers(1).bytes(100);
                for n in 0..=message.len() {
                    let (piece, whole) = (&message[n / 2..n], Hash::digest(&message[..n]));
                    assert_eq!(Hash::digest_bits(&message[..n], 0), Ok(whole));
                    let hash = Hash::new().chain_update(&message[..n / 2]);
                    let kept = hash.clone().chain_update(piece).to_record();
                    assert_eq!(hash.to_record_bits(piece, 0), Ok(kept));
                    assert_eq!(hash.finalize_bits(piece, 0), Ok(whole));
                    assert_eq!(Hash::finalize_record(&kept), Ok(whole));
                }
            }

            #[test]
            fn kept() {
                let message = [0xff; 100];
                for n in LENGTHS {
                    for odd in 1..8 {
                        let before = Hash::new().chain_update(&message[..n - 1]).to_record();
                        let kept = Hash::new().to_record_bits(&message[..n], odd).unwrap();
                        // The odd bits, and the byte that has them after the pending ones.
                        let mut expected = before;
                        expected[1] = odd as u8;
                        expected[PENDING + (n - 1) % 32] = !(0xff >> odd);
                        assert_eq!(kept, expected, "{n} bytes, the last of {odd} bits");
                        assert_eq!(Hash::from_record(&kept).err(), Some(Error::Odd));
                        assert!(Hash::from_record(&before).is_ok());
                    }
                }
            }

            #[test]
            fn records_refused() {
                let refused = |record: &[u8]| {
                    assert_eq!(Hash::from_record(record).err(), Some(Error::Record));
                    assert_eq!(Hash::finalize_record(record), Err(Error::Record));
                };
                let good = Hash::new().to_record_bits([9; 31], 3).unwrap();
                for unknown in [8, 9, 255] {
                    let mut record = good;
                    record[1] = unknown;
                    refused(&record);
                }
                // A low bit that isn't the message's, and the byte after the odd one.
                for (byte, bit) in [(30, 1), (30, 16), (31, 128)] {
                    let mut record = good;
                    record[PENDING + byte] |= bit;
                    refused(&record);
                }
                refused(&[]);
                refused(&good[..208]);
                let mut other = good;
                other[0] = good[0] % 4 + 1;
                refused(&other);
            }

            #[test]
            fn refused() {
                let hash = Hash::new().chain_update("abc");
                let refused = |piece: &[u8], odd| {
                    assert_eq!(Hash::digest_bits(piece, odd), Err(Error::Odd));
                    assert_eq!(Digest::of_bits(Code::$name, piece, odd), Err(Error::Odd));
                    assert_eq!(hash.clone().finalize_bits(piece, odd), Err(Error::Odd));
                    assert_eq!(hash.to_record_bits(piece, odd), Err(Error::Odd));
                };
                // Numbers whose low bits alone would pass, too.
                for odd in [8, 9, 256, 257, 1 << 32, usize::MAX] {
                    refused(b"", odd);
                    refused(b"abc", odd);
                }
                for odd in 1..8 {
                    refused(b"", odd);
                }
            }

            /// With all whole bytes fed, a byte of odd bits is still taken.
            #[test]
            fn the_limit() {
                let mut record = Hash::new().to_record();
                record[COUNT..].copy_from_slice(&(Hash::MOST_BITS / 8).to_be_bytes());
                let hash = Hash::from_record(&record).unwrap();
                for odd in 1..8 {
                    let kept = hash.to_record_bits([0xff], odd).unwrap();
                    assert_eq!(kept[COUNT..], record[COUNT..]);
                    let digest = Hash::finalize_record(&kept);
                    assert!(digest.is_ok());
                    assert_eq!(hash.clone().finalize_bits([0xff], odd), digest);
                    let long = hash.clone().finalize_bits([0, 0xff], odd);
                    assert_eq!(long, Err(Error::Long));
                    assert_eq!(hash.to_record_bits([0, 0xff], odd), Err(Error::Long));
                }
                assert_eq!(hash.clone().finalize_bits([0xff], 0), Err(Error::Long));
                // Both hold: the odd bits are judged first.
                assert_eq!(hash.finalize_bits("abc", 8), Err(Error::Odd));
            }
        }
    };
}

tests_of!(luffa224, Luffa224);
tests_of!(luffa256, Luffa256);
tests_of!(luffa384, Luffa384);
tests_of!(luffa512, Luffa512);
