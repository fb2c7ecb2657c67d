//! Longer output: known answers, the four digests, every number of words, every cut, odd bits, kept
//! records, the rounds, and refusals.

use super::OUTPUT_BYTES_MOST as MOST;
use crate::ffi::{self, OutputAnswer};
use crate::hash::by_hand;
use crate::hash::tests::{COUNT, PENDING};
use crate::random::Numbers;
use crate::{Code, Error};

/// Lengths of messages around the end of a block.
const LENGTHS: [usize; 9] = [0, 1, 31, 32, 33, 63, 64, 65, 100];

/// What a slice has before a call.
const BEFORE: u8 = 0xa5;

fn untouched(bytes: &[u8]) -> bool {
    bytes.iter().all(|&byte| byte == BEFORE)
}

/// The bytes that a call writes to a slice of this length. Those behind it stay, and the rounds are the
/// words divided by eight, rounded up.
fn filled(bytes: usize, call: impl FnOnce(&mut [u8]) -> Result<u64, Error>) -> Vec<u8> {
    let mut room = [BEFORE; MOST + 64];
    let rounds = call(&mut room[..bytes]);
    assert_eq!(rounds, Ok(bytes.div_ceil(32) as u64), "{bytes} bytes");
    assert!(untouched(&room[bytes..]));
    room[..bytes].to_vec()
}

/// A call refuses a slice of this length, and leaves it as it was.
fn refused(bytes: usize, why: Error, call: impl FnOnce(&mut [u8]) -> Result<u64, Error>) {
    let mut room = vec![BEFORE; bytes];
    assert_eq!(call(&mut room), Err(why), "{bytes} bytes");
    assert!(untouched(&room));
}

/// What was answered beneath the types. A refusal has no rounds.
fn judged(answer: OutputAnswer) -> Result<u64, Error> {
    assert!(answer.number == 0 || answer.rounds == 0);
    answer.judge()
}

/// Lengths that are refused whatever the message, and why.
fn lengths_refused() -> impl Iterator<Item = (usize, Error)> {
    let why = |bytes: usize| match bytes {
        1..=MOST if bytes % 4 == 0 => None,
        1..=MOST => Some((bytes, Error::Out)),
        _ => Some((bytes, Error::Words)),
    };
    (0..=MOST + 9).chain([512, 1 << 16]).filter_map(why)
}

/// The same tests of each type, and 64 words of `abc` from the separately written program.
macro_rules! tests_of {
    ($module:ident, $name:ident, $abc:expr) => {
        mod $module {
            use super::*;
            type Hash = crate::$name;

            #[test]
            fn abc() {
                let got = filled(MOST, |out| Hash::output("abc", out));
                let hex: String = got.iter().map(|byte| format!("{byte:02x}")).collect();
                assert_eq!(hex, $abc);
            }

            #[test]
            fn every_number_of_words() {
                let mut numbers = Numbers(Hash::BYTES as u64);
                for n in LENGTHS {
                    let message = numbers.bytes(n);
                    let longest: [u8; MOST] = by_hand::output(Code::$name, &message, 0);
                    let hash = Hash::new().chain_update(&message);
                    let kept = hash.to_record();
                    for bytes in (4..=MOST).step_by(4) {
                        let expected = &longest[..bytes];
                        let same = |got: Vec<u8>| assert_eq!(got, expected, "{n} bytes");
                        same(filled(bytes, |out| Hash::output(&message, out)));
                        same(filled(bytes, |out| Hash::output_bits(&message, 0, out)));
                        same(filled(bytes, |out| hash.clone().finalize_output(out)));
                        same(filled(bytes, |out| {
                            Hash::finalize_output_record(&kept, out)
                        }));
                    }
                    assert_eq!(Hash::digest(&message), longest[..Hash::BYTES]);
                    assert_eq!(hash.finalize(), longest[..Hash::BYTES]);
                }
            }

            #[test]
            fn every_cut_in_two() {
                let mut numbers = Numbers(Hash::BYTES as u64);
                for n in LENGTHS {
                    let message = numbers.bytes(n);
                    let bytes = 4 + 4 * numbers.below(64);
                    let whole = filled(bytes, |out| Hash::output(&message, out));
                    for cut in 0..=n {
                        let (first, last) = message.split_at(cut);
                        let hash = Hash::new().chain_update(first);
                        let ended =
                            |out: &mut [u8]| hash.clone().finalize_output_bits(last, 0, out);
                        assert_eq!(filled(bytes, ended), whole, "{n} bytes cut at {cut}");
                        let fed =
                            |out: &mut [u8]| hash.clone().chain_update(last).finalize_output(out);
                        assert_eq!(filled(bytes, fed), whole, "{n} bytes cut at {cut}");
                    }
                }
            }

            #[test]
            fn every_odd_bit() {
                let mut numbers = Numbers(Hash::BYTES as u64);
                for (message, odd) in by_hand::odd_messages() {
                    let longest: [u8; MOST] = by_hand::output(Code::$name, &message, odd);
                    let bytes = 4 + 4 * numbers.below(64);
                    let same = |got: Vec<u8>| {
                        assert_eq!(
                            got,
                            longest[..bytes],
                            "{message:02x?}, the last of {odd} bits"
                        )
                    };
                    same(filled(bytes, |out| Hash::output_bits(&message, odd, out)));

                    let (first, last) = message.split_at(numbers.below(message.len()));
                    let hash = Hash::new().chain_update(first);
                    let kept = hash.to_record_bits(last, odd).unwrap();
                    same(filled(bytes, |out| {
                        Hash::finalize_output_record(&kept, out)
                    }));
                    same(filled(bytes, |out| {
                        hash.finalize_output_bits(last, odd, out)
                    }));
                }
            }

            #[test]
            fn lengths() {
                let hash = Hash::new().chain_update("abc");
                let kept = hash.to_record();
                for (bytes, why) in lengths_refused() {
                    refused(bytes, why, |out| Hash::output("abc", out));
                    refused(bytes, why, |out| Hash::output_bits("abc", 3, out));
                    refused(bytes, why, |out| hash.clone().finalize_output(out));
                    refused(bytes, why, |out| {
                        hash.clone().finalize_output_bits("d", 3, out)
                    });
                    refused(bytes, why, |out| Hash::finalize_output_record(&kept, out));
                    // Odd bits are judged after the slice in one call, and before it where they are fed.
                    refused(bytes, why, |out| Hash::output_bits("abc", 8, out));
                    refused(bytes, Error::Odd, |out| {
                        hash.clone().finalize_output_bits("d", 8, out)
                    });
                }
            }

            #[test]
            fn odd_bits_refused() {
                let hash = Hash::new().chain_update("abc");
                let refused = |piece: &[u8], odd| {
                    refused(MOST, Error::Odd, |out| Hash::output_bits(piece, odd, out));
                    refused(MOST, Error::Odd, |out| {
                        hash.clone().finalize_output_bits(piece, odd, out)
                    });
                };
                for odd in 1..8 {
                    refused(b"", odd);
                }
                // Numbers whose low bits alone would pass, too.
                for odd in [8, 256, 257, 1 << 32, usize::MAX] {
                    refused(b"", odd);
                    refused(b"abc", odd);
                }
            }

            #[test]
            fn records_refused() {
                let good = Hash::new().to_record_bits([9; 31], 3).unwrap();
                let altered = |byte: usize, to| {
                    let mut record = good;
                    record[byte] = to;
                    record.to_vec()
                };
                let codes = (0..=5).chain([255]).filter(|&code| code != good[0]);
                let mut records: Vec<_> = codes.map(|code| altered(0, code)).collect();
                // Odd bits, a byte that must be zero, a bit that isn't the message's, another length.
                records.extend([altered(1, 8), altered(7, 1), altered(PENDING + 30, 1)]);
                records.extend([vec![], good[1..].to_vec(), good[..208].to_vec()]);
                records.push([&good[..], &[0]].concat());
                for record in records {
                    let call = |out: &mut [u8]| Hash::finalize_output_record(&record, out);
                    refused(MOST, Error::Record, call);
                    // The number of words is judged before the record, and the room for them after it.
                    refused(0, Error::Words, call);
                    refused(MOST + 1, Error::Words, call);
                    refused(MOST - 1, Error::Record, call);
                }
            }

            /// With all whole bytes fed, output can still be asked for, of odd bits too.
            #[test]
            fn the_limit() {
                let mut record = Hash::new().to_record();
                record[COUNT..].copy_from_slice(&(Hash::MOST_BITS / 8).to_be_bytes());
                let hash = Hash::from_record(&record).unwrap();
                let got = filled(MOST, |out| hash.clone().finalize_output(out));
                assert!(got.starts_with(&hash.clone().finalize()));
                let got = filled(MOST, |out| {
                    hash.clone().finalize_output_bits([0xff], 7, out)
                });
                assert!(got.starts_with(&hash.clone().finalize_bits([0xff], 7).unwrap()));
                for bytes in [0, 7, MOST] {
                    refused(bytes, Error::Long, |out| {
                        hash.clone().finalize_output_bits("ab", 7, out)
                    });
                }
            }

            /// What the types leave no way to: a number of words that isn't the slice's.
            #[test]
            fn beneath_the_types() {
                let code = Hash::CODE.number();
                let kept = Hash::new().chain_update("abc").to_record();
                let longest = filled(MOST, |out| Hash::output("abc", out));
                let calls: [&dyn Fn(usize, &mut [u8]) -> Result<u64, Error>; 3] = [
                    &|words, out| judged(ffi::output(code, words, b"abc", out)),
                    &|words, out| judged(ffi::output_bits(code, words, b"abc", 0, out)),
                    &|words, out| judged(ffi::finish_output(&kept, words, out)),
                ];
                for call in calls {
                    for (words, rounds) in [(1, 1), (8, 1), (9, 2), (63, 8), (64, 8)] {
                        // A longer slice is filled as far as the words go.
                        let (mut out, bytes) = ([BEFORE; MOST + 1], 4 * words);
                        assert_eq!(call(words, &mut out), Ok(rounds));
                        assert_eq!(out[..bytes], longest[..bytes]);
                        assert!(untouched(&out[bytes..]));
                        refused(bytes - 1, Error::Out, |out| call(words, out));
                    }
                    // Numbers whose low bits alone, or four times them, would pass, too.
                    for words in [0, 65, 256, 1 << 32 | 1, 1 << 62, 1 << 62 | 1, usize::MAX] {
                        refused(0, Error::Words, |out| call(words, out));
                        refused(MOST, Error::Words, |out| call(words, out));
                    }
                }
                for unknown in [0, 5, 1 << 32 | code] {
                    for words in [0, 64, 65] {
                        refused(1, Error::Width, |out| {
                            judged(ffi::output(unknown, words, b"", out))
                        });
                        refused(1, Error::Width, |out| {
                            judged(ffi::output_bits(unknown, words, b"", 8, out))
                        });
                    }
                }
            }
        }
    };
}

/// At 224 and 256 bits the state is the same.
const ABC_3: &str = concat!(
    "f29311b87e9e40de7699be23fbeb5a47cb16ea4f5556d47ca40c12ad764a73bd",
    "fae40b40b582134b04b0aaa45c8343c494972589ca1c76b98c33ec9947fc18ac",
    "3e6adb4f6ef5f1d969b39e7710a472d328843c5cd0d2d848129793102058bacb",
    "e978d0133642c071dad452ec2b621c82a9d547767c2345e9b4cb7bbacc9fe676",
    "33d98e35951bdaf1ad6731b25890de24b78483be896fb3a47c3584b30048f36e",
    "23ad3f6a0fbedc3a57b5fb8d05937e4d4f4a602b7ceb0771c3df84c27e7ca20b",
    "fdaa77a888d2b4b6e2637f1c6bb055fb6274c4fbca8a0ce85cfe5196b10b93d7",
    "04d4238def75f230423ee924f87eb4ec38937400edb26a72be239637ba8f9755",
);

tests_of!(luffa224, Luffa224, ABC_3);
tests_of!(luffa256, Luffa256, ABC_3);
tests_of!(
    luffa384,
    Luffa384,
    concat!(
        "9a7abb797a840e2d423c34c91f559f6809bdb2916fb2e9effec2fa0a7a69881b",
        "e9872480c635d20d2fd6e95d046601a79cd562a57a85e7759c9d0d61da0ef920",
        "f62622f5000d3bbf23019d3356bd0a29b6c12e351d3819468206a22866c7226c",
        "bcc4055d7faf8f47bb187e6a76c0b05a2d96eb306af5deb56cceb860c2710a5d",
        "c5e9c26f4d43aa7b6e9a5a322ee89537bde01a9df8124acdc95dd78a3f4af6af",
        "859e795c5c9fce49bc28cc2e0bd132cb2f6cf84818b4d59512518a3ce24203e9",
        "d46f3ce1854aa4767e2785e39d9a6e08f56545a80a58e87e54fbd548f5a99c36",
        "916d5dd8b5ef161d4ed8dbb9eadd25dad08794f35dbb38d55d9591e79017dc86",
    )
);
tests_of!(
    luffa512,
    Luffa512,
    concat!(
        "f40245973e80d79d0f4b9b202ddd4505b81b8830501bea31612b5817aae38792",
        "1dcefd808ca2c78020aff59345d6f91f0ee6b2eee113f0cbcf22b64381387e8a",
        "468df7c0894ca71f3a231dcbbe298239837ed310412caef74ec45ba059616f10",
        "917e071c2a3e580138d75bb4c3b11c92e1563b2ee54ac10e99a0560af4278c0a",
        "18c4ea2b704bf0f426c381227f9e50d7947022d6c2c34d8c6535e64c75f77aba",
        "62f9ad15376ec20233325c9cd5f2562eb31f6c7ab4b20ba2a71fca6adea32d24",
        "211aeb615df403f08ed00ca30cce3efd4d36c0aee342a275bc22734fc256642e",
        "a79b25b84054059b8d3bd65276e2d82db73fc54eae8a02b68d37b33e116234c9",
    )
);
