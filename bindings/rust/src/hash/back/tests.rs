//! Stepping back over a block: there and back from records of messages and from any others, other blocks
//! than the one fed, blocks that are sent again, and refusals.

use super::BLOCK_BYTES;
use crate::hash::tests::{COUNT, PENDING, STATE};
use crate::order::{MAX, Way, every_set};
use crate::random::Numbers;
use crate::{Code, Error, RECORD_BYTES, ffi};

type Block = [u8; BLOCK_BYTES];

/// A record of this count, which is of whole blocks, with any state.
fn any_record(code: Code, count: u128, numbers: &mut Numbers) -> [u8; RECORD_BYTES] {
    let mut record = [0; RECORD_BYTES];
    record[0] = code.number() as u8;
    let used = STATE + BLOCK_BYTES * [3, 3, 4, 5][code.number() - 1];
    record[STATE..used].fill_with(|| numbers.next() as u8);
    record[COUNT..].copy_from_slice(&count.to_be_bytes());
    record
}

/// A call beneath the types.
#[derive(Clone)]
struct Call {
    record: Vec<u8>,
    block: Vec<u8>,
}

impl Call {
    fn count(&mut self, count: u128) {
        let n = self.record.len();
        self.record[n - 16..].copy_from_slice(&count.to_be_bytes());
    }
}

/// Each of the four conditions of 18, and then the record: it is judged first. The state has no part in it.
const WAYS: [(u64, &[Way<Call>]); 5] = [
    (18, &[|c| c.count(33), |c| c.count(95), |c| c.count(1)]),
    (18, &[|c| c.record[1] = 1, |c| c.record[1] = 7]),
    (18, &[|c| c.count(0), |c| c.count(31)]),
    (
        18,
        &[
            |c| c.block.clear(),
            |c| c.block.truncate(31),
            |c| c.block.push(0),
            |c| c.block.resize(64, 0),
        ],
    ),
    (
        3,
        &[
            |c| c.record[0] = 0,
            |c| c.record[0] = 5,
            |c| c.record[1] = 8,
            |c| c.record[7] = 1,
            |c| c.record[COUNT - 1] = 1,
            |c| c.count(MAX as u128 * MAX as u128),
            |c| c.record.clear(),
            |c| c.record.truncate(208),
            |c| c.record.push(0),
        ],
    ),
];

macro_rules! tests_of {
    ($module:ident, $name:ident) => {
        mod $module {
            use super::*;
            type Hash = crate::$name;

            fn restored(record: &[u8; RECORD_BYTES]) -> Hash {
                Hash::from_record(record).unwrap()
            }

            #[test]
            fn a_chain() {
                let mut numbers = Numbers(Hash::BYTES as u64);
                let blocks: Vec<Block> = (0..10).map(|_| numbers.block()).collect();
                let (mut hash, mut records) = (Hash::new(), vec![]);
                for block in &blocks {
                    records.push(hash.to_record());
                    hash.update(block);
                }
                for (block, record) in blocks.iter().zip(records).rev() {
                    assert_eq!(hash.take_back(block), Ok(()));
                    assert_eq!(hash.to_record(), record);
                }
                assert_eq!(hash.to_record(), Hash::new().to_record());
                assert_eq!(hash.take_back(&blocks[0]), Err(Error::Back));
            }

            /// From any state, also at counts where a byte or half of them is borrowed from.
            #[test]
            fn both_ways() {
                let mut numbers = Numbers(Hash::BYTES as u64);
                let most = Hash::MOST_BITS / 8 - 31;
                let powers = (5..125).map(|bit| 1 << bit).filter(|&count| count <= most);
                for count in powers.flat_map(|count| [count, count + 32, count * 2 - 32]) {
                    let record = any_record(Code::$name, count, &mut numbers);
                    let block = numbers.block();
                    let mut hash = restored(&record);
                    hash.take_back(&block).unwrap();
                    assert_eq!(hash.to_record()[COUNT..], (count - 32).to_be_bytes());
                    assert_eq!(hash.to_record()[PENDING..COUNT], [0; 32]);
                    hash.update(block);
                    assert_eq!(hash.to_record(), record, "back and forward at {count}");
                    if hash.try_update(block).is_ok() {
                        hash.take_back(&block).unwrap();
                        assert_eq!(hash.to_record(), record, "forward and back at {count}");
                    }
                }
            }

            #[test]
            fn another_block() {
                let mut numbers = Numbers(Hash::BYTES as u64);
                let first = any_record(Code::$name, 64, &mut numbers);
                let fed_block = numbers.block();
                let fed = restored(&first).chain_update(fed_block);
                for bit in 0..256 {
                    let mut other = fed_block;
                    other[bit / 8] ^= 1 << (bit % 8);
                    let mut hash = fed.clone();
                    hash.take_back(&other).unwrap();
                    assert_ne!(hash.to_record(), first, "bit {bit}");
                    // A record like any other: it is restored, and the same block leads forward.
                    let mut hash = restored(&hash.to_record()).chain_update(other);
                    assert_eq!(hash.to_record(), fed.to_record());
                    hash.take_back(&fed_block).unwrap();
                    assert_eq!(hash.to_record(), first);
                }
            }

            #[test]
            fn sent_again() {
                let mut numbers = Numbers(Hash::BYTES as u64);
                for blocks in 1..6 {
                    let message = numbers.bytes(BLOCK_BYTES * blocks + 7);
                    let (before, rest) = message.split_at(BLOCK_BYTES * (blocks - 1));
                    let (last, rest) = rest.split_at(BLOCK_BYTES);
                    let garbled = numbers.block();
                    for cut in 0..=BLOCK_BYTES {
                        let (one, two) = garbled.split_at(cut);
                        let mut hash = Hash::new().chain_update(before);
                        hash.update(one);
                        hash.update(two);
                        hash.take_back(&garbled).unwrap();
                        let hash = hash.chain_update(last).chain_update(rest);
                        assert_eq!(hash.finalize(), Hash::digest(&message), "{blocks} blocks");
                    }
                }
            }

            /// After every number of bytes but those of whole blocks.
            #[test]
            fn refused() {
                let message = Numbers(1).bytes(100);
                for n in 0..=message.len() {
                    let mut hash = Hash::new().chain_update(&message[..n]);
                    let before = hash.to_record();
                    match message[..n].last_chunk() {
                        Some(last) if n % BLOCK_BYTES == 0 => {
                            let earlier = Hash::new().chain_update(&message[..n - BLOCK_BYTES]);
                            assert_eq!(hash.take_back(last), Ok(()));
                            assert_eq!(hash.to_record(), earlier.to_record());
                        }
                        last => {
                            let block = last.copied().unwrap_or_default();
                            assert_eq!(hash.take_back(&block), Err(Error::Back), "{n} bytes");
                            assert_eq!(hash.to_record(), before);
                        }
                    }
                }
            }

            /// What the types leave no way to: odd bits, blocks of another length, and no record.
            #[test]
            fn beneath_the_types() {
                let mut numbers = Numbers(1);
                let calls = [32, 64, 1 << 60].map(|count| Call {
                    record: any_record(Code::$name, count, &mut numbers).to_vec(),
                    block: numbers.bytes(BLOCK_BYTES),
                });
                every_set(&calls, &[3, 18], &WAYS, |call, number| {
                    let mut record = call.record.clone();
                    let answer = ffi::back(&mut record, &call.block);
                    assert_eq!(answer, Error::judge(number, 0));
                    assert_eq!(record == call.record, number != 0);
                });
            }
        }
    };
}

tests_of!(luffa224, Luffa224);
tests_of!(luffa256, Luffa256);
tests_of!(luffa384, Luffa384);
tests_of!(luffa512, Luffa512);
