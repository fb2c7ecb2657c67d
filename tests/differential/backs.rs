//! Records from which a block is taken back: such as no message need give, with counts at every power of two and the
//! block that was fed or another; those that are refused, for each reason and for several; and messages that are fed
//! and taken back in any order, beside what was fed from the start. Every call goes through back_calls.rs.

use crate::back::BLOCK_BYTES;
use crate::back_calls::back;
use crate::back_kinds::{see_forward, see_history, see_malformed, see_other, FEW};
use crate::back_model::MISSING;
use crate::bits::{bits_of, most_bits};
use crate::hash_calls::{fed_alone, feed, feed_alone};
use crate::hashes::spoiled;
use crate::met::Met;
use crate::model::{write, Hash, MOST_ODD, RECORD};
use crate::record::Kept;
use crate::{Agreed, Numbers};

/// Lengths that no block has, some of them one once they are cut.
pub const NO_BLOCKS: [usize; 14] = [
    0,
    1,
    16,
    28,
    31,
    33,
    40,
    63,
    64,
    96,
    255,
    256,
    256 + BLOCK_BYTES,
    (1 << 16) + BLOCK_BYTES,
];

/// Lengths that no record has, beside those that records are spoiled with: with a block behind it, and such as are one
/// once they are cut.
pub const NO_RECORDS: [usize; 3] = [RECORD + BLOCK_BYTES, RECORD + 256, RECORD + (1 << 16)];

impl Numbers {
    /// A count of whole blocks, at least one: few, a power of two or a block more, about the most, a multiple of 2^64
    /// where there are such, or any.
    fn whole_count(&mut self, code: usize) -> u128 {
        let most = most_bits(code) / 8;
        let top = most.ilog2() as usize;
        let count = match self.between(0, 9) {
            0 => 32 * self.between(1, 5) as u128,
            1..6 => 1 << self.between(5, top),
            6 => (1 << self.one_of(&[8, 16, 32, 64.min(top)])) + 32,
            7 => most - 32 * self.between(0, 2) as u128,
            8 => self.count(code) >> 64 << 64,
            _ => self.count(code),
        };
        (count - count % 32).max(32)
    }

    /// A block: any bytes, or all of one kind.
    fn block(&mut self) -> Vec<u8> {
        match self.between(0, 7) {
            0 => vec![self.one_of(&[0, 0x80, 0xff]); BLOCK_BYTES],
            _ => self.bytes(BLOCK_BYTES),
        }
    }

    /// Another block than this: one of whose bits is another, or any.
    fn other_block(&mut self, block: &[u8]) -> Vec<u8> {
        let mut other = block.to_vec();
        if self.between(0, 7) == 0 {
            other = self.bytes(BLOCK_BYTES);
        }
        if other == block {
            other[self.between(0, BLOCK_BYTES - 1)] ^= 1 << self.between(0, 7);
        }
        other
    }

    /// Bytes that are no block.
    fn no_block(&mut self) -> Vec<u8> {
        let n = self.one_of(&NO_BLOCKS);
        let mut bytes = self.bytes(n.min(300));
        bytes.resize(n, 0);
        bytes
    }
}

/// A record of whole blocks and any state is taken back and fed again; and fed, where there is room, and taken back.
/// Another block leads to another record, and from there forward again.
pub fn free(numbers: &mut Numbers, met: &mut Met) -> Agreed {
    let code = numbers.code();
    let count = numbers.whole_count(code);
    let mut hash = numbers.hash(code, count, 0);
    if numbers.between(0, 15) == 0 {
        hash.state = Hash::start(code).state;
    }
    let record = write(&hash);
    let block = numbers.block();
    let mut earlier = record.clone();
    back(&mut earlier, &block, met)?;
    forward(&earlier, &block, &record)?;

    let mut after = record.clone();
    let number = feed_alone(&mut after, &block);
    see_forward(met, code, number);
    if number == 0 {
        back(&mut after, &block, met)?;
        same("forward and back", &after, &record)?;
    }

    let other = numbers.other_block(&block);
    let mut another = record.clone();
    back(&mut another, &other, met)?;
    if another == earlier {
        return Err(format!(
            "two blocks lead back to one record at code {code}\n"
        ));
    }
    see_other(met, code, &block, &other);
    forward(&another, &other, &record)
}

/// Fed with the block, the record must be this.
fn forward(record: &[u8], block: &[u8], wanted: &[u8]) -> Agreed {
    let mut after = record.to_vec();
    match feed_alone(&mut after, block) {
        0 => same("back and forward", &after, wanted),
        number => Err(format!("back and forward: refused {number}\n")),
    }
}

fn same(what: &str, got: &[u8], wanted: &[u8]) -> Agreed {
    match (0..wanted.len()).find(|&at| got[at] != wanted[at]) {
        None => Ok(()),
        Some(at) => Err(format!("{what}: another record, first at byte {at}\n")),
    }
}

/// A well-formed record or a block of which something is missing, one thing or some at once.
pub fn refused(numbers: &mut Numbers, met: &mut Met) -> Agreed {
    let code = numbers.code();
    let missing = match numbers.between(0, 1) {
        0 => 1 << numbers.between(0, MISSING.len() - 1),
        _ => numbers.between(1, (1 << MISSING.len()) - 1),
    };
    let pending = match missing & 1 {
        0 => 0,
        _ => numbers.between(1, 31) as u128,
    };
    let odd = match missing & 2 {
        0 => 0,
        _ => numbers.between(1, MOST_ODD),
    };
    let whole = match missing & 4 {
        0 => numbers.whole_count(code),
        _ => 0,
    };
    let block = match missing & 8 {
        0 => numbers.block(),
        _ => numbers.no_block(),
    };
    let mut hash = numbers.hash(code, whole + pending, odd);
    // Zeros are the message's too.
    if numbers.between(0, 3) == 0 {
        hash.pending = [0; 32];
    }
    back(&mut write(&hash), &block, met).map(drop)
}

/// A record of no more bytes than a block has, or one more; or of as many as the code allows, with any odd bits.
pub fn edges(numbers: &mut Numbers, met: &mut Met) -> Agreed {
    let code = numbers.code();
    let (count, odd) = match numbers.between(0, 3) {
        0 => (most_bits(code) / 8, numbers.between(0, MOST_ODD)),
        _ => (numbers.between(0, FEW) as u128, 0),
    };
    let mut record = write(&numbers.hash(code, count, odd));
    back(&mut record, &numbers.block(), met).map(drop)
}

/// A record spoiled in each way, of whole blocks or of any bytes and bits; and with bytes behind it.
pub fn malformed(numbers: &mut Numbers, met: &mut Met) -> Agreed {
    let code = numbers.code();
    let count = numbers.whole_count(code);
    let odd = numbers.between(0, MOST_ODD);
    let hash = match numbers.between(0, 3) {
        0 => numbers.any_hash(code, odd),
        _ => numbers.hash(code, count, 0),
    };
    let mut records = spoiled(numbers, &hash)?;
    let n = numbers.one_of(&NO_RECORDS);
    let mut longer = write(&hash);
    longer.resize(n, 0);
    records.push((format!("malformed: {n} bytes"), longer));
    for (what, mut record) in records {
        let block = match numbers.between(0, 7) {
            0 => numbers.no_block(),
            _ => numbers.block(),
        };
        let number = back(&mut record, &block, met)?;
        see_malformed(met, &what, &record, &block, number);
    }
    // The least count that the code doesn't allow, which is one of whole blocks.
    let mut record = write(&hash);
    record[1] = 0;
    record[RECORD - 48..RECORD - 16].fill(0);
    record[RECORD - 16..].copy_from_slice(&(most_bits(code) / 8 + 1).to_be_bytes());
    let block = numbers.block();
    let number = back(&mut record, &block, met)?;
    let what = format!("malformed: a byte over the most at code {code}");
    see_malformed(met, &what, &record, &block, number);
    Ok(())
}

/// A message under way, and its record as the archive has it.
struct Sent {
    code: usize,
    message: Vec<u8>,
    record: Vec<u8>,
}

impl Sent {
    fn feed(&mut self, piece: &[u8]) -> Agreed {
        self.message.extend(piece);
        match feed_alone(&mut self.record, piece) {
            0 => self.from_the_start("feed"),
            number => Err(format!("a history's feed is refused {number}\n")),
        }
    }

    /// The record is that of the message, fed as one piece.
    fn from_the_start(&self, what: &str) -> Agreed {
        let what = format!("a history's {what}, {} bytes", self.message.len());
        same(&what, &self.record, &fed_alone(self.code, &self.message))
    }

    /// Takes the last block back, of which there must be one.
    fn back(&mut self, met: &mut Met) -> Agreed {
        let block = self.message.split_off(self.message.len() - BLOCK_BYTES);
        back(&mut self.record, &block, met)?;
        self.from_the_start("back")
    }

    /// Other blocks than those fed are taken back, one for each of the last so many, and fed again.
    fn others(&self, numbers: &mut Numbers, most: usize, met: &mut Met) -> Result<usize, String> {
        let blocks = self.message.as_chunks::<BLOCK_BYTES>().0;
        let mut record = self.record.clone();
        let mut others = vec![];
        for (n, fed) in blocks.iter().enumerate().rev().take(most) {
            let other = numbers.other_block(fed);
            back(&mut record, &other, met)?;
            let earlier = fed_alone(self.code, blocks[..n].as_flattened());
            if others.is_empty() && record == earlier {
                return Err("a block that wasn't fed leads to the earlier record\n".into());
            }
            others.push(other);
        }
        for other in others.iter().rev() {
            feed_alone(&mut record, other);
        }
        same("a history's other blocks", &record, &self.record)?;
        Ok(others.len())
    }
}

/// A message that is fed by pieces and by blocks, taken back and fed on. At the end the separately written program says
/// what its record is, and at times it ends with odd bits, which can't be taken back.
pub fn history(numbers: &mut Numbers, met: &mut Met) -> Agreed {
    let code = numbers.code();
    let mut sent = Sent {
        code,
        message: vec![],
        record: fed_alone(code, &[]),
    };
    let mut in_a_row = 0;
    for _ in 0..numbers.between(1, 14) {
        let n = sent.message.len();
        let whole = n % BLOCK_BYTES == 0;
        let see: &mut dyn FnMut(&str) = &mut |what| see_history(met, code, what);
        let step = numbers.between(0, 7);
        if step > 2 {
            in_a_row = 0;
        }
        match step {
            0..=2 if whole && n > 0 => {
                in_a_row += 1;
                see(["one back", "two back", "more back"][in_a_row.min(3) - 1]);
                if n == BLOCK_BYTES {
                    see("to the start");
                }
                sent.back(met)?;
            }
            3 if whole && n > 0 => {
                see("sent again");
                sent.back(met)?;
                sent.feed(&numbers.block())?;
            }
            4 if whole && n > 0 => {
                let most = numbers.between(1, 3);
                let blocks = sent.others(numbers, most, met)?;
                see_history(met, code, ["one other", "some others"][blocks.min(2) - 1]);
            }
            0..=4 => {
                see(if n == 0 {
                    "18 at the start"
                } else {
                    "18, pending"
                });
                back(&mut sent.record, &numbers.block(), met)?;
                sent.from_the_start("refused back")?;
            }
            5 => {
                let piece = numbers.piece(70);
                see("a piece");
                sent.feed(&numbers.bytes(piece))?;
            }
            _ => {
                let blocks = n / BLOCK_BYTES + numbers.between(1, 3);
                see("to the end of a block");
                sent.feed(&numbers.bytes(BLOCK_BYTES * blocks - n))?;
            }
        }
    }
    let kept = Kept::start(code).feed(bits_of(&sent.message));
    same("a history's end", &sent.record, &kept.write())?;
    if numbers.between(0, 3) == 0 {
        let odd = numbers.between(1, MOST_ODD);
        feed(&mut sent.record, &numbers.bytes(1), odd, met)?;
        see_history(met, code, "18, odd bits");
        back(&mut sent.record, &numbers.block(), met)?;
    }
    Ok(())
}
