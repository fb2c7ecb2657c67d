//! Calls over messages, records and structs of all kinds, with odd bits and without.

use crate::bits::most_bits;
use crate::hash_calls::{digest, feed, finish, hash_feed, hash_finish, hash_start, start};
use crate::met::Met;
use crate::model::{
    digest_bytes, read, state_words, write, Hash, COUNT, MOST_ODD, PENDING, RECORD, STATE,
};
use crate::outputs;
use crate::{Agreed, Numbers};

/// Numbers of odd bits that no message has, most of them such as would do once they are cut.
pub const WIDE_ODD: [usize; 11] = [
    8,
    9,
    15,
    255,
    256,
    256 + 1,
    (1 << 16) + 3,
    1 << 32,
    (1 << 32) + 1,
    (1 << 63) + 5,
    usize::MAX,
];

/// The longest message.
const LONGEST: usize = 2000;

impl Numbers {
    /// Odd bits for a piece: none as often as some, and at times such as are refused.
    fn odd(&mut self) -> usize {
        match self.between(0, 9) {
            0..5 => 0,
            5..9 => self.between(1, MOST_ODD),
            _ => self.one_of(&WIDE_ODD),
        }
    }

    /// A count that the code allows: small, about a power of two, about the most, about a multiple of
    /// 2^64 where there are such, or any.
    pub fn count(&mut self, code: usize) -> u128 {
        let most = most_bits(code) / 8;
        let any = ((self.next() as u128) << 64 | self.next() as u128) % (most + 1);
        match self.between(0, 4) {
            0 => any % 200,
            1 => (1 << self.between(6, most.ilog2() as usize)) - any % 64,
            2 => most - any % 200,
            3 if any >> 64 > 0 => (any >> 64 << 64) - any % 200,
            _ => any,
        }
    }

    /// A well-formed one, with any pending bits and any state words, at times all zero.
    pub fn hash(&mut self, code: usize, count: u128, odd: usize) -> Hash {
        let mut hash = Hash {
            odd,
            count_high: (count >> 64) as u64,
            count_low: count as u64,
            ..Hash::start(code)
        };
        let any = self.between(0, 7) > 0;
        for word in &mut hash.state[..state_words(code)] {
            *word = if any { self.next() as u32 } else { 0 };
        }
        let held = (count % 32) as usize;
        hash.pending[..held].fill_with(|| self.next() as u8);
        hash.pending[held] = (self.between(0, (1 << odd) - 1) << (8 - odd)) as u8;
        hash
    }

    pub fn any_hash(&mut self, code: usize, odd: usize) -> Hash {
        let count = self.count(code);
        self.hash(code, count, odd)
    }
}

/// A message at every code: in one call, and in random pieces with a finish now and then. The bits of
/// the last byte that aren't the message's are others then.
pub fn message(numbers: &mut Numbers, met: &mut Met) -> Agreed {
    let n = numbers.length(LONGEST);
    let message = match numbers.between(0, 7) {
        0 => vec![numbers.one_of(&[0, 0x80, 0xff]); n],
        _ => numbers.bytes(n),
    };
    let odd = if n == 0 {
        0
    } else {
        numbers.between(0, MOST_ODD)
    };
    let mut other = message.clone();
    if let (Some(last), 1..) = (other.last_mut(), odd) {
        *last ^= numbers.between(0, 0xff >> odd) as u8;
    }
    for code in 1..=4 {
        let mut whole = numbers.output(code);
        digest(code, &message, odd, &mut whole, met)?;

        let mut record = numbers.bytes(RECORD);
        start(code, &mut record, met)?;
        let mut rest = &other[..];
        while !rest.is_empty() {
            let (piece, after) = rest.split_at(numbers.piece(rest.len()));
            let last = if after.is_empty() { odd } else { 0 };
            feed(&mut record, piece, last, met)?;
            if numbers.between(0, 9) == 0 {
                finish(&record, &mut numbers.output(code), met)?;
            }
            rest = after;
        }
        feed(&mut record, &[], 0, met)?;
        let mut pieced = numbers.bytes(digest_bytes(code));
        finish(&record, &mut pieced, met)?;
        outputs::of_record(numbers, &record, met)?;
        if whole.len() >= pieced.len() && !whole.starts_with(&pieced) {
            return Err(format!(
                "{n} bytes at code {code}, odd {odd}: pieces and whole differ\n"
            ));
        }
    }
    Ok(())
}

/// A well-formed record that no message need give, fed and finished.
pub fn free_record(numbers: &mut Numbers, met: &mut Met) -> Agreed {
    let code = numbers.code();
    let odd = numbers
        .between(0, 3 * MOST_ODD)
        .saturating_sub(2 * MOST_ODD);
    let mut record = write(&numbers.any_hash(code, odd));
    for _ in 0..numbers.between(0, 3) {
        let n = numbers.length(300);
        let odd = numbers.odd();
        feed(&mut record, &numbers.bytes(n), odd, met)?;
    }
    finish(&record, &mut numbers.output(code), met)
}

/// A record with room for some bytes more, and pieces of about as many.
pub fn near_limit(numbers: &mut Numbers, met: &mut Met) -> Agreed {
    let code = numbers.code();
    let left = numbers.between(0, 100);
    let odd = numbers.between(1, MOST_ODD);
    let sound = numbers.hash(code, most_bits(code) / 8 - left as u128, 0);
    let mut record = write(&sound);
    let wide = numbers.one_of(&WIDE_ODD);
    for (n, odd) in [
        (left + 2, 0),
        (left + 1, 0),
        (left + 2, odd),
        (left + 2, wide),
    ] {
        feed(&mut record, &numbers.bytes(n), odd, met)?;
    }
    if numbers.between(0, 1) == 0 {
        feed(&mut record, &numbers.bytes(left + 1), odd, met)?;
    } else {
        feed(&mut record, &numbers.bytes(left), 0, met)?;
        feed(&mut record, &[], 0, met)?;
        let odd = numbers.odd();
        feed(&mut record, &numbers.bytes(1), odd, met)?;
    }
    let n = numbers.between(1, 100);
    feed(&mut record, &numbers.bytes(n), 0, met)?;
    finish(&record, &mut numbers.output(code), met)
}

/// Lengths that no record has; 208 bytes are left by what version 1 wrote.
const LENGTHS: [usize; 8] = [0, 1, 207, 209, 215, 217, 416, 432];

/// Bits that make a code or a number of odd bits too wide for a record's byte.
pub const WIDE_BITS: [u32; 4] = [8, 16, 32, 63];

/// Every way in which `malformed` and `malformed_struct` spoil one.
pub fn malformed_kinds() -> Vec<String> {
    let mut kinds = vec!["malformed: version 1's".into()];
    let codes = [0].into_iter().chain(5..=255);
    kinds.extend(codes.map(|code| format!("malformed: code {code}")));
    kinds.extend((8..=255).map(|odd| format!("malformed: odd {odd}")));
    kinds.extend((2..STATE).map(|at| format!("malformed: byte {at}")));
    for odd in 1..=MOST_ODD {
        kinds.extend((0..8 - odd).map(|bit| format!("malformed: low bit {bit} at odd {odd}")));
    }
    for odd in 0..=MOST_ODD {
        kinds.push(format!("malformed: later byte at odd {odd}"));
    }
    for code in 1..=4 {
        kinds.push(format!("malformed: unused word at code {code}"));
        kinds.extend(
            over_bits(code).map(|bit| format!("malformed: count bit {bit} at code {code}")),
        );
    }
    kinds.extend(LENGTHS.map(|n| format!("malformed: {n} bytes")));
    kinds.extend(WIDE_BITS.map(|bit| format!("malformed: struct's code, bit {bit}")));
    kinds.extend(WIDE_BITS.map(|bit| format!("malformed: struct's odd, bit {bit}")));
    kinds
}

/// The bits of a count that pass the limit at the code.
fn over_bits(code: usize) -> std::ops::Range<usize> {
    (most_bits(code) / 8).ilog2() as usize + 1..128
}

/// A record malformed in each way.
pub fn malformed(numbers: &mut Numbers, met: &mut Met) -> Agreed {
    let code = numbers.code();
    let odd = numbers.between(0, MOST_ODD);
    let hash = numbers.any_hash(code, odd);
    for (what, record) in spoiled(numbers, &hash)? {
        met.see(what.clone());
        refused(numbers, &what, record, met)?;
    }
    Ok(())
}

/// The record of a well-formed one spoiled in each way in turn, and last in some ways at once, with the ways' names.
pub fn spoiled(numbers: &mut Numbers, hash: &Hash) -> Result<Vec<(String, Vec<u8>)>, String> {
    let Hash { code, odd, .. } = *hash;
    let sound = write(hash);
    let held = PENDING + (hash.count() % 32) as usize;
    // The first pending byte that no bit of the message stands in.
    let behind = held + (odd > 0) as usize;
    let mut worst = sound.clone();
    let mut spoiled = vec![];
    for way in 0..9 {
        let mut record = sound.clone();
        let some = numbers.between(1, 255) as u8;
        let what = match way {
            0 => {
                record[0] = if some < 5 { 0 } else { some };
                format!("code {}", record[0])
            }
            1 => {
                // At times its three low bits are those that stood there.
                let high = numbers.between(1, 31) << 3;
                let low = numbers.one_of(&[odd, some as usize % 8]);
                record[1] = (high | low) as u8;
                format!("odd {}", record[1])
            }
            2 => {
                let at = numbers.between(2, STATE - 1);
                record[at] = some;
                format!("byte {at}")
            }
            3 => {
                let at = match code {
                    // Code 4 leaves no word unused, so its record is called one of code 3.
                    4 => {
                        record[0] = 3;
                        PENDING - 4
                    }
                    _ => numbers.between(STATE + 4 * state_words(code), PENDING - 1),
                };
                record[at] = some;
                format!("unused word at code {code}")
            }
            4 if odd > 0 => {
                let bit = numbers.between(0, 7 - odd);
                record[held] |= 1 << bit;
                format!("low bit {bit} at odd {odd}")
            }
            5 if behind < COUNT => {
                record[numbers.between(behind, COUNT - 1)] = some;
                format!("later byte at odd {odd}")
            }
            6 => {
                // Equal modulo 32, so that only the limit is passed.
                let bits = over_bits(code);
                let bit = numbers.between(bits.start, bits.end - 1);
                let count = hash.count() | 1 << bit;
                record[COUNT..].copy_from_slice(&count.to_be_bytes());
                format!("count bit {bit} at code {code}")
            }
            7 => {
                let n = numbers.one_of(&LENGTHS);
                record.resize(n, 0);
                format!("{n} bytes")
            }
            8 => {
                record[1] = 0;
                record[behind..COUNT].fill(0);
                record.drain(COUNT..COUNT + 8);
                "version 1's".into()
            }
            _ => continue,
        };
        if read(&record).is_some_and(|hash| hash.well_formed()) {
            return Err(format!("{what} leaves a record well formed\n"));
        }
        if record.len() == RECORD && numbers.between(0, 1) == 0 {
            for at in (0..RECORD).filter(|&at| record[at] != sound[at]) {
                worst[at] = record[at];
            }
        }
        spoiled.push((format!("malformed: {what}"), record));
    }
    spoiled.push(("malformed: some ways".into(), worst));
    Ok(spoiled)
}

fn refused(numbers: &mut Numbers, what: &str, mut record: Vec<u8>, met: &mut Met) -> Agreed {
    let n = numbers.length(300);
    let odd = numbers.odd();
    feed(&mut record, &numbers.bytes(n), odd, met)?;
    feed(&mut record, &[], 0, met)?;
    let code = numbers.code();
    finish(&record, &mut numbers.output(code), met)?;
    // Every way comes so often that a third of its records will do.
    if numbers.between(0, 2) == 0 && outputs::of_record(numbers, &record, met)? == 3 {
        met.see(format!("longer output, {what}"));
    }
    Ok(())
}

/// A struct whose code or odd bits no record can have: cut to a byte, they would do.
pub fn malformed_struct(numbers: &mut Numbers, met: &mut Met) -> Agreed {
    let code = numbers.code();
    let odd = numbers.between(0, MOST_ODD);
    let bit = numbers.one_of(&WIDE_BITS);
    let mut hash = numbers.any_hash(code, odd);
    let what = match numbers.between(0, 1) {
        0 => {
            hash.code |= 1 << bit;
            "code"
        }
        _ => {
            hash.odd |= 1 << bit;
            "odd"
        }
    };
    let what = format!("malformed: struct's {what}, bit {bit}");
    met.see(what.clone());
    let (n, odd) = (numbers.length(100), numbers.odd());
    hash_feed(&mut hash, &numbers.bytes(n), odd, met)?;
    hash_finish(&hash, &mut numbers.output(code), met)?;
    if outputs::of_struct(numbers, &hash, met)? == 3 {
        met.see(format!("longer output, {what}"));
    }
    Ok(())
}

/// Codes, odd bits and lengths of any kind.
pub fn arguments(numbers: &mut Numbers, met: &mut Met) -> Agreed {
    let low = numbers.between(0, 6);
    let code = low | numbers.one_of(&[0, 0, 1 << 8, 1 << 16, 1 << 32, 1 << 63, usize::MAX << 3]);
    let (m, o) = (numbers.length(200), numbers.between(0, 80));
    // Half of the messages are empty, so that odd bits are met there.
    let m = numbers.one_of(&[0, m]);
    let odd = numbers.odd();
    digest(code, &numbers.bytes(m), odd, &mut numbers.bytes(o), met)?;
    let r = numbers
        .one_of(&[RECORD, RECORD, 208, 215, 217])
        .min(numbers.between(0, 1000));
    start(code, &mut numbers.bytes(r), met)?;
    let held = numbers.code();
    let mut hash = numbers.any_hash(held, 0);
    hash_feed(&mut hash, &numbers.bytes(m), odd, met)?;
    hash_start(code, &mut hash, met)?;
    let mut noise = numbers.bytes(RECORD);
    feed(&mut noise, &numbers.bytes(m), odd, met)?;
    finish(&noise, &mut numbers.bytes(o), met)
}
