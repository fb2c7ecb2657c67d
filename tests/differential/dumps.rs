//! States and message blocks as the commissioning crew dumps them: of special forms and any, in buffers of the right
//! lengths and of wrong ones; there and back; every value in every column of a matrix; many blocks injected in a row;
//! and beside a record that is fed. Every call goes through dump_calls.rs.

use crate::back::BLOCK_BYTES;
use crate::columns::POSITIONS;
use crate::dump_calls::{alone, call, own_bytes, own_words, width, Call, Given, Room, CALLS};
use crate::dump_kinds::{see_back, see_chain, see_refused, see_rounds, see_values};
use crate::hash_calls::feed_alone;
use crate::hashes::WIDE_BITS;
use crate::luffa::{words, Block, Tables};
use crate::met::Met;
use crate::model::{read, write};
use crate::outputs::NO_CODES;
use crate::{Agreed, Numbers};

/// Lengths that are wrong in the place of the right one, by name: also those of fewer and of more blocks, of bytes where
/// words are counted and the other way, and such as are right once they are cut.
pub const WRONG: [(&str, fn(Room) -> usize); 18] = [
    ("none", |_| 0),
    ("one alone", |_| 1),
    ("one short", |room| room.right() - 1),
    ("one long", |room| room.right() + 1),
    ("one a block short", |room| room.right() - room.blocks),
    ("one a block long", |room| room.right() + room.blocks),
    ("a block short", |room| room.right() - room.block),
    ("a block long", |room| room.right() + room.block),
    ("two blocks short", |room| {
        room.right().saturating_sub(2 * room.block)
    }),
    ("two blocks long", |room| room.right() + 2 * room.block),
    ("a quarter", |room| room.right() / 4),
    ("half", |room| room.right() / 2),
    ("twice", |room| 2 * room.right()),
    ("three times", |room| 3 * room.right()),
    ("four times", |room| 4 * room.right()),
    ("five times", |room| 5 * room.right()),
    ("256 long", |room| room.right() + 256),
    ("65,536 long", |room| room.right() + 65_536),
];

/// The buffers of a call, as the ways name them.
pub const BUFFERS: [&str; 2] = ["read", "written"];

/// The most blocks that are injected in a row, and the most that a record is fed beside it.
pub const MOST_CHAIN: usize = 6;
pub const MOST_ROUNDS: usize = 3;

impl Numbers {
    /// Bytes of a state or a block: all zero, all one, one bit alone, or any.
    fn columns(&mut self, n: usize) -> Vec<u8> {
        match self.between(0, 7) {
            0 => vec![0; n],
            1 => vec![0xff; n],
            2..5 => {
                let mut bytes = vec![0; n];
                bytes[self.between(0, n - 1)] = 1 << self.between(0, 7);
                bytes
            }
            _ => self.bytes(n),
        }
    }

    /// A call in which nothing is wrong.
    fn given(&mut self, call: Call, code: usize) -> Given {
        let [read, written] = call.rooms(width(code)).map(Room::bytes);
        Given {
            call,
            code,
            read: self.columns(read),
            written: self.columns(written),
        }
    }

    /// A code that there is none of; at times it would be this one if it were cut.
    fn no_code(&mut self, code: usize) -> usize {
        match self.between(0, 1) {
            0 => self.one_of(&NO_CODES),
            _ => code | 1 << self.one_of(&WIDE_BITS),
        }
    }

    /// Has one refusal hold, or more of them, and says in which ways, or leaves all as it is.
    fn refuse_dump(&mut self, given: &mut Given) -> Vec<String> {
        let (call, code) = (given.call, given.code);
        let coded = call.codes() > 1;
        let rooms = call.rooms(width(code));
        // Both buffers as they are right at another code.
        let other = width(self.code());
        if coded && other != width(code) && self.between(0, 5) == 0 {
            let [read, written] = call.rooms(other).map(Room::bytes);
            given.read.resize(read, 0);
            given.written.resize(written, 0);
            return vec![format!("as of {other} blocks at code {code}")];
        }
        let hold = self.refusals(3);
        let mut ways = vec![];
        if coded && hold & 1 != 0 {
            given.code = self.no_code(code);
            ways.push(format!("code {}", given.code));
        }
        let buffers = [&mut given.read, &mut given.written];
        for (k, bytes) in buffers.into_iter().enumerate() {
            if hold & 2 << k != 0 {
                let (name, wrong) = self.one_of(&WRONG);
                bytes.resize(rooms[k].size * wrong(rooms[k]), self.next() as u8);
                ways.push(format!("{} {name} at code {code}", BUFFERS[k]));
            }
        }
        ways
    }
}

/// Each call as it should be, and then at times with what is refused of it.
pub fn dump(numbers: &mut Numbers, met: &mut Met) -> Agreed {
    for made in CALLS {
        let code = numbers.between(1, made.codes());
        let mut given = numbers.given(made, code);
        let mut spoilt = given.clone();
        let ways = numbers.refuse_dump(&mut spoilt);
        call(&mut given, met)?;
        if !ways.is_empty() {
            call(&mut spoilt, met)?;
            see_refused(met, made, &ways);
        }
    }
    Ok(())
}

/// Thirty-two values, one a position, in one block of a state that is zero else or in the message alone: eight such
/// calls meet every product of that column of the matrix.
pub fn values(numbers: &mut Numbers, met: &mut Met) -> Agreed {
    let code = numbers.code();
    let w = width(code);
    let (column, first) = (numbers.between(0, w), POSITIONS * numbers.between(0, 7));
    let mut given = Given {
        call: Call::Inject,
        code,
        read: vec![0; POSITIONS],
        written: vec![0; POSITIONS * w],
    };
    for l in 0..POSITIONS {
        let value = (first + l) as u8;
        match column {
            j if j < w => given.written[w * l + j] = value,
            _ => given.read[l] = value,
        }
    }
    see_values(met, code, column, first);
    call(&mut given, met).map(drop)
}

/// What the archive alone makes of these bytes, in a buffer that held any.
fn converted(
    numbers: &mut Numbers,
    made: Call,
    code: usize,
    read: &[u8],
) -> Result<Vec<u8>, String> {
    let mut given = numbers.given(made, code);
    given.read = read.to_vec();
    alone(given)
}

fn same(what: &str, code: usize, got: &[u8], wanted: &[u8]) -> Agreed {
    match (0..wanted.len()).find(|&at| got[at] != wanted[at]) {
        None => Ok(()),
        Some(at) => Err(format!(
            "{what} at code {code}: differs, first at byte {at}\n"
        )),
    }
}

/// Words to a dump and back, and a dump to words and back, by the archive alone: nothing is lost.
pub fn there_and_back(numbers: &mut Numbers, met: &mut Met) -> Agreed {
    let code = numbers.code();
    let ways = [Call::FromWords, Call::ToWords];
    for (there, back) in ways.into_iter().zip(ways.into_iter().rev()) {
        let start = numbers.given(there, code).read;
        let middle = converted(numbers, there, code, &start)?;
        let end = converted(numbers, back, code, &middle)?;
        see_back(met, there, code, &start);
        same("there and back", code, &end, &start)?;
    }
    Ok(())
}

/// The state after these blocks were injected into it one after another, in one dump, by the archive alone.
fn injected(
    numbers: &mut Numbers,
    code: usize,
    state: &[u32],
    blocks: &[Vec<u8>],
) -> Result<Vec<u32>, String> {
    let mut dump = converted(numbers, Call::FromWords, code, &own_bytes(state))?;
    for block in blocks {
        dump = alone(Given {
            call: Call::Inject,
            code,
            read: converted(numbers, Call::FromMessage, code, block)?,
            written: dump,
        })?;
    }
    let state = converted(numbers, Call::ToWords, code, &dump)?;
    Ok(own_words(&state))
}

/// The blocks of a state as the separately written program's hash holds them.
fn held(state: &[u32]) -> Vec<Block> {
    let blocks = state.as_chunks().0.iter();
    blocks.map(|words| Tables::get().columns(words)).collect()
}

/// Blocks injected in a row give the state that the injection of the separately written program's hash gives.
pub fn chain(numbers: &mut Numbers, met: &mut Met) -> Agreed {
    let code = numbers.code();
    let state = own_words(&numbers.given(Call::FromWords, code).read);
    let blocks: Vec<Vec<u8>> = (0..numbers.between(1, MOST_CHAIN))
        .map(|_| numbers.columns(BLOCK_BYTES))
        .collect();
    let got = injected(numbers, code, &state, &blocks)?;
    let mut h = held(&state);
    for block in &blocks {
        let block = block[..].try_into().expect("a block");
        Tables::get().inject(&mut h, &Tables::get().message_columns(block));
    }
    let wanted: Vec<u32> = h.iter().flat_map(words).collect();
    see_chain(met, code, blocks.len());
    same(
        "blocks in a row",
        code,
        &own_bytes(&got),
        &own_bytes(&wanted),
    )
}

/// A record that the archive feeds with blocks has the state that comes of injecting them by columns, when the
/// separately written program's Q_j follow.
pub fn rounds(numbers: &mut Numbers, met: &mut Met) -> Agreed {
    let code = numbers.code();
    let hash = numbers.hash(code, 0, 0);
    let used = 8 * width(code);
    let mut record = write(&hash);
    let mut state = hash.state[..used].to_vec();
    let n = numbers.between(1, MOST_ROUNDS);
    for _ in 0..n {
        let block = numbers.columns(BLOCK_BYTES);
        if feed_alone(&mut record, &block) != 0 {
            return Err(format!("a block isn't taken at code {code}\n"));
        }
        let x = held(&injected(numbers, code, &state, &[block])?);
        let permuted = x.iter().enumerate();
        state = permuted
            .flat_map(|(j, x_j)| words(&Tables::get().permute(x_j, j)))
            .collect();
    }
    see_rounds(met, code, n);
    let fed = read(&record).expect("a record").state;
    same("rounds", code, &own_bytes(&state), &own_bytes(&fed[..used]))
}
