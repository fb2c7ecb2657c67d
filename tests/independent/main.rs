//! A separately written Luffa program, to compare another one with. The hash is in luffa.rs; the
//! four output lines are those of the digest program in the build requirements, `words` gives the
//! longer output of document 02, `bits` takes a message that stops inside a byte, `plan` is the check
//! of a sheet's content, `brine` the brine statement over a batch of sheets, `reach` tells who depends on a
//! well, `mend` finds the spoiled marks of a sheet, `record` keeps a message as a hash record, `back` takes such a
//! record's last block back, and `columns`, `state` and `inject` are about dumps by columns.

mod back;
mod batch;
mod bits;
mod brine;
mod check;
mod check_back;
mod check_batch;
mod check_bits;
mod check_brine;
mod check_close_up;
mod check_columns;
mod check_mend;
mod check_output;
mod check_own;
mod check_plan;
mod check_reach;
mod check_record;
mod close_up;
mod columns;
mod luffa;
mod mend;
mod output;
mod own;
mod plan;
mod reach;
mod record;
mod sheet;

use bits::BitLuffa;
use luffa::{digest, Luffa, CODES};
use output::{Asked, Output};
use plan::Well;
use reach::Net;
use record::{Kept, RECORD};
use sheet::{Sheet, GROUP, MARK_WORDS, MOST, RECORD_BYTES};
use std::fs::File;
use std::io::{self, BufRead, BufReader, BufWriter, ErrorKind, Read, Write};
use std::os::fd::AsFd;
use std::process::ExitCode;

const USAGE: &str = "\
usage: independent               four digest lines for standard input
       independent words CODE N [BITS]
                                 N words of output, and their rounds; with BITS, for so many bits
       independent bits N        four digest lines for the first N bits of standard input
       independent pieces        a digest for each line `CODE HEX` of standard input
       independent plan          whether the records on standard input are a sound sheet
       independent brine COUNT.. the brine statement over sheets of so many records each
       independent reach WELL HOPS
                                 the records that at most HOPS links join to the well
       independent mend CODE N   which marks of a sheet of N records are wrong, and what they should be
       independent record CODE N the hash record of the first N bits of standard input
       independent back          the record before the block that follows it on standard input
       independent columns       the dump of the message block on standard input
       independent columns CODE  the dump of the state whose words are on standard input
       independent state CODE    the words of the state whose dump is on standard input
       independent inject CODE   the state dump after the injection of the message dump that follows it
       independent check         checks itself against the specification";

/// The house limit on message bytes.
const LIMIT: u64 = (1 << 61) - 1;

fn main() -> ExitCode {
    let arguments: Vec<String> = std::env::args().skip(1).collect();
    let arguments: Vec<&str> = arguments.iter().map(String::as_str).collect();
    let done = match arguments[..] {
        [] => four_lines(),
        ["words", code, n, ref bits @ ..] if bits.len() <= 1 => {
            let bits: Result<Vec<u64>, _> = bits.iter().map(|bits| bits.parse()).collect();
            match (code_of(code.as_bytes()), n.parse(), bits) {
                (Some(code), Ok(n), Ok(bits)) => longer_output(code, n, bits.first().copied()),
                _ => return usage(),
            }
        }
        ["bits", n] => match n.parse() {
            Ok(n) => bit_lines(n),
            Err(_) => return usage(),
        },
        ["pieces"] => pieces(),
        ["plan"] => plan_fault(),
        ["brine", ref counts @ ..] => match counts.iter().map(|n| n.parse()).collect() {
            Ok(counts) => brine_page(counts),
            Err(_) => return usage(),
        },
        ["reach", well, hops] => match (well.parse(), hops.parse()) {
            (Ok(well), Ok(hops)) => reached(well, hops),
            _ => return usage(),
        },
        ["mend", code, n] => match (code_of(code.as_bytes()), n.parse()) {
            (Some(code), Ok(n)) => mend_marks(code, n),
            _ => return usage(),
        },
        ["record", code, n] => match (code_of(code.as_bytes()), n.parse()) {
            (Some(code), Ok(n)) => kept_record(code, n),
            _ => return usage(),
        },
        ["back"] => record_before(),
        ["columns"] => message_columns(),
        [call @ ("columns" | "state" | "inject"), code] => match (code_of(code.as_bytes()), call) {
            (Some(code), "columns") => state_columns(code),
            (Some(code), "state") => state_words(code),
            (Some(code), _) => injected(code),
            _ => return usage(),
        },
        ["check"] => check_all(),
        _ => return usage(),
    };
    match done {
        Ok(code) => code,
        // A read or a write failed. What there was to say has been kept back or can't be said.
        Err(_) => ExitCode::FAILURE,
    }
}

fn usage() -> ExitCode {
    eprintln!("{USAGE}");
    ExitCode::from(2)
}

fn code_of(text: &[u8]) -> Option<usize> {
    match text {
        [digit @ b'1'..=b'4'] => Some((digit - b'0') as usize),
        _ => None,
    }
}

fn hex(words: &[u32]) -> String {
    words.iter().map(|word| format!("{word:08x}")).collect()
}

/// Standard input as a file: the library's own handle reports a descriptor that can't be read as
/// an empty input, which would give a digest where a read has failed.
fn input() -> io::Result<File> {
    Ok(File::from(io::stdin().as_fd().try_clone_to_owned()?))
}

/// Standard input as far as its first `most` bytes.
fn input_bytes(most: usize) -> io::Result<Vec<u8>> {
    let mut bytes = Vec::new();
    input()?.take(most as u64).read_to_end(&mut bytes)?;
    Ok(bytes)
}

/// Words as a caller of the library has them: in the machine's own form.
fn own_words(bytes: &[u8]) -> Vec<u32> {
    let words = bytes.as_chunks().0.iter();
    words.map(|&word| u32::from_ne_bytes(word)).collect()
}

/// Feeds standard input to every hash. Answers its length, or nothing if that passes the limit.
fn feed(hashes: &mut [Luffa]) -> io::Result<Option<u64>> {
    let mut input = input()?;
    let mut buffer = vec![0; 1 << 20];
    let mut length = 0;
    loop {
        let n = match input.read(&mut buffer) {
            Ok(0) => return Ok(Some(length)),
            Ok(n) => n,
            Err(e) if e.kind() == ErrorKind::Interrupted => continue,
            Err(e) => return Err(e),
        };
        length += n as u64;
        if length > LIMIT {
            return Ok(None);
        }
        for hash in hashes.iter_mut() {
            hash.update(&buffer[..n]);
        }
    }
}

fn print(text: &str) -> io::Result<()> {
    let mut output = io::stdout().lock();
    output.write_all(text.as_bytes())?;
    output.flush()
}

/// Prints what says that all isn't well.
fn failed(text: &str) -> io::Result<ExitCode> {
    print(text)?;
    Ok(ExitCode::FAILURE)
}

fn over_limit() -> io::Result<ExitCode> {
    failed("4\n")
}

fn four_lines() -> io::Result<ExitCode> {
    // One hash for each w; codes 1 and 2 read the same one.
    let mut hashes = [3, 4, 5].map(Luffa::new);
    let Some(length) = feed(&mut hashes)? else {
        return over_limit();
    };
    let mut text = String::new();
    for (code, (w, count)) in (1..).zip(CODES) {
        let (z, _) = hashes[w - 3].finish(count);
        text += &format!("{code} {length} {}\n", hex(&z));
    }
    print(&text)?;
    Ok(ExitCode::SUCCESS)
}

/// With `bits`, of so many bits of standard input, else of all its bytes.
fn longer_output(code: usize, words: usize, bits: Option<u64>) -> io::Result<ExitCode> {
    // What is printed needs no room, and how long the message is isn't known yet.
    let room = usize::MAX;
    let asked = Asked { words, room };
    let refusals = output::of_message(code, asked, 0, 0);
    if let Some(number) = refusals.first() {
        return failed(&format!("{number}\n"));
    }
    let w = CODES[code - 1].0;
    let padded = if let Some(n) = bits {
        let Some(bytes) = bytes_of_bits(n)? else {
            return Ok(ExitCode::FAILURE);
        };
        let mut hash = BitLuffa::new(w);
        hash.update(bits::bits_of(&bytes).take(n as usize));
        hash.padded()
    } else {
        let mut hash = [Luffa::new(w)];
        if feed(&mut hash)?.is_none() {
            return over_limit();
        }
        hash[0].padded()
    };
    let Output { words, rounds, .. } = output::output(&refusals, asked, || padded);
    print(&format!("{}\n{rounds}\n", hex(&words)))?;
    Ok(ExitCode::SUCCESS)
}

/// The bytes that the first n bits of standard input stand in, unless it has fewer.
fn bytes_of_bits(n: u64) -> io::Result<Option<Vec<u8>>> {
    let bytes = input_bytes(n.div_ceil(8) as usize)?;
    if (bytes.len() as u64) < n.div_ceil(8) {
        eprintln!("standard input has fewer than {n} bits");
        return Ok(None);
    }
    Ok(Some(bytes))
}

/// Fewer than 2^64 bits are a message at every code.
fn bit_lines(n: u64) -> io::Result<ExitCode> {
    let Some(bytes) = bytes_of_bits(n)? else {
        return Ok(ExitCode::FAILURE);
    };
    let mut text = String::new();
    for code in 1..=CODES.len() {
        let message = bits::bits_of(&bytes).take(n as usize);
        text += &format!("{code} {n} {}\n", hex(&bits::digest(code, message)));
    }
    print(&text)?;
    Ok(ExitCode::SUCCESS)
}

/// Reads the line `CODE HEX` into the message and answers the code.
fn piece(line: &[u8], message: &mut Vec<u8>) -> Option<usize> {
    let (code, text) = line.split_at_checked(2)?;
    let code = code_of(code.strip_suffix(b" ")?)?;
    message.clear();
    if text == b"-" {
        return Some(code);
    }
    if text.is_empty() || text.len() % 2 != 0 {
        return None;
    }
    for pair in text.chunks_exact(2) {
        let high = (pair[0] as char).to_digit(16)?;
        let low = (pair[1] as char).to_digit(16)?;
        message.push((high << 4 | low) as u8);
    }
    Some(code)
}

fn pieces() -> io::Result<ExitCode> {
    let mut input = BufReader::new(input()?);
    let mut output = BufWriter::new(io::stdout().lock());
    let (mut line, mut message) = (Vec::new(), Vec::new());
    for number in 1u64.. {
        line.clear();
        if input.read_until(b'\n', &mut line)? == 0 {
            break;
        }
        let text = line.strip_suffix(b"\n").unwrap_or(&line);
        let Some(code) = piece(text, &mut message) else {
            output.flush()?;
            eprintln!("line {number} isn't `CODE HEX`");
            return Ok(ExitCode::FAILURE);
        };
        writeln!(output, "{}", hex(&digest(code, &message)))?;
    }
    output.flush()?;
    Ok(ExitCode::SUCCESS)
}

/// The wells on standard input, unless they are too many for a sheet or it ends inside a record.
fn sheet_wells() -> io::Result<Option<Vec<Well>>> {
    let most = RECORD_BYTES * MOST;
    // A byte more than a sheet can have shows that there are too many.
    let bytes = input_bytes(most + 1)?;
    let whole = bytes.len() % RECORD_BYTES == 0;
    Ok(whole.then(|| plan::wells(&bytes, MOST)))
}

fn plan_fault() -> io::Result<ExitCode> {
    let Some(wells) = sheet_wells()? else {
        return failed("5\n");
    };
    if let Some((place, rule)) = plan::fault(&wells) {
        return failed(&format!("{place} {rule}\n"));
    }
    print("sound\n")?;
    Ok(ExitCode::SUCCESS)
}

fn brine_page(counts: Vec<usize>) -> io::Result<ExitCode> {
    let most = brine::MOST_SHEETS * RECORD_BYTES * MOST;
    let bytes = input_bytes(most)?;
    // What is printed needs no places.
    let refusals = brine::refusals(bytes.len(), &counts, usize::MAX);
    if let Some(number) = refusals.first() {
        return failed(&format!("{number}\n"));
    }
    let sheets = brine::sheets(&bytes, &counts);
    let page = brine::page(&sheets);
    let mut figures = page.figures.iter();
    let mut text = String::new();
    for (k, wells) in sheets.iter().enumerate() {
        for ((place, well), figures) in wells.iter().enumerate().zip(figures.by_ref()) {
            if let Some(brine::Figures { intake, spare }) = figures {
                text += &format!("{k} {place} {} {intake} {spare}\n", well.number);
            }
        }
    }
    text += &format!("sound {}\nfaulted {}\n", page.sound, page.faulted);
    text += &format!("intake {}\noverloaded {}\n", page.intake, page.overloaded);
    print(&text)?;
    Ok(ExitCode::SUCCESS)
}

fn reached(well: usize, hops: usize) -> io::Result<ExitCode> {
    let Some(wells) = sheet_wells()? else {
        return failed("5\n");
    };
    let n = wells.len();
    let net = Net::new(wells);
    let asked = reach::Asked {
        sheet_len: RECORD_BYTES * n,
        n,
        well,
        hops,
        // What is printed needs no room.
        room: n,
    };
    if let Some(number) = net.refusals(asked).first() {
        return failed(&format!("{number}\n"));
    }
    let far = net.distances(net.place(well).expect("a well of the sheet"));
    let mut text = String::new();
    for (place, (well, far)) in net.wells.iter().zip(far).enumerate() {
        if far <= hops {
            text += &format!("{place} {} {far}\n", well.number);
        }
    }
    print(&text)?;
    Ok(ExitCode::SUCCESS)
}

fn mend_marks(code: usize, n: usize) -> io::Result<ExitCode> {
    let most = RECORD_BYTES * MOST + 4 * MARK_WORDS * (MOST / GROUP + 1);
    let bytes = input_bytes(most)?;
    let (records, marks) = bytes.split_at(bytes.len().min(n.saturating_mul(RECORD_BYTES)));
    let words = own_words(marks);
    if let Some(number) = mend::refusals(code, records.len(), n, words.len()).first() {
        return failed(&format!("{number}\n"));
    }
    let records = records.as_chunks().0.to_vec();
    let mut marks = words.as_chunks().0[..n / GROUP + 1].to_vec();
    let mended = mend::mend(&Sheet { code, records }, &mut marks);
    let mut text = String::new();
    for &m in &mended.wrong {
        text += &format!("{m} {}\n", hex(&marks[m]));
    }
    let first = mended.wrong.first().map_or("none".into(), usize::to_string);
    text += &format!(
        "wrong {}\nfirst {first}\nrounds {}\n",
        mended.wrong.len(),
        mended.rounds
    );
    print(&text)?;
    Ok(ExitCode::SUCCESS)
}

fn print_bytes(bytes: &[u8]) -> io::Result<ExitCode> {
    let digits: String = bytes.iter().map(|byte| format!("{byte:02x}")).collect();
    print(&format!("{digits}\n"))?;
    Ok(ExitCode::SUCCESS)
}

/// Fewer than 2^64 bits can be kept at every code.
fn kept_record(code: usize, n: u64) -> io::Result<ExitCode> {
    let Some(bytes) = bytes_of_bits(n)? else {
        return Ok(ExitCode::FAILURE);
    };
    let bits = bits::bits_of(&bytes).take(n as usize);
    print_bytes(&Kept::start(code).feed(bits).write())
}

fn record_before() -> io::Result<ExitCode> {
    // A byte more than a record and a block have shows that there are too many.
    let most = RECORD + back::BLOCK_BYTES + 1;
    let bytes = input_bytes(most)?;
    let (record, block) = bytes.split_at(bytes.len().min(RECORD));
    match back::back(record, block) {
        Ok(before) => print_bytes(&before),
        Err(number) => failed(&format!("{number}\n")),
    }
}

/// The message block or the dumps on standard input, which `refusals` judges by their length; where none holds, what
/// `done` gives for them is printed.
fn dumped(
    refusals: impl FnOnce(usize) -> Vec<u64>,
    done: impl FnOnce(&[u8]) -> io::Result<ExitCode>,
) -> io::Result<ExitCode> {
    // A byte more than the longest have shows that there are too many.
    let bytes = input_bytes(COLUMN_BYTES + 1)?;
    match refusals(bytes.len()).first() {
        Some(number) => failed(&format!("{number}\n")),
        None => done(&bytes),
    }
}

/// The most bytes that are read for a dump: those of five blocks and of a message.
const COLUMN_BYTES: usize = 6 * columns::POSITIONS;

fn message_columns() -> io::Result<ExitCode> {
    dumped(
        |bytes| columns::message_refusals(bytes, columns::MESSAGE_DUMP),
        |block| print_bytes(&columns::dump_of_message(block)),
    )
}

/// A state has as many bytes as words as it has as a dump.
fn state_refusals(code: usize) -> impl FnOnce(usize) -> Vec<u64> {
    move |bytes| columns::conversion_refusals(code, bytes / 4, bytes)
}

fn state_columns(code: usize) -> io::Result<ExitCode> {
    dumped(state_refusals(code), |words| {
        print_bytes(&columns::dump_of_words(&own_words(words)))
    })
}

fn state_words(code: usize) -> io::Result<ExitCode> {
    dumped(state_refusals(code), |dump| {
        let words = columns::words_of_dump(CODES[code - 1].0, dump);
        print(&format!("{}\n", hex(&words)))?;
        Ok(ExitCode::SUCCESS)
    })
}

fn injected(code: usize) -> io::Result<ExitCode> {
    let w = CODES[code - 1].0;
    let state = columns::POSITIONS * w;
    dumped(
        |bytes| columns::injection_refusals(code, bytes.min(state), bytes.saturating_sub(state)),
        |bytes| print_bytes(&columns::inject(w, &bytes[..state], &bytes[state..])),
    )
}

fn check_all() -> io::Result<ExitCode> {
    let differences = check::differences();
    if differences.is_empty() {
        print("ok\n")?;
        return Ok(ExitCode::SUCCESS);
    }
    for difference in differences {
        print(&format!("{difference}\n"))?;
    }
    Ok(ExitCode::FAILURE)
}
