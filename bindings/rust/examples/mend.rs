//! A desk keeps a sheet's records, digest and marks on a disk, which gives the marks back spoiled. The desk
//! opens the sheet with them, is told which were wrong, and saves as before.

use luffa::{Code, Error, Mended, Sheet};

fn show(when: &str, mended: &Mended) {
    let Mended { wrong, rounds, .. } = mended;
    match mended.first {
        Some(first) => println!("{when}  {wrong} wrong, first mark {first}, in {rounds} rounds"),
        None => println!("{when}  none wrong, in {rounds} rounds"),
    }
}

/// A file is bytes: each word's highest first, whatever the machine.
fn to_file(marks: &[u32]) -> Vec<u8> {
    marks.iter().flat_map(|word| word.to_be_bytes()).collect()
}

fn from_file(file: &[u8]) -> Vec<u32> {
    let word = |bytes: &[u8]| u32::from_be_bytes([bytes[0], bytes[1], bytes[2], bytes[3]]);
    file.chunks_exact(4).map(word).collect()
}

fn main() -> Result<(), Error> {
    let wells: Vec<_> = (0..100).map(|k| [k; 40]).collect();
    let sheet = Sheet::from_records(Code::Luffa512, &wells)?;
    let (records, digest) = (sheet.bytes().to_vec(), sheet.digest());
    let mut file = to_file(sheet.marks());

    // A bit of mark 3 is turned, and a sector is lost, in which marks 12 to 15 stand.
    file[500] ^= 1;
    file[2048..2560].fill(0);

    let marks = from_file(&file);
    let (mut sheet, mended) = Sheet::from_kept(Code::Luffa512, &records, &marks)?;
    show("opened   ", &mended);
    // Marks say nothing of what the records were; the digest does.
    println!("records    as they were: {}", sheet.digest() == digest);
    let saved = sheet.change(97, &[0; 40], &digest)?;
    println!("saved      in {} rounds", saved.rounds);

    let marks = from_file(&to_file(sheet.marks()));
    let (sheet, mended) = Sheet::from_kept(Code::Luffa512, sheet.bytes(), &marks)?;
    show("once more", &mended);

    let cut = Sheet::from_kept(Code::Luffa512, sheet.bytes(), &marks[1..]);
    if let Err(refused) = cut {
        println!("cut short  refused, {}: {refused}", refused.number());
    }
    Ok(())
}
