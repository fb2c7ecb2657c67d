//! Two planners have opened the same sheet. One saves a change; the other, whose digest is now
//! outdated, is turned away, looks again and saves.

use luffa::{Code, Digest, Error, Saved, Sheet};

fn record(text: &str) -> [u8; 40] {
    let mut record = [0; 40];
    record[..text.len()].copy_from_slice(text.as_bytes());
    record
}

fn show(who: &str, answer: &Result<Saved, Error>) {
    match answer {
        Ok(saved) => println!("{who:<24} done in {} rounds", saved.rounds),
        Err(refused) => println!("{who:<24} refused, {}: {refused}", refused.number()),
    }
}

fn main() -> Result<(), Error> {
    let wells: Vec<_> = (0..100)
        .map(|k| record(&format!("injector {k}: 40 kg")))
        .collect();
    let mut sheet = Sheet::from_records(Code::Luffa256, &wells)?;

    // Each planner keeps the digest beside what is on the screen.
    let anna: Digest = sheet.digest();
    let ben: Digest = sheet.digest();

    let saved = sheet.change(97, &record("injector 97: 55 kg"), &anna);
    show("Anna saves injector 97", &saved);

    let new = record("injector 3: 20 kg");
    let saved = sheet.change(3, &new, &ben);
    show("Ben saves injector 3", &saved);

    if let Err(Error::Stale { .. }) = saved {
        // Nothing was written. Ben looks at the sheet as it is now, and saves upon that.
        let ben = sheet.digest();
        show("Ben looks and saves", &sheet.change(3, &new, &ben));
    }

    let whole = Digest::of(Code::Luffa256, sheet.bytes());
    println!(
        "the sheet's digest is its bytes': {}",
        sheet.digest() == whole
    );
    Ok(())
}
