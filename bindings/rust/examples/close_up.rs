//! Three wells of a sheet are abandoned, and struck in one save. The sheet is sound without them; closed up, it says
//! where each of the others stands now, and a new well has room again.

use luffa::plan::Well;
use luffa::{Code, Sheet};
use std::error::Error;

fn show(when: &str, sheet: &Sheet) -> Result<(), Box<dyn Error>> {
    sheet.check()?;
    print!("{when:<10} sound, wells");
    for record in sheet.records() {
        match Well::unless_struck(record)? {
            Some(well) => print!(" {}", well.number()),
            None => print!(" -"),
        }
    }
    println!();
    Ok(())
}

fn main() -> Result<(), Box<dyn Error>> {
    let wells: Vec<_> = (11..=20)
        .map(|number| Well::injector(number).to_record())
        .collect();
    let mut sheet = Sheet::from_records(Code::Luffa256, &wells)?;
    let (anna, ben) = (sheet.digest(), sheet.digest());
    show("opened", &sheet)?;

    let strikes = [5, 6, 8].map(|place| (place, Sheet::STRUCK));
    let anna = sheet.change_all(strikes, &anna)?.digest;
    show("struck", &sheet)?;

    // Ben opened the sheet before that, and one of his wells would be gone.
    if let Err(refused) = sheet.close_up(&ben) {
        println!("Ben        refused, {}: {refused}", refused.number());
    }
    let (saved, moved) = sheet.close_up(&anna)?;
    println!("Anna       done in {} rounds", saved.rounds);
    show("closed up", &sheet)?;
    for (new, old) in moved.old_places().enumerate() {
        if new != old {
            let well = Well::from_record(&sheet.records()[new])?;
            println!("  well {} at place {new}, once {old}", well.number());
        }
    }

    sheet.append(&Well::injector(21).to_record(), &saved.digest)?;
    show("appended", &sheet)
}
