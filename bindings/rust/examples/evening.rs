//! A planner has changed the rates of thirty wells in an evening, and saves them at once. A colleague who
//! opened the sheet before that is turned away with all of his changes, looks again and saves.

use luffa::plan::Well;
use luffa::{Code, Error, Sheet};
use std::collections::BTreeMap;

/// Changed records by place: in rising order, and the last word on each.
type Changes = BTreeMap<usize, [u8; 40]>;

fn well(number: u16, rate: u32) -> [u8; 40] {
    Well::injector(number).with_rate(rate).to_record()
}

fn main() -> Result<(), Error> {
    let wells: Vec<_> = (1..=100).map(|number| well(number, 40)).collect();
    let mut sheet = Sheet::from_records(Code::Luffa256, &wells)?;
    let (anna, ben) = (sheet.digest(), sheet.digest());

    // Well 11 stands at place 10. Anna goes through the sheet twice.
    let mut evening = Changes::new();
    for rate in [60, 55] {
        for number in (11..=98).rev().step_by(3) {
            evening.insert(usize::from(number) - 1, well(number, rate));
        }
    }

    // What she would have waited for.
    let mut other = sheet.clone();
    let mut rounds = 0;
    for (place, record) in &evening {
        let claim = other.digest();
        rounds += other.change(*place, record, &claim)?.rounds;
    }
    println!("one by one            {} in {rounds} rounds", evening.len());
    let saved = sheet.change_all(evening, &anna)?;
    println!("Anna saves at once    in {} rounds", saved.rounds);
    println!("the same sheet        {}", sheet == other);

    let changes = Changes::from([(40, well(41, 20)), (41, well(42, 25))]);
    if let Err(refused) = sheet.change_all(changes.clone(), &ben) {
        let number = refused.number();
        println!("Ben saves two         refused, {number}: {refused}");
        println!("none of them is made  {}", sheet == other);
    }
    // He looks at the sheet as it is now, and saves upon that.
    let ben = sheet.digest();
    let saved = sheet.change_all(changes, &ben)?;
    println!("Ben looks and saves   in {} rounds", saved.rounds);
    Ok(())
}
