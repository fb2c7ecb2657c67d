//! A planner has mistyped the injector of a link. The check says where, and what is wrong; mended, the
//! sheet is sound.

use luffa::plan::{Link, Rule, Well};
use luffa::{Code, Sheet};
use std::error::Error;

fn show(when: &str, sheet: &Sheet) {
    match sheet.check() {
        Ok(()) => println!("{when:<9} sound"),
        Err(fault) => println!(
            "{when:<9} rule {} is broken at {fault}",
            fault.rule.number()
        ),
    }
}

/// Producer 3, all of whose brine goes to this injector.
fn producer(injector: u16) -> Result<Well, Rule> {
    let share = Well::SHARES_TOTAL;
    Well::producer(3)
        .with_rate(500)
        .with_links(&[Link { injector, share }])
}

fn main() -> Result<(), Box<dyn Error>> {
    let wells = [Well::injector(14).with_rate(600), producer(41)?];
    let mut sheet = Sheet::from_records(Code::Luffa256, &wells.map(|well| well.to_record()))?;
    show("as typed", &sheet);

    let seen = sheet.digest();
    sheet.change(1, &producer(14)?.to_record(), &seen)?;
    show("mended", &sheet);
    Ok(())
}
