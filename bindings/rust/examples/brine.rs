//! A plant manager's page over two sheets: what each injector is sent and has to spare, then the totals.
//! One injector is overloaded, and the second sheet is faulted.

use luffa::plan::{self, Kind, Link, Well};
use luffa::{Code, Sheet};
use std::error::Error;

/// Two producers and two injectors. Producer 2 sends all of its brine to the injector named.
fn sheet(named: u16) -> Result<Sheet, Box<dyn Error>> {
    let link = |injector, share| Link { injector, share };
    let wells = [
        Well::producer(1)
            .with_rate(500)
            .with_links(&[link(14, 500), link(15, 500)])?,
        Well::producer(2)
            .with_rate(400)
            .with_links(&[link(named, Well::SHARES_TOTAL)])?,
        Well::injector(14).with_rate(600),
        Well::injector(15).with_rate(300),
    ];
    let records = wells.map(|well| well.to_record());
    Ok(Sheet::from_records(Code::Luffa256, &records)?)
}

fn main() -> Result<(), Box<dyn Error>> {
    // In the second one the injector is mistyped.
    let sheets = [sheet(14)?, sheet(41)?];
    let page = plan::brine(&sheets)?;

    println!("sheet  injector  intake, kg a day  spare, kg a day");
    for ((sheet, rows), number) in sheets.iter().zip(&page.rows).zip(1..) {
        if let Err(fault) = sheet.check() {
            println!("{number:>5}  faulted at {fault}");
            continue;
        }
        for (record, row) in sheet.records().iter().zip(rows) {
            let well = Well::unless_struck(record)?;
            if let Some(well) = well.filter(|well| well.kind() == Kind::Injector) {
                print!("{number:>5}  {:>8}", well.number());
                print!("  {:>16}  {:>15}", row.intake, row.spare);
                let overloaded = row.is_overloaded().then_some("  overloaded");
                println!("{}", overloaded.unwrap_or_default());
            }
        }
    }
    let totals = page.totals;
    println!("sheets sound         {:>12}", totals.sound);
    println!("sheets faulted       {:>12}", totals.faulted);
    println!("intake, kg a day     {:>12}", totals.intake);
    println!("injectors overloaded {:>12}", totals.overloaded);
    Ok(())
}
