//! Two planners have opened the same sheet of a thousand wells. Whoever saves second is turned away, and told
//! which wells to look at: four of them, or those at the end.

use luffa::plan::Well;
use luffa::{Code, Error, Opened, Saved, Sheet};

fn well(number: u16, rate: u32) -> [u8; 40] {
    Well::injector(number).with_rate(rate).to_record()
}

/// Its rate, if there is a well.
fn rate(record: Option<&[u8; 40]>) -> String {
    match record.map(Well::from_record) {
        Some(Ok(well)) => well.rate().to_string(),
        _ => "none".to_string(),
    }
}

/// What a planner has on the screen, and what was opened with it.
struct Desk {
    wells: Vec<[u8; 40]>,
    opened: Opened,
}

impl Desk {
    fn open(sheet: &Sheet) -> Desk {
        Desk {
            wells: sheet.records().to_vec(),
            opened: sheet.opened(),
        }
    }

    /// Shows what a save gave, and what has changed where the planner is told to look. Then opens again.
    fn show(&mut self, what: &str, answer: Result<Saved, Error>, sheet: &Sheet) {
        match answer {
            Ok(saved) => println!("{what}  done in {} rounds", saved.rounds),
            Err(refused) => println!("{what}  refused, {}: {refused}", refused.number()),
        }
        let look_at = answer.err().and_then(Error::places);
        for place in look_at.into_iter().flatten() {
            let (then, now) = (self.wells.get(place), sheet.record(place));
            if then != now {
                println!("  place {place}: {} then, {} now", rate(then), rate(now));
            }
        }
        *self = Desk::open(sheet);
    }
}

fn main() -> Result<(), Error> {
    let wells: Vec<_> = (1..=1000).map(|number| well(number, 40)).collect();
    let mut sheet = Sheet::from_records(Code::Luffa256, &wells)?;
    let (mut anna, mut ben) = (Desk::open(&sheet), Desk::open(&sheet));

    // Well 614 stands at place 613.
    let saved = sheet.change_from(613, &well(614, 55), &anna.opened);
    anna.show("Anna changes well 614", saved, &sheet);
    let saved = sheet.change_from(5, &well(6, 20), &ben.opened);
    ben.show("Ben changes well 6   ", saved, &sheet);
    let saved = sheet.change_from(5, &well(6, 20), &ben.opened);
    ben.show("Ben, who has looked  ", saved, &sheet);

    let saved = sheet.append_from(&well(1001, 30), &anna.opened);
    anna.show("Anna adds well 1001  ", saved, &sheet);
    let saved = sheet.append_from(&well(1001, 30), &anna.opened);
    anna.show("Anna, who has looked ", saved, &sheet);

    // Ben means well 1000, and Anna's isn't dropped in its place.
    let saved = sheet.drop_last_from(&ben.opened);
    ben.show("Ben drops the last   ", saved, &sheet);
    Ok(())
}
