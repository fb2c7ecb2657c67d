//! An injector is to be shut for a week, and its planner asks who depends on it: who sends to it, where else
//! these send, and who sends there too.

use luffa::plan::{self, Link, Reached, Well};
use luffa::{Code, Sheet};
use std::error::Error;

/// A producer that sends to these injectors, half to each of two.
fn producer(number: u16, injectors: &[u16]) -> Result<Well, Box<dyn Error>> {
    let share = Well::SHARES_TOTAL / injectors.len() as u16;
    let link = |injector: &u16| Link {
        injector: *injector,
        share,
    };
    let links: Vec<_> = injectors.iter().map(link).collect();
    Ok(Well::producer(number).with_rate(500).with_links(&links)?)
}

fn main() -> Result<(), Box<dyn Error>> {
    let wells = [
        producer(1, &[14, 15])?,
        producer(2, &[14])?,
        producer(3, &[15, 16])?,
        producer(4, &[17])?,
        Well::injector(14).with_rate(800),
        Well::injector(15).with_rate(600),
        Well::injector(16).with_rate(400),
        Well::injector(17).with_rate(500),
    ];
    let sheet = Sheet::from_records(Code::Luffa256, &wells.map(|well| well.to_record()))?;

    for hops in 0..=Reached::HOPS_MOST {
        let reached = plan::reach(&sheet, 14, hops)?;
        print!("well 14 in {hops}  reaches");
        for place in reached.places() {
            print!(" {}", wells[place].number());
        }
        println!();
    }
    for (well, hops) in [(14, 4), (41, 3)] {
        if let Err(refused) = plan::reach(&sheet, well, hops) {
            let number = refused.number();
            println!("well {well} in {hops}  refused, {number}: {refused}");
        }
    }
    Ok(())
}
