//! The kinds of batch that a whole run has to meet: every sort of sheet beside every other, every rule that faults
//! one, struck records in a sound sheet and in a faulted one, injectors sent nothing, just enough and all that there
//! can be, and each refusal at its edge.

use crate::brine_model::{refusals, Batch, BrineAnswer};
use crate::brines::{FEWER, FEW_ONCE_CUT, LISTS, TOO_MANY_SHEETS};
use crate::met::{answer_kinds, Met};
use crate::plan::{self, Rule, Well, INJECTOR, PRODUCER};
use crate::plan_kinds::{nearly_struck, which, See, LENGTHS, PLACES};
use crate::plans::{TOO_MANY, TOO_SHORT};
use crate::sheet::{MOST, RECORD_BYTES};

/// A call that was refused, and in which ways it was spoilt.
pub fn see_refused(met: &mut Met, batch: &Batch, ways: &[String], answer: &BrineAnswer) {
    met.see_answer("Brine", answer.number, &refusals(batch));
    if let [way] = ways {
        met.see(format!("refused: {way}"));
    }
}

/// A sheet of the batch, and what the page has for it.
struct Seen<'a> {
    wells: &'a [Well],
    fault: Option<Rule>,
    intake: &'a [u64],
    spare: &'a [i64],
}

impl Seen<'_> {
    fn sort(&self) -> &'static str {
        match (self.wells, self.fault) {
            ([], _) => SORTS[0],
            (_, None) => SORTS[1],
            _ => SORTS[2],
        }
    }

    /// Where this number is named: the place of each link's well, and the link's own.
    fn named(&self, number: u16) -> Vec<(usize, usize)> {
        let mut all = vec![];
        for (place, well) in self.wells.iter().enumerate() {
            let links = well.used().iter().enumerate();
            let links = links.filter(|(_, link)| link.injector == number);
            all.extend(links.map(|(k, _)| (place, k)));
        }
        all
    }
}

const SORTS: [&str; 3] = ["empty", "sound", "faulted"];

/// What a page was drawn up over, and what it has.
pub fn see_page(met: &mut Met, sheets: &[Vec<Well>], batch: &Batch, answer: &BrineAnswer) {
    met.see_answer("Brine", answer.number, &[]);
    let see: See = &mut |what| met.see(format!("page: {what}"));
    let records: usize = sheets.iter().map(Vec::len).sum();
    for (what, more) in [
        ("sheets", batch.sheets.len() - RECORD_BYTES * records),
        ("intake", batch.intake.len() - records),
        ("spare", batch.spare.len() - records),
    ] {
        see(format!("{what} {}", LENGTHS[more.min(2)]));
    }
    let mut seen: Vec<Seen> = vec![];
    let mut start = 0;
    for wells in sheets {
        let here = start..start + wells.len();
        start = here.end;
        seen.push(Seen {
            wells,
            // A full batch has one sheet many times, and its check takes long.
            fault: match seen.last() {
                Some(last) if last.wells == wells => last.fault,
                _ => plan::fault(wells).map(|(_, rule)| rule),
            },
            intake: &batch.intake[here.clone()],
            spare: &batch.spare[here],
        });
    }
    see_sheets(see, &seen);
    see_struck(see, &seen);
    see_figures(see, &seen, answer);
    // What follows looks at every pair of wells, and takes long.
    for sheet in seen.iter().filter(|sheet| sheet.wells.len() <= 100) {
        match sheet.fault {
            Some(rule) => see_faulted(see, sheet, rule),
            None => see_injectors(see, sheet, &seen),
        }
    }
}

/// How many there are, and what comes after what.
fn see_sheets(see: See, seen: &[Seen]) {
    see(format!("{} sheets", seen.len()));
    for sort in SORTS {
        if seen.iter().all(|sheet| sheet.sort() == sort) {
            see(format!("{sort} sheets alone"));
        }
    }
    for two in seen.windows(2) {
        see(format!("{}, then {}", two[0].sort(), two[1].sort()));
    }
    for (k, sheet) in seen.iter().enumerate() {
        see(format!("{} records, {}", sheet.wells.len(), sheet.sort()));
        let Some(rule) = sheet.fault else { continue };
        let at = which(k, seen.len());
        see(format!("{rule} in the {at} sheet"));
        let mut later = seen[k + 1..].iter().flat_map(|next| next.intake);
        if later.any(|&intake| intake > 0) {
            see(format!("{rule}, then an intake"));
        }
    }
}

/// Where struck records are, and whether a well beside them nearly is one.
fn see_struck(see: See, seen: &[Seen]) {
    for sheet in seen {
        let n = sheet.wells.len();
        let struck = |&place: &usize| sheet.wells[place].is_struck();
        let struck: Vec<usize> = (0..n).filter(struck).collect();
        let sort = sheet.sort();
        for place in &struck {
            see(format!("{sort}, the {} place struck", which(*place, n)));
        }
        if n > 0 && struck.len() == n {
            see("a sheet of struck records".into());
        }
        if sheet.wells.iter().any(nearly_struck) && !struck.is_empty() {
            see(format!("{sort}, one struck and one nearly"));
        }
    }
}

/// How large the figures are.
fn see_figures(see: See, seen: &[Seen], answer: &BrineAnswer) {
    for (holds, what) in [
        (answer.intake == 0, "no intake"),
        (answer.intake == MOST_IN_ALL, "the largest total"),
        (answer.overloaded == 0, "none overloaded"),
        (answer.overloaded == 1, "one overloaded"),
        (answer.overloaded > 255, "over 255 overloaded"),
    ] {
        if holds {
            see(what.into());
        }
    }
    for sheet in seen {
        for (intake, spare) in sheet.intake.iter().zip(sheet.spare) {
            if *intake == MOST_SENT {
                see(format!("the largest intake, {spare} to spare"));
            }
        }
    }
}

/// What one injector can be sent, and what those of a batch can.
const MOST_SENT: u64 = 1023 * 100_000 * 1000;
const MOST_IN_ALL: u64 = 64 * MOST_SENT;

/// What a page would have of a faulted sheet if it were taken for a sound one.
fn see_faulted(see: See, sheet: &Seen, rule: Rule) {
    for well in sheet.wells.iter().filter(|well| well.kind == INJECTOR) {
        if well.rate > 0 {
            see(format!("{rule}, and capacity"));
        }
        for (place, k) in sheet.named(well.number) {
            let from = &sheet.wells[place];
            if from.kind == PRODUCER && from.rate > 0 && from.links[k].share > 0 {
                see(format!("{rule}, and an intake"));
            }
        }
    }
}

/// What each injector of a sound sheet is sent and has to spare, by whom, and who else has its number.
fn see_injectors(see: See, sheet: &Seen, seen: &[Seen]) {
    let wells = sheet.wells.iter().enumerate();
    for (place, well) in wells.filter(|(_, well)| !well.is_struck()) {
        let (intake, spare) = (sheet.intake[place], sheet.spare[place]);
        if well.kind == PRODUCER {
            see(format!("a producer's rate {}", well.rate));
            continue;
        }
        see(format!("an injector's rate {}", well.rate));
        see(format!("number {}", well.number));
        see(format!("{spare} to spare"));
        let sent = SENT[intake.min(1) as usize];
        see(format!("{sent}, {}", SPARE[(spare.signum() + 1) as usize]));
        let named = sheet.named(well.number);
        see(format!("named {} times", named.len()));
        for &(from, k) in &named {
            see(format!("link {k} of {}", sheet.wells[from].link_count));
            see(format!("sent from {}", SIDES[usize::from(from < place)]));
        }
        for other in seen.iter().filter(|other| other.wells.len() <= 100) {
            let sort = other.sort();
            let twin = other.wells.iter().position(|one| one.number == well.number);
            match twin {
                Some(at) if other.wells[at].kind == PRODUCER => {
                    see(format!("its number in a {sort} sheet, a producer's"))
                }
                Some(at) if other.intake[at] != intake => {
                    see(format!("its number in a {sort} sheet, sent other than it"))
                }
                None if !other.named(well.number).is_empty() => {
                    see(format!("named in a {sort} sheet that hasn't it"))
                }
                _ => (),
            }
        }
    }
}

const SENT: [&str; 2] = ["sent nothing", "sent some"];
const SIDES: [&str; 2] = ["behind", "before"];
const SPARE: [&str; 3] = ["overloaded", "filled", "with room"];

/// Prints the counts, and answers the kinds that should have been met and weren't.
pub fn print(met: &Met) -> Vec<String> {
    println!("brine statements, by the number answered:");
    met.print_answers("Brine", &NUMBERS);
    met.unmet(wanted())
}

/// The numbers that document 02 lets the call give, the refusals in their order.
const NUMBERS: [u64; 4] = [0, 13, 5, 25];

/// Every kind that a whole run has to meet.
fn wanted() -> Vec<String> {
    let mut pages: Vec<String> = vec![];
    let mut page = |kind: String| pages.push(kind);
    for what in ["sheets", "intake", "spare"] {
        for length in LENGTHS {
            page(format!("{what} {length}"));
        }
    }
    for n in [0, 1, 2, 63, 64] {
        page(format!("{n} sheets"));
    }
    for sort in SORTS {
        page(format!("{sort} sheets alone"));
        for next in SORTS {
            page(format!("{sort}, then {next}"));
        }
    }
    for sort in &SORTS[1..] {
        for n in [1, 1023, MOST] {
            page(format!("{n} records, {sort}"));
        }
    }
    for place in PLACES {
        page(format!("sound, the {place} place struck"));
        page(format!("faulted, the {place} place struck"));
    }
    page("a sheet of struck records".into());
    page("faulted, one struck and one nearly".into());
    for rule in Rule::ALL {
        for place in PLACES {
            page(format!("{rule} in the {place} sheet"));
        }
        for what in ["then an intake", "and an intake", "and capacity"] {
            page(format!("{rule}, {what}"));
        }
    }
    for what in [
        "no intake",
        "the largest total",
        "none overloaded",
        "one overloaded",
        "over 255 overloaded",
        "named in a faulted sheet that hasn't it",
    ] {
        page(what.into());
    }
    for spare in [-102_300_000_000i64, -102_200_000_000] {
        page(format!("the largest intake, {spare} to spare"));
    }
    for sort in &SORTS[1..] {
        for what in ["a producer's", "sent other than it"] {
            page(format!("its number in a {sort} sheet, {what}"));
        }
    }
    for rate in [0, 1, 99_999, 100_000] {
        page(format!("a producer's rate {rate}"));
        page(format!("an injector's rate {rate}"));
    }
    for number in [1, 65_535] {
        page(format!("number {number}"));
    }
    for spare in [-1000, -1, 0, 1, 1000, 100_000_000] {
        page(format!("{spare} to spare"));
    }
    for spare in SPARE {
        page(format!("{}, {spare}", SENT[1]));
    }
    for spare in &SPARE[1..] {
        page(format!("{}, {spare}", SENT[0]));
    }
    for times in 0..=4 {
        page(format!("named {times} times"));
        for k in 0..times {
            page(format!("link {k} of {times}"));
        }
    }
    for side in SIDES {
        page(format!("sent from {side}"));
    }
    let mut kinds: Vec<String> = pages.iter().map(|kind| format!("page: {kind}")).collect();

    kinds.extend(answer_kinds("Brine", &NUMBERS, &NUMBERS[1..]));
    let mut refused = |way: String| kinds.push(format!("refused: {way}"));
    for (name, _) in TOO_MANY {
        refused(format!("a count of {name}"));
    }
    refused("a count of 1,025 with room".into());
    for (name, _) in FEW_ONCE_CUT {
        refused(format!("counts of {name}"));
    }
    for (name, _) in TOO_SHORT {
        refused(format!("a batch {name} short"));
    }
    for (name, _) in TOO_MANY_SHEETS {
        refused(format!("{name} sheets"));
    }
    for lists in LISTS {
        for (name, _) in FEWER {
            refused(format!("{lists} short by {name}"));
        }
    }
    kinds
}
