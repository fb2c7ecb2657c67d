//! The kinds of plan that a whole run has to meet: every rule at every sort of place, with every other rule beside it
//! or after it, and its numbers just kept and just broken; struck records at every sort of place of a sound sheet and
//! about every fault, and every byte that keeps a record from being struck.

use crate::met::Met;
use crate::plan::{broken, is_injector, wells, Link, Rule, Well, INJECTOR, PRODUCER};
use crate::plan_model::ContentAnswer;
use crate::plans::{bytes_of, OVER_RATE, TOO_MANY, TOO_SHORT, TOTALS};
use crate::sheet::{MOST, RECORD_BYTES};

/// What a plan was: its verdict, and how that came about.
pub fn see_plan(met: &mut Met, wells: &[Well], behind: &[u8], answer: &ContentAnswer) {
    let n = wells.len();
    let fault = match answer.rule {
        0 => None,
        rule => Some((answer.place as usize, Rule::ALL[rule as usize - 1])),
    };
    let verdict = fault.map_or("sound".into(), |(_, rule)| rule.to_string());
    met.see(format!("answered {verdict}"));
    met.see(format!(
        "answered {verdict}, {}",
        LENGTHS[behind.len().min(2)]
    ));
    match fault {
        None => met.see(format!("{n} records, sound")),
        Some((place, _)) if place + 1 == n => met.see(format!("{n} records, last faulty")),
        _ => (),
    }
    // What follows looks at every pair of wells, and takes long.
    if n > 100 {
        return;
    }
    let struck: Vec<usize> = (0..n).filter(|&place| wells[place].is_struck()).collect();
    let Some((place, rule)) = fault else {
        return see_sound(
            &mut |what| met.see(format!("sound: {what}")),
            wells,
            &struck,
        );
    };
    see_others(met, wells, place, rule);
    see_struck(
        &mut |what| met.see(format!("{rule}: {what}")),
        wells,
        &struck,
        place,
    );
    see_held(
        &mut |what| met.see(format!("holds: {what}")),
        wells,
        place,
        rule,
    );
    see_way(
        &mut |what| met.see(format!("{rule}: {what}")),
        wells,
        behind,
        place,
        rule,
    );
}

pub const LENGTHS: [&str; 3] = ["just enough", "one more", "more"];

pub type See<'a> = &'a mut dyn FnMut(String);

/// How many records are struck, of a sheet that has any.
const STRUCK: [&str; 3] = ["one", "some", "all"];

/// Which of the others a struck record is.
const BESIDE: [&str; 2] = ["before it", "after it"];

/// Neither a number nor a kind nor a rate keeps the record from being struck.
pub fn nearly_struck(well: &Well) -> bool {
    !well.is_struck() && (well.number, well.kind, well.rate) == (0, 0, 0)
}

/// Struck records about the fault, and a well that is nearly one. The one of which a fault repeats the number stands
/// before it too, and struck ones may come between.
fn see_struck(see: See, all: &[Well], struck: &[usize], place: usize) {
    for &other in struck {
        see(format!(
            "a struck record {}",
            BESIDE[usize::from(other > place)]
        ));
        let earlier = all[..place]
            .iter()
            .position(|one| one.number == all[place].number);
        if earlier.is_some_and(|earlier| (earlier..place).contains(&other)) {
            see("a struck record between".into());
        }
    }
    let near = all[place];
    let bytes = bytes_of(&near, near.note);
    let set: Vec<usize> = (0..RECORD_BYTES).filter(|&k| bytes[k] != 0).collect();
    match set[..] {
        [byte] => see(format!("byte {byte} alone")),
        [first, ..] if first >= 24 => see("a note alone".into()),
        _ => (),
    }
}

/// Struck records, and rules that are only just kept.
fn see_sound(see: See, all: &[Well], struck: &[usize]) {
    let n = all.len();
    for &place in struck {
        let many = match struck.len() {
            many if many == n => STRUCK[2],
            1 => STRUCK[0],
            _ => STRUCK[1],
        };
        see(format!("{many} struck, the {} place", which(place, n)));
    }
    let wells = all.iter().enumerate().filter(|(_, well)| !well.is_struck());
    for (place, well) in wells {
        see(format!("number {}", well.number));
        see(format!("rate {} of kind {}", well.rate, well.kind));
        see(format!("{} links of kind {}", well.link_count, well.kind));
        for other in all[..place].iter().filter(|other| !other.is_struck()) {
            see(format!("apart by {}", other.number ^ well.number));
        }
        for link in well.used() {
            see(format!("share {}", link.share));
            let before = is_injector(&all[..place], link.injector);
            see(format!(
                "an injector {}",
                if before { "before" } else { "after" }
            ));
        }
    }
}

pub const PLACES: [&str; 3] = ["first", "middle", "last"];

/// Which of so many places this is.
pub fn which(place: usize, of: usize) -> &'static str {
    match place {
        0 => PLACES[0],
        _ if place + 1 == of => PLACES[2],
        _ => PLACES[1],
    }
}

/// The place, and other faults beside the one answered.
fn see_others(met: &mut Met, wells: &[Well], place: usize, rule: Rule) {
    let at = which(place, wells.len());
    met.see(format!("{rule} at the {at} place"));
    let also = &broken(wells, place)[1..];
    for other in also {
        met.see(format!("{rule} and {other} at one place"));
    }
    let later: Vec<Rule> = (place + 1..wells.len())
        .flat_map(|place| broken(wells, place))
        .collect();
    for other in &later {
        met.see(format!("{rule}, then {other} at a later place"));
    }
    if also.is_empty() && later.is_empty() {
        met.see(format!("{rule} alone, kind {}", wells[place].kind));
    }
}

/// Links before the fault, which hold though one might think not.
fn see_held(see: See, all: &[Well], place: usize, rule: Rule) {
    let faulty = &all[place];
    for name in all[..place]
        .iter()
        .flat_map(|well| well.used())
        .map(|link| link.injector)
    {
        if name == 0 {
            see("a link to number 0".into());
        }
        if name == faulty.number && faulty.kind == INJECTOR {
            see(format!("a link to the injector that breaks {rule}"));
        }
        let named = all.iter().filter(|well| well.number == name);
        if let [first, second] = named.map(|well| well.kind).collect::<Vec<u8>>()[..] {
            see(format!("a link to kinds {first} and {second}"));
        }
    }
}

/// In which way the rule is broken.
fn see_way(see: See, all: &[Well], behind: &[u8], place: usize, rule: Rule) {
    let well = &all[place];
    let (kind, count, rate) = (well.kind, well.link_count, well.rate);
    let used = well.used();
    match rule {
        Rule::Number => (),
        Rule::Kind => {
            see(format!("{kind}"));
            see(format!(
                "{} links, {}",
                SOME[count.min(5) as usize],
                RATED[rate.min(1) as usize]
            ));
        }
        Rule::LinkCount if kind == PRODUCER && count == 0 => see(format!("none, rate {rate}")),
        Rule::LinkCount if kind == PRODUCER && rate == 0 => see(format!("{count}, no rate")),
        Rule::LinkCount => see(format!("{count} of kind {kind}")),
        Rule::Rate => see(format!("{rate} of kind {kind}")),
        Rule::Links => see_links(see, all, behind, well),
        Rule::Shares => {
            let total: u32 = used.iter().map(|link| u32::from(link.share)).sum();
            let off = |link: &Link| !(1..=1000).contains(&link.share);
            if !used.iter().any(off) {
                see(format!("total {total}"));
            }
            for (k, link) in used.iter().enumerate().filter(|(_, link)| off(link)) {
                see(format!("{} at {k} of {count}, total {total}", link.share));
            }
        }
        Rule::UnusedLinks => {
            let bytes = well.links.iter().flat_map(|link| {
                let (injector, share) = (link.injector.to_be_bytes(), link.share.to_be_bytes());
                injector.into_iter().chain(share)
            });
            for (at, _) in bytes
                .enumerate()
                .skip(4 * used.len())
                .filter(|(_, byte)| *byte != 0)
            {
                see(format!("byte {at} after {count}, kind {kind}"));
            }
        }
        Rule::Repeat => {
            let earlier = all[..place]
                .iter()
                .find(|earlier| earlier.number == well.number);
            see(format!("kind {} and kind {kind}", earlier.unwrap().kind));
        }
    }
}

/// By the links of a well of no kind, and by its rate: what it would break as a producer or injector.
const SOME: [&str; 6] = ["no", "some", "some", "some", "some", "over 4"];
const RATED: [&str; 2] = ["no rate", "a rate"];

fn see_links(see: See, all: &[Well], behind: &[u8], well: &Well) {
    let used = well.used();
    let behind = wells(behind, behind.len() / RECORD_BYTES);
    for (k, name) in used.iter().map(|link| link.injector).enumerate() {
        for m in (0..k).filter(|&m| used[m].injector == name) {
            see(format!("{m} and {k} alike"));
        }
        if is_injector(all, name) {
            continue;
        }
        see(format!("{k} of {} missing", used.len()));
        for other in all.iter().filter(|other| other.number == name) {
            match other.is_struck() {
                true => see("to number 0 beside a struck record".into()),
                false => see(format!("to kind {}", other.kind)),
            }
        }
        for number in all
            .iter()
            .filter(|other| other.kind == INJECTOR)
            .map(|w| w.number)
        {
            see(format!("off by {}", number ^ name));
        }
        for (holds, what) in [
            (name == 0, "to number 0"),
            (name == well.number, "to itself"),
            (
                is_injector(&behind, name),
                "to an injector behind the sheet",
            ),
        ] {
            if holds {
                see(what.into());
            }
        }
    }
}

/// Prints the counts, and answers the kinds that should have been met and weren't.
pub fn print(met: &Met) -> Vec<String> {
    println!("checks of content, by the answer:");
    let line = verdicts().map(|verdict| {
        let times = met.times(&format!("answered {verdict}"));
        format!("  {verdict}: {times}")
    });
    println!("{}", line.collect::<String>());
    met.unmet(wanted())
}

fn verdicts() -> impl Iterator<Item = String> {
    let rules = Rule::ALL.iter().map(|rule| rule.to_string());
    std::iter::once("sound".into()).chain(rules)
}

/// Every kind that a whole run has to meet.
fn wanted() -> Vec<String> {
    let mut kinds: Vec<String> = vec!["0 records, sound".into()];
    let mut want = |kind: String| kinds.push(kind);
    for verdict in verdicts() {
        for length in LENGTHS {
            want(format!("answered {verdict}, {length}"));
        }
    }
    for n in [1, 2, 1023, MOST] {
        want(format!("{n} records, sound"));
        want(format!("{n} records, last faulty"));
    }
    for a in Rule::ALL {
        for at in PLACES {
            want(format!("{a} at the {at} place"));
        }
        for b in Rule::ALL {
            want(format!("{a}, then {b} at a later place"));
            if (a as u8) < b as u8 {
                want(format!("{a} and {b} at one place"));
            }
        }
        for kind in [PRODUCER, INJECTOR] {
            want(format!("{a} alone, kind {kind}"));
        }
    }

    for (many, place) in STRUCK.iter().flat_map(|many| PLACES.map(|at| (many, at))) {
        want(format!("sound: {many} struck, the {place} place"));
    }
    for (rule, beside) in Rule::ALL
        .iter()
        .flat_map(|rule| BESIDE.map(|beside| (rule, beside)))
    {
        want(format!("{rule}: a struck record {beside}"));
    }
    for byte in 0..RECORD_BYTES {
        // The first two bytes are a number, and then it is of no kind.
        let rule = if byte < 2 { Rule::Kind } else { Rule::Number };
        want(format!("{rule}: byte {byte} alone"));
    }
    want("number: a note alone".into());
    want("repeat: a struck record between".into());
    for number in [1, 65_535] {
        want(format!("sound: number {number}"));
    }
    for count in 0..=4 {
        want(format!("sound: {count} links of kind 1"));
    }
    for share in [1, 1000] {
        want(format!("sound: share {share}"));
    }
    for what in [
        "sound: an injector before",
        "sound: an injector after",
        "holds: a link to number 0",
    ] {
        want(what.into());
    }
    for rule in [
        Rule::Number,
        Rule::LinkCount,
        Rule::Rate,
        Rule::UnusedLinks,
        Rule::Repeat,
    ] {
        want(format!("holds: a link to the injector that breaks {rule}"));
    }

    for kind in [0, 3, 129, 130, 255] {
        want(format!("kind: {kind}"));
        want(format!("links: to kind {kind}"));
    }
    for links in [SOME[0], SOME[1], SOME[5]] {
        for rate in RATED {
            want(format!("kind: {links} links, {rate}"));
        }
    }
    for rate in [1, 65_536, 100_000].into_iter().chain(OVER_RATE) {
        want(format!("link count: none, rate {rate}"));
    }
    for count in [5, 132, 255] {
        want(format!("link count: {count} of kind 1"));
    }
    for count in [1, 4, 5, 132, 255] {
        want(format!("link count: {count} of kind 2"));
    }
    for kind in [PRODUCER, INJECTOR] {
        for rate in [0, 1, 65_536, 100_000] {
            want(format!("sound: rate {rate} of kind {kind}"));
        }
        for rate in OVER_RATE {
            want(format!("rate: {rate} of kind {kind}"));
        }
        for other in [PRODUCER, INJECTOR] {
            want(format!("repeat: kind {kind} and kind {other}"));
            if kind != other {
                want(format!("holds: a link to kinds {kind} and {other}"));
            }
        }
    }
    for bit in (0..16).map(|k| 1 << k) {
        want(format!("sound: apart by {bit}"));
        want(format!("links: off by {bit}"));
    }
    for what in [
        "to number 0",
        "to number 0 beside a struck record",
        "to itself",
        "to kind 1",
        "to an injector behind the sheet",
    ] {
        want(format!("links: {what}"));
    }
    for total in TOTALS {
        want(format!("shares: total {total}"));
    }
    for count in 1..=4 {
        want(format!("link count: {count}, no rate"));
        for k in 0..count {
            want(format!("links: {k} of {count} missing"));
            for m in 0..k {
                want(format!("links: {m} and {k} alike"));
            }
            if count > 1 {
                want(format!("shares: 0 at {k} of {count}, total 1000"));
                want(format!("shares: 65535 at {k} of {count}, total 66536"));
            }
        }
    }
    want("shares: 1001 at 0 of 1, total 1001".into());
    for at in 0..16 {
        want(format!("unused links: byte {at} after 0, kind 2"));
        for count in 0..=at / 4 {
            want(format!("unused links: byte {at} after {count}, kind 1"));
        }
    }

    for (name, _) in TOO_MANY {
        want(format!("refused: n is {name}"));
    }
    for (name, _) in TOO_SHORT {
        want(format!("refused: {name} short"));
    }
    want("refused: 1,025 with room for them".into());
    kinds.retain(|kind| !IMPOSSIBLE.contains(&kind.as_str()));
    kinds
}

/// The first place has no earlier one, and the first number 0 repeats none; a well of no kind can't
/// have the wrong number of links; an injector's links are too many before they name anybody.
const IMPOSSIBLE: [&str; 7] = [
    "repeat at the first place",
    "number and repeat at one place",
    "kind and link count at one place",
    "kind alone, kind 1",
    "kind alone, kind 2",
    "links alone, kind 2",
    "shares alone, kind 2",
];
