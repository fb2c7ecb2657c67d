//! The kinds of search that a whole run has to meet: records that are each number of links away from a producer and
//! from an injector, by way of wells before them and behind them and by each link of a record; struck records, and
//! number 0 asked for beside them; every set of refusals at once; and each refusal at its edge.

use crate::brines::FEWER;
use crate::histories::EDGES;
use crate::mend_kinds::want_no_sheet;
use crate::met::{answer_kinds, sets, Met};
use crate::plan::{self, Rule, INJECTOR, PRODUCER};
use crate::plan_kinds::{nearly_struck, which, See, LENGTHS, PLACES};
use crate::reach::{Net, MOST_HOPS, UNJOINED};
use crate::reach_model::Search;
use crate::reaches::{NO_HOPS, NO_WELLS, SHAPES, STALE};
use crate::sheet::{MOST, RECORD_BYTES};

/// How far a record is.
const FAR: [&str; 7] = ["0", "1", "2", "3", "4", "over 4", "unjoined"];

fn far_name(far: usize) -> &'static str {
    FAR[if far == UNJOINED { 6 } else { far.min(5) }]
}

/// Where the wells stand that are one link nearer than a record.
const SIDES: [&str; 3] = ["before it", "behind it", "on both sides"];

/// How many records are marked.
const MARKED: [&str; 3] = ["the well alone", "some", "all"];

/// The call of what was lent, which left what it then held.
pub fn see(met: &mut Met, before: &Search, after: &Search, net: &Net) {
    let hold = before.refusals(net);
    let number = hold.first().copied().unwrap_or(0);
    met.see_answer("Reach", number, &hold);
    let n = before.n;
    let mut see = |what: String| met.see(format!("Reach {what}"));
    if n == 0 {
        see(format!("{number}, no records"));
    }
    // Of a sheet that isn't there whole, what is there is looked at.
    let struck = |&place: &usize| net.wells[place].is_struck();
    let struck: Vec<usize> = (0..net.wells.len()).filter(struck).collect();
    if before.well == 0 && !struck.is_empty() {
        see(format!("{number}, well 0, one struck"));
        for place in &struck {
            see(format!(
                "{number}, well 0, the {} place struck",
                which(*place, n)
            ));
        }
    }
    if n > 0 && struck.len() == n {
        see(format!("{number}, all struck"));
    }
    if net.wells.iter().any(nearly_struck) && !struck.is_empty() {
        see(format!("{number}, one struck and one nearly"));
    }
    match (number, net.fault) {
        (0, _) => {
            let marks = after.reached[..n].iter();
            let marked = marks.filter(|&&mark| mark == 1).count();
            let marked = match marked {
                _ if marked == n => MARKED[2],
                1 => MARKED[0],
                _ => MARKED[1],
            };
            see(format!("{} hops mark {marked}", before.hops));
            for place in &struck {
                let was = before.reached[*place];
                see(format!("the {} place struck", which(*place, n)));
                see(format!("{was} becomes 0, struck"));
            }
            for (was, is) in STALE.iter().flat_map(|was| [0, 1].map(|is| (*was, is))) {
                let mut bytes = before.reached[..n].iter().zip(&after.reached);
                if bytes.any(|(&before, &after)| (before, after) == (was, is)) {
                    see(format!("{was} becomes {is}"));
                }
            }
        }
        (20, Some((place, rule))) => see(format!("20, {rule} at the {} place", which(place, n))),
        _ => (),
    }
    if hold.len() > 1 {
        see(format!("with {hold:?}"));
    }
}

/// A sheet of some shape that was searched from the record at this place, with every number of hops: how far the
/// others are.
pub fn see_from(
    met: &mut Met,
    shape: &str,
    search: &Search,
    net: &Net,
    place: usize,
    far: &[usize],
) {
    let (n, well) = (search.n, &net.wells[place]);
    let mut see = |what: String| met.see(format!("Reach done, {what}"));
    if n <= FEW || EDGES.contains(&n) {
        see(format!("n = {n}"));
    }
    if n == MOST {
        see(format!("{shape} of {n}"));
    }
    for (what, more) in [
        ("sheet", search.sheet.len() - RECORD_BYTES * n),
        ("marks", search.reached.len() - n),
    ] {
        see(format!("{what} {}", LENGTHS[more.min(2)]));
    }
    for k in [8, 16] {
        if search.reached.len() == (1 << k) + n - 1 {
            see(format!("marks of 2^{k} + n - 1"));
        }
    }
    if search.sheet.len() == (1 << 16) + RECORD_BYTES * n - 1 {
        see("sheet of 2^16 + 40n - 1".into());
    }
    see(format!("the {} place", which(place, n)));
    see(format!("well {}", well.number));
    // What follows looks at every pair of wells, and takes long.
    if n > 100 {
        return;
    }
    let kind = well.kind;
    for (far, _) in far
        .iter()
        .zip(&net.wells)
        .filter(|(_, well)| !well.is_struck())
    {
        see(format!("from kind {kind}, one at {}", far_name(*far)));
    }
    for (place, by) in nearer(net, far).iter().enumerate() {
        let before = by.iter().filter(|by| by.from < place).count();
        let side = match before {
            _ if by.is_empty() => continue,
            0 => SIDES[1],
            _ if before == by.len() => SIDES[0],
            _ => SIDES[2],
        };
        let away = far[place];
        see(format!("from kind {kind}, {away} away by wells {side}"));
        if let [By {
            k, count, share, ..
        }] = &by[..]
        {
            see(format!("{away} away by link {k} of {count} alone"));
            see(format!("{away} away by a share of {share} alone"));
        }
    }
    let marked = |place: usize| far[place] <= MOST_HOPS;
    for (a, b) in (0..n).flat_map(|a| (0..a).map(move |b| (a, b))) {
        let apart = net.wells[a].number ^ net.wells[b].number;
        let wells = !net.wells[a].is_struck() && !net.wells[b].is_struck();
        if wells && apart.is_power_of_two() && marked(a) != marked(b) {
            see(format!("marked and not, apart by {apart}"));
        }
    }
    let behind = Net::new(plan::wells(&search.sheet, n + 1));
    if behind.fault.is_none() && behind.wells.len() > n && !behind.wells[n].is_struck() {
        let more = far_name(behind.distances(place)[n]);
        see(format!("behind the sheet one at {more}"));
    }
}

/// By what a record is joined to one that is a link nearer: the place of that, and which link it is of how many.
struct By {
    from: usize,
    k: usize,
    count: u8,
    share: u16,
}

/// For each record all those by which it is as far as it is.
fn nearer(net: &Net, far: &[usize]) -> Vec<Vec<By>> {
    let mut all: Vec<Vec<By>> = far.iter().map(|_| vec![]).collect();
    for (producer, well) in net.wells.iter().enumerate() {
        for (k, link) in well.used().iter().enumerate() {
            let injector = net.place(link.injector.into()).unwrap();
            for (from, to) in [(producer, injector), (injector, producer)] {
                if far[from] < far[to] {
                    all[to].push(By {
                        from,
                        k,
                        count: well.link_count,
                        share: link.share,
                    });
                }
            }
        }
    }
    all
}

/// Up to so many records, each number must be met.
const FEW: usize = 12;

/// In which ways a call was refused.
pub fn see_refused(met: &mut Met, ways: &[String], number: u32) {
    match ways {
        [way] if number != 0 => met.see(format!("Reach refused: {way}")),
        _ => (),
    }
}

/// Prints the counts, and answers the kinds that should have been met and weren't.
pub fn print(met: &Met) -> Vec<String> {
    println!("searches for who depends on a well, by the number answered:");
    met.print_answers("Reach", &NUMBERS);
    met.unmet(wanted())
}

/// The numbers that document 02 lets the call give, the refusals in their order.
const NUMBERS: [u64; 6] = [0, 5, 19, 20, 21, 22];

fn wanted() -> Vec<String> {
    let refusals = &NUMBERS[1..];
    let mut kinds = answer_kinds("Reach", &NUMBERS, refusals);
    let want: See = &mut |what| kinds.push(format!("Reach {what}"));
    for hold in sets(refusals) {
        want(format!("with {hold:?}"));
    }
    want("19, no records".into());
    want("21, no records".into());
    want("21, all struck".into());
    want("20, well 0, one struck".into());
    want("20, one struck and one nearly".into());
    for place in PLACES {
        want(format!("the {place} place struck"));
        want(format!("21, well 0, the {place} place struck"));
    }
    for was in STALE {
        want(format!("{was} becomes 0, struck"));
    }
    for (rule, place) in Rule::ALL
        .iter()
        .flat_map(|rule| PLACES.map(|at| (rule, at)))
    {
        // The first place has no earlier one.
        if (*rule, place) != (Rule::Repeat, PLACES[0]) {
            want(format!("20, {rule} at the {place} place"));
        }
    }
    for (hops, marked) in (0..=MOST_HOPS).flat_map(|hops| MARKED.map(|marked| (hops, marked))) {
        if (hops, marked) != (0, MARKED[1]) {
            want(format!("{hops} hops mark {marked}"));
        }
    }
    for (was, is) in STALE.iter().flat_map(|was| [0, 1].map(|is| (was, is))) {
        want(format!("{was} becomes {is}"));
    }
    want_done(&mut |what| want(format!("done, {what}")));
    want_no_sheet(want);
    for hops in NO_HOPS {
        want(format!("refused: {hops} hops"));
    }
    for (name, _) in NO_WELLS {
        want(format!("refused: well {name}"));
    }
    for (name, _) in FEWER {
        want(format!("refused: marks short by {name}"));
    }
    kinds
}

fn want_done(want: See) {
    for n in (1..=FEW).chain(EDGES).filter(|&n| n > 0) {
        want(format!("n = {n}"));
    }
    for shape in SHAPES {
        want(format!("{shape} of {MOST}"));
    }
    for length in LENGTHS {
        want(format!("sheet {length}"));
        want(format!("marks {length}"));
    }
    for what in [
        "marks of 2^8 + n - 1",
        "marks of 2^16 + n - 1",
        "sheet of 2^16 + 40n - 1",
    ] {
        want(what.into());
    }
    for place in PLACES {
        want(format!("the {place} place"));
    }
    for well in [1, 65_535] {
        want(format!("well {well}"));
    }
    for kind in [PRODUCER, INJECTOR] {
        for far in FAR {
            want(format!("from kind {kind}, one at {far}"));
        }
        for (away, side) in (1..=MOST_HOPS).flat_map(|away| SIDES.map(|side| (away, side))) {
            // A record that is one link away has the well alone nearer to it.
            if (away, side) != (1, SIDES[2]) {
                want(format!("from kind {kind}, {away} away by wells {side}"));
            }
        }
    }
    for away in 1..=MOST_HOPS {
        for (k, count) in (1..=4).flat_map(|count| (0..count).map(move |k| (k, count))) {
            want(format!("{away} away by link {k} of {count} alone"));
        }
        for share in [1, 1000] {
            want(format!("{away} away by a share of {share} alone"));
        }
    }
    for bit in (0..16).map(|k| 1 << k) {
        want(format!("marked and not, apart by {bit}"));
    }
    for far in [FAR[1], FAR[2], FAR[3], FAR[6]] {
        want(format!("behind the sheet one at {far}"));
    }
}
