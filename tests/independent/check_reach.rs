//! Who depends on a well: plants that were worked out by hand from document 02's sentences, lines, in which a chain is
//! as long as its ends are apart, and small sheets on which every chain is tried.

use crate::check::{Numbers, Report};
use crate::check_plan::{injector, producer, struck};
use crate::plan::{Rule, Well, INJECTOR};
use crate::reach::{Asked, Net, MOST_HOPS, UNJOINED};

pub fn differences(report: &mut Report, numbers: &mut Numbers) {
    plant(report);
    lines(report, numbers);
    chains(report, numbers);
    struck_records(report);
    judged(report);
}

/// A producer of four injectors, of which it shares the last with a producer that shares another; and apart from them
/// two wells that only each other has, a producer without links and an injector that nobody links.
fn plant(report: &mut Report) {
    let mut wells = vec![
        producer(2, 9, &[(14, 1), (15, 999)]),
        injector(14, 0),
        producer(1, 5, &[(11, 250), (12, 250), (13, 250), (14, 250)]),
        injector(11, 7),
        injector(12, 0),
        injector(13, 0),
        injector(15, 0),
        producer(3, 1, &[(15, 1000)]),
        producer(4, 0, &[]),
        injector(16, 3),
        producer(65_535, 1, &[(256, 1000)]),
        injector(256, 0),
    ];
    // From a well: its number, those of the wells one link away, two away, and so on.
    let cases: [&[&[u16]]; 8] = [
        &[&[1], &[11, 12, 13, 14], &[2], &[15], &[3]],
        &[&[14], &[1, 2], &[11, 12, 13, 15], &[3]],
        &[&[12], &[1], &[11, 13, 14], &[2], &[15], &[3]],
        &[&[3], &[15], &[2], &[14], &[1], &[11, 12, 13]],
        &[&[4]],
        &[&[16]],
        &[&[65_535], &[256]],
        &[&[256], &[65_535]],
    ];
    for _ in 0..2 {
        let net = Net::new(wells.clone());
        report.same(|| "the plant".into(), net.fault, None);
        for case in cases {
            let far = |well: &Well| case.iter().position(|some| some.contains(&well.number));
            let wanted = wells.iter().map(|well| far(well).unwrap_or(UNJOINED));
            let from = net.place(case[0][0].into()).unwrap();
            report.same(
                || format!("far from {:?} at {from}", case[0]),
                net.distances(from),
                wanted.collect(),
            );
        }
        wells.reverse();
    }
}

/// Shares that total 1000, for so many links to the injectors given.
fn links(injectors: &[u16]) -> Vec<(u16, u16)> {
    let rest = 1001 - injectors.len() as u16;
    let shares = std::iter::once(rest).chain(std::iter::repeat(1));
    injectors.iter().copied().zip(shares).collect()
}

/// A producer of these injectors, at rest where there are none.
fn producer_of(number: u16, injectors: &[u16]) -> Well {
    producer(number, injectors.len().min(1) as u32, &links(injectors))
}

/// Wells 1 to n in a line, producers and injectors by turns, standing anywhere in the sheet: two of them are as far
/// apart as their numbers are.
fn lines(report: &mut Report, numbers: &mut Numbers) {
    for n in (1..=24).chain([1024]) {
        for even in [0, 1] {
            let well = |number: u16| match number % 2 == even {
                true => injector(number, 0),
                false => {
                    let beside = [number - 1, number + 1].into_iter();
                    let beside: Vec<u16> = beside.filter(|b| (1..=n).contains(b)).collect();
                    producer_of(number, &beside)
                }
            };
            let mut wells: Vec<Well> = (1..=n).map(well).collect();
            for k in 1..wells.len() {
                wells.swap(k, numbers.next() as usize % (k + 1));
            }
            let net = Net::new(wells);
            report.same(|| format!("a line of {n}"), net.fault, None);
            for from in [0, net.wells.len() / 2, net.wells.len() - 1] {
                let own = net.wells[from].number;
                let wanted = net.wells.iter().map(|w| w.number.abs_diff(own).into());
                report.same(
                    || format!("far from {own} in a line of {n}"),
                    net.distances(from),
                    wanted.collect(),
                );
            }
        }
    }
}

/// Whether one is a producer that links the other, an injector.
fn links_to(one: &Well, other: &Well) -> bool {
    let named = one.used().iter().any(|link| link.injector == other.number);
    named && other.kind == INJECTOR
}

/// Whether a chain of at most so many links joins the wells at these places, by every chain that there is.
fn chain(wells: &[Well], from: usize, to: usize, most: usize) -> bool {
    from == to
        || most > 0
            && (0..wells.len()).any(|next| {
                let (one, other) = (&wells[from], &wells[next]);
                (links_to(one, other) || links_to(other, one)) && chain(wells, next, to, most - 1)
            })
}

/// Small sheets at random, every two wells of each.
fn chains(report: &mut Report, numbers: &mut Numbers) {
    for case in 0..200 {
        let n = 1 + case % 8;
        let kinds: Vec<bool> = (0..n).map(|_| numbers.next() % 2 == 0).collect();
        let injectors = (1..).zip(&kinds).filter(|(_, &is)| is);
        let injectors: Vec<u16> = injectors.map(|(number, _)| number).collect();
        let well = |(number, &is): (u16, &bool)| {
            let some = injectors.iter().filter(|_| numbers.next() % 3 == 0);
            let some: Vec<u16> = some.copied().take(4).collect();
            match is {
                true => injector(number, 0),
                false => producer_of(number, &some),
            }
        };
        let net = Net::new((1..).zip(&kinds).map(well).collect());
        report.same(|| format!("{:?}", net.wells), net.fault, None);
        for from in 0..n {
            let far = net.distances(from);
            for (to, hops) in (0..n).flat_map(|to| (0..=MOST_HOPS + 1).map(move |h| (to, h))) {
                report.same(
                    || format!("{hops} hops from {from} to {to} of {:?}", net.wells),
                    far[to] <= hops,
                    chain(&net.wells, from, to, hops),
                );
            }
        }
    }
}

/// A producer and its injectors, with struck records before them, between them and after them: no chain joins those,
/// and number 0 is absent however many there are.
fn struck_records(report: &mut Report) {
    let wells = vec![
        struck(),
        injector(8, 0),
        struck(),
        producer_of(3, &[8, 9]),
        injector(9, 0),
        struck(),
    ];
    let net = Net::new(wells);
    let places = [0, 3, 8, 9, 1 << 16].map(|number| net.place(number));
    report.same(
        || "places beside struck records".into(),
        (net.fault, places),
        (None, [None, Some(3), Some(1), Some(4), None]),
    );
    let no = UNJOINED;
    for (from, wanted) in [(1, [no, 0, no, 1, 2, no]), (3, [no, 1, no, 0, 1, no])] {
        let what = || format!("far from {from} beside struck records");
        report.same(what, net.distances(from), wanted.to_vec());
    }
    let near = Well {
        rate: 1,
        ..struck()
    };
    let net = Net::new(vec![struck(), near]);
    report.same(
        || "nearly struck".into(),
        (net.fault, net.place(0)),
        (Some((1, Rule::Number)), Some(1)),
    );
}

/// Each refusal at its edge, and which hold together; every number is judged whole.
fn judged(report: &mut Report) {
    let most = usize::MAX;
    let wraps = most / 40 + 1;
    let sound = Net::new(vec![producer_of(3, &[65_535]), injector(65_535, 0)]);
    let unsound = Net::new(vec![producer_of(3, &[65_535]), injector(65_534, 0)]);
    let both_struck = Net::new(vec![struck(); 2]);
    let none = Net::new(vec![]);
    // Bytes of the sheet, records, well, hops, bytes for the marks.
    let cases: [(&Net, [usize; 5], &[u64]); 32] = [
        (&sound, [80, 2, 3, 0, 2], &[]),
        (&sound, [81, 2, 65_535, 3, 3], &[]),
        (&sound, [most, 2, 3, 3, most], &[]),
        (&sound, [79, 2, 3, 3, 2], &[5]),
        (&sound, [41_000, 1025, 3, 3, 1025], &[5]),
        (&sound, [most, (1 << 32) + 2, 3, 3, 2], &[5, 22]),
        (&sound, [most, wraps, 3, 3, most], &[5]),
        (&sound, [80, 2, 3, 4, 2], &[19]),
        (&sound, [80, 2, 3, 256, 2], &[19]),
        (&sound, [80, 2, 3, (1 << 32) + 1, 2], &[19]),
        (&sound, [80, 2, 3, most, 2], &[19]),
        (&unsound, [80, 2, 3, 0, 2], &[20]),
        (&unsound, [80, 2, 65_534, 3, 2], &[20]),
        (&sound, [80, 2, 4, 3, 2], &[21]),
        (&sound, [80, 2, 0, 3, 2], &[21]),
        (&sound, [80, 2, 65_539, 3, 2], &[21]),
        (&sound, [80, 2, (1 << 32) + 3, 3, 2], &[21]),
        (&sound, [80, 2, most, 3, 2], &[21]),
        (&sound, [80, 2, 3, 3, 1], &[22]),
        (&sound, [80, 2, 3, 3, 0], &[22]),
        (&both_struck, [80, 2, 0, 0, 2], &[21]),
        (&both_struck, [80, 2, 3, 3, 2], &[21]),
        (&both_struck, [80, 2, 0, 3, 1], &[21, 22]),
        (&none, [0, 0, 3, 3, 0], &[21]),
        (&none, [0, 0, 0, 0, 0], &[21]),
        (&none, [0, 0, 3, 4, 0], &[19, 21]),
        (&sound, [79, 2, 3, 4, 1], &[5, 19, 22]),
        (&sound, [80, 2, 4, 4, 1], &[19, 21, 22]),
        (&unsound, [80, 2, 4, 3, 2], &[20, 21]),
        (&unsound, [80, 2, 3, 3, 1], &[20, 22]),
        (&unsound, [80, 2, 65_539, 4, 2], &[19, 20, 21]),
        (&unsound, [0, 2, 4, 4, 1], &[5, 19, 20, 21, 22]),
    ];
    for (net, [sheet_len, n, well, hops, room], wanted) in cases {
        let asked = Asked {
            sheet_len,
            n,
            well,
            hops,
            room,
        };
        let got = net.refusals(asked);
        report.same(|| format!("{asked:?} of {:?}", net.fault), &got[..], wanted);
    }
}
