//! Each rule at its edges: a record that is sound or breaks it, held to the rules by the library. Struck records
//! are held to none.

use super::{Fault, Link, Rule, Verdict, Well, check};
use crate::Sheet;

/// What is said of these records. Among struck ones the same is said, of the place that the faulty one has there.
#[track_caller]
pub(super) fn verdict(records: &[[u8; 40]]) -> Verdict {
    let said = check(records.as_flattened()).unwrap();
    if let Some(among) = among_struck(records) {
        let moved = |fault: Fault| Fault {
            place: 2 * fault.place + 1,
            ..fault
        };
        let wanted = said.map_err(moved);
        assert_eq!(check(among.as_flattened()), Ok(wanted), "among struck ones");
    }
    said
}

/// These records with a struck one before each, if a sheet may have as many: the one at place p is at 2p + 1.
pub(super) fn among_struck(records: &[[u8; 40]]) -> Option<Vec<[u8; 40]>> {
    let all = records.iter().flat_map(|record| [Sheet::STRUCK, *record]);
    (2 * records.len() <= Sheet::MOST).then(|| all.collect())
}

pub(super) fn fault(place: usize, rule: Rule) -> Verdict {
    Err(Fault { place, rule })
}

pub(super) fn injector(number: u16) -> [u8; 40] {
    Well::injector(number).to_record()
}

/// A producer of 500 tonnes whose links are these injectors and shares.
pub(super) fn producer<const N: usize>(number: u16, links: [(u16, u16); N]) -> [u8; 40] {
    let links = links.map(|(injector, share)| Link { injector, share });
    let well = Well::producer(number).with_rate(500).with_links(&links);
    well.unwrap().to_record()
}

/// The record with other bytes from `at` on.
pub(super) fn with<const N: usize>(mut record: [u8; 40], at: usize, bytes: [u8; N]) -> [u8; 40] {
    record[at..at + N].copy_from_slice(&bytes);
    record
}

pub(super) fn with_rate(record: [u8; 40], rate: u32) -> [u8; 40] {
    with(record, 4, rate.to_be_bytes())
}

/// Injectors whose numbers no exchange or loss of a byte turns into another's.
const INJECTORS: [u16; 4] = [0x0e01, 0x0f02, 0x1003, 0xff05];

/// What the record in front of these injectors breaks.
#[track_caller]
fn expect(record: [u8; 40], expected: Verdict) {
    let [a, b, c, d] = INJECTORS.map(injector);
    assert_eq!(verdict(&[record, a, b, c, d]), expected, "{record:?}");
}

#[track_caller]
fn sound(record: [u8; 40]) {
    expect(record, Ok(()));
}

#[track_caller]
fn breaks(rule: Rule, record: [u8; 40]) {
    expect(record, fault(0, rule));
}

/// Producers with none to four of the injectors. The first has rate 0.
fn producers() -> [[u8; 40]; 5] {
    let [a, b, c, d] = INJECTORS;
    [
        Well::producer(3).to_record(),
        producer(3, [(a, 1000)]),
        producer(3, [(a, 600), (b, 400)]),
        producer(3, [(a, 500), (b, 300), (c, 200)]),
        producer(3, [(a, 400), (b, 300), (c, 200), (d, 100)]),
    ]
}

#[test]
fn number() {
    for number in [1, 0xff, 0x100, 0x7fff, 0x8000, 0xff00, 0xffff] {
        sound(injector(number));
    }
    breaks(Rule::Number, injector(0));
    for record in producers() {
        sound(record);
        breaks(Rule::Number, with(record, 0, [0; 2]));
    }
}

/// Any number of records may be struck. With one bit set a record isn't, and breaks a rule: it has no kind, or not
/// even a number. In its note too.
#[test]
fn struck() {
    sound(Sheet::STRUCK);
    for n in [1, 2, 3, 512, 1023, 1024] {
        assert_eq!(verdict(&vec![Sheet::STRUCK; n]), Ok(()), "{n} records");
    }
    for bit in 0..8 * 40 {
        let record = with(Sheet::STRUCK, bit / 8, [1 << (bit % 8)]);
        breaks([Rule::Kind, Rule::Number][usize::from(bit >= 16)], record);
    }
}

#[test]
fn kind() {
    for kind in 0..=255 {
        let record = with(injector(7), 2, [kind]);
        match kind {
            1 | 2 => sound(record),
            _ => breaks(Rule::Kind, record),
        }
    }
}

#[test]
fn link_count() {
    let [idle, linked @ ..] = producers();
    for count in 5..=255 {
        breaks(Rule::LinkCount, with(linked[3], 3, [count]));
    }
    // A producer has none exactly when its rate is 0. Whether the rate is too high is asked later.
    for rate in [1, 0x100, 0x1_0000, 100_000, 100_001, 0x100_0000, u32::MAX] {
        breaks(Rule::LinkCount, with_rate(idle, rate));
    }
    for record in linked {
        breaks(Rule::LinkCount, with_rate(record, 0));
        // An injector has none at any rate.
        breaks(Rule::LinkCount, with(record, 2, [2]));
        breaks(Rule::LinkCount, with(with_rate(record, 0), 2, [2]));
    }
    for count in 1..=255 {
        breaks(Rule::LinkCount, with(injector(3), 3, [count]));
    }
}

#[test]
fn rate() {
    let [_, linked @ ..] = producers();
    for record in linked.into_iter().chain([injector(3)]) {
        for rate in [1, 99_999, 100_000] {
            sound(with_rate(record, rate));
        }
        for rate in [100_001, 0x1_8700, 0x100_0000, 0x8000_0000, u32::MAX] {
            breaks(Rule::Rate, with_rate(record, rate));
        }
    }
}

#[test]
fn links() {
    let [first, ..] = INJECTORS;
    for (at, name) in (0..4).flat_map(|at| [0, 1, 0x0e, 0x0e00, 0x010e, 3].map(|name| (at, name))) {
        let mut names = INJECTORS;
        // No well's; the first one's with a byte lost or both exchanged; the producer's own.
        names[at] = name;
        breaks(Rule::Links, producer(3, names.map(|name| (name, 250))));
    }
    for (one, other) in [(0, 1), (0, 2), (0, 3), (1, 2), (1, 3), (2, 3)] {
        let mut names = INJECTORS;
        names[other] = names[one];
        breaks(Rule::Links, producer(3, names.map(|name| (name, 250))));
    }
    breaks(Rule::Links, producer(3, [(first, 500), (first, 500)]));
}

/// A link names an injector at any place, itself sound or not; a producer of that number isn't one.
#[test]
fn named_injectors() {
    let links_14 = producer(3, [(14, 1000)]);
    let idle_14 = Well::producer(14).to_record();
    assert_eq!(verdict(&[injector(14), links_14]), Ok(()));
    assert_eq!(verdict(&[links_14, injector(14)]), Ok(()));
    assert_eq!(verdict(&[links_14, idle_14]), fault(0, Rule::Links));
    assert_eq!(verdict(&[idle_14, links_14]), fault(1, Rule::Links));
    let both = [links_14, idle_14, injector(14)];
    assert_eq!(verdict(&both), fault(2, Rule::Repeat));
    let both = [links_14, injector(14), idle_14];
    assert_eq!(verdict(&both), fault(2, Rule::Repeat));
    let fast = with_rate(injector(14), 100_001);
    assert_eq!(verdict(&[links_14, fast]), fault(1, Rule::Rate));
    let links_0 = producer(3, [(0, 1000)]);
    assert_eq!(verdict(&[links_0, injector(0)]), fault(1, Rule::Number));
    // Nor is a struck record an injector of number 0.
    assert_eq!(verdict(&[links_0]), fault(0, Rule::Links));
    // The number is right, the kind isn't 2.
    for kind in [0, 3, 6, 0x82] {
        let other = with(injector(14), 2, [kind]);
        assert_eq!(verdict(&[links_14, other]), fault(0, Rule::Links));
    }
}

#[test]
fn shares() {
    let [a, b, c, d] = INJECTORS;
    for share in [0, 1, 999, 1001, 65_535] {
        breaks(Rule::Shares, producer(3, [(a, share)]));
    }
    for (one, other) in [(1, 999), (999, 1), (500, 500)] {
        sound(producer(3, [(a, one), (b, other)]));
        breaks(Rule::Shares, producer(3, [(a, one), (b, other + 1)]));
        breaks(Rule::Shares, producer(3, [(a, one - 1), (b, other)]));
    }
    // A share of 0 isn't one, and a total isn't taken modulo 2^16.
    for (one, other) in [(0, 1000), (1000, 0), (1001, 65_535), (65_535, 1001)] {
        breaks(Rule::Shares, producer(3, [(a, one), (b, other)]));
    }
    for shares in [[997, 1, 1, 1], [1, 997, 1, 1], [1, 1, 1, 997], [250; 4]] {
        let [one, two, three, four] = shares;
        sound(producer(3, [(a, one), (b, two), (c, three), (d, four)]));
        let less = [(a, one), (b, two), (c, three), (d, four - 1)];
        breaks(Rule::Shares, producer(3, less));
        let more = [(a, one + 1), (b, two), (c, three), (d, four)];
        breaks(Rule::Shares, producer(3, more));
    }
    breaks(
        Rule::Shares,
        producer(3, INJECTORS.map(|name| (name, 16_634))),
    );
}

#[test]
fn unused_links() {
    for record in producers().into_iter().chain([injector(3)]) {
        for at in 8 + 4 * usize::from(record[3])..24 {
            breaks(Rule::UnusedLinks, with(record, at, [1]));
            breaks(Rule::UnusedLinks, with(record, at, [0x80]));
        }
        // Notes are free.
        for at in 24..40 {
            sound(with(record, at, [0xff]));
        }
    }
}

#[test]
fn repeat() {
    let (a, b) = (injector(0x0102), Well::producer(0x0102).to_record());
    let (other, another) = (injector(7), injector(8));
    for (one, two) in [(a, a), (a, b), (b, a), (b, b)] {
        assert_eq!(verdict(&[one, two]), fault(1, Rule::Repeat));
        assert_eq!(verdict(&[one, other, two, two]), fault(2, Rule::Repeat));
        assert_eq!(verdict(&[other, another, one, two]), fault(3, Rule::Repeat));
    }
    // Other numbers with the same bytes, or one of them.
    let alike = [0x0102, 0x0201, 0x0101, 0x0202, 2, 0x0200];
    assert_eq!(verdict(&alike.map(injector)), Ok(()));
}
