//! The check of a sheet's content on itself: small sheets, each judged by document 02's sentences.

use crate::check::Report;
use crate::plan::{self, Link, Rule, Well, INJECTOR, PRODUCER};
use crate::sheet::Record;

pub fn differences(report: &mut Report) {
    plan_bytes(report);
    plan_examples(report);
}

/// A record byte by byte, high bytes first.
fn plan_bytes(report: &mut Report) {
    let mut record: Record = [0xee; 40];
    record[..24].copy_from_slice(&[
        0x12, 0x34, 1, 2, 0, 1, 0x86, 0xa0, 0xff, 0xfe, 0x01, 0x2c, 0, 0x11, 0x02, 0xbc, 0, 0, 0,
        0, 0, 0, 0, 0,
    ]);
    let wanted = Well {
        note: [0xee; 16],
        ..producer(0x1234, 100_000, &[(0xfffe, 300), (0x11, 700)])
    };
    report.same(|| "a record read".into(), Well::read(&record), wanted);
    report.same(|| "no records".into(), plan::fault(&[]), None);
    // Forty zeros are a struck record, and with any one byte set they aren't. The first two are a number, of no kind.
    let zeros = Well::read(&[0; 40]);
    report.same(
        || "forty zeros".into(),
        (zeros.is_struck(), plan::fault(&[zeros])),
        (true, None),
    );
    for byte in 0..40 {
        let mut record = [0; 40];
        record[byte] = 0x80 >> (byte % 8);
        let near = Well::read(&record);
        let rule = if byte < 2 { Rule::Kind } else { Rule::Number };
        report.same(
            || format!("byte {byte} alone, among struck records"),
            (near.is_struck(), plan::fault(&[zeros, zeros, near])),
            (false, Some((2, rule))),
        );
    }
}

pub fn producer(number: u16, rate: u32, links: &[(u16, u16)]) -> Well {
    let mut well = Well {
        number,
        kind: PRODUCER,
        link_count: links.len() as u8,
        rate,
        ..Well::default()
    };
    for (to, &(injector, share)) in well.links.iter_mut().zip(links) {
        *to = Link { injector, share };
    }
    well
}

pub fn injector(number: u16, rate: u32) -> Well {
    Well {
        kind: INJECTOR,
        ..producer(number, rate, &[])
    }
}

pub fn struck() -> Well {
    Well::default()
}

/// A sheet that makes sense, and what becomes of it when something is mistyped.
fn plan_examples(report: &mut Report) {
    use Rule::*;
    type Mistype = fn(&mut [Well; 6]);
    let sound = [
        producer(7, 500, &[(2, 400), (65_535, 600)]),
        injector(2, 0),
        producer(9, 0, &[]),
        injector(65_535, 100_000),
        injector(4, 12),
        producer(11, 100_000, &[(4, 1), (65_535, 1), (2, 998)]),
    ];
    let mut verdict = |wanted, mistype: Mistype| {
        let mut wells = sound;
        mistype(&mut wells);
        report.same(|| format!("{wells:?}"), plan::fault(&wells), wanted);
    };
    let mut keeps = |mistype| verdict(None, mistype);
    keeps(|_| ());
    keeps(|w| w.reverse());
    keeps(|w| w[3].rate = 0);
    keeps(|w| w[0].rate = 1);
    keeps(|w| w[0] = producer(7, 5, &[(4, 1000)]));
    keeps(|w| w[2] = producer(9, 3, &[(4, 250), (2, 250), (65_535, 500)]));
    // Who isn't linked can be struck, and so can all.
    keeps(|w| w[2] = struck());
    keeps(|w| (w[0], w[5]) = (struck(), struck()));
    keeps(|w| *w = [struck(); 6]);
    keeps(|w| {
        w[2] = injector(9, 1);
        w[0] = producer(7, 5, &[(4, 997), (65_535, 1), (2, 1), (9, 1)]);
    });

    let mut breaks = |place, rule, mistype| verdict(Some((place, rule)), mistype);
    breaks(2, Number, |w| w[2].number = 0);
    breaks(2, Number, |w| (w[2].number, w[2].kind) = (0, 3));
    breaks(2, Number, |w| (w[2], w[2].note[15]) = (struck(), 1));
    breaks(5, Number, |w| (w[2], w[5].number) = (struck(), 0));
    breaks(2, Kind, |w| w[2].kind = 0);
    breaks(5, Kind, |w| w[5].kind = 3);
    breaks(2, Kind, |w| (w[2].kind, w[2].link_count) = (255, 5));

    // None exactly when the rate is 0; that the rate is too high is asked later.
    breaks(5, LinkCount, |w| w[5].link_count = 5);
    breaks(5, LinkCount, |w| w[5].link_count = 255);
    breaks(2, LinkCount, |w| w[2].rate = 1);
    breaks(2, LinkCount, |w| w[2].rate = 200_000);
    breaks(0, LinkCount, |w| w[0].rate = 0);
    breaks(1, LinkCount, |w| w[1].link_count = 1);
    breaks(5, Rate, |w| w[5].rate = 100_001);
    breaks(1, Rate, |w| w[1].rate = 100_001);
    breaks(1, Rate, |w| w[1].rate = u32::MAX);
    breaks(0, Rate, |w| {
        (w[0].rate, w[0].links[0].injector) = (100_001, 5)
    });

    // Nobody, a producer, the well itself, a well of no kind, and one injector twice.
    breaks(0, Links, |w| w[0].links[1].injector = 5);
    breaks(0, Links, |w| w[0].links[1].injector = 9);
    breaks(0, Links, |w| w[0].links[0].injector = 7);
    breaks(0, Links, |w| w[3].kind = 3);
    breaks(0, Links, |w| w[0].links[1].injector = 0);
    breaks(5, Links, |w| w[5].links[2].injector = 4);
    // A struck record is no injector, not even of number 0.
    breaks(0, Links, |w| w[3] = struck());
    breaks(0, Links, |w| (w[0].links[1].injector, w[2]) = (0, struck()));
    breaks(5, Links, |w| w[5].links[2] = w[5].links[0]);
    // What is linked need not be sound itself.
    breaks(1, Number, |w| {
        (w[1].number, w[0].links[0].injector) = (0, 0)
    });
    breaks(1, Rate, |w| (w[1].rate, w[5].rate) = (100_001, 100_001));

    breaks(0, Shares, |w| w[0] = producer(7, 5, &[(2, 0), (4, 1000)]));
    breaks(0, Shares, |w| w[0] = producer(7, 5, &[(2, 1001)]));
    breaks(0, Shares, |w| {
        w[0] = producer(7, 5, &[(2, 65_535), (4, 1001)])
    });
    breaks(5, Shares, |w| w[5].links[2].share = 997);
    breaks(5, Shares, |w| w[5].links[2].share = 999);
    breaks(5, Shares, |w| w[5].link_count = 2);
    breaks(0, UnusedLinks, |w| w[0].links[2].injector = 4);
    breaks(5, UnusedLinks, |w| w[5].links[3].share = 256);
    breaks(4, UnusedLinks, |w| w[4].links[0].share = 1);

    // A repeat is the later place's fault, whatever the kinds, and a link asks for one injector of
    // the number.
    breaks(2, Repeat, |w| w[2].number = 7);
    breaks(2, Repeat, |w| w[2].number = 2);
    breaks(4, Repeat, |w| w[2].number = 4);
    breaks(4, UnusedLinks, |w| {
        (w[2].number, w[4].links[3].injector) = (4, 4)
    });
    breaks(2, Repeat, |w| (w[2].number, w[4].number) = (7, 7));
    breaks(2, Repeat, |w| (w[2].number, w[5].kind) = (7, 0));
    // Struck records before the two, between them and after them repeat nothing.
    breaks(5, Repeat, |w| {
        *w = [struck(); 6];
        (w[1], w[3], w[5]) = (injector(4, 0), injector(5, 0), injector(4, 0));
    });
    breaks(3, Repeat, |w| {
        *w = [struck(); 6];
        (w[1], w[3]) = (injector(4, 0), producer(4, 0, &[]));
    });
    // Which rules a record breaks, beside those that it is faulted for: number 0 after a struck record is no repeat.
    let mut near = sound;
    (near[1], near[2]) = (struck(), producer(0, 0, &[]));
    for (place, wanted) in [(1, vec![]), (2, vec![Number])] {
        let what = || format!("the rules broken at {place}");
        report.same(what, plan::broken(&near, place), wanted);
    }
}
