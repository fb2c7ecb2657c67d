//! Pages at their edges: faulted sheets among sound ones, struck records, an overload by a kilogram, the
//! largest batch, and nothing to say.

use super::{Row, Totals, brine, brine_into};
use crate::plan::Rule;
use crate::plan::rules::{among_struck, fault, injector, producer, verdict, with_rate};
use crate::{Code, Error, Sheet};

/// A sound sheet, both of whose injectors are overloaded.
fn sound() -> [[u8; 40]; 3] {
    [
        with_rate(injector(14), 400),
        producer(3, [(14, 900), (15, 100)]),
        injector(15),
    ]
}

/// Whatever rule it breaks, a faulted sheet has zeros, and the others are as without it.
#[test]
fn faulted_by_each_rule() {
    let sound = sound();
    let sound_bytes = sound.as_flattened();
    let without = brine([sound_bytes; 2]).unwrap();
    assert_eq!(without.totals.overloaded, 4);
    for (rule, at, mistyped) in [
        (Rule::Number, 0, &[0, 0][..]),
        (Rule::Kind, 2, &[3]),
        (Rule::LinkCount, 3, &[5]),
        (Rule::Rate, 5, &[0xff]),
        (Rule::Links, 8, &[0, 41]),
        (Rule::Shares, 15, &[101]),
        (Rule::UnusedLinks, 23, &[1]),
        (Rule::Repeat, 1, &[14]),
    ] {
        let mut sheet = sound;
        sheet[1][at..at + mistyped.len()].copy_from_slice(mistyped);
        assert_eq!(verdict(&sheet), fault(1, rule));
        let page = brine([sound_bytes, sheet.as_flattened(), sound_bytes]).unwrap();
        let totals = Totals {
            faulted: 1,
            ..without.totals
        };
        assert_eq!(page.totals, totals, "{rule}");
        let rows = [
            without.rows[0].clone(),
            vec![Row::default(); 3],
            without.rows[1].clone(),
        ];
        assert_eq!(page.rows, rows, "{rule}");
    }
}

/// A struck record has zeros in both lists, and all else is as without it.
#[test]
fn among_struck_records() {
    let sheet = sound();
    let without = brine([sheet.as_flattened()]).unwrap();
    let among = among_struck(&sheet).unwrap();
    let page = brine([among.as_flattened()]).unwrap();
    assert_eq!(page.totals, without.totals);
    let rows = without.rows[0]
        .iter()
        .flat_map(|row| [Row::default(), *row]);
    assert!(rows.eq(page.rows[0].iter().copied()));
    // It has a place in both.
    for (in_one, in_other) in [(5, 6), (6, 5), (3, 3)] {
        let (mut intake, mut spare) = (vec![5; in_one], vec![-5; in_other]);
        let few = brine_into(among.as_flattened(), &[6], &mut intake, &mut spare);
        assert_eq!(few, Err(Error::List));
        assert_eq!((intake, spare), (vec![5; in_one], vec![-5; in_other]));
    }

    // Sheets of nothing else are sound, and with a note in one of their records they aren't.
    let mut struck = vec![0; 40 * 1024];
    let page = brine([&struck; 64]).unwrap();
    let totals = Totals {
        sound: 64,
        ..Totals::default()
    };
    assert_eq!(page.totals, totals);
    assert!(page.rows == vec![vec![Row::default(); 1024]; 64]);
    struck[40 * 700 + 39] = 1;
    let totals = brine([&struck; 64]).unwrap().totals;
    assert_eq!((totals.sound, totals.faulted), (0, 64));
}

/// An injector of one tonne, which each producer more sends a kilogram more.
#[test]
fn overloaded_by_a_kilogram() {
    let one_tonne = |number, links| with_rate(producer(number, links), 1);
    let mut sheet = vec![
        with_rate(injector(14), 1),
        with_rate(injector(15), 2),
        one_tonne(1, [(14, 999), (15, 1)]),
    ];
    for (number, intake, spare) in [(2, 999, 1), (3, 1000, 0), (4, 1001, -1)] {
        let page = brine([sheet.as_flattened()]).unwrap();
        let row = page.rows[0][0];
        assert_eq!(row, Row { intake, spare });
        assert_eq!(row.is_overloaded(), spare < 0);
        assert_eq!(page.totals.overloaded, usize::from(spare < 0));
        sheet.push(one_tonne(number, [(14, 1), (15, 999)]));
    }
}

/// 64 full sheets, each with one injector, at another place each time, that takes all that the
/// others can give: 1,023 times 100,000 tonnes.
#[test]
fn largest_batch() {
    let sheets: [Vec<u8>; 64] = std::array::from_fn(|k| {
        let well = |place: u16| {
            if usize::from(place) == 16 * k + 5 {
                with_rate(injector(9999), k as u32)
            } else {
                with_rate(producer(place + 1, [(9999, 1000)]), 100_000)
            }
        };
        (0..1024).flat_map(well).collect()
    });
    let page = brine(&sheets).unwrap();
    let intake = 102_300_000_000;
    for (k, rows) in page.rows.iter().enumerate() {
        let mut wanted = [Row::default(); 1024];
        let spare = 1000 * k as i64 - intake as i64;
        wanted[16 * k + 5] = Row { intake, spare };
        assert!(*rows == wanted, "sheet {k}");
    }
    let totals = Totals {
        sound: 64,
        faulted: 0,
        intake: 64 * intake,
        overloaded: 64,
    };
    assert_eq!((page.rows.len(), page.totals), (64, totals));
}

#[test]
fn nothing_to_say() {
    for sheets in [0, 1, 64] {
        let page = brine(vec![[]; sheets]).unwrap();
        let totals = Totals {
            sound: sheets,
            ..Totals::default()
        };
        assert_eq!((page.totals, page.rows), (totals, vec![vec![]; sheets]));
    }
}

/// A sheet is taken without its room for appends, whatever its code.
#[test]
fn of_sheets() {
    let records = [producer(3, [(14, 1000)]), with_rate(injector(14), 700)];
    let sheets = Code::ALL.map(|code| {
        let mut sheet = Sheet::new(code);
        for record in &records {
            sheet.append(record, &sheet.digest()).unwrap();
        }
        sheet
    });
    let page = brine(&sheets).unwrap();
    let row = Row {
        intake: 500_000,
        spare: 200_000,
    };
    assert_eq!(page.rows, vec![vec![Row::default(), row]; 4]);
    assert_eq!(brine(sheets.iter().map(Sheet::bytes)).unwrap(), page);
    assert_eq!(brine(vec![records.concat(); 4]).unwrap(), page);
}
