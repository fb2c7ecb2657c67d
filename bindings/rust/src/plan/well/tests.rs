//! Wells: the bytes of each field, there and back, and the records that no well has.

use super::{Kind, Link, Rule, Well};
use crate::plan;
use crate::random::Numbers;
use std::collections::BTreeMap;

const LINKS: [Link; 4] = [
    Link {
        injector: 0x090a,
        share: 0x0b0c,
    },
    Link {
        injector: 0x0d0e,
        share: 0x0f10,
    },
    Link {
        injector: 0x1112,
        share: 0x1314,
    },
    Link {
        injector: 0x1516,
        share: 0x1718,
    },
];

#[test]
fn fields() {
    let well = Well::producer(0x0102).with_rate(0x0506_0708);
    let well = well
        .with_links(&LINKS)
        .unwrap()
        .with_note(b"ABCDEFGHIJKLMNOP");
    let mut record = [0; 40];
    for (at, byte) in record.iter_mut().enumerate() {
        *byte = at as u8 + 1;
    }
    (record[2], record[3]) = (1, 4);
    record[24..].copy_from_slice(b"ABCDEFGHIJKLMNOP");
    assert_eq!(well.to_record(), record);
    assert_eq!(Well::from_record(&record), Ok(well));
    assert_eq!((well.number(), well.kind()), (0x0102, Kind::Producer));
    assert_eq!((well.rate(), well.links()), (0x0506_0708, &LINKS[..]));
    assert_eq!(well.note(), b"ABCDEFGHIJKLMNOP");

    let well = Well::injector(9);
    let mut record = [0; 40];
    (record[1], record[2]) = (9, 2);
    assert_eq!(well.to_record(), record);
    assert_eq!((well.kind(), well.rate()), (Kind::Injector, 0));
    assert_eq!((well.links(), well.note()), (&[][..], &[0; 16]));
}

/// Fewer links, or a shorter note, leave nothing of those before.
#[test]
fn replaced() {
    let well = Well::producer(3);
    let full = well.with_links(&LINKS).unwrap().with_note(&[7; 16]);
    for n in 0..=4 {
        let fewer = full.with_links(&LINKS[..n]).unwrap();
        assert_eq!(fewer.links(), &LINKS[..n]);
        assert_eq!(fewer.to_record()[3], n as u8);
        assert_eq!(fewer.with_note(b""), well.with_links(&LINKS[..n]).unwrap());
    }
    assert_eq!(
        full.with_note(b"ab").note(),
        b"ab\0\0\0\0\0\0\0\0\0\0\0\0\0\0"
    );
    assert_eq!(full.with_links(&[LINKS[0]; 5]), Err(Rule::LinkCount));
    let injector = Well::injector(3);
    assert_eq!(injector.with_links(&[]), Ok(injector));
    assert_eq!(injector.with_links(&LINKS[..1]), Err(Rule::LinkCount));
}

/// A struck record is no well, and one that has a bit set is what it is otherwise.
#[test]
fn struck() {
    assert_eq!(Well::unless_struck(&[0; 40]), Ok(None));
    for bit in 0..8 * 40 {
        let mut record = [0; 40];
        record[bit / 8] = 1 << (bit % 8);
        let read = Well::from_record(&record);
        assert_eq!(Well::unless_struck(&record), read.map(Some));
        // Kinds 1 and 2 are two of the bits.
        assert_eq!(read.is_ok(), [16, 17].contains(&bit));
    }
}

/// Any 40 bytes are a well's, which has them again, or break a rule. The check finds that rule too, or
/// one before it.
#[test]
fn any_record() {
    let mut numbers = Numbers(8);
    let mut met = BTreeMap::new();
    for _ in 0..20_000 {
        let mut record = numbers.record();
        record[2] = numbers.below(4) as u8;
        record[3] = [0, numbers.below(6) as u8, record[3]][numbers.below(3)];
        record[8 + numbers.below(17)..24].fill(0);
        let (kind, count) = (record[2], record[3]);
        let broken = if kind != 1 && kind != 2 {
            Some(Rule::Kind)
        } else if count > if kind == 1 { 4 } else { 0 } {
            Some(Rule::LinkCount)
        } else if record[8 + 4 * usize::from(count)..24] != [0; 16][4 * usize::from(count)..] {
            Some(Rule::UnusedLinks)
        } else {
            None
        };
        let read = Well::from_record(&record);
        assert_eq!(Well::unless_struck(&record), read.map(Some));
        match read {
            Ok(well) => assert_eq!((well.to_record(), broken), (record, None)),
            Err(rule) => {
                assert_eq!(Some(rule), broken, "{record:?}");
                let fault = plan::check(&record).unwrap().unwrap_err();
                assert!(fault.rule <= rule, "{record:?}");
            }
        }
        *met.entry(broken).or_insert(0) += 1;
    }
    assert!(
        met.len() == 4 && met.values().all(|times| *times > 500),
        "{met:?}"
    );
}
