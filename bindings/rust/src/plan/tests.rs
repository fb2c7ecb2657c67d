//! The check of content: the order of the rules, the lowest place, the one refusal, struck records at every place,
//! and what is said.

use super::rules::{fault, injector, producer, verdict, with};
use super::{Fault, Rule, check};
use crate::{Code, Error, Sheet, ffi};

/// A record that breaks every rule, mended rule by rule.
#[test]
fn first_broken_rule() {
    let mut record = with(producer(0, [(9, 0); 4]), 2, [9, 5, 0, 1, 134, 161]);
    for (rule, at, mend) in [
        (Rule::Number, 0, &[0x0f, 0x02][..]),
        (Rule::Kind, 2, &[1]),
        (Rule::LinkCount, 3, &[2]),
        (Rule::Rate, 7, &[160]),
        (Rule::Links, 8, &[0x0e, 0x01, 0, 0, 0x0f, 0x02, 0, 0]),
        (Rule::Shares, 8, &[0x0e, 0x01, 2, 88, 0x0f, 0x02, 1, 144]),
        (Rule::UnusedLinks, 16, &[0; 8]),
        (Rule::Repeat, 1, &[0x03]),
    ] {
        let sheet = [injector(0x0e01), injector(0x0f02), record];
        assert_eq!(verdict(&sheet), fault(2, rule));
        record[at..at + mend.len()].copy_from_slice(mend);
    }
    let sheet = [injector(0x0e01), injector(0x0f02), record];
    assert_eq!(verdict(&sheet), Ok(()));
}

/// Every place of a full sheet, with places behind it that break the first rule.
#[test]
fn lowest_place() {
    let mut sheet: Vec<_> = (0..1024).map(|k| injector(64 * k + 63)).collect();
    assert_eq!(verdict(&sheet), Ok(()));
    for place in (0..1024).rev() {
        sheet[place][23] = 1;
        assert_eq!(verdict(&sheet), fault(place, Rule::UnusedLinks));
        sheet[place][..2].fill(0);
        assert_eq!(verdict(&sheet), fault(place, Rule::Number));
    }
}

/// The two ends of a full sheet know of each other.
#[test]
fn both_ends() {
    let mut sheet: Vec<_> = (1..=1024).map(injector).collect();
    sheet[1023] = producer(65_535, [(1, 1000)]);
    assert_eq!(verdict(&sheet), Ok(()));
    sheet[0] = producer(1, [(1024, 1000)]);
    assert_eq!(verdict(&sheet), fault(0, Rule::Links));
    sheet[1023] = injector(1024);
    assert_eq!(verdict(&sheet), Ok(()));
    sheet[1023] = injector(1);
    sheet[0] = injector(1);
    assert_eq!(verdict(&sheet), fault(1023, Rule::Repeat));
}

/// A full sheet that is struck place by place, from both ends, with two wells between that know of each other.
#[test]
fn struck_at_every_place() {
    let mut sheet: Vec<_> = (1..=1024).map(injector).collect();
    for (one, other) in (0..512).zip((512..1024).rev()) {
        sheet[one] = injector(2000);
        sheet[other] = injector(2000);
        assert_eq!(verdict(&sheet), fault(other, Rule::Repeat));
        sheet[one] = producer(2001, [(2000, 1000)]);
        assert_eq!(verdict(&sheet), Ok(()));
        sheet[other] = Sheet::STRUCK;
        assert_eq!(verdict(&sheet), fault(one, Rule::Links));
        sheet[one] = Sheet::STRUCK;
        assert_eq!(verdict(&sheet), Ok(()));
    }
    // All are. With a note alone at any place, there is a fault.
    for place in 0..1024 {
        sheet[place][24 + place % 16] = 1;
        assert_eq!(verdict(&sheet), fault(place, Rule::Number));
        sheet[place] = Sheet::STRUCK;
    }
}

#[test]
fn refused() {
    let sheet: Vec<_> = (1..=1025).map(injector).collect();
    let bytes = sheet.as_flattened();
    for n in [0, 40, 80, 40 * 1024] {
        assert_eq!(check(&bytes[..n]), Ok(Ok(())), "{n} bytes");
    }
    for n in [1, 39, 41, 40 * 1024 - 1, 40 * 1024 + 1, 40 * 1025] {
        assert_eq!(check(&bytes[..n]), Err(Error::Sheet), "{n} bytes");
    }
    // A refusal stands before every fault, and tells none.
    let faulty = [9; 40 * 1025];
    assert_eq!(check(&faulty[..41]), Err(Error::Sheet));
    for (bytes, n) in [
        (&faulty[..0], 1),
        (&faulty[..39], 1),
        (&faulty[..40], 2),
        (&faulty, 1025),
        (&faulty, usize::MAX),
        // 40n is 0 and 24 modulo 2^64.
        (&faulty, 1 << 61),
        (&faulty, usize::MAX / 40 + 1),
    ] {
        let answer = ffi::plan_check(bytes, n);
        let all = (answer.number, answer.rule, answer.place);
        assert_eq!(all, (5, 0, 0), "{n} records");
    }
}

/// What lies behind the n-th record isn't looked at.
#[test]
fn larger_buffer() {
    let sheet = [injector(3), producer(4, [(5, 1000)]), [9; 40], injector(5)];
    for (n, answer) in [(0, (0, 0, 0)), (1, (0, 0, 0)), (2, (0, 5, 1))] {
        let got = ffi::plan_check(sheet.as_flattened(), n);
        assert_eq!((got.number, got.rule, got.place), answer, "{n} records");
    }
}

/// The room that a sheet has for appends is no part of it, and a save doesn't ask.
#[test]
fn of_a_sheet() {
    let mut sheet = Sheet::new(Code::Luffa224);
    assert_eq!(sheet.check(), Ok(()));
    for number in 1..=9 {
        sheet.append(&injector(number), &sheet.digest()).unwrap();
        assert_eq!(sheet.check(), Ok(()));
    }
    sheet.append(&injector(4), &sheet.digest()).unwrap();
    assert_eq!(sheet.check(), fault(9, Rule::Repeat));
    sheet.change(3, &[9; 40], &sheet.digest()).unwrap();
    assert_eq!(sheet.check(), fault(3, Rule::Kind));
    sheet.change(3, &injector(77), &sheet.digest()).unwrap();
    assert_eq!(sheet.check(), Ok(()));
    sheet.drop_last(&sheet.digest()).unwrap();
    assert_eq!(sheet.check(), Ok(()));
    for place in [0, 4] {
        sheet.strike(place, &sheet.digest()).unwrap();
        assert_eq!(sheet.check(), Ok(()));
    }
    sheet.append(&injector(4), &sheet.digest()).unwrap();
    assert_eq!(sheet.check(), Ok(()));
    sheet.append(&injector(6), &sheet.digest()).unwrap();
    assert_eq!(sheet.check(), fault(10, Rule::Repeat));
    sheet.close_up(&sheet.digest()).unwrap();
    assert_eq!(sheet.check(), fault(8, Rule::Repeat));
}

#[test]
fn numbers_and_sentences() {
    assert_eq!(Rule::broken(0), None);
    let rules: Vec<_> = (1..=8).map(|k| Rule::broken(k).unwrap()).collect();
    assert!(rules.is_sorted());
    let mut sentences = Vec::new();
    for (rule, number) in rules.into_iter().zip(1..) {
        assert_eq!(rule.number(), number);
        let fault: &dyn std::error::Error = &Fault { place: 12, rule };
        assert_eq!(fault.to_string(), format!("place 12: {rule}"));
        sentences.push(rule.to_string());
    }
    sentences.sort();
    sentences.dedup();
    assert_eq!(sentences.len(), 8);
}

#[test]
#[should_panic(expected = "libluffa.a answered rule 9")]
fn an_unknown_rule() {
    Rule::broken(9);
}
