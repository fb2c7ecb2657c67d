//! The refusals: luffa.h's numbers, document 01's each met from the library itself. Those of longer output
//! are met in hash/output/tests.rs too, those of a step back in hash/back/tests.rs, those of columns in
//! columns/refusals.rs, those of a mend in sheet/mend/refusals.rs, those of many changes in sheet/batch, those
//! of a save that brings what was opened in sheet/opened, those of closing up in sheet/close_up, and those that
//! a brine statement or a search for who depends on a well alone gives in plan/brine/refusals.rs and
//! plan/reach.

use super::Error;
use crate::ffi::{self, Lent, WhereAnswer};
use crate::{Code, Digest, Luffa256, Opened, Sheet, columns};

#[test]
fn numbers_and_sentences() {
    assert_eq!(Error::judge(0, 0), Ok(()));
    let mut sentences = Vec::new();
    for number in (1..=15).chain(17..=25) {
        let error = Error::judge(number, 5).unwrap_err();
        assert_eq!(u64::from(error.number()), number);
        let source: &dyn std::error::Error = &error;
        sentences.push(source.to_string());
    }
    assert_eq!(Error::judge(11, 5), Err(Error::Stale { rounds: 5 }));
    sentences.sort();
    sentences.dedup();
    assert_eq!(sentences.len(), 24);
}

/// A stale save that brings what was opened has the plain one's sentence, and where to look.
#[test]
fn stale_with_a_place() {
    let answer = |number, kind| WhereAnswer {
        number,
        count: 31,
        rounds: 5,
        kind,
        group: 6,
        pairs: 7,
    };
    let group = Error::judge_where(&answer(11, 1), 40).unwrap_err();
    let tail = Error::judge_where(&answer(16, 0), 40).unwrap_err();
    let (pairs, rounds) = (7, 5);
    assert_eq!(
        group,
        Error::StaleGroup {
            group: 6,
            pairs,
            rounds
        }
    );
    assert_eq!(
        tail,
        Error::StaleTail {
            pairs,
            longer: 40,
            rounds
        }
    );
    assert_eq!((group.number(), group.places()), (11, Some(24..28)));
    assert_eq!((tail.number(), tail.places()), (16, Some(28..40)));
    let stale = Error::Stale { rounds };
    assert_eq!(
        group.to_string(),
        format!("{stale}: look at places 24 to 27")
    );
    assert_eq!(tail.to_string(), format!("{stale}: look from place 28 on"));
    assert!([stale, group, tail].into_iter().all(Error::is_stale));
    // Others are what they are in every call.
    assert_eq!(Error::judge_where(&answer(0, 0), 40), Ok(()));
    for number in (1..=10).chain([15]) {
        let refused = Error::judge_where(&answer(number, 0), 40);
        assert_eq!(refused, Error::judge(number, 0));
        let refused = refused.unwrap_err();
        assert!(!refused.is_stale() && refused.places().is_none());
    }
}

/// No call that a stale answer has no place in is answered 16.
#[test]
#[should_panic(expected = "libluffa.a answered 16")]
fn an_unknown_number() {
    let _ = Error::judge(16, 0);
}

/// What the public calls can meet.
#[test]
fn met_by_callers() {
    let code = Code::Luffa256;
    assert_eq!(Code::from_number(0), Err(Error::Width));
    assert_eq!(Code::from_number(5), Err(Error::Width));
    for code in Code::ALL {
        assert_eq!(Code::from_number(code.number()), Ok(code));
    }
    let zeros = [0; crate::RECORD_BYTES];
    assert_eq!(Luffa256::from_record(&zeros).err(), Some(Error::Record));
    let mut record = Luffa256::new().to_record();
    record[200..].copy_from_slice(&(Luffa256::MOST_BITS / 8).to_be_bytes());
    let mut hash = Luffa256::from_record(&record).unwrap();
    assert_eq!(hash.try_update("a"), Err(Error::Long));
    assert_eq!(hash.take_back(&[0; 32]), Err(Error::Back));
    assert_eq!(hash.finalize_bits("abc", 8), Err(Error::Odd));
    assert_eq!(Digest::of_bits(code, "", 1), Err(Error::Odd));
    assert_eq!(columns::to_words(code, &[0; 95]), Err(Error::Columns));
    let mut out = [0; 260];
    assert_eq!(Luffa256::output("", &mut out), Err(Error::Words));
    assert_eq!(Luffa256::output("", &mut out[..10]), Err(Error::Out));
    let over = Sheet::from_records(code, &[[0; 40]; 1025]);
    assert_eq!(over.err(), Some(Error::Sheet));
    let few = Sheet::from_kept(code, &[0; 160], &[0; 79]);
    assert_eq!(few.err(), Some(Error::Marks));

    let mut sheet = Sheet::from_records(code, &[[0; 40]; 1024]).unwrap();
    let (claim, other) = (sheet.digest(), Digest::from([0; 28]));
    let stale = Digest::from([0; 32]);
    let new = [1; 40];
    assert_eq!(sheet.change(1024, &new, &claim), Err(Error::Place));
    assert_eq!(sheet.append(&new, &claim), Err(Error::Full));
    let twice = [(1024, new); 2];
    assert_eq!(sheet.change_all(twice, &claim), Err(Error::Set));
    assert_eq!(sheet.change(0, &new, &other), Err(Error::Claim));
    let rounds = 2;
    assert_eq!(sheet.drop_last(&stale), Err(Error::Stale { rounds }));
    let from = Opened::from_parts(claim, 1024, [0; 10_280]);
    assert_eq!(sheet.drop_last_from(&from), Err(Error::Own));
    let few = sheet.close_up_into(&claim, &mut [0; 1023]);
    assert_eq!(few, Err(Error::Places));
    // Where several hold, the lowest number is given.
    assert_eq!(sheet.change(1024, &new, &other), Err(Error::Place));
    assert_eq!(sheet.append(&new, &stale), Err(Error::Full));
    assert_eq!(Sheet::new(code).drop_last(&stale), Err(Error::Place));
}

/// What this crate's types leave no way to is known by the same numbers.
#[test]
fn met_beneath_the_types() {
    let mut record = Luffa256::new().to_record();
    let (mut out, mut sheet, mut marks) = ([0; 32], [0; 80], [0; 40]);
    assert_eq!(ffi::digest(5, b"", &mut out), Err(Error::Width));
    assert_eq!(ffi::start(0, &mut record), Err(Error::Width));
    assert_eq!(ffi::start(2, &mut record[1..]), Err(Error::Record));
    assert_eq!(ffi::digest(2, b"", &mut out[1..]), Err(Error::Out));
    assert_eq!(ffi::finish(&record, &mut out[1..]), Err(Error::Out));
    assert_eq!(ffi::finish(&record[1..], &mut out), Err(Error::Record));

    // Odd bits are judged after the buffers, and before the length.
    let short = &mut out[1..];
    assert_eq!(ffi::digest_bits(5, b"", 8, short), Err(Error::Width));
    assert_eq!(ffi::digest_bits(2, b"", 8, short), Err(Error::Out));
    assert_eq!(ffi::digest_bits(2, b"a", 8, &mut out), Err(Error::Odd));
    let wrong = &mut record[1..];
    assert_eq!(ffi::feed_bits(wrong, b"a", 8), Err(Error::Record));
    // A message that has ended isn't fed on, not even with nothing.
    assert_eq!(ffi::feed_bits(&mut record, b"a", 1), Ok(()));
    assert_eq!(ffi::feed_bits(&mut record, b"", 0), Err(Error::Odd));
    assert_eq!(ffi::feed(&mut record, b""), Err(Error::Odd));

    assert_eq!(ffi::build(0, &sheet, 2, &mut marks, &mut out).number, 1);
    assert_eq!(
        ffi::build(2, &sheet, 2, &mut marks, &mut out[1..]).number,
        2
    );
    assert_eq!(ffi::build(2, &sheet, 3, &mut marks, &mut out).number, 5);
    assert_eq!(
        ffi::build(2, &sheet, 2, &mut marks[1..], &mut out).number,
        6
    );
    assert_eq!((out, marks), ([0; 32], [0; 40]));
    let built = ffi::build(2, &sheet, 2, &mut marks, &mut out);
    assert_eq!((built.number, built.count, built.rounds), (0, 2, 4));
    let claim = out;
    let mut lent = Lent {
        code: 2,
        sheet: &mut sheet,
        n: 2,
        marks: &mut marks,
    };
    let short = ffi::change(&mut lent, 0, &[1; 39], &claim, &mut out);
    assert_eq!(short.number, 9);
    // The buffers have no room for a third record.
    let full = ffi::append(&mut lent, &[1; 40], &claim, &mut out);
    assert_eq!((full.number, full.count, full.rounds), (8, 2, 0));
}
