//! The refusals of a mend, in their order, beside the same calls with just enough.

use super::Sheet;
use crate::order::MAX;
use crate::{Code, Error, ffi};

/// Lends so many bytes and words, none of them a mark's. Where refused, nothing is said or written.
#[track_caller]
fn answers(number: u64, code: usize, bytes: usize, n: usize, words: usize) {
    let (sheet, mut marks) = (vec![5; bytes], vec![5; words]);
    let answer = ffi::mend(code, &sheet, n, &mut marks);
    assert_eq!(answer.number, number);
    if number == 0 {
        let groups = n as u64 / 4;
        assert_eq!((answer.wrong, answer.first), (groups + 1, 0));
        assert_eq!(answer.rounds, 5 * groups);
        let again = ffi::mend(code, &sheet, n, &mut marks);
        assert_eq!((again.number, again.wrong, again.first), (0, 0, 0));
    } else {
        assert_eq!((answer.wrong, answer.first, answer.rounds), (0, 0, 0));
        assert!(marks.iter().all(|word| *word == 5));
    }
}

#[test]
fn no_such_code() {
    for code in [0, 5, 256, 257, (1 << 32) + 1, (1 << 63) + 2, MAX] {
        answers(1, code, 160, 4, 80);
        // Whatever the counts and lengths are.
        answers(1, code, 160, 4, 79);
        answers(1, code, 159, 4, 79);
        answers(1, code, 0, MAX, 0);
    }
    for code in 1..=4 {
        answers(0, code, 160, 4, 80);
    }
}

#[test]
fn too_many_records() {
    answers(0, 2, 40_960, 1024, 10_280);
    // Modulo 2^64 some of these have 0 or 24 bytes, and modulo 2^32 or 2^16 few records.
    let wide = [1 << 16, (1 << 32) + 4, 1 << 61, MAX / 40 + 1, MAX - 3, MAX];
    for n in [1025, 1028].into_iter().chain(wide) {
        answers(5, 2, 41_120, n, 10_320);
        // Before the marks are judged.
        answers(5, 2, 0, n, 0);
    }
}

#[test]
fn too_few_bytes_or_words() {
    for n in [0, 1, 3, 4, 5, 8, 1023, 1024] {
        let (bytes, words) = (40 * n, 40 * (n / 4 + 1));
        answers(0, 3, bytes, n, words);
        // Longer is fine.
        answers(0, 3, bytes + 7, n, words + 7);
        for few in [0, 40, words - 40, words - 1] {
            if few < words {
                answers(6, 3, bytes, n, few);
            }
        }
        if n > 0 {
            for few in [0, bytes - 40, bytes - 1] {
                answers(5, 3, few, n, words);
                answers(5, 3, few, n, 0);
            }
        }
    }
}

/// Through the types, whose count of records is that of the bytes.
#[test]
fn met_by_callers() {
    let refused = |bytes: usize, words: usize, why: Error| {
        let (sheet, mut marks) = (vec![5; bytes], vec![5; words]);
        for code in Code::ALL {
            let mended = Sheet::mend_marks(code, &sheet, &mut marks);
            assert_eq!(mended, Err(why), "{bytes} bytes, {words} words");
            assert!(marks.iter().all(|word| *word == 5));
            let opened = Sheet::from_kept(code, &sheet, &marks);
            assert_eq!(opened.err(), Some(why), "{bytes} bytes, {words} words");
        }
    };
    for bytes in [1, 39, 41, 79, 40_959, 40_961, 41_000, 1 << 20] {
        refused(bytes, 11_000, Error::Sheet);
        refused(bytes, 0, Error::Sheet);
    }
    for (n, words) in [(0, 40), (3, 40), (4, 80), (1023, 10_240), (1024, 10_280)] {
        refused(40 * n, 0, Error::Marks);
        refused(40 * n, words - 1, Error::Marks);
        assert!(Sheet::from_kept(Code::Luffa384, &vec![5; 40 * n], &vec![5; words]).is_ok());
    }
}
