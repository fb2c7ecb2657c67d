//! Where each record stood, and stands: there and back, and what no record has.

use super::order::struck;
use crate::Code;
use crate::order::{MAX, WIDE};

#[test]
fn there_and_back() {
    for (n, step) in [(0, 1), (1, 1), (9, 2), (40, 50), (1024, 1), (1024, 7)] {
        let mut sheet = struck(Code::Luffa256, n, (0..n).step_by(step));
        let before = sheet.clone();
        let (_, moved) = sheet.close_up(&sheet.digest()).unwrap();
        assert!(moved.old_places().is_sorted_by(|one, next| one < next));
        assert_eq!(moved.old_places().count(), sheet.len());
        for (new, old) in moved.old_places().enumerate() {
            assert_eq!(moved.old_place(new), Some(old));
            assert_eq!(moved.new_place(old), Some(new));
            assert_eq!(sheet.record(new), before.record(old));
            // None of these is a place of a sheet.
            for far in [1 << 16, WIDE, 1 << 63] {
                assert_eq!(moved.old_place(new | far), None);
                assert_eq!(moved.new_place(old | far), None);
            }
        }
        for place in before.struck() {
            assert_eq!(moved.new_place(place), None);
        }
        for beyond in [n, n + 1, 1 << 16, MAX] {
            assert_eq!(moved.new_place(beyond), None);
            assert_eq!(moved.old_place(beyond), None);
        }
        assert_eq!(moved.old_place(sheet.len()), None);
    }
}

#[test]
fn as_values() {
    let closed = |places: &[usize]| {
        let mut sheet = struck(Code::Luffa512, 6, places.iter().copied());
        sheet.close_up(&sheet.digest()).unwrap().1
    };
    let moved = closed(&[0, 4]);
    assert_eq!(format!("{moved:?}"), "[1, 2, 3, 5]");
    assert_eq!(moved.clone(), moved);
    assert_ne!(moved, closed(&[0, 3]));
    assert_ne!(moved, closed(&[0, 4, 5]));
    let desk = std::thread::spawn(move || moved.new_place(5));
    assert_eq!(desk.join().unwrap(), Some(3));
}
