//! The program's check of itself. The values are typed in from Appendices B and C of the Luffa
//! specification 2.0.1; the other side of each comparison is the specification's second wording of
//! the same thing: the pseudo codes of 3.2 and 4.4, the equations of 4.2 and 4.3, and Appendices D
//! and E. For the sheet, values and formulas are document 01's. What document 02 says is checked in files
//! beside this one.

use crate::luffa::*;
use crate::sheet::{Record, Saved, Sheet, MARK_WORDS, MOST};
use crate::{
    check_back, check_batch, check_bits, check_brine, check_close_up, check_columns, check_mend,
    check_output, check_own, check_plan, check_reach, check_record,
};
use std::fmt::Debug;

/// The hash values of "abc" (Appendix C).
pub const ABC: [&[u32]; 4] = [
    &[
        0xf29311b8, 0x7e9e40de, 0x7699be23, 0xfbeb5a47, 0xcb16ea4f, 0x5556d47c, 0xa40c12ad,
    ],
    &[
        0xf29311b8, 0x7e9e40de, 0x7699be23, 0xfbeb5a47, 0xcb16ea4f, 0x5556d47c, 0xa40c12ad,
        0x764a73bd,
    ],
    &[
        0x9a7abb79, 0x7a840e2d, 0x423c34c9, 0x1f559f68, 0x09bdb291, 0x6fb2e9ef, 0xfec2fa0a,
        0x7a69881b, 0xe9872480, 0xc635d20d, 0x2fd6e95d, 0x046601a7,
    ],
    &[
        0xf4024597, 0x3e80d79d, 0x0f4b9b20, 0x2ddd4505, 0xb81b8830, 0x501bea31, 0x612b5817,
        0xaae38792, 0x1dcefd80, 0x8ca2c780, 0x20aff593, 0x45d6f91f, 0x0ee6b2ee, 0xe113f0cb,
        0xcf22b643, 0x81387e8a,
    ],
];

/// The step constants c_{j,0} and c_{j,4} as printed (Appendix B-2 to B-4), r = 0 to 7. They are
/// kept in 64 bits because one of them has nine digits.
const PRINTED: [[[u64; 2]; 8]; 5] = [
    [
        [0x303994a6, 0xe0337818],
        [0xc0e65299, 0x441ba90d],
        [0x6cc33a12, 0x7f34d442],
        [0xdc56983e, 0x9389217f],
        [0x1e00108f, 0xe5a8bce6],
        [0x7800423d, 0x5274baf4],
        [0x8f5b7882, 0x26889ba7],
        [0x96e1db12, 0x9a226e9d],
    ],
    [
        [0xb6de10ed, 0x01685f3d],
        [0x70f47aae, 0x05a17cf4],
        [0x0707a3d4, 0xbd09caca],
        [0x1c1e8f51, 0xf4272b28],
        [0x707a3d45, 0x144ae5cc],
        [0xaeb28562, 0xffaa7ae2b],
        [0xbaca1589, 0x2e48f1c1],
        [0x40a46f3e, 0xb923c704],
    ],
    [
        [0xfc20d9d2, 0xe25e72c1],
        [0x34552e25, 0xe623bb72],
        [0x7ad8818f, 0x5c58a4a4],
        [0x8438764a, 0x1e38e2e7],
        [0xbb6de032, 0x78e38b9d],
        [0xedb780c8, 0x27586719],
        [0xd9847356, 0x36eda57f],
        [0xa2c78434, 0x703aace7],
    ],
    [
        [0xb213afa5, 0xe028c9bf],
        [0xc84ebe95, 0x44756f91],
        [0x4e608a22, 0x7e8fce32],
        [0x56d858fe, 0x956548be],
        [0x343b138f, 0xfe191be2],
        [0xd0ec4e3d, 0x3cb226e5],
        [0x2ceb4882, 0x5944a28e],
        [0xb3ad2208, 0xa1c4c355],
    ],
    [
        [0xf0d2e9e3, 0x5090d577],
        [0xac11d7fa, 0x2d1925ab],
        [0x1bcb66f2, 0xb46496ac],
        [0x6f2d9bc9, 0xd1925ab0],
        [0x78602649, 0x29131ab6],
        [0x8edae952, 0x0fc053c3],
        [0x3b6ba548, 0x3f014f0c],
        [0xedae9520, 0xfc053c31],
    ],
];

/// The place (j, r, word / 4) of the misprint, and the constant that the generator gives there.
const MISPRINT: (usize, usize, usize) = (1, 5, 1);
const CORRECTED: u64 = 0xfaa7ae2b;

pub type Words = [u32; 8];

/// Collects what differs.
pub struct Report(Vec<String>);

impl Report {
    pub fn same<T: PartialEq + Debug>(&mut self, what: impl FnOnce() -> String, got: T, wanted: T) {
        if got != wanted {
            self.0
                .push(format!("{}: {got:x?}, wanted {wanted:x?}", what()));
        }
    }
}

/// Numbers to try things on, the same in every run (xorshift).
pub struct Numbers(u64);

impl Numbers {
    pub fn next(&mut self) -> u32 {
        self.0 ^= self.0 << 13;
        self.0 ^= self.0 >> 7;
        self.0 ^= self.0 << 17;
        (self.0 >> 32) as u32
    }

    fn block(&mut self) -> Words {
        [(); 8].map(|_| self.next())
    }
}

/// Every difference found; none means that the check is passed.
pub fn differences() -> Vec<String> {
    let mut report = Report(Vec::new());
    let numbers = &mut Numbers(0x0123_4567_89ab_cdef);
    test_vectors(&mut report);
    constants(&mut report);
    sbox(&mut report);
    mixing(&mut report, numbers);
    injection(&mut report, numbers);
    padding(&mut report, numbers);
    feeding(&mut report, numbers);
    final_words(&mut report, numbers);
    sheet_examples(&mut report, numbers);
    sheet_rounds(&mut report, numbers);
    sheet_marks(&mut report, numbers);
    sheet_saves(&mut report, numbers);
    check_bits::differences(&mut report, numbers);
    check_output::differences(&mut report, numbers);
    check_plan::differences(&mut report);
    check_brine::differences(&mut report);
    check_reach::differences(&mut report, numbers);
    check_mend::differences(&mut report, numbers);
    check_batch::differences(&mut report, numbers);
    check_own::differences(&mut report, numbers);
    check_close_up::differences(&mut report, numbers);
    check_record::differences(&mut report, numbers);
    check_back::differences(&mut report, numbers);
    check_columns::differences(&mut report, numbers);
    report.0
}

fn test_vectors(report: &mut Report) {
    for (code, wanted) in (1..).zip(ABC) {
        report.same(
            || format!("abc at code {code}"),
            &digest(code, b"abc")[..],
            wanted,
        );
    }
}

/// The equations of 4.4 against its pseudo code, and both against the printed tables.
fn constants(report: &mut Report) {
    for j in 0..5 {
        let [mut tl, mut tr] = INITIAL[j];
        for (r, got) in step_constants(j).iter().enumerate() {
            for k in 0..2 {
                let c = tl >> 31;
                tl = tl << 1 | tr >> 31;
                tr <<= 1;
                if c == 1 {
                    tl ^= 0xc4d6496c;
                    tr ^= 0x55c61c8d;
                }
                std::mem::swap(&mut tl, &mut tr);
                let place = || format!("constant of block {j}, step {r}, word {}", 4 * k);
                report.same(|| place() + " against the pseudo code", got[k], tr);
                let printed = PRINTED[j][r][k];
                let wanted = if (j, r, k) == MISPRINT {
                    CORRECTED
                } else {
                    printed
                };
                report.same(|| place() + " against the table", got[k] as u64, wanted);
            }
        }
    }
}

/// Appendix D's instructions, left to right and line by line.
pub fn appendix_d([mut r0, mut r1, mut r2, mut r3]: [u32; 4]) -> [u32; 4] {
    let mut r4 = r0;
    r0 |= r1;
    r2 ^= r3;
    r1 = !r1;
    r0 ^= r3;
    r3 &= r4;
    r1 ^= r3;
    r3 ^= r2;
    r2 &= r0;
    r0 = !r0;
    r2 ^= r1;
    r1 |= r3;
    r4 ^= r1;
    r3 ^= r2;
    r2 &= r1;
    r1 ^= r0;
    [r4, r1, r2, r3]
}

/// The table for whole columns against the equations of 4.2, bit by bit, and against Appendix D.
fn sbox(report: &mut Report) {
    report.same(|| "S(0)".into(), S[0], 13);
    report.same(|| "S(15)".into(), S[15], 4);
    let table = &Tables::get().sub_crumb;
    for a in 0..=255u8 {
        let x = table[a as usize];
        // The named bits, first named highest, as || joins them.
        let join = |v: u8, bits: [u8; 4]| bits.iter().fold(0, |n, k| n << 1 | v >> k & 1);
        for bits in [[3, 2, 1, 0], [4, 7, 6, 5]] {
            let wanted = S[join(a, bits) as usize];
            report.same(
                || format!("S in bits {bits:?} of column {a}"),
                join(x, bits),
                wanted,
            );
        }
    }
    for eighth in 0..8 {
        // Four numbers of eight columns each: 32 of the 256 columns there are.
        let a = [0, 1, 2, 3]
            .map(|i| u64::from_le_bytes([0, 1, 2, 3, 4, 5, 6, 7].map(|l| 32 * eighth + 8 * i + l)));
        let [a0, a1, a2, a3, a4, a5, a6, a7] = words(&a);
        let [x0, x1, x2, x3] = appendix_d([a0, a1, a2, a3]);
        let [x5, x6, x7, x4] = appendix_d([a5, a6, a7, a4]);
        let wanted = [x0, x1, x2, x3, x4, x5, x6, x7];
        report.same(
            || format!("SubCrumb from column {} on against Appendix D", 32 * eighth),
            words(&each_column(table, &a)),
            wanted,
        );
    }
}

/// MixWord's equations (4.3) on one pair of words.
pub fn mix_pair(x_k: u32, x_k4: u32) -> [u32; 2] {
    let mut y_k4 = x_k4 ^ x_k;
    let mut y_k = x_k.rotate_left(2);
    y_k ^= y_k4;
    y_k4 = y_k4.rotate_left(14);
    y_k4 ^= y_k;
    y_k = y_k.rotate_left(10);
    y_k ^= y_k4;
    y_k4 = y_k4.rotate_left(1);
    [y_k, y_k4]
}

/// MixWord and the tweak on columns against the same on words.
fn mixing(report: &mut Report, numbers: &mut Numbers) {
    let t = Tables::get();
    report.same(
        || "MixWord of (1, 0)".into(),
        mix_pair(1, 0),
        [0x00005405, 0x0000800a],
    );
    for _ in 0..100 {
        let x = numbers.block();
        let mut wanted = x;
        for k in 0..4 {
            let [y_k, y_k4] = mix_pair(x[k], x[k + 4]);
            wanted[k] = y_k;
            wanted[k + 4] = y_k4;
        }
        let got = words(&mix_word(&t.columns(&x)));
        report.same(|| format!("MixWord of {x:x?}"), got, wanted);
        for j in 0..5 {
            let mut wanted = x;
            wanted[4..]
                .iter_mut()
                .for_each(|b| *b = b.rotate_left(j as u32));
            let got = words(&tweak(&t.columns(&x), j));
            report.same(|| format!("tweak {j} of {x:x?}"), got, wanted);
        }
    }
}

/// Multiplication by 0x02, the pseudo code of 3.2.
fn double(mut a: Words) -> Words {
    let tmp = a[7];
    a[7] = a[6];
    a[6] = a[5];
    a[5] = a[4];
    a[4] = a[3] ^ tmp;
    a[3] = a[2] ^ tmp;
    a[2] = a[1];
    a[1] = a[0] ^ tmp;
    a[0] = tmp;
    a
}

fn sum(mut a: Words, b: Words) -> Words {
    a.iter_mut().zip(b).for_each(|(a, b)| *a ^= b);
    a
}

/// The forms of MI in Appendix E.
pub fn appendix_e(h: &[Words], m: Words) -> Vec<Words> {
    let w = h.len();
    let doubled = double(h.iter().fold([0; 8], |a, &h_j| sum(a, h_j)));
    // eta for w = 4 and 5; for w = 3 this is already the part that comes from H.
    let mut x: Vec<Words> = h.iter().map(|&h_j| sum(h_j, doubled)).collect();
    if w == 5 {
        x = (0..w).map(|j| sum(double(x[j]), x[(j + 1) % w])).collect();
    }
    if w >= 4 {
        x = (0..w)
            .map(|j| sum(double(x[j]), x[(j + w - 1) % w]))
            .collect();
    }
    let mut m = m;
    for x_j in &mut x {
        *x_j = sum(*x_j, m);
        m = double(m);
    }
    x
}

/// Products against the pseudo code of doubling, and the matrices against Appendix E.
fn injection(report: &mut Report, numbers: &mut Numbers) {
    let t = Tables::get();
    report.same(
        || "doubling (0,0,0,0,0,0,0,1)".into(),
        double([0, 0, 0, 0, 0, 0, 0, 1]),
        [1, 1, 0, 1, 1, 0, 0, 0],
    );
    for _ in 0..100 {
        let a = numbers.block();
        let got = words(&each_column(&t.product[2], &t.columns(&a)));
        report.same(|| format!("2 times {a:x?}"), got, double(a));
        for w in 3..=5 {
            let h: Vec<Words> = (0..w).map(|_| numbers.block()).collect();
            let m = numbers.block();
            let mut x: Vec<Block> = h.iter().map(|h_j| t.columns(h_j)).collect();
            t.inject(&mut x, &t.columns(&m));
            let got: Vec<Words> = x.iter().map(words).collect();
            report.same(
                || format!("MI at w = {w} against Appendix E"),
                got,
                appendix_e(&h, m),
            );
        }
    }
}

pub fn message(numbers: &mut Numbers, length: usize) -> Vec<u8> {
    (0..length).map(|_| numbers.next() as u8).collect()
}

pub fn fed<'a>(w: usize, pieces: impl IntoIterator<Item = &'a [u8]>) -> Luffa {
    let mut hash = Luffa::new(w);
    pieces.into_iter().for_each(|piece| hash.update(piece));
    hash
}

/// Padding against 3.1's count of zeros: the padded message is fed as it is.
fn padding(report: &mut Report, numbers: &mut Numbers) {
    for length in 0..=200 {
        let message = message(numbers, length);
        let zeros = (0..).find(|k| (8 * length + 1 + k) % 256 == 0).unwrap();
        let mut padded = message.clone();
        padded.push(0x80);
        padded.resize(length + (1 + zeros) / 8, 0);
        report.same(
            || format!("blocks of {length} bytes"),
            padded.len(),
            32 * (length / 32 + 1),
        );
        for w in 3..=5 {
            let got = fed(w, [&message[..]]).finish(16);
            let wanted = fed(w, [&padded[..]]).final_stage(16);
            report.same(
                || format!("padding of {length} bytes at w = {w}"),
                got,
                wanted,
            );
        }
    }
}

/// One call against feeding in pieces.
fn feeding(report: &mut Report, numbers: &mut Numbers) {
    for length in 0..=200 {
        let message = message(numbers, length);
        for (code, (w, count)) in (1..).zip(CODES) {
            let what = |how: String| format!("{length} bytes at code {code} fed {how}");
            let wanted = digest(code, &message);
            let bytewise = fed(w, message.chunks(1));
            report.same(
                || what("by bytes".into()),
                &bytewise.finish(count).0,
                &wanted,
            );
            for cut in 0..=length {
                let (before, after) = message.split_at(cut);
                let got = fed(w, [before, after]).finish(count).0;
                report.same(|| what(format!("with a cut at {cut}")), &got, &wanted);
            }
        }
    }
    let long = message(numbers, 100_003);
    for (code, (w, count)) in (1..).zip(CODES) {
        let wanted = digest(code, &long);
        for size in [1, 7, 31, 32, 33, 64, 1000, 4096, 65_537] {
            let mut hash = Luffa::new(w);
            for piece in long.chunks(size) {
                hash.update(piece);
                hash.update(&[]);
            }
            // Finishing leaves the hash as it was, so a second time gives the same.
            let first = hash.finish(count).0;
            let what = || format!("a long message at code {code} in pieces of {size}");
            report.same(what, (&first, &hash.finish(count).0), (&wanted, &wanted));
        }
    }
}

/// Fewer words of the final stage begin more of them, and eight words cost one blank round.
fn final_words(report: &mut Report, numbers: &mut Numbers) {
    let message = message(numbers, 77);
    for w in 3..=5 {
        let hash = fed(w, [&message[..]]);
        let (most, _) = hash.finish(100);
        for count in 1..=100 {
            let (some, blank_rounds) = hash.finish(count);
            let what = || format!("{count} words at w = {w}");
            report.same(what, &some[..], &most[..count]);
            report.same(
                || what() + ", blank rounds",
                blank_rounds,
                (count as u64).div_ceil(8),
            );
        }
    }
}

pub fn record(numbers: &mut Numbers) -> Record {
    [(); 40].map(|_| numbers.next() as u8)
}

pub fn sheet(numbers: &mut Numbers, code: usize, n: usize) -> Sheet {
    let records = (0..n).map(|_| record(numbers)).collect();
    Sheet { code, records }
}

/// The rounds of document 01's examples, and its refused place.
fn sheet_examples(report: &mut Report, numbers: &mut Numbers) {
    let number = |saved| match saved {
        Saved::Done(rounds) => rounds,
        refused => panic!("{refused:?}"),
    };
    for (code, n, wanted) in [(2, 0, 2), (2, 1, 3), (2, 4, 7), (4, MOST, 1283)] {
        let got = sheet(numbers, code, n).build();
        report.same(|| format!("build of {n} at code {code}"), got, wanted);
    }
    for (code, n, place, wanted) in [
        (2, 5, 4, 6),
        (2, 5, 0, 11),
        (4, MOST, 0, 1286),
        (4, MOST, 1023, 11),
    ] {
        let mut held = sheet(numbers, code, n);
        let claim = held.digest();
        let got = number(held.change(place, record(numbers), &claim));
        report.same(|| format!("change at {place} of {n}"), got, wanted);
    }
    let mut held = sheet(numbers, 2, 5);
    let claim = held.digest();
    let got = held.change(5, record(numbers), &claim);
    report.same(|| "change at 5 of 5".into(), got, Saved::NoPlace);

    let mut held = sheet(numbers, 2, 3);
    let claim = held.digest();
    let got = number(held.append(record(numbers), &claim));
    report.same(|| "append at 3".into(), (got, held.marks().len()), (12, 2));
    let claim = held.digest();
    let got = number(held.drop(&claim));
    report.same(|| "drop at 4".into(), (got, held.marks().len()), (7, 1));
}

/// The rounds counted, against document 01's formulas.
fn sheet_rounds(report: &mut Report, numbers: &mut Numbers) {
    let blocks = |n: usize| (40 * n / 32 + 1) as u64;
    let before = |place: usize| 5 * (place / 4) as u64;
    for (code, f) in [(1, 1), (2, 1), (3, 2), (4, 2)] {
        for n in 0..=25 {
            let held = sheet(numbers, code, n);
            let claim = held.digest();
            let check = (n % 4) as u64 + 1 + f;
            let mut same = |what: &str, got, wanted| {
                report.same(|| format!("{what}, {n} records, code {code}"), got, wanted)
            };
            same(
                "build",
                Saved::Done(held.build()),
                Saved::Done(blocks(n) + f),
            );
            for place in 0..n {
                let got = held.clone().change(place, record(numbers), &claim);
                let wanted = Saved::Done(check + blocks(n) - before(place) + f);
                same("change", got, wanted);
            }
            let got = held.clone().append(record(numbers), &claim);
            let wanted = Saved::Done(check + blocks(n + 1) - before(n) + f);
            same("append", got, wanted);
            let wanted = match n.checked_sub(1) {
                Some(fewer) => Saved::Done(check + blocks(fewer) - before(fewer) + f),
                None => Saved::NoPlace,
            };
            same("drop", held.clone().drop(&claim), wanted);
            let mut wrong = claim;
            wrong[n] ^= 1;
            same(
                "stale append",
                held.clone().append([0; 40], &wrong),
                Saved::Stale(check),
            );
        }
    }
}

/// Marks noted on the way are those worked out one by one, and from the words of each the rest of
/// the sheet gives the digest of the whole; words of unused blocks don't matter.
fn sheet_marks(report: &mut Report, numbers: &mut Numbers) {
    for (code, (w, count)) in (1..).zip(CODES) {
        for n in 0..=25 {
            let held = sheet(numbers, code, n);
            let what = |m| format!("mark {m} of {n} records at code {code}");
            let marks = held.marks();
            report.same(|| what(n / 4) + ", the last", marks.len(), n / 4 + 1);
            for (m, &mark) in marks.iter().enumerate() {
                report.same(|| what(m), held.mark(m), mark);
                let mut found = mark;
                for word in &mut found[8 * w..MARK_WORDS] {
                    report.same(|| what(m) + ", unused", *word, 0);
                    *word = numbers.next();
                }
                let mut hash = Luffa::at(w, &found);
                hash.update(held.records[4 * m..].as_flattened());
                let got: Vec<u8> = hash
                    .finish(count)
                    .0
                    .iter()
                    .flat_map(|z| z.to_be_bytes())
                    .collect();
                report.same(|| what(m) + " fed on", got, held.digest());
            }
        }
    }
}

/// Two planners with the same digest: the second to save is stale, until the first has changed back
/// what it changed. An append is undone by a drop, and a full sheet takes no more.
fn sheet_saves(report: &mut Report, numbers: &mut Numbers) {
    for code in 1..=4 {
        let mut held = sheet(numbers, code, 6);
        let (old, opened) = (held.records[2], held.digest());
        let done = |saved| matches!(saved, Saved::Done(_));
        let stale = |saved| matches!(saved, Saved::Stale(_));
        let first = done(held.change(2, record(numbers), &opened));
        let now = held.digest();
        let second = stale(held.clone().drop(&opened)) && stale(held.clone().append(old, &opened));
        let back = done(held.change(2, old, &now));
        let again = done(held.append(old, &opened));
        let longer = held.digest();
        let undone = done(held.drop(&longer)) && held.digest() == opened;
        report.same(
            || format!("two planners at code {code}"),
            [first, second, back, again, undone],
            [true; 5],
        );
    }
    let mut full = sheet(numbers, 3, MOST);
    let claim = full.digest();
    report.same(
        || "append at 1,024".into(),
        full.append([0; 40], &claim),
        Saved::Full,
    );
}
