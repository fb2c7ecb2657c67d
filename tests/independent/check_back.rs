//! The check of the step back: each part of it both ways round, whole rounds against the specification's second wording
//! of a round on words, records taken back and fed again and the other way, blocks that weren't fed, and counts and
//! refusals worked out by hand.

use crate::back::{
    back, injection_back, mix_matrix, product, refusals, unmix_matrix, Inverses, BLOCK_BYTES,
};
use crate::bits::bits_of;
use crate::check::{appendix_d, appendix_e, message, mix_pair, Numbers, Report, Words};
use crate::check_record::any_kept;
use crate::luffa::*;
use crate::record::Kept;

pub fn differences(report: &mut Report, numbers: &mut Numbers) {
    matrices(report);
    tables(report);
    mixing(report, numbers);
    permutations(report, numbers);
    rounds(report, numbers);
    there_and_back(report, numbers);
    other_blocks(report, numbers);
    to_the_start(report, numbers);
    counts(report, numbers);
    judged(report, numbers);
}

/// The matrix times its inverse and the inverse times the matrix, element by element; what M adds is taken off.
fn matrices(report: &mut Report) {
    for w in 3..=5 {
        let inverse = injection_back(w);
        let forth: Vec<&[u8]> = matrix(w).to_vec();
        let back: Vec<&[u8]> = inverse.iter().map(Vec::as_slice).collect();
        let sum = |row: &[u8], of: &[&[u8]], k: usize| {
            let terms = row.iter().zip(of);
            terms.fold(0, |sum, (&a, b)| sum ^ multiply(a, b[k]))
        };
        for (j, k) in (0..w).flat_map(|j| (0..=w).map(move |k| (j, k))) {
            // In the last column stands what M gives, which the two must give alike.
            let wanted = if k == w {
                [forth[j][w], back[j][w]]
            } else {
                [u8::from(j == k); 2]
            };
            let got = [sum(&forth[j][..w], &back, k), sum(&back[j][..w], &forth, k)];
            let what = || format!("row {j}, column {k} of MI and its inverse at w = {w}");
            report.same(what, got, wanted);
        }
    }
}

/// Each column through SubCrumb and back, and back and through it.
fn tables(report: &mut Report) {
    let (forth, back) = (&Tables::get().sub_crumb, &Inverses::get().sub_crumb);
    for a in 0..=255u8 {
        let got = [
            back[forth[a as usize] as usize],
            forth[back[a as usize] as usize],
        ];
        report.same(|| format!("column {a} there and back"), got, [a; 2]);
    }
    // Document 01's S(0) = 13 and S(15) = 4, read back in words 0 to 3.
    let got = [13, 4].map(|x| back[x] & 15);
    report.same(|| "13 and 4 back".into(), got, [0, 15]);
}

/// The lines of 4.3 on one pair of words, undone from the last to the first.
fn unmix_pair(mut y_k: u32, mut y_k4: u32) -> [u32; 2] {
    y_k4 = y_k4.rotate_right(1);
    y_k ^= y_k4;
    y_k = y_k.rotate_right(10);
    y_k4 ^= y_k;
    y_k4 = y_k4.rotate_right(14);
    y_k ^= y_k4;
    y_k = y_k.rotate_right(2);
    [y_k, y_k4 ^ y_k]
}

/// MixWord's matrix against its lines, times its inverse and the other way round; and on columns the inverse against
/// the lines undone.
fn mixing(report: &mut Report, numbers: &mut Numbers) {
    let (m, n) = (mix_matrix(), unmix_matrix());
    let times = |m: [[u32; 2]; 2], n: [[u32; 2]; 2]| {
        m.map(|[a, b]| [0, 1].map(|k| product(a, n[0][k]) ^ product(b, n[1][k])))
    };
    let one = [[1, 0], [0, 1]];
    report.same(|| "MixWord undone".into(), times(m, n), one);
    report.same(|| "MixWord after its inverse".into(), times(n, m), one);
    report.same(
        || "MixWord of (1, 0) by its matrix".into(),
        m.map(|row| row[0]),
        [0x00005405, 0x0000800a],
    );
    let (t, inverses) = (Tables::get(), Inverses::get());
    for k in 0..356 {
        // Every single bit, and then any words.
        let y: Words = match k {
            0..256 => std::array::from_fn(|i| if i == k / 32 { 1 << (k % 32) } else { 0 }),
            _ => [(); 8].map(|_| numbers.next()),
        };
        let mut wanted = y;
        for k in 0..4 {
            [wanted[k], wanted[k + 4]] = unmix_pair(y[k], y[k + 4]);
        }
        let columns = t.columns(&y);
        let x = inverses.unmix_word(&columns);
        report.same(|| format!("MixWord undone from {y:x?}"), words(&x), wanted);
        let both = [mix_word(&x), inverses.unmix_word(&mix_word(&columns))];
        report.same(
            || format!("MixWord on {y:x?}, both ways"),
            both,
            [columns; 2],
        );
    }
}

/// Q_j on words: Appendix D, the equations of 4.3 and the words of the generator.
fn permute_words(mut a: Words, j: usize) -> Words {
    a[4..].iter_mut().for_each(|b| *b = b.rotate_left(j as u32));
    for [c_0, c_4] in step_constants(j) {
        let [a0, a1, a2, a3, a4, a5, a6, a7] = a;
        let [x0, x1, x2, x3] = appendix_d([a0, a1, a2, a3]);
        let [x5, x6, x7, x4] = appendix_d([a5, a6, a7, a4]);
        a = [x0, x1, x2, x3, x4, x5, x6, x7];
        for k in 0..4 {
            [a[k], a[k + 4]] = mix_pair(a[k], a[k + 4]);
        }
        a[0] ^= c_0;
        a[4] ^= c_4;
    }
    a
}

/// The inverse of Q_j before and after it, on words and on columns.
fn permutations(report: &mut Report, numbers: &mut Numbers) {
    let (t, inverses) = (Tables::get(), Inverses::get());
    for (j, _) in (0..5).flat_map(|j| (0..50).map(move |k| (j, k))) {
        let a = [(); 8].map(|_| numbers.next());
        let columns = t.columns(&a);
        let before = inverses.unpermute(&columns, j);
        let got = [
            permute_words(words(&before), j),
            words(&inverses.unpermute(&t.columns(&permute_words(a, j)), j)),
            words(&t.permute(&before, j)),
        ];
        report.same(|| format!("Q_{j} on {a:x?}, both ways"), got, [a; 3]);
    }
}

/// A round on words: Appendix E, and then each Q_j.
fn round_words(h: &[Words], m: Words) -> Vec<Words> {
    let x = appendix_e(h, m).into_iter().enumerate();
    x.map(|(j, x_j)| permute_words(x_j, j)).collect()
}

/// The injection and the round undone before and after those on words.
fn rounds(report: &mut Report, numbers: &mut Numbers) {
    let (t, inverses) = (Tables::get(), Inverses::get());
    for (w, _) in (3..=5).flat_map(|w| (0..50).map(move |k| (w, k))) {
        let m = [(); 8].map(|_| numbers.next());
        let h: Vec<Words> = (0..w).map(|_| [(); 8].map(|_| numbers.next())).collect();
        let undone = |h: &[Words], by: fn(&Inverses, &mut [Block], &Block)| -> Vec<Words> {
            let mut x: Vec<Block> = h.iter().map(|h_j| t.columns(h_j)).collect();
            by(inverses, &mut x, &t.columns(&m));
            x.iter().map(words).collect()
        };
        let got = [
            appendix_e(&undone(&h, Inverses::eject), m),
            undone(&appendix_e(&h, m), Inverses::eject),
            round_words(&undone(&h, Inverses::unround), m),
            undone(&round_words(&h, m), Inverses::unround),
        ];
        let what = || format!("MI and the round at w = {w}, both ways");
        report.same(what, got.each_ref(), [&h; 4]);
    }
}

/// The record with one block more.
fn forward(record: &[u8], block: &[u8]) -> Vec<u8> {
    let kept = Kept::read(record).expect("a well-formed record");
    kept.feed(bits_of(block)).write()
}

/// The most whole blocks at a code, in bytes.
fn most(code: usize) -> u128 {
    [
        (1 << 61) - 32,
        (1 << 61) - 32,
        (1 << 125) - 32,
        (1 << 125) - 32,
    ][code - 1]
}

/// Any record of whole blocks, taken back and fed again; and where there is room for a block, the other way.
fn there_and_back(report: &mut Report, numbers: &mut Numbers) {
    for code in 1..=CODES.len() {
        for count in [32, 64, 96, 1 << 32, most(code) - 32, most(code)] {
            for block in [vec![0; 32], vec![0xff; 32], message(numbers, BLOCK_BYTES)] {
                let record = any_kept(numbers, code, count, 0).write();
                let what = |what: &str| format!("{count} bytes at code {code}, {what}");
                let before = back(&record, &block).map(|before| forward(&before, &block));
                report.same(|| what("back and forward"), before.as_ref(), Ok(&record));
                if count < most(code) {
                    let after = back(&forward(&record, &block), &block);
                    report.same(|| what("forward and back"), after.as_ref(), Ok(&record));
                }
            }
        }
        // From a count of 0 no call leads back, but one leads to it.
        let record = any_kept(numbers, code, 0, 0).write();
        let block = message(numbers, BLOCK_BYTES);
        report.same(|| "from no block".into(), back(&record, &block), Err(18));
        let after = back(&forward(&record, &block), &block);
        report.same(|| "to no block".into(), after.as_ref(), Ok(&record));
    }
}

/// A block that differs from the one fed in any one bit, or in any, leads to another record than the earlier one; and
/// forward from there it leads to the record again.
fn other_blocks(report: &mut Report, numbers: &mut Numbers) {
    for (code, (w, _)) in (1..).zip(CODES) {
        let earlier = any_kept(numbers, code, 64, 0).write();
        let block = message(numbers, BLOCK_BYTES);
        let record = forward(&earlier, &block);
        for bit in 0..=256 {
            let mut other = block.clone();
            match bit {
                256 => other = message(numbers, BLOCK_BYTES),
                _ => other[bit / 8] ^= 0x80 >> (bit % 8),
            }
            let got = back(&record, &other).expect("a record of whole blocks");
            let what = |what: &str| format!("bit {bit} other than fed at code {code}, {what}");
            report.same(|| what("earlier"), got == earlier, false);
            report.same(|| what("forward"), forward(&got, &other) == record, true);
            // The matrix has no zero in M's column, neither forth nor back: every block of the state differs.
            let differs = |j: &usize| got[8 + 32 * j..][..32] != earlier[8 + 32 * j..][..32];
            report.same(|| what("blocks"), (0..w).filter(differs).count(), w);
            let outside = |record: &[u8]| [&record[..8], &record[8 + 32 * w..]].concat();
            report.same(|| what("the rest"), outside(&got), outside(&earlier));
        }
    }
}

/// The blocks of a message, taken back from the last: each record is that of the blocks before it, and the first is the
/// start. With another block in the place of the last one it is as if that had been fed.
fn to_the_start(report: &mut Report, numbers: &mut Numbers) {
    let bytes = message(numbers, 10 * BLOCK_BYTES);
    let (blocks, _) = bytes.as_chunks::<BLOCK_BYTES>();
    for code in 1..=CODES.len() {
        let fed = |bytes: &[u8]| Kept::start(code).feed(bits_of(bytes)).write();
        let mut record = fed(&bytes);
        for n in (0..blocks.len()).rev() {
            record = back(&record, &blocks[n]).expect("a record of whole blocks");
            let what = |what: &str| format!("{n} blocks left at code {code}{what}");
            report.same(|| what(""), &record, &fed(blocks[..n].as_flattened()));
            let again = message(numbers, BLOCK_BYTES);
            let sent = [blocks[..n].as_flattened(), &again].concat();
            report.same(|| what(", one more"), forward(&record, &again), fed(&sent));
        }
        report.same(|| "the start".into(), record, Kept::start(code).write());
    }
}

/// Counts before and after, by hand, as the record has them.
fn counts(report: &mut Report, numbers: &mut Numbers) {
    let narrow: [(&[u8], &[u8]); 6] = [
        (&[32], &[0]),
        (&[64], &[32]),
        (&[1, 0], &[0, 224]),
        (&[1, 0, 0, 0, 0], &[0, 255, 255, 255, 224]),
        (&[1, 0, 0, 0, 32], &[1, 0, 0, 0, 0]),
        (
            &[31, 255, 255, 255, 255, 255, 255, 224],
            &[31, 255, 255, 255, 255, 255, 255, 192],
        ),
    ];
    let wide: [(&[u8], &[u8]); 5] = [
        (
            &[1, 0, 0, 0, 0, 0, 0, 0, 0],
            &[0, 255, 255, 255, 255, 255, 255, 255, 224],
        ),
        (&[1, 0, 0, 0, 0, 0, 0, 0, 32], &[1, 0, 0, 0, 0, 0, 0, 0, 0]),
        (
            &[1, 0, 0, 0, 0, 0, 0, 0, 0, 0],
            &[0, 255, 255, 255, 255, 255, 255, 255, 255, 224],
        ),
        (
            &[32, 0, 0, 0, 0, 0, 0, 0],
            &[31, 255, 255, 255, 255, 255, 255, 224],
        ),
        (
            &[16, 0, 0, 0, 0, 0, 0, 0, 0, 0, 0, 0, 0, 0, 0, 0],
            &[
                15, 255, 255, 255, 255, 255, 255, 255, 255, 255, 255, 255, 255, 255, 255, 224,
            ],
        ),
    ];
    for code in 1..=CODES.len() {
        let wide = if code > 2 { &wide[..] } else { &[] };
        for (was, is) in narrow.iter().chain(wide) {
            let mut record = any_kept(numbers, code, 32, 0).write();
            record[200..].fill(0);
            let mut after = record[200..].to_vec();
            record[216 - was.len()..].copy_from_slice(was);
            after[16 - is.len()..].copy_from_slice(is);
            let got = back(&record, &message(numbers, BLOCK_BYTES));
            let got = got.map(|record| record[200..].to_vec());
            report.same(|| format!("{was:?} at code {code} less 32"), got, Ok(after));
        }
    }
}

/// Each condition alone and beside others; and a refused call gives no record.
fn judged(report: &mut Report, numbers: &mut Numbers) {
    // Bytes fed, odd bits, the block's bytes, and whether a byte is set that must be zero.
    let cases: [(u128, usize, usize, bool, &[u64]); 30] = [
        (32, 0, 32, false, &[]),
        (64, 0, 32, false, &[]),
        (32, 0, 32, true, &[3]),
        (0, 0, 32, false, &[18]),
        (1, 0, 32, false, &[18]),
        (31, 0, 32, false, &[18]),
        (33, 0, 32, false, &[18]),
        (63, 0, 32, false, &[18]),
        (65, 0, 32, false, &[18]),
        (32, 1, 32, false, &[18]),
        (32, 7, 32, false, &[18]),
        (64, 4, 32, false, &[18]),
        (31, 7, 32, false, &[18]),
        (0, 1, 32, false, &[18]),
        (63, 7, 32, false, &[18]),
        (32, 0, 0, false, &[18]),
        (32, 0, 1, false, &[18]),
        (32, 0, 31, false, &[18]),
        (32, 0, 33, false, &[18]),
        (32, 0, 64, false, &[18]),
        (32, 0, 288, false, &[18]),
        (0, 0, 0, false, &[18]),
        (31, 3, 31, false, &[18]),
        (0, 0, 32, true, &[3]),
        (31, 0, 32, true, &[3]),
        (32, 5, 32, true, &[3]),
        (32, 0, 31, true, &[3, 18]),
        (32, 0, 33, true, &[3, 18]),
        (0, 0, 0, true, &[3, 18]),
        (31, 3, 0, true, &[3, 18]),
    ];
    for (code, case) in (1..=CODES.len()).flat_map(|code| cases.map(|case| (code, case))) {
        let (count, odd, block, spoilt, wanted) = case;
        let mut record = any_kept(numbers, code, count, odd).write();
        record[7] = spoilt.into();
        let block = message(numbers, block);
        let what = || format!("stepping back at code {code}, {case:?}");
        report.same(what, &refusals(&record, &block)[..], wanted);
        let got = back(&record, &block).err();
        report.same(|| what() + ", answered", got, wanted.first().copied());
    }
    // No record at all, and one with bytes behind it.
    for length in [0, 1, 208, 215, 217, 248] {
        let mut record = any_kept(numbers, 2, 32, 0).write();
        record.resize(length, 0);
        let got = [32, 31].map(|n| refusals(&record, &vec![0; n]));
        let what = || format!("stepping back from {length} bytes");
        report.same(what, got, [vec![3], vec![3, 18]]);
    }
}
