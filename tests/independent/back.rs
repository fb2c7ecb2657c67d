//! Document 02's step back over a block: the round of the Luffa specification 2.0.1 undone by columns. All that undoes
//! it is worked out at the start from what does it: the matrices of 3.2.1 to 3.2.3 are inverted by elimination over
//! the field, SubCrumb's table is read from its other side, MixWord is a matrix of polynomials and has its inverse by
//! the determinant, and the constants are the generator's, the last first.

use crate::bits::BLOCK;
use crate::luffa::{
    each_column, matrix, mix_word, multiply, rotate, tweak, words, xor, Block, Tables, LOW,
};
use crate::output::holding;
use crate::record::Kept;
use std::sync::OnceLock;

/// The bytes of a message block.
pub const BLOCK_BYTES: usize = BLOCK / 8;

/// The one element whose product with c is 1; c isn't 0.
fn reciprocal(c: u8) -> u8 {
    (1..=255).find(|&v| multiply(c, v) == 1).expect("a field")
}

/// The matrix that gives (H_0, ..., H_{w-1}) for (X_0, ..., X_{w-1}, M). A row first says that a sum of the H, by its
/// first w elements, is a sum of the X and M, by the others; it ends when each row has one H alone.
pub fn injection_back(w: usize) -> Vec<Vec<u8>> {
    let unit = |j| (0..w).map(move |k| u8::from(k == j));
    let row = |(j, row): (usize, &&[u8])| {
        let (h, m) = row.split_at(w);
        h.iter().copied().chain(unit(j)).chain([m[0]]).collect()
    };
    let mut rows: Vec<Vec<u8>> = matrix(w).iter().enumerate().map(row).collect();
    for k in 0..w {
        let found = (k..w).find(|&j| rows[j][k] != 0);
        rows.swap(k, found.expect("a matrix that can be inverted"));
        let one = reciprocal(rows[k][k]);
        rows[k].iter_mut().for_each(|c| *c = multiply(*c, one));
        let alone = rows[k].clone();
        for (_, row) in rows.iter_mut().enumerate().filter(|(j, _)| *j != k) {
            let times = row[k];
            for (c, a) in row.iter_mut().zip(&alone) {
                *c ^= multiply(*a, times);
            }
        }
    }
    rows.into_iter().map(|row| row[w..].to_vec()).collect()
}

/// The product of words as polynomials modulo t^32 + 1, bit l being the coefficient of t^l: t^n times a word is the
/// word rotated left by n.
pub fn product(p: u32, q: u32) -> u32 {
    let terms = (0..32).filter(|n| q >> n & 1 == 1);
    terms.fold(0, |sum, n| sum ^ p.rotate_left(n))
}

/// MixWord as the matrix that multiplies (x_k, x_{k+4}): all that 4.3 does is to rotate and to add.
pub fn mix_matrix() -> [[u32; 2]; 2] {
    // A column of the matrix is what becomes of a 1 in one of the two words.
    let [[a, c], [b, d]] = [0, 4].map(|k| {
        let mut x = [0; 8];
        x[k] = 1;
        let y = words(&mix_word(&Tables::get().columns(&x)));
        [y[0], y[4]]
    });
    [[a, b], [c, d]]
}

/// Its inverse: the sides of the diagonal exchanged, over the determinant. That is a power of t, as an addition has
/// the determinant 1 and a rotation a power of t; and no sign is ever asked for.
pub fn unmix_matrix() -> [[u32; 2]; 2] {
    let [[a, b], [c, d]] = mix_matrix();
    let determinant = product(a, d) ^ product(b, c);
    assert!(determinant.is_power_of_two(), "MixWord can't be undone");
    [[d, b], [c, a]].map(|row| row.map(|p| p.rotate_right(determinant.ilog2())))
}

/// Everything that is worked out once, at the start.
pub struct Inverses {
    /// For w = 3, 4 and 5: in the place of each coefficient of the matrix, its products.
    injection: [Vec<Vec<[u8; 256]>>; 3],
    pub sub_crumb: [u8; 256],
    /// In the place of each polynomial of the matrix, the exponents of its terms.
    mix_word: [[Vec<usize>; 2]; 2],
}

impl Inverses {
    pub fn get() -> &'static Inverses {
        static INVERSES: OnceLock<Inverses> = OnceLock::new();
        INVERSES.get_or_init(Inverses::new)
    }

    fn new() -> Inverses {
        let products = |c: u8| std::array::from_fn(|v| multiply(c, v as u8));
        let row = |row: Vec<u8>| row.into_iter().map(products).collect();
        let mut sub_crumb = [0; 256];
        for (a, &x) in (0..=255).zip(&Tables::get().sub_crumb) {
            sub_crumb[x as usize] = a;
        }
        let exponents = |p: u32| (0..32).filter(|n| p >> n & 1 == 1).collect();
        Inverses {
            injection: [3, 4, 5].map(|w| injection_back(w).into_iter().map(row).collect()),
            sub_crumb,
            mix_word: unmix_matrix().map(|row| row.map(exponents)),
        }
    }

    /// MI undone, with the same M.
    pub fn eject(&self, x: &mut [Block], m: &Block) {
        let mut h = [[0; 4]; 5];
        for (h_j, row) in h.iter_mut().zip(&self.injection[x.len() - 3]) {
            for (input, products) in x.iter().chain([m]).zip(row) {
                *h_j = xor(h_j, &each_column(products, input));
            }
        }
        x.copy_from_slice(&h[..x.len()]);
    }

    /// MixWord undone, on all four pairs of words at once: their nibbles are the two elements that are multiplied.
    pub fn unmix_word(&self, y: &Block) -> Block {
        let halves = [y.map(|c| c & LOW), y.map(|c| c >> 4 & LOW)];
        let [left, right] = self.mix_word.each_ref().map(|row| {
            let terms = halves.iter().zip(row);
            terms.fold([0; 4], |sum, (half, exponents)| {
                let terms = exponents.iter();
                terms.fold(sum, |sum, &n| xor(&sum, &rotate(half, n)))
            })
        });
        xor(&left, &right.map(|c| c << 4))
    }

    /// Q_j undone: the eight steps from the last to the first, and then the tweak. Words that were rotated by j are
    /// themselves again when they have been rotated by 32.
    pub fn unpermute(&self, a: &Block, j: usize) -> Block {
        let mut a = *a;
        for constant in Tables::get().constant[j].iter().rev() {
            let y = xor(&a, constant);
            let x = self.unmix_word(&y);
            a = each_column(&self.sub_crumb, &x);
        }
        tweak(&a, (32 - j) % 32)
    }

    /// The round function undone, with the same M.
    pub fn unround(&self, h: &mut [Block], m: &Block) {
        for (j, h_j) in h.iter_mut().enumerate() {
            *h_j = self.unpermute(h_j, j);
        }
        self.eject(h, m);
    }
}

/// The words of the state before the round with this message block.
fn state_before(state: &[u32], block: &[u8; BLOCK_BYTES]) -> Vec<u32> {
    let tables = Tables::get();
    let blocks = state.as_chunks().0.iter();
    let mut h: Vec<Block> = blocks.map(|words| tables.columns(words)).collect();
    Inverses::get().unround(&mut h, &tables.message_columns(block));
    h.iter().flat_map(words).collect()
}

/// Every refusal that holds, in the request's order. Of a record that isn't well formed nothing is asked further, of
/// the block its length. Pending bytes and odd bits are bits held after the last whole block.
pub fn refusals(record: &[u8], block: &[u8]) -> Vec<u64> {
    let kept = Kept::read(record);
    let no_block = |kept: &Kept| !kept.held.is_empty() || kept.bits < BLOCK as u128;
    holding([
        (3, kept.is_none()),
        (
            18,
            kept.as_ref().is_some_and(no_block) || block.len() != BLOCK_BYTES,
        ),
    ])
}

/// The record before this block was fed, or the number with which the call is refused.
pub fn back(record: &[u8], block: &[u8]) -> Result<Vec<u8>, u64> {
    if let Some(&number) = refusals(record, block).first() {
        return Err(number);
    }
    let kept = Kept::read(record).expect("a record that isn't refused");
    let block = block.try_into().expect("a block that isn't refused");
    let before = Kept {
        state: state_before(&kept.state, block),
        bits: kept.bits - BLOCK as u128,
        ..kept
    };
    Ok(before.write())
}
