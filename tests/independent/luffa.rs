//! Luffa with its state held by columns: bit l of a block's eight words is kept as one element of
//! GF(2^8). From the Luffa specification 2.0.1: sections 2.2, 3.1 to 3.3, 4.1 to 4.5 and 5,
//! Tables 2 and 3, and Appendices A and B-1.

use std::sync::OnceLock;

/// A block of 256 bits as 32 columns. Column l is a byte, the field element whose bit k is a_{k,l},
/// that is bit l of word k. Eight columns stand in each number, the first in its lowest byte, so
/// that a sum or a rotation of words reaches eight columns at a time.
pub type Block = [u64; 4];

/// For codes 1 to 4: w (Table 2) and the number of words in the hash value (Table 3).
pub const CODES: [(usize, usize); 4] = [(3, 7), (3, 8), (4, 12), (5, 16)];

/// Exponents of phi (3.2), the definition polynomial of the field.
pub const PHI: [u32; 5] = [8, 4, 3, 1, 0];

/// Exponents of g (4.4), the polynomial of the constant generator.
const G: [u32; 31] = [
    64, 63, 62, 58, 55, 54, 52, 50, 49, 46, 43, 40, 38, 37, 35, 34, 30, 28, 26, 24, 23, 22, 18, 17,
    12, 11, 10, 7, 3, 2, 0,
];

/// The matrices of 3.2.1 to 3.2.3: a row for each X_j, the last column for M.
const MI_3: [&[u8]; 3] = [&[3, 2, 2, 1], &[2, 3, 2, 2], &[2, 2, 3, 4]];
const MI_4: [&[u8]; 4] = [
    &[4, 6, 6, 7, 1],
    &[7, 4, 6, 6, 2],
    &[6, 7, 4, 6, 4],
    &[6, 6, 7, 4, 8],
];
const MI_5: [&[u8]; 5] = [
    &[0x0F, 0x08, 0x0A, 0x0A, 0x08, 0x01],
    &[0x08, 0x0F, 0x08, 0x0A, 0x0A, 0x02],
    &[0x0A, 0x08, 0x0F, 0x08, 0x0A, 0x04],
    &[0x0A, 0x0A, 0x08, 0x0F, 0x08, 0x08],
    &[0x08, 0x0A, 0x0A, 0x08, 0x0F, 0x10],
];

/// That of w blocks.
pub fn matrix(w: usize) -> &'static [&'static [u8]] {
    match w {
        3 => &MI_3,
        4 => &MI_4,
        _ => &MI_5,
    }
}

/// One more than the largest coefficient in the matrices.
const COEFFICIENTS: usize = 0x11;

/// The Sbox (4.2).
pub const S: [u8; 16] = [13, 14, 0, 1, 5, 10, 7, 6, 11, 3, 9, 12, 15, 8, 2, 4];

/// sigma_1 to sigma_4 (4.3).
const SIGMA: [usize; 4] = [2, 14, 10, 1];

/// Starting variables V_j (Appendix A).
pub const V: [[u32; 8]; 5] = [
    [
        0x6d251e69, 0x44b051e0, 0x4eaa6fb4, 0xdbf78465, //
        0x6e292011, 0x90152df4, 0xee058139, 0xdef610bb,
    ],
    [
        0xc3b44b95, 0xd9d2f256, 0x70eee9a0, 0xde099fa3, //
        0x5d9b0557, 0x8fc944b3, 0xcf1ccf0e, 0x746cd581,
    ],
    [
        0xf7efc89d, 0x5dba5781, 0x04016ce5, 0xad659c05, //
        0x0306194f, 0x666d1836, 0x24aa230a, 0x8b264ae7,
    ],
    [
        0x858075d5, 0x36d79cce, 0xe571f7d7, 0x204b1f67, //
        0x35870c6a, 0x57e9e923, 0x14bcb808, 0x7cde72ce,
    ],
    [
        0x6c68e9be, 0x5ec41e22, 0xc825b7c7, 0xaffb4363, //
        0xf5df3999, 0x0fc688f1, 0xb07224cc, 0x03e86cea,
    ],
];

/// Initial values of the constant generator, c_{j,L} and c_{j,R} (Appendix B-1).
pub const INITIAL: [[u32; 2]; 5] = [
    [0x181cca53, 0x380cde06],
    [0x5b6f0876, 0xf16f8594],
    [0x7e106ce9, 0x38979cb0],
    [0xbb62f364, 0x92e93c29],
    [0x9a025047, 0xcff2a940],
];

/// The product in GF(2^8): first as polynomials, then reduced from the highest term down.
pub fn multiply(a: u8, b: u8) -> u8 {
    let phi: u32 = PHI.iter().map(|e| 1 << e).sum();
    let mut product: u32 = (0..8)
        .filter(|i| b >> i & 1 == 1)
        .fold(0, |p, i| p ^ (a as u32) << i);
    for i in (8..15).rev() {
        if product >> i & 1 == 1 {
            product ^= phi << (i - 8);
        }
    }
    product as u8
}

/// f_L (4.4): multiplication by x modulo g, with t_L's highest bit as coefficient of x^63.
fn f_l(t: u64) -> u64 {
    // x^64 itself leaves the register with the shift, so g is taken without it.
    let g = G.iter().filter(|&&e| e < 64).fold(0u64, |g, e| g | 1 << e);
    if t >> 63 == 1 {
        t << 1 ^ g
    } else {
        t << 1
    }
}

/// The step constants [c_{j,0}, c_{j,4}] for r = 0 to 7, by the equations of 4.4. The left half
/// is taken before the exchange of halves.
pub fn step_constants(j: usize) -> [[u32; 2]; 8] {
    let exchange = |t: u64| t.rotate_left(32);
    let left = |t: u64| (t >> 32) as u32;
    let mut t = (INITIAL[j][0] as u64) << 32 | INITIAL[j][1] as u64;
    let mut constants = [[0; 2]; 8];
    for c in &mut constants {
        t = f_l(t);
        c[0] = left(t);
        t = f_l(exchange(t));
        c[1] = left(t);
        t = exchange(t);
    }
    constants
}

/// SubCrumb on one column (4.2): words 0 to 3 are the low nibble, words 4 to 7 the high one.
fn sub_crumb(column: u8) -> u8 {
    let low = S[(column & 15) as usize];
    // The second half is fed as (a5, a6, a7, a4), lowest bit first: its nibble is rotated right by
    // one place going in and left by one coming out.
    let high = column >> 4;
    let fed = high >> 1 | (high & 1) << 3;
    let x = S[fed as usize];
    let high = (x << 1 & 15) | x >> 3;
    high << 4 | low
}

/// The low nibble of each column: words 0 to 3.
pub const LOW: u64 = 0x0f0f_0f0f_0f0f_0f0f;

/// Rotating words n bits to the left moves each column up by n places, since bit l comes from bit
/// l - n mod 32.
#[inline(always)]
pub fn rotate(x: &Block, n: usize) -> Block {
    let (whole, part) = (n / 8, n % 8);
    [0, 1, 2, 3].map(|i| {
        let here = x[(i + 4 - whole) % 4];
        let below = x[(i + 3 - whole) % 4];
        // A shift by all 64 places has no meaning here, so a move by whole numbers stands apart.
        if part == 0 {
            here
        } else {
            here << (8 * part) | below >> (64 - 8 * part)
        }
    })
}

#[inline(always)]
pub fn xor(a: &Block, b: &Block) -> Block {
    [a[0] ^ b[0], a[1] ^ b[1], a[2] ^ b[2], a[3] ^ b[3]]
}

/// Puts every column through a table.
#[inline(always)]
pub fn each_column(table: &[u8; 256], x: &Block) -> Block {
    x.map(|eight| {
        let mut y = 0;
        for i in 0..8 {
            y |= (table[(eight >> (8 * i) & 0xff) as usize] as u64) << (8 * i);
        }
        y
    })
}

/// MixWord (4.3) on all four pairs of words at once. Word k and word k + 4 have the same place in
/// the low and the high nibble of a column, so the nibbles are split and worked on apart.
#[inline(always)]
pub fn mix_word(x: &Block) -> Block {
    let mut left = x.map(|c| c & LOW);
    let mut right = x.map(|c| c >> 4 & LOW);
    right = xor(&right, &left);
    left = rotate(&left, SIGMA[0]);
    left = xor(&left, &right);
    right = rotate(&right, SIGMA[1]);
    right = xor(&right, &left);
    left = rotate(&left, SIGMA[2]);
    left = xor(&left, &right);
    right = rotate(&right, SIGMA[3]);
    xor(&left, &right.map(|c| c << 4))
}

/// The tweak (4.5): words 4 to 7 of block j, the high nibbles, rotated left by j.
pub fn tweak(b: &Block, j: usize) -> Block {
    xor(&b.map(|c| c & LOW), &rotate(&b.map(|c| c & !LOW), j))
}

/// Everything that is worked out once, at the start.
pub struct Tables {
    /// product[c][v] is c times v in the field.
    pub product: [[u8; 256]; COEFFICIENTS],
    pub sub_crumb: [u8; 256],
    /// Byte i of spread[b] is bit i of b: how a byte of a word falls over eight columns.
    spread: [u64; 256],
    /// constant[j][r]: c_{j,0} in bit 0 and c_{j,4} in bit 4 of the columns.
    pub constant: [[Block; 8]; 5],
}

impl Tables {
    pub fn get() -> &'static Tables {
        static TABLES: OnceLock<Tables> = OnceLock::new();
        TABLES.get_or_init(Tables::new)
    }

    fn new() -> Tables {
        let mut t = Tables {
            product: [[0; 256]; COEFFICIENTS],
            sub_crumb: [0; 256],
            spread: [0; 256],
            constant: [[[0; 4]; 8]; 5],
        };
        for v in 0..=255u8 {
            for c in 0..COEFFICIENTS {
                t.product[c][v as usize] = multiply(c as u8, v);
            }
            t.sub_crumb[v as usize] = sub_crumb(v);
            t.spread[v as usize] = (0..8).fold(0, |s, i| s | (v as u64 >> i & 1) << (8 * i));
        }
        for j in 0..5 {
            for (r, &[c_0, c_4]) in step_constants(j).iter().enumerate() {
                t.constant[j][r] = t.columns(&[c_0, 0, 0, 0, c_4, 0, 0, 0]);
            }
        }
        t
    }

    /// Words to columns.
    pub fn columns(&self, words: &[u32; 8]) -> Block {
        let mut block = [0; 4];
        for (k, word) in words.iter().enumerate() {
            for (eight, byte) in block.iter_mut().zip(word.to_le_bytes()) {
                *eight |= self.spread[byte as usize] << k;
            }
        }
        block
    }

    /// A message block of 32 bytes to columns; the first byte of a word is its highest (2.2).
    pub fn message_columns(&self, m: &[u8; 32]) -> Block {
        let mut words = [0; 8];
        for (word, x) in words.iter_mut().zip(m.chunks_exact(4)) {
            *word = u32::from_be_bytes([x[0], x[1], x[2], x[3]]);
        }
        self.columns(&words)
    }

    /// MI (3.2.1 to 3.2.3): in each column, the matrix times the vector (H_0, ..., H_{w-1}, M).
    pub fn inject(&self, h: &mut [Block], m: &Block) {
        let mut x = [[0; 4]; 5];
        for (x_j, row) in x.iter_mut().zip(matrix(h.len())) {
            for (input, &c) in h.iter().chain([m]).zip(*row) {
                *x_j = xor(x_j, &each_column(&self.product[c as usize], input));
            }
        }
        h.copy_from_slice(&x[..h.len()]);
    }

    /// Q_j (4.1): the tweak once, then eight steps.
    pub fn permute(&self, b: &Block, j: usize) -> Block {
        let mut a = tweak(b, j);
        for constant in &self.constant[j] {
            let x = each_column(&self.sub_crumb, &a);
            let y = mix_word(&x);
            a = xor(&y, constant);
        }
        a
    }

    /// The round function (3.2).
    fn round(&self, h: &mut [Block], m: &Block) {
        self.inject(h, m);
        for (j, h_j) in h.iter_mut().enumerate() {
            *h_j = self.permute(h_j, j);
        }
    }
}

/// Columns to words.
pub fn words(block: &Block) -> [u32; 8] {
    let mut words = [0; 8];
    for (k, word) in words.iter_mut().enumerate() {
        *word = (0..32).fold(0, |a, l| {
            a | ((block[l / 8] >> (8 * (l % 8) + k)) as u32 & 1) << l
        });
    }
    words
}

/// A hash under way. It depends on w alone, so codes 1 and 2 can share one.
#[derive(Clone)]
pub struct Luffa {
    tables: &'static Tables,
    w: usize,
    /// H_j in the first w blocks.
    h: [Block; 5],
    /// The bytes fed since the last full message block, in the first `held` places.
    pending: [u8; 32],
    held: usize,
    /// The rounds run so far. Whoever wants to count some of them sets it.
    pub rounds: u64,
}

impl Luffa {
    /// Nothing fed yet: H_j is V_j.
    pub fn new(w: usize) -> Luffa {
        Luffa::at(w, V.as_flattened())
    }

    /// Whole blocks fed, and then this state: H_j is words 8j to 8j + 7. No others are read.
    pub fn at(w: usize, state: &[u32]) -> Luffa {
        assert!((3..=5).contains(&w));
        let tables = Tables::get();
        let mut h = [[0; 4]; 5];
        for (h_j, words) in h.iter_mut().zip(state[..8 * w].as_chunks().0) {
            *h_j = tables.columns(words);
        }
        Luffa {
            tables,
            w,
            h,
            pending: [0; 32],
            held: 0,
            rounds: 0,
        }
    }

    /// The state after the whole blocks fed so far, as words; those of blocks that w leaves unused
    /// are zero.
    pub fn state(&self) -> [u32; 40] {
        let mut state = [0; 40];
        for (words_j, h_j) in state.as_chunks_mut().0.iter_mut().zip(&self.h[..self.w]) {
            *words_j = words(h_j);
        }
        state
    }

    /// Every round is run here, and counted.
    pub fn round(&mut self, m: &Block) {
        self.tables.round(&mut self.h[..self.w], m);
        self.rounds += 1;
    }

    /// A round with the message block m.
    fn take(&mut self, m: &[u8; 32]) {
        let m = self.tables.message_columns(m);
        self.round(&m);
    }

    /// Takes the next bytes of the message.
    pub fn update(&mut self, mut piece: &[u8]) {
        if self.held > 0 {
            let n = piece.len().min(32 - self.held);
            self.pending[self.held..self.held + n].copy_from_slice(&piece[..n]);
            self.held += n;
            piece = &piece[n..];
            if self.held < 32 {
                return;
            }
            let m = self.pending;
            self.take(&m);
            self.held = 0;
        }
        let (blocks, rest) = piece.as_chunks::<32>();
        for m in blocks {
            self.take(m);
        }
        self.pending[..rest.len()].copy_from_slice(rest);
        self.held = rest.len();
    }

    /// The first `count` words of the final stage for the bytes fed so far, and the number of blank
    /// rounds that were run for them. The hash can be fed on afterwards.
    pub fn finish(&self, count: usize) -> (Vec<u32>, u64) {
        self.padded().final_stage(count)
    }

    /// The hash with its last block taken (3.1). Fewer than 32 bytes are ever held, so the 1 and its
    /// zeros always fit.
    pub fn padded(&self) -> Luffa {
        let mut last = [0; 32];
        last[..self.held].copy_from_slice(&self.pending[..self.held]);
        last[self.held] = 0x80;
        let mut padded = self.clone();
        padded.take(&last);
        padded
    }

    /// Z_0, Z_1, ... (3.3 and 5) from the state as it is, with a blank round before each.
    pub fn final_stage(mut self, count: usize) -> (Vec<u32>, u64) {
        let before = self.rounds;
        let mut output = Vec::new();
        while output.len() < count {
            self.round(&[0; 4]);
            let z = self.h[..self.w].iter().fold([0; 4], |z, h_j| xor(&z, h_j));
            output.extend(words(&z));
        }
        output.truncate(count);
        (output, self.rounds - before)
    }
}

/// The hash value of a whole message at code 1 to 4.
pub fn digest(code: usize, message: &[u8]) -> Vec<u32> {
    let (w, count) = CODES[code - 1];
    let mut hash = Luffa::new(w);
    hash.update(message);
    hash.finish(count).0
}
