//! Random numbers for the tests (splitmix64), the same in every run.

pub struct Numbers(pub u64);

impl Numbers {
    pub fn next(&mut self) -> u64 {
        self.0 = self.0.wrapping_add(0x9e37_79b9_7f4a_7c15);
        let x = (self.0 ^ (self.0 >> 30)).wrapping_mul(0xbf58_476d_1ce4_e5b9);
        let x = (x ^ (x >> 27)).wrapping_mul(0x94d0_49bb_1331_11eb);
        x ^ (x >> 31)
    }

    /// Below `end`, which isn't 0.
    pub fn below(&mut self, end: usize) -> usize {
        (self.next() % end as u64) as usize
    }

    pub fn bytes(&mut self, n: usize) -> Vec<u8> {
        (0..n).map(|_| self.next() as u8).collect()
    }

    pub fn block(&mut self) -> [u8; 32] {
        [(); 32].map(|_| self.next() as u8)
    }

    pub fn record(&mut self) -> [u8; 40] {
        [(); 40].map(|_| self.next() as u8)
    }

    pub fn records(&mut self, n: usize) -> Vec<[u8; 40]> {
        (0..n).map(|_| self.record()).collect()
    }
}
