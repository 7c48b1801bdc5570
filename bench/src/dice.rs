//! Random numbers that are the same in every run.

/// Splitmix64.
pub struct Dice(pub u64);

impl Dice {
    pub fn next(&mut self) -> u64 {
        self.0 = self.0.wrapping_add(0x9e37_79b9_7f4a_7c15);
        let mut x = self.0;
        x = (x ^ x >> 30).wrapping_mul(0xbf58_476d_1ce4_e5b9);
        x = (x ^ x >> 27).wrapping_mul(0x94d0_49bb_1331_11eb);
        x ^ x >> 31
    }

    pub fn below(&mut self, end: usize) -> usize {
        (self.next() % end as u64) as usize
    }

    pub fn observer(&mut self) -> u8 {
        [0x00, 0x80, 0x81, self.level(0xff)][self.below(4)]
    }

    /// A level at or below this one. Rank 0 has no compartments: no level is mislabelled.
    pub fn level(&mut self, most: u8) -> u8 {
        let level = most & self.next() as u8;
        if level >> 6 == 0 {
            0
        } else {
            level
        }
    }

    pub fn one_in(&mut self, n: usize) -> bool {
        self.below(n) == 0
    }

    /// Some of the set's bits, at least one of a set that has any.
    pub fn some(&mut self, set: u64) -> u64 {
        let picked = set & self.next();
        if picked != 0 {
            return picked;
        }
        let mut rest = set;
        for _ in 0..self.below(set.count_ones().max(1) as usize) {
            rest &= rest - 1;
        }
        rest & rest.wrapping_neg()
    }
}
