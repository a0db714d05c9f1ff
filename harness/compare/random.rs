//! Random numbers from a seed (splitmix64), so that every case can be made again.

pub struct Random(u64);

impl Random {
    /// The numbers of one case: a seed, an area and a case's number in it.
    pub fn of_case(seed: u64, area: usize, case: u64) -> Random {
        let mut mixed = Random(seed ^ 0x6a09_e667_f3bc_c908);
        let a = mixed.next() ^ (area as u64) << 56;
        let mut mixed = Random(a ^ case);
        Random(mixed.next())
    }

    pub fn next(&mut self) -> u64 {
        self.0 = self.0.wrapping_add(0x9e37_79b9_7f4a_7c15);
        let mut z = self.0;
        z = (z ^ z >> 30).wrapping_mul(0xbf58_476d_1ce4_e5b9);
        z = (z ^ z >> 27).wrapping_mul(0x94d0_49bb_1331_11eb);
        z ^ z >> 31
    }

    /// From 0, below `limit`.
    pub fn below(&mut self, limit: usize) -> usize {
        ((self.next() >> 32).wrapping_mul(limit as u64) >> 32) as usize
    }

    pub fn between(&mut self, low: usize, high: usize) -> usize {
        low + self.below(high - low + 1)
    }

    /// True once in so many times.
    pub fn once_in(&mut self, times: usize) -> bool {
        self.below(times) == 0
    }

    pub fn pick<'a, T>(&mut self, from: &'a [T]) -> &'a T {
        &from[self.below(from.len())]
    }

    /// A number of so many bits.
    pub fn bits(&mut self, width: u8) -> u16 {
        (self.next() >> 40) as u16 & ((1u32 << width) - 1) as u16
    }
}
