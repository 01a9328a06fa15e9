//! A small generator of random numbers: the same from the same seed, on every machine.

pub struct Random {
    state: u64,
}

impl Random {
    /// A generator of its own for each case of a seed.
    pub fn of_case(seed: u64, case: u64) -> Random {
        let mut random = Random { state: seed };
        random.state = random.next() ^ case;
        random
    }

    /// SplitMix64.
    fn next(&mut self) -> u64 {
        self.state = self.state.wrapping_add(0x9e37_79b9_7f4a_7c15);
        let mut mixed = self.state;
        mixed = (mixed ^ (mixed >> 30)).wrapping_mul(0xbf58_476d_1ce4_e5b9);
        mixed = (mixed ^ (mixed >> 27)).wrapping_mul(0x94d0_49bb_1331_11eb);
        mixed ^ (mixed >> 31)
    }

    /// A number from `low` to `high`, both included; `low` if `high` is below it.
    pub fn between(&mut self, low: u64, high: u64) -> u64 {
        match high.saturating_sub(low).checked_add(1) {
            Some(width) => low + self.next() % width,
            None => self.next(),
        }
    }

    /// The same for 32-bit numbers.
    pub fn between32(&mut self, low: u32, high: u32) -> u32 {
        self.between(u64::from(low), u64::from(high)) as u32
    }

    /// A place below `length`, which is not 0.
    pub fn index(&mut self, length: usize) -> usize {
        (self.next() % length as u64) as usize
    }

    pub fn byte(&mut self) -> u8 {
        self.next() as u8
    }

    /// True once in `times`.
    pub fn once_in(&mut self, times: u64) -> bool {
        self.between(1, times) == 1
    }

    pub fn pick<T: Clone>(&mut self, choices: &[T]) -> T {
        choices[self.index(choices.len())].clone()
    }

    /// Whole numbers of a given sum, some of them often 0.
    pub fn split(&mut self, total: u32, parts: usize) -> Vec<u32> {
        let mut shares = vec![0; parts];
        let mut left = total;
        for _ in 0..parts {
            let share = self.between32(0, left.min(2 * (total / parts as u32) + 1));
            shares[self.index(parts)] += share;
            left -= share;
        }
        shares[self.index(parts)] += left;
        shares
    }
}
