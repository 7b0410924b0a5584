//! The generator's own random numbers, and the values at limits that every group draws from.

#[derive(Default)]
pub struct Numbers {
    state: u64,
}

impl Numbers {
    pub fn new(seed: u64) -> Self {
        Self { state: seed }
    }

    /// The public splitmix64.
    pub fn word(&mut self) -> u64 {
        self.state = self.state.wrapping_add(0x9e37_79b9_7f4a_7c15);
        let mut x = self.state;
        x = (x ^ (x >> 30)).wrapping_mul(0xbf58_476d_1ce4_e5b9);
        x = (x ^ (x >> 27)).wrapping_mul(0x94d0_49bb_1331_11eb);
        x ^ (x >> 31)
    }

    pub fn two_words(&mut self) -> u128 {
        u128::from(self.word()) << 64 | u128::from(self.word())
    }

    pub fn below(&mut self, bound: u64) -> u64 {
        ((u128::from(self.word()) * u128::from(bound)) >> 64) as u64
    }

    /// From `low` to `high`, both included.
    pub fn between(&mut self, low: u64, high: u64) -> u64 {
        low + self.below(high - low + 1)
    }

    /// True once in `times`.
    pub fn once_in(&mut self, times: u64) -> bool {
        self.below(times) == 0
    }

    pub fn pick<T: Copy>(&mut self, list: &[T]) -> T {
        list[self.below(list.len() as u64) as usize]
    }

    pub fn shuffle<T>(&mut self, list: &mut [T]) {
        for last in (1..list.len()).rev() {
            list.swap(last, self.below(last as u64 + 1) as usize);
        }
    }

    /// A word of a random length in bits.
    pub fn any_length(&mut self) -> u64 {
        let length = self.below(65) as u32;
        self.word().checked_shr(64 - length).unwrap_or(0)
    }

    /// A word that is often at or near a limit.
    pub fn limit(&mut self) -> u64 {
        match self.below(6) {
            0 => self.pick(&[0, 1, 2, 3, u64::MAX, u64::MAX - 1, 1 << 32, (1 << 32) - 1]),
            1 => self.near_power(),
            2 | 3 => self.any_length(),
            _ => self.word(),
        }
    }

    /// A power of two, or a number that is a little off one.
    pub fn near_power(&mut self) -> u64 {
        let power = 1_u64 << self.below(64);
        match self.below(3) {
            0 => power,
            1 => power.wrapping_sub(self.between(1, 3)),
            _ => power.wrapping_add(self.between(1, 3)),
        }
    }

    /// A number as a line may have it: mostly plain decimal, at times hex, at times with leading zeros.
    pub fn text(&mut self, value: impl Into<u128>) -> String {
        let value = value.into();
        match self.below(40) {
            0 => format!("0x{value:x}"),
            1 => format!("0x{value:X}"),
            2 => format!("0{value}"),
            3 => format!("0x000{value:x}"),
            _ => value.to_string(),
        }
    }
}

/// 2^k with k below 64, and what lies within `around` of it, without repeats.
pub fn powers(around: u64) -> Vec<u64> {
    let mut list = Vec::new();
    for k in 0..64 {
        let power = 1_u64 << k;
        for d in 0..=around {
            list.push(power.saturating_sub(d));
            list.push(power.saturating_add(d));
        }
    }
    for d in 0..=around {
        list.push(u64::MAX - d);
    }
    list.sort_unstable();
    list.dedup();
    list
}
