//! Random numbers that are the same everywhere: splitmix64, and a zipf choice by whole numbers.

#[derive(Clone)]
pub struct Random {
    state: u64,
}

impl Random {
    pub fn new(seed: u64) -> Random {
        Random { state: seed }
    }

    pub fn next(&mut self) -> u64 {
        self.state = self.state.wrapping_add(0x9e37_79b9_7f4a_7c15);
        let mut z = self.state;
        z = (z ^ (z >> 30)).wrapping_mul(0xbf58_476d_1ce4_e5b9);
        z = (z ^ (z >> 27)).wrapping_mul(0x94d0_49bb_1331_11eb);
        z ^ (z >> 31)
    }

    /// A number below n, which is above 0.
    pub fn below(&mut self, n: u64) -> u64 {
        self.next() % n
    }

    pub fn choice<T: Copy>(&mut self, from: &[T]) -> T {
        from[self.below(from.len() as u64) as usize]
    }
}

/// Numbers below n, the number i with weight 1 / (i + 1).
pub struct Zipf {
    sums: Vec<u64>,
}

impl Zipf {
    pub fn new(n: u64) -> Zipf {
        let mut sum = 0;
        let sums = (1..=n).map(|i| {
            sum += (1 << 32) / i;
            sum
        });
        Zipf { sums: sums.collect() }
    }

    pub fn number(&self, random: &mut Random) -> u64 {
        let point = random.below(*self.sums.last().unwrap());
        self.sums.partition_point(|&sum| sum <= point) as u64
    }
}
