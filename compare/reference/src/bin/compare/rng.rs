//! A small generator of numbers (splitmix64): one per text or list, from the
//! run's seed and its index, so that any of them can be made again by itself.

pub struct Rng(u64);

fn mix(mut z: u64) -> u64 {
    z = (z ^ (z >> 30)).wrapping_mul(0xbf58476d1ce4e5b9);
    z = (z ^ (z >> 27)).wrapping_mul(0x94d049bb133111eb);
    z ^ (z >> 31)
}

impl Rng {
    pub fn for_text(seed: u64, index: u64) -> Rng {
        Rng(mix(mix(seed.wrapping_add(0x9e3779b97f4a7c15)).wrapping_add(index)))
    }

    pub fn for_list(seed: u64, index: u64) -> Rng {
        Rng(mix(mix(seed.wrapping_add(0x51ed270b9f3a2c17)).wrapping_add(index)))
    }

    pub fn next(&mut self) -> u64 {
        self.0 = self.0.wrapping_add(0x9e3779b97f4a7c15);
        mix(self.0)
    }

    /// 0 to n - 1.
    pub fn below(&mut self, n: u64) -> u64 {
        ((self.next() as u128 * n as u128) >> 64) as u64
    }

    pub fn index(&mut self, n: usize) -> usize {
        self.below(n as u64) as usize
    }

    /// Both ends included.
    pub fn range(&mut self, low: i64, high: i64) -> i64 {
        low + self.below((high - low + 1) as u64) as i64
    }

    pub fn percent(&mut self, p: u64) -> bool {
        self.below(100) < p
    }

    pub fn pick<T: Copy>(&mut self, of: &[T]) -> T {
        of[self.index(of.len())]
    }

    /// A place among weights.
    pub fn weighted(&mut self, weights: &[u64]) -> usize {
        let mut at = self.below(weights.iter().sum());
        for (i, &w) in weights.iter().enumerate() {
            if at < w {
                return i;
            }
            at -= w;
        }
        unreachable!()
    }

    /// A u32 of any size: the number of bits is chosen first.
    pub fn any_u32(&mut self) -> u32 {
        let bits = self.below(33);
        (self.next() & ((1u64 << bits) - 1)) as u32
    }
}
