//! Numbers by a seed: the same on every machine, and for a case the same whatever came before it.

pub struct Rng(u64);

fn mix(mut z: u64) -> u64 {
    z = (z ^ (z >> 30)).wrapping_mul(0xbf58476d1ce4e5b9);
    z = (z ^ (z >> 27)).wrapping_mul(0x94d049bb133111eb);
    z ^ (z >> 31)
}

impl Rng {
    pub fn of_case(seed: u64, stream: u64, index: u64) -> Rng {
        Rng(mix(mix(mix(seed) ^ stream).wrapping_add(index)))
    }

    pub fn bits(&mut self) -> u64 {
        self.0 = self.0.wrapping_add(0x9e3779b97f4a7c15);
        mix(self.0)
    }

    /// 0 to n − 1.
    pub fn below(&mut self, n: u64) -> u64 {
        ((u128::from(self.bits()) * u128::from(n)) >> 64) as u64
    }

    pub fn one_in(&mut self, n: u64) -> bool {
        self.below(n) == 0
    }

    /// low to high, both.
    pub fn between(&mut self, low: u64, high: u64) -> u64 {
        low + self.below(high - low + 1)
    }

    pub fn pick<T: Copy>(&mut self, of: &[T]) -> T {
        of[self.below(of.len() as u64) as usize]
    }

    /// A place among the shares, each as often as its share is of their sum.
    pub fn by_share(&mut self, shares: &[u64]) -> usize {
        let mut share = self.below(shares.iter().sum());
        let place = shares.iter().position(|&of_place| {
            let here = share < of_place;
            share = share.wrapping_sub(of_place);
            here
        });
        place.expect("one of the shares")
    }

    pub fn uniform(&mut self, [low, high]: [f64; 2]) -> f64 {
        low + (high - low) * ((self.bits() >> 11) as f64 / 9007199254740992.0)
    }

    /// Every float of the range alike, which is nearly by its logarithm. Both ends above 0.
    pub fn any_float(&mut self, [low, high]: [f64; 2]) -> f64 {
        f64::from_bits(self.between(low.to_bits(), high.to_bits()))
    }

    /// x, above 0, or a float at most n places from it.
    pub fn near(&mut self, x: f64, n: u64) -> f64 {
        f64::from_bits(x.to_bits() - n + self.below(2 * n + 1))
    }
}
