//! A small xorshift generator: the same seed gives the same jobs on every machine.

pub struct Rng(u64);

impl Rng {
    pub fn new(seed: u64) -> Rng {
        // Xorshift stays at 0 for ever: that one seed is replaced. Small seeds start alike, so the
        // first numbers are thrown away.
        let spread = seed ^ 0x9e37_79b9_7f4a_7c15;
        let mut rng = Rng(if spread == 0 { 1 } else { spread });
        for _ in 0..16 {
            rng.next();
        }
        rng
    }

    /// The same for every run over these bytes.
    pub fn of(bytes: &[u8]) -> Rng {
        let mix = |x: u64, byte: &u8| x * 31 % 65_521 + u64::from(*byte);
        Rng::new(bytes.iter().fold(7, mix))
    }

    pub fn next(&mut self) -> u64 {
        let mut x = self.0;
        x ^= x >> 12;
        x ^= x << 25;
        x ^= x >> 27;
        self.0 = x;
        x.wrapping_mul(0x2545_f491_4f6c_dd1d)
    }

    /// A number from 0 to `end` - 1.
    pub fn below(&mut self, end: usize) -> usize {
        ((self.next() >> 16) % end as u64) as usize
    }

    /// A number from `low` to `high`, both included.
    pub fn between(&mut self, low: usize, high: usize) -> usize {
        low + self.below(high - low + 1)
    }

    /// True `times` out of `of`.
    pub fn chance(&mut self, times: usize, of: usize) -> bool {
        self.below(of) < times
    }

    pub fn byte(&mut self) -> u8 {
        self.below(256) as u8
    }

    pub fn pick<T: Copy>(&mut self, from: &[T]) -> T {
        from[self.below(from.len())]
    }

    pub fn shuffle<T>(&mut self, items: &mut [T]) {
        for last in (1..items.len()).rev() {
            items.swap(last, self.below(last + 1));
        }
    }
}
