//! The generator of random numbers, which gives the same numbers in every run.

pub struct Generator {
    state: u64,
}

impl Generator {
    pub fn new(seed: u64) -> Generator {
        Generator { state: seed }
    }

    /// The next number, from 0 to 2^32 - 1.
    pub fn draw(&mut self) -> i64 {
        self.state = self
            .state
            .wrapping_mul(6364136223846793005)
            .wrapping_add(1442695040888963407);
        (self.state >> 32) as i64
    }

    /// A number from 0 up to, but not including, the bound.
    pub fn below(&mut self, bound: i64) -> i64 {
        self.draw() % bound
    }

    /// Any 64-bit number, of any size.
    pub fn wide(&mut self) -> i64 {
        let bits = (self.draw() << 32) ^ (self.draw() << 16) ^ self.draw();
        bits >> self.below(64)
    }

    /// One of the given numbers.
    pub fn pick(&mut self, from: &[i64]) -> i64 {
        from[self.below(from.len() as i64) as usize]
    }
}

#[cfg(test)]
mod tests {
    use super::*;

    #[test]
    fn draws_follow_the_rule() {
        let mut generator = Generator::new(1);
        let first = 6364136223846793005_u64 + 1442695040888963407;
        assert_eq!(generator.draw(), (first / (1 << 32)) as i64);
        let second = first as u128 * 6364136223846793005 + 1442695040888963407;
        assert_eq!(generator.draw(), ((second as u64) / (1 << 32)) as i64);
    }
}
