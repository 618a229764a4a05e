//! The block facts: kinds of members, and the limits that every number is tested against.

/// Block facts as they come to a call: kind, scheduled, metered, available, frequency, price.
pub type Numbers = [i64; 6];

pub const MOST_ENERGY: i64 = 100_000;
pub const LEAST_FREQUENCY: i64 = 4_800;
pub const MOST_FREQUENCY: i64 = 5_200;
pub const MOST_RATE: i64 = 8_000;

#[derive(Clone, Copy, Debug, PartialEq, Eq)]
pub enum Kind {
    Buyer = 1,
    Seller = 2,
    SolarOrWind = 3,
}

/// Block facts within their limits.
#[derive(Clone, Copy, Debug)]
pub struct Facts {
    pub kind: Kind,
    pub scheduled: i64,
    pub metered: i64,
    pub available: i64,
    pub frequency: i64,
    pub price: i64,
}

/// Why numbers are no block facts. The value is the number of the refusal.
#[derive(Clone, Copy, Debug, PartialEq, Eq)]
pub enum Refusal {
    Kind = 3,
    Limits = 4,
}

impl Facts {
    /// Tests the kind first, then all other numbers.
    pub fn new(numbers: Numbers) -> Result<Facts, Refusal> {
        let [kind, scheduled, metered, available, frequency, price] = numbers;
        let (kind, available_limits) = match kind {
            1 => (Kind::Buyer, 0..=0),
            2 => (Kind::Seller, 0..=0),
            3 => (Kind::SolarOrWind, 1..=MOST_ENERGY),
            _ => return Err(Refusal::Kind),
        };
        let within = (0..=MOST_ENERGY).contains(&scheduled)
            && (0..=MOST_ENERGY).contains(&metered)
            && available_limits.contains(&available)
            && (LEAST_FREQUENCY..=MOST_FREQUENCY).contains(&frequency)
            && (0..=MOST_RATE).contains(&price);
        if !within {
            return Err(Refusal::Limits);
        }
        Ok(Facts {
            kind,
            scheduled,
            metered,
            available,
            frequency,
            price,
        })
    }

    /// Metered less scheduled energy, with its sign.
    pub fn deviation(&self) -> i64 {
        self.metered - self.scheduled
    }
}

#[cfg(test)]
mod tests {
    use super::*;

    #[test]
    fn limits_are_inclusive_and_the_kind_comes_first() {
        let refusal = |numbers| Facts::new(numbers).err();
        assert_eq!(refusal([1, 0, 100_000, 0, 4_800, 8_000]), None);
        assert_eq!(refusal([3, 100_000, 0, 1, 5_200, 0]), None);
        assert_eq!(refusal([3, 0, 0, 100_000, 5_200, 0]), None);
        for kind in [i64::MIN, -1, 0, 4, 5, i64::MAX] {
            let outside = [kind, -1, -1, -1, -1, -1];
            assert_eq!(refusal(outside), Some(Refusal::Kind));
        }
        for outside in [
            [1, -1, 0, 0, 5_000, 0],
            [1, 100_001, 0, 0, 5_000, 0],
            [1, 0, -1, 0, 5_000, 0],
            [1, 0, 100_001, 0, 5_000, 0],
            [1, 0, 0, 1, 5_000, 0],
            [2, 0, 0, -1, 5_000, 0],
            [3, 0, 0, 0, 5_000, 0],
            [3, 0, 0, 100_001, 5_000, 0],
            [1, 0, 0, 0, 4_799, 0],
            [1, 0, 0, 0, 5_201, 0],
            [1, 0, 0, 0, 5_000, -1],
            [1, 0, 0, 0, 5_000, 8_001],
        ] {
            assert_eq!(refusal(outside), Some(Refusal::Limits), "{outside:?}");
        }
    }
}
