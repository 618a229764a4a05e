//! The tariffs and the layers over them: vector, bands, flat, cap, ceiling, extra, by kind, and two piles.

use crate::facts::Kind::{self, Buyer, Seller, SolarOrWind};
use crate::facts::{Facts, MOST_RATE};

/// A tariff answers one charge in paise for any block facts; above 0 is payable to the pool.
pub trait Tariff: Fn(Facts) -> i64 {}
impl<T: Fn(Facts) -> i64> Tariff for T {}

/// No charge of one block is further from 0.
pub const MOST_CHARGE: i64 = 100_000_000;
/// The cap of the house pile.
pub const HOUSE_CAP: i64 = 3_943;

/// A rate in tenths of a paisa per kWh, times an energy in kWh, as paise.
fn money(rate: i64, energy: i64) -> i64 {
    rate * energy / 10
}

pub fn vector_rate(frequency: i64, price: i64) -> i64 {
    match frequency {
        5_005.. => 0,
        5_000..=5_004 => price * (5_005 - frequency) / 5,
        4_985..=4_999 => price + (MOST_RATE - price) * (5_000 - frequency) / 15,
        _ => MOST_RATE,
    }
}

pub fn vector(facts: Facts) -> i64 {
    let d = facts.deviation();
    let magnitude = money(vector_rate(facts.frequency, facts.price), d.abs());
    let payable = match facts.kind {
        Buyer => d > 0,
        Seller | SolarOrWind => d < 0,
    };
    if payable {
        magnitude
    } else {
        -magnitude
    }
}

pub fn bands(facts: Facts) -> i64 {
    // In hundredths of a kWh.
    let e = 100 * facts.deviation().abs();
    let share = |hundredths: i64| hundredths * facts.available;
    let u = (e.min(share(25)) - share(15)).max(0);
    let v = (e.min(share(35)) - share(25)).max(0);
    let w = (e - share(35)).max(0);
    (50 * u + 100 * v + 150 * w) / 100
}

/// Payable above the schedule and receivable below it, whatever the kind.
pub fn flat(rate: i64) -> impl Tariff {
    move |facts: Facts| {
        let d = facts.deviation();
        money(rate, d.abs()) * d.signum()
    }
}

pub fn cap(rate: i64, below: impl Tariff) -> impl Tariff {
    move |facts: Facts| {
        let charge = below(facts);
        let d = facts.deviation();
        if facts.kind == Seller && d < 0 {
            charge.min(money(rate, d.abs()))
        } else {
            charge
        }
    }
}

/// The deviation from which on ceiling and extra count, in kWh.
pub fn volume_limit(scheduled: i64) -> i64 {
    if scheduled <= 10_000 {
        1_250
    } else {
        (12 * scheduled / 100).min(7_500)
    }
}

pub fn ceiling(below: impl Tariff) -> impl Tariff {
    move |facts: Facts| {
        let limit = volume_limit(facts.scheduled);
        if facts.kind == Seller && facts.deviation() > limit {
            below(Facts {
                metered: facts.scheduled + limit,
                ..facts
            })
        } else {
            below(facts)
        }
    }
}

pub fn extra(below: impl Tariff) -> impl Tariff {
    move |facts: Facts| {
        let charge = below(facts);
        let d = facts.deviation();
        let limit = volume_limit(facts.scheduled);
        let beyond = match facts.kind {
            Buyer => d > limit,
            Seller => d < -limit,
            SolarOrWind => false,
        };
        if beyond {
            let added = charge.max(0) * (d.abs() - limit) / (5 * d.abs());
            (charge + added).min(MOST_CHARGE)
        } else {
            charge
        }
    }
}

pub fn by_kind(kind: Kind, first: impl Tariff, second: impl Tariff) -> impl Tariff {
    move |facts: Facts| {
        if facts.kind == kind {
            first(facts)
        } else {
            second(facts)
        }
    }
}

/// Only the call in house.rs asks this, so that the compiler puts the whole pile into that call.
pub fn house_pile(facts: Facts) -> i64 {
    let others = extra(ceiling(cap(HOUSE_CAP, vector)));
    by_kind(SolarOrWind, bands, others)(facts)
}

/// A pile that no pool uses: the layers in another order, over other tariffs.
pub fn other_pile(facts: Facts) -> i64 {
    let sellers = ceiling(vector);
    let others = cap(2_000, flat(3_000));
    cap(5_000, extra(by_kind(Seller, sellers, others)))(facts)
}

#[cfg(test)]
mod tests {
    use super::*;

    fn facts(numbers: [i64; 6]) -> Facts {
        Facts::new(numbers).expect("within the limits")
    }

    #[test]
    fn vector_rates() {
        let expected = [
            (4_800, 8_000),
            (4_984, 8_000),
            (4_985, 8_000),
            (4_999, 4_266),
            (5_000, 4_000),
            (5_004, 800),
            (5_005, 0),
            (5_200, 0),
        ];
        for (frequency, rate) in expected {
            assert_eq!(vector_rate(frequency, 4_000), rate, "at {frequency}");
        }
    }

    #[test]
    fn vector_is_rounded_before_it_gets_its_sign() {
        for (kind, available) in [(1, 0), (2, 0), (3, 5)] {
            let charge = |metered| vector(facts([kind, 10, metered, available, 5_000, 15]));
            let above = if kind == 1 { 1 } else { -1 };
            assert_eq!([charge(9), charge(10), charge(11)], [-above, 0, above]);
        }
    }

    #[test]
    fn bands_of_the_rules() {
        let charge = |available: i64, e: i64| {
            let above = bands(facts([3, 1_000, 1_000 + e, available, 5_000, 4_000]));
            let below = bands(facts([3, 1_000, 1_000 - e, available, 5_000, 4_000]));
            assert_eq!(above, below);
            above
        };
        assert_eq!(charge(1_000, 150), 0);
        assert_eq!(charge(1_000, 151), 50);
        assert_eq!(charge(1_000, 250), 5_000);
        assert_eq!(charge(1_000, 350), 15_000);
        assert_eq!(charge(1_000, 400), 22_500);
        assert_eq!(charge(1, 1), 112);
        assert_eq!(bands(facts([1, 0, 7, 0, 5_000, 4_000])), 1_050);
    }

    #[test]
    fn cap_leaves_receivable_charges_and_other_kinds() {
        let capped = cap(1_000, flat(3_000));
        assert_eq!(capped(facts([2, 100, 0, 0, 5_000, 0])), -30_000);
        assert_eq!(capped(facts([2, 0, 100, 0, 5_000, 0])), 30_000);
        let capped = cap(1_000, vector);
        assert_eq!(capped(facts([2, 100, 0, 0, 4_900, 0])), 10_000);
        assert_eq!(capped(facts([1, 0, 100, 0, 4_900, 0])), 80_000);
        assert_eq!(capped(facts([3, 100, 0, 1, 4_900, 0])), 80_000);
    }

    #[test]
    fn volume_limits() {
        let expected = [
            (0, 1_250),
            (10_000, 1_250),
            (10_001, 1_200),
            (62_499, 7_499),
            (62_500, 7_500),
            (100_000, 7_500),
        ];
        for (scheduled, limit) in expected {
            assert_eq!(volume_limit(scheduled), limit, "at {scheduled}");
        }
    }

    #[test]
    fn ceiling_holds_a_seller_beyond_the_limit() {
        let held = ceiling(vector);
        let charge = |kind, metered| held(facts([kind, 1_000, metered, 0, 5_000, 4_000]));
        assert_eq!(charge(2, 2_249), -499_600);
        assert_eq!(charge(2, 2_250), -500_000);
        assert_eq!(charge(2, 2_251), -500_000);
        assert_eq!(charge(2, 100_000), -500_000);
        assert_eq!(charge(1, 2_251), 500_400);
    }

    #[test]
    fn extra_begins_beyond_the_limit_and_is_held() {
        let more = extra(vector);
        let charge = |numbers| more(facts(numbers));
        assert_eq!(charge([1, 0, 1_250, 0, 4_900, 0]), 1_000_000);
        assert_eq!(charge([1, 0, 1_251, 0, 4_900, 0]), 1_000_800 + 160);
        assert_eq!(charge([2, 1_250, 0, 0, 4_900, 0]), 1_000_000);
        assert_eq!(charge([2, 1_251, 0, 0, 4_900, 0]), 1_000_800 + 160);
        assert_eq!(charge([1, 1_251, 0, 0, 4_900, 0]), -1_000_800);
        assert_eq!(charge([2, 0, 1_251, 0, 4_900, 0]), -1_000_800);
        assert_eq!(charge([3, 1_251, 0, 1, 4_900, 0]), 1_000_800);
        // Nothing is added to a receivable charge.
        let more = extra(flat(1_000));
        assert_eq!(more(facts([2, 2_000, 0, 0, 5_000, 0])), -200_000);
        // One extra never reaches the most over vector; two do.
        let most = facts([1, 0, 100_000, 0, 4_900, 0]);
        assert_eq!(extra(vector)(most), 95_800_000);
        assert_eq!(extra(extra(vector))(most), MOST_CHARGE);
    }

    #[test]
    fn piles_of_the_rules() {
        let charge = |numbers| house_pile(facts(numbers));
        assert_eq!(charge([2, 20_000, 17_000, 0, 4_980, 4_000]), 1_230_216);
        assert_eq!(charge([2, 1_000, 3_000, 0, 5_000, 4_000]), -500_000);
        assert_eq!(charge([1, 1_000, 1_010, 0, 5_000, 4_000]), 4_000);
        assert_eq!(charge([2, 1_000, 1_005, 0, 5_000, 4_000]), -2_000);
        assert_eq!(charge([3, 1_000, 1_400, 1_000, 5_000, 4_000]), 22_500);
        let charge = |numbers| other_pile(facts(numbers));
        assert_eq!(charge([1, 1_000, 4_000, 0, 4_990, 4_000]), 1_005_000);
        assert_eq!(charge([2, 20_000, 17_000, 0, 4_980, 4_000]), 1_500_000);
        assert_eq!(charge([2, 1_000, 3_000, 0, 5_000, 4_000]), -500_000);
        assert_eq!(charge([3, 1_000, 400, 1_000, 5_010, 4_000]), -180_000);
        assert_eq!(charge([3, 1_000, 1_600, 1_000, 5_010, 4_000]), 180_000);
    }
}
