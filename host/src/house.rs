//! The house pile of the proved library, asked through C, compared with the host's own.

use crate::draws;
use crate::facts::{Facts, Kind, Refusal};
use crate::random::Generator;
use crate::tariffs::{
    cap, ceiling, house_pile, vector, volume_limit, Tariff, HOUSE_CAP, MOST_CHARGE,
};

/// Kind, scheduled, metered, available, frequency and price give a charge, or a refusal.
pub type HouseCall = extern "C" fn(i64, i64, i64, i64, i64, i64) -> i64;

#[cfg(linked)]
unsafe extern "C" {
    safe fn niszorgy_house_charge(
        kind: i64,
        scheduled: i64,
        metered: i64,
        available: i64,
        frequency: i64,
        price: i64,
    ) -> i64;
}

/// The call of the proved library, if that was there when the host was built.
#[cfg(linked)]
pub const PROVED: Option<HouseCall> = Some(niszorgy_house_charge);
#[cfg(not(linked))]
pub const PROVED: Option<HouseCall> = None;

/// A refusal is answered as this and its number.
const REFUSED: i64 = 1_000_000_000;

/// The same call by the host's own rules.
#[inline(never)]
pub extern "C" fn house_charge(
    kind: i64,
    scheduled: i64,
    metered: i64,
    available: i64,
    frequency: i64,
    price: i64,
) -> i64 {
    match Facts::new([kind, scheduled, metered, available, frequency, price]) {
        Ok(facts) => house_pile(facts),
        Err(refusal) => REFUSED + refusal as i64,
    }
}

/// A name, and whether facts with this charge count under it.
type Branch = (&'static str, fn(Facts, i64) -> bool);

/// What is counted of the charges. A layer is met where it alters the charge below.
const BRANCHES: [Branch; 17] = [
    ("cap met", |x, _| capped()(x) != vector(x)),
    ("ceiling met", |x, _| ceiling(capped())(x) != capped()(x)),
    ("extra met", |x, charge| {
        by_vector(x) && charge != ceiling(capped())(x)
    }),
    ("extra held at 100,000,000", |_, charge| {
        charge == MOST_CHARGE
    }),
    ("deviation 0", |x, _| x.deviation() == 0),
    ("vector, from 5,005 on", |x, _| {
        by_vector(x) && x.frequency >= 5_005
    }),
    ("vector, from 5,000 on", |x, _| {
        by_vector(x) && (5_000..5_005).contains(&x.frequency)
    }),
    ("vector, from 4,985 on", |x, _| {
        by_vector(x) && (4_985..5_000).contains(&x.frequency)
    }),
    ("vector, under 4,985", |x, _| {
        by_vector(x) && x.frequency < 4_985
    }),
    ("limit for up to 10,000", |x, _| {
        by_vector(x) && x.scheduled <= 10_000
    }),
    ("limit of 12 hundredths", |x, _| {
        by_vector(x) && (10_001..62_500).contains(&x.scheduled)
    }),
    ("limit from 62,500 on", |x, _| {
        by_vector(x) && x.scheduled >= 62_500
    }),
    ("deviation at the limit", |x, _| {
        by_vector(x) && x.deviation().abs() == volume_limit(x.scheduled)
    }),
    ("bands, free", |x, _| band(x) == Some(0)),
    ("bands, 50 paise", |x, _| band(x) == Some(1)),
    ("bands, 100 paise", |x, _| band(x) == Some(2)),
    ("bands, 150 paise", |x, _| band(x) == Some(3)),
];

fn capped() -> impl Tariff {
    cap(HOUSE_CAP, vector)
}

fn by_vector(facts: Facts) -> bool {
    facts.kind != Kind::SolarOrWind
}

/// The number of band edges that the deviation of a solar or wind member exceeds.
fn band(facts: Facts) -> Option<usize> {
    let exceeds = |hundredths| 100 * facts.deviation().abs() > hundredths * facts.available;
    let exceeded = [15, 25, 35].into_iter().filter(|&edge| exceeds(edge));
    (!by_vector(facts)).then(|| exceeded.count())
}

#[derive(Default)]
struct Tally {
    asked: u64,
    edges: u64,
    refused_kind: u64,
    refused_limits: u64,
    /// For each kind: payable, receivable, zero.
    signs: [[u64; 3]; 3],
    branches: [u64; BRANCHES.len()],
    different: u64,
}

impl Tally {
    fn charges(&self) -> u64 {
        self.signs.iter().flatten().sum()
    }

    fn count(&mut self, facts: Facts, charge: i64) {
        let sign = match charge {
            1.. => 0,
            0 => 2,
            _ => 1,
        };
        self.signs[facts.kind as usize - 1][sign] += 1;
        for (count, (_, holds)) in self.branches.iter_mut().zip(BRANCHES) {
            *count += u64::from(holds(facts, charge));
        }
    }

    fn print(&self) {
        println!("asked: {}, of them edges: {}", self.asked, self.edges);
        println!("refused with 3: {}", self.refused_kind);
        println!("refused with 4: {}", self.refused_limits);
        println!("charges: {}", self.charges());
        for (kind, [payable, receivable, zero]) in (1..).zip(self.signs) {
            println!("kind {kind}: payable {payable}, receivable {receivable}, zero {zero}");
        }
        for ((name, _), count) in BRANCHES.iter().zip(self.branches) {
            println!("{name}: {count}");
        }
    }
}

/// Asks both, first with the edges, then at random, until as many were asked as wanted.
fn compare(theirs: HouseCall, wanted: usize) -> Tally {
    let mut generator = Generator::new(2024);
    let random = std::iter::repeat_with(|| draws::any(&mut generator));
    let edges = draws::edges();
    let mut tally = Tally {
        edges: edges.len().min(wanted) as u64,
        ..Tally::default()
    };
    for numbers in edges.into_iter().chain(random).take(wanted) {
        let [kind, scheduled, metered, available, frequency, price] = numbers;
        let came = theirs(kind, scheduled, metered, available, frequency, price);
        let own = house_charge(kind, scheduled, metered, available, frequency, price);
        tally.asked += 1;
        match Facts::new(numbers) {
            Ok(facts) => tally.count(facts, own),
            Err(Refusal::Kind) => tally.refused_kind += 1,
            Err(Refusal::Limits) => tally.refused_limits += 1,
        }
        if came != own {
            tally.different += 1;
            if tally.different <= 10 {
                println!("kind {kind}, scheduled {scheduled}, metered {metered}, available {available}, frequency {frequency}, price {price}: came {came}, host {own}");
            }
        }
    }
    tally
}

/// Compares, prints the counts, and says whether all were alike.
pub fn run(theirs: HouseCall, wanted: usize) -> bool {
    let tally = compare(theirs, wanted);
    tally.print();
    let alike = tally.asked - tally.different;
    if tally.different > 0 {
        println!("host compare: {} different, {alike} alike", tally.different);
    } else {
        println!("host compare: {alike} alike");
    }
    tally.different == 0
}

#[cfg(test)]
mod tests {
    use super::*;

    /// The host's own call, but a seller's charges are never more than 39,000,000.
    extern "C" fn faulty(k: i64, s: i64, m: i64, a: i64, f: i64, p: i64) -> i64 {
        match house_charge(k, s, m, a, f, p) {
            charge if k == 2 && charge < REFUSED => charge.min(39_000_000),
            answer => answer,
        }
    }

    #[test]
    fn the_call_of_the_rules() {
        assert_eq!(house_charge(2, 20_000, 17_000, 0, 4_980, 4_000), 1_230_216);
        assert_eq!(house_charge(2, 1_000, 3_000, 0, 5_000, 4_000), -500_000);
        assert_eq!(house_charge(4, -1, 0, 0, 0, 0), 1_000_000_003);
        assert_eq!(house_charge(1, 0, 0, 1, 5_000, 0), 1_000_000_004);
    }

    #[test]
    fn every_branch_is_met_many_times_and_most_are_charges() {
        let edges = draws::edges().len();
        let tally = compare(house_charge, edges + 500_000);
        assert_eq!(tally.different, 0);
        assert!(tally.charges() * 2 > tally.asked);
        assert!(tally.refused_kind > 1_000 && tally.refused_limits > 1_000);
        for ((name, _), count) in BRANCHES.iter().zip(tally.branches) {
            // The house pile never reaches the most: 80,000,000 and a fifth of it are less.
            let possible = *name != "extra held at 100,000,000";
            assert_eq!(count > 1_000, possible, "{name}: {count}");
        }
    }

    #[test]
    fn a_difference_is_found() {
        let edges = draws::edges().len();
        assert!(compare(faulty, edges).different > 0);
        assert!(compare(house_charge, edges).different == 0);
    }

    #[test]
    fn the_proved_library_is_alike() {
        if let Some(proved) = PROVED {
            assert_eq!(compare(proved, 1_000_000).different, 0);
        }
    }
}
