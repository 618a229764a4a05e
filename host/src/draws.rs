//! The numbers that the comparison asks with: all crossings of small sets of edges, and random ones.

use crate::facts::{Facts, Numbers, LEAST_FREQUENCY, MOST_ENERGY, MOST_RATE};
use crate::random::Generator;
use crate::tariffs::volume_limit;

const SCHEDULED: [i64; 9] = [0, 1, 9_999, 10_000, 10_001, 62_499, 62_500, 99_999, 100_000];
const FREQUENCIES: [i64; 27] = [
    4_799, 4_800, 4_984, 4_985, 4_986, 4_987, 4_988, 4_989, 4_990, 4_991, 4_992, 4_993, 4_994,
    4_995, 4_996, 4_997, 4_998, 4_999, 5_000, 5_001, 5_002, 5_003, 5_004, 5_005, 5_006, 5_200,
    5_201,
];
const PRICES: [i64; 8] = [0, 1, 3_942, 3_943, 3_944, 7_999, 8_000, 8_001];

/// Numbers on both sides of the limits, for each place.
const AT_THE_LIMITS: [&[i64]; 6] = [
    &[i64::MIN, -1, 0, 1, 2, 3, 4, 5, i64::MAX],
    &[i64::MIN, -1, 0, 100_000, 100_001, i64::MAX],
    &[i64::MIN, -1, 0, 100_000, 100_001, i64::MAX],
    &[i64::MIN, -1, 0, 1, 100_000, 100_001, i64::MAX],
    &[i64::MIN, 4_799, 4_800, 5_200, 5_201, i64::MAX],
    &[i64::MIN, -1, 0, 8_000, 8_001, i64::MAX],
];

/// Metered energies at the limits and around the schedule, less and more by 0, 1 and the volume limit.
fn metered_edges(scheduled: i64) -> Vec<i64> {
    let limit = volume_limit(scheduled);
    let mut metered = vec![-1, 0, 1, 99_999, 100_000, 100_001];
    metered.extend([-1, 0, 1].map(|by| scheduled + by));
    metered.extend([-1, 0, 1].map(|by| scheduled - limit + by));
    metered.extend([-1, 0, 1].map(|by| scheduled + limit + by));
    metered
}

/// Available energies at the limits and where the deviation reaches 15, 25 and 35 hundredths of them.
fn available_edges(kind: i64, deviation: i64) -> Vec<i64> {
    if kind != 3 {
        return vec![0];
    }
    let mut available = vec![0, 1, 99_999, 100_000];
    for hundredths in [15, 25, 35] {
        let edge = 100 * deviation.abs() / hundredths;
        available.extend([-1, 0, 1].map(|by| edge + by));
    }
    available
}

/// Every crossing of the edges: first those mostly within the limits, then those mostly outside.
pub fn edges() -> Vec<Numbers> {
    let mut all = Vec::new();
    for kind in [1, 2, 3] {
        for scheduled in SCHEDULED {
            for metered in metered_edges(scheduled) {
                for available in available_edges(kind, metered - scheduled) {
                    for frequency in FREQUENCIES {
                        for price in PRICES {
                            all.push([kind, scheduled, metered, available, frequency, price]);
                        }
                    }
                }
            }
        }
    }
    let mut crossings: Vec<Numbers> = vec![[0; 6]];
    for (place, set) in AT_THE_LIMITS.iter().enumerate() {
        let with = |numbers: Numbers, number: i64| {
            let mut numbers = numbers;
            numbers[place] = number;
            numbers
        };
        crossings = crossings
            .iter()
            .flat_map(|&numbers| set.iter().map(move |&number| with(numbers, number)))
            .collect();
    }
    all.extend(crossings);
    all
}

/// Random numbers that are mostly within their limits and often at an edge of the rules.
fn near_the_edges(generator: &mut Generator) -> Numbers {
    let kind = 1 + generator.below(3);
    let scheduled = match generator.below(2) {
        0 => generator.pick(&SCHEDULED),
        _ => generator.below(MOST_ENERGY + 1),
    };
    let metered = match generator.below(8) {
        0 | 1 => generator.pick(&metered_edges(scheduled)),
        2 | 3 => scheduled + generator.below(1_001) - 500,
        4 | 5 => scheduled + generator.below(20_001) - 10_000,
        _ => generator.below(MOST_ENERGY + 1),
    };
    let deviation = metered - scheduled;
    let available = match generator.below(2) {
        _ if kind != 3 => 0,
        0 => generator
            .pick(&available_edges(kind, deviation))
            .clamp(1, MOST_ENERGY),
        _ => 1 + generator.below(MOST_ENERGY),
    };
    let frequency = match generator.below(4) {
        0 => generator.pick(&FREQUENCIES),
        1 => LEAST_FREQUENCY + generator.below(401),
        _ => 4_980 + generator.below(31),
    };
    let price = match generator.below(4) {
        0 => generator.pick(&PRICES),
        _ => generator.below(MOST_RATE + 1),
    };
    [kind, scheduled, metered, available, frequency, price]
}

/// Random numbers, of which now and then one is replaced by another, small or of any size.
pub fn any(generator: &mut Generator) -> Numbers {
    let mut numbers = near_the_edges(generator);
    if generator.below(8) == 0 {
        let place = generator.below(6) as usize;
        numbers[place] = match generator.below(2) {
            0 => generator.pick(AT_THE_LIMITS[place]),
            _ => generator.wide(),
        };
    }
    numbers
}

/// Random numbers within their limits.
pub fn valid(generator: &mut Generator) -> Numbers {
    loop {
        let numbers = near_the_edges(generator);
        if Facts::new(numbers).is_ok() {
            return numbers;
        }
    }
}
