//! The worked examples, as one text.

use crate::day::sevenths;
use crate::facts::{Facts, Numbers};
use crate::house::house_charge;
use crate::day::{Due, share_out};
use crate::parting::{largest_remainder, running};
use crate::random::Generator;
use crate::tariffs::{bands, other_pile, vector_rate, volume_limit};

const SUMS_FROM_A_SEED: usize = 1_000;

fn facts(numbers: Numbers) -> Facts {
    Facts::new(numbers).expect("an example lies within the limits")
}

fn joined(numbers: &[i64]) -> String {
    let words: Vec<String> = numbers.iter().map(i64::to_string).collect();
    words.join(" ")
}

fn parted(sum: i64, weights: &[i64]) -> String {
    format!(
        "{sum} by {}: largest remainder {}, running {}",
        joined(weights),
        joined(&largest_remainder(sum, weights)),
        joined(&running(sum, weights))
    )
}

/// The next sum of the generator, with its weights.
fn drawn_sum(generator: &mut Generator) -> (i64, Vec<i64>) {
    let count = 1 + generator.below(16);
    let bound = generator.pick(&[2, 100, 1_000_000, 187_500_001]);
    let mut weights: Vec<i64> = (0..count).map(|_| generator.below(bound)).collect();
    if weights.iter().all(|&weight| weight == 0) {
        weights[0] = 1;
    }
    (generator.below(3_000_000_001), weights)
}

/// Stretches of blocks, each a sign of the deviation and a count of blocks, with what their runs count.
const RUNS: [(&str, &[(i64, usize)], usize); 8] = [
    ("one of 6", &[(1, 6)], 0),
    ("one of 7", &[(1, 7)], 1),
    ("one of 13", &[(1, 13)], 1),
    ("one of 14", &[(1, 14)], 2),
    ("one of 96", &[(1, 96)], 13),
    ("3 over, 1 level, 4 over", &[(1, 3), (0, 1), (1, 4)], 0),
    (
        "7 over, 4 under, 4 over, 1 level, 7 under",
        &[(1, 7), (-1, 4), (1, 4), (0, 1), (-1, 7)],
        2,
    ),
    (
        "40 level, 7 under, 14 over, 35 level",
        &[(0, 40), (-1, 7), (1, 14), (0, 35)],
        3,
    ),
];

/// What the runs of these stretches count.
fn counted(stretches: &[(i64, usize)]) -> i64 {
    let signs: Vec<i64> = stretches
        .iter()
        .flat_map(|&(sign, blocks)| std::iter::repeat_n(sign, blocks))
        .collect();
    sevenths(&signs)
}

/// The lines and the reserve's line of a day with these charges, and these amounts that are fixed.
fn shared(charges: &[i64], fixed: &[i64]) -> (Vec<i64>, i64) {
    let due = |fixed| {
        move |&base: &i64| Due {
            base,
            surcharge: 0,
            fixed,
        }
    };
    let dues: Vec<Due> = charges
        .iter()
        .map(due(false))
        .chain(fixed.iter().map(due(true)))
        .collect();
    share_out(&dues).expect("both sides are within their limit")
}

pub fn text() -> String {
    let mut lines = vec!["Rates of the vector at price 4000".to_string()];
    for (frequency, by_hand) in [(4984, 8000), (4999, 4266), (5004, 800), (5005, 0)] {
        let came = vector_rate(frequency, 4000);
        lines.push(format!(
            "frequency {frequency}: came {came}, by hand {by_hand}"
        ));
    }

    lines.push("Volume limits".to_string());
    for (scheduled, by_hand) in [(10000, 1250), (10001, 1200), (62499, 7499), (62500, 7500)] {
        let came = volume_limit(scheduled);
        lines.push(format!(
            "scheduled {scheduled}: came {came}, by hand {by_hand}"
        ));
    }

    lines.push("Bands at 1000 available".to_string());
    for (deviation, by_hand) in [(150, 0), (151, 50), (400, 22500)] {
        let came = bands(facts([3, 1000, 1000 + deviation, 1000, 5000, 4000]));
        lines.push(format!(
            "deviation {deviation}: came {came}, by hand {by_hand}"
        ));
    }

    lines.push("House pile, a seller at price 4000".to_string());
    for (scheduled, metered, frequency, by_hand) in
        [(20000, 17000, 4980, 1230216), (1000, 3000, 5000, -500000)]
    {
        let came = house_charge(2, scheduled, metered, 0, frequency, 4000);
        lines.push(format!(
            "scheduled {scheduled}, metered {metered}, frequency {frequency}: came {came}, by hand {by_hand}"
        ));
    }

    lines.push("Another pile at price 4000".to_string());
    for (kind, scheduled, metered, available, frequency) in [
        (1, 1000, 4000, 0, 4990),
        (2, 20000, 17000, 0, 4980),
        (2, 1000, 3000, 0, 5000),
        (3, 1000, 400, 1000, 5010),
        (3, 1000, 1600, 1000, 5010),
    ] {
        let came = other_pile(facts([
            kind, scheduled, metered, available, frequency, 4000,
        ]));
        lines.push(format!(
            "kind {kind}, scheduled {scheduled}, metered {metered}, available {available}, frequency {frequency}: came {came}"
        ));
    }

    lines.push("A seventh of each run".to_string());
    for (blocks, stretches, by_hand) in RUNS {
        let came = counted(stretches);
        lines.push(format!("{blocks}: came {came}, by hand {by_hand}"));
    }

    lines.push("Sums by hand".to_string());
    lines.push(parted(10, &[1, 1, 1]));
    lines.push(parted(10500, &[2850, 1900, 3500, 1500]));

    lines.push("A thousand sums from a seed".to_string());
    let mut generator = Generator::new(1);
    for _ in 0..SUMS_FROM_A_SEED {
        let (sum, weights) = drawn_sum(&mut generator);
        lines.push(parted(sum, &weights));
    }

    lines.push(String::new());
    lines.join("\n")
}

/// The days shared out by hand, as one text.
pub fn days_text() -> String {
    let mut lines = vec!["Lines of a day by largest remainder".to_string()];
    let (seven, reserve) = shared(&[2850, 1900, 3500, 1500, -4750, -3500], &[-3000]);
    let by_hand = [3069, 2046, 3769, 1616, -4318, -3182, -3000];
    for (line, by_hand) in seven.iter().zip(by_hand) {
        lines.push(format!("one of seven: came {line}, by hand {by_hand}"));
    }
    lines.push(format!("the reserve: came {reserve}, by hand 0"));
    let (alone, reserve) = shared(&[1], &[]);
    lines.push(format!("one paisa payable alone: came {}, by hand 0", alone[0]));
    lines.push(format!("the reserve: came {reserve}, by hand 0"));
    lines.join("\n") + "\n"
}

#[cfg(test)]
mod tests {
    use super::*;

    /// How many lines say what came and what was worked out by hand, where both are the same in each.
    fn pairs_alike(text: &str) -> usize {
        let pairs = text.lines().filter_map(|line| {
            let (before, by_hand) = line.split_once(", by hand ")?;
            let (_, came) = before.split_once(": came ")?;
            Some((came, by_hand))
        });
        assert!(pairs.clone().all(|(came, by_hand)| came == by_hand));
        pairs.count()
    }

    #[test]
    fn what_came_is_what_was_worked_out_by_hand() {
        let text = text();
        assert_eq!(pairs_alike(&text), 21);
        assert!(text.contains("\n10 by 1 1 1: largest remainder 4 3 3, running 3 3 4\n"));
        assert!(text.ends_with('\n'));
        assert_eq!(text.lines().count(), 36 + SUMS_FROM_A_SEED);
    }

    #[test]
    fn lines_that_came_are_those_worked_out_by_hand() {
        let text = days_text();
        assert_eq!(pairs_alike(&text), 10);
        assert!(text.ends_with('\n'));
        assert_eq!(text.lines().count(), 11);
    }

    #[test]
    fn sums_from_a_seed_keep_the_law_of_parting() {
        let mut generator = Generator::new(1);
        for _ in 0..SUMS_FROM_A_SEED {
            let (sum, weights) = drawn_sum(&mut generator);
            let total: i64 = weights.iter().sum();
            assert!((1..=16).contains(&weights.len()));
            assert!((1..=3_000_000_000).contains(&total));
            for shares in [largest_remainder(sum, &weights), running(sum, &weights)] {
                assert_eq!(shares.len(), weights.len());
                assert_eq!(shares.iter().sum::<i64>(), sum);
                for (share, weight) in shares.iter().zip(&weights) {
                    assert!(*share >= 0);
                    assert!((share * total - weight * sum).abs() < total);
                }
            }
        }
    }
}
