//! The speed of the proved library beside that of the host's own rules.

use std::hint::black_box;
use std::time::{Duration, Instant};

use crate::draws;
use crate::facts::Numbers;
use crate::house::{house_charge, HouseCall};
use crate::random::Generator;

const FACTS: usize = 1_000_000;
const ROUNDS: usize = 7;
const ROUND: Duration = Duration::from_secs(1);

/// Asks with all facts, again and again for about a second: nanoseconds per charge, and the sum of the charges.
fn round(call: HouseCall, facts: &[Numbers]) -> (f64, i64) {
    let start = Instant::now();
    let mut asked = 0;
    let mut sum = 0;
    while start.elapsed() < ROUND {
        // The call is hidden from the compiler, so that both sides pay the same for it.
        let call = black_box(call);
        sum = facts
            .iter()
            .map(|&[kind, scheduled, metered, available, frequency, price]| {
                call(kind, scheduled, metered, available, frequency, price)
            })
            .sum();
        asked += facts.len();
    }
    (start.elapsed().as_nanos() as f64 / asked as f64, sum)
}

/// Lets both take turns and prints the best time of each. Says whether their sums were equal.
pub fn run(proved: HouseCall) -> bool {
    let mut generator = Generator::new(2025);
    let facts: Vec<Numbers> = (0..FACTS).map(|_| draws::valid(&mut generator)).collect();
    let mut best_proved = f64::INFINITY;
    let mut best_plain = f64::INFINITY;
    for _ in 0..ROUNDS {
        let (proved_time, proved_sum) = round(proved, &facts);
        let (plain_time, plain_sum) = round(house_charge, &facts);
        if proved_sum != plain_sum {
            println!("host speed: the sums differ, {proved_sum} and {plain_sum}");
            return false;
        }
        best_proved = best_proved.min(proved_time);
        best_plain = best_plain.min(plain_time);
    }
    println!("ours: {best_proved:.2} ns per charge");
    println!("plain Rust: {best_plain:.2} ns per charge");
    let ratio = best_plain / best_proved;
    println!("ours / plain Rust, in charges per second: {ratio:.2}");
    true
}
