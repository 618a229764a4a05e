//! The parting rules of the proved library, compared with the host's own, and their speed.

use std::hint::black_box;
use std::time::{Duration, Instant};

use crate::parting::{largest_remainder, running};
use crate::random::Generator;

const MOST: u64 = 3_000_000_000;
const MOST_WEIGHTS: usize = 16;

/// Writes the shares of a sum, and says whether it may be asked.
pub type PartCall = fn(u64, &[u64], &mut [u64]) -> bool;

/// The calls of the proved library: largest remainder and running.
pub struct Proved {
    pub largest_remainder: PartCall,
    pub running: PartCall,
}

#[cfg(linked)]
mod linked {
    extern "C" {
        fn niszorgy_host_largest_remainder(
            amount: u64,
            weights: *const u64,
            count: usize,
            into: *mut u64,
            room: usize,
        ) -> bool;
        fn niszorgy_host_running(
            amount: u64,
            weights: *const u64,
            count: usize,
            into: *mut u64,
            room: usize,
        ) -> bool;
    }

    pub fn by_largest_remainder(amount: u64, weights: &[u64], into: &mut [u64]) -> bool {
        // Each pointer goes with the length of its slice.
        unsafe {
            niszorgy_host_largest_remainder(
                amount,
                weights.as_ptr(),
                weights.len(),
                into.as_mut_ptr(),
                into.len(),
            )
        }
    }

    pub fn by_running(amount: u64, weights: &[u64], into: &mut [u64]) -> bool {
        // Each pointer goes with the length of its slice.
        unsafe {
            niszorgy_host_running(
                amount,
                weights.as_ptr(),
                weights.len(),
                into.as_mut_ptr(),
                into.len(),
            )
        }
    }
}

#[cfg(linked)]
pub const PROVED: Option<Proved> = Some(Proved {
    largest_remainder: linked::by_largest_remainder,
    running: linked::by_running,
});
#[cfg(not(linked))]
pub const PROVED: Option<Proved> = None;

/// Whether a rule may be asked, and there is a place for each share.
fn may_ask(amount: u64, weights: &[u64], room: usize) -> bool {
    let total = weights.iter().fold(0u64, |sum, w| sum.saturating_add(*w));
    amount <= MOST
        && weights.len() <= MOST_WEIGHTS
        && (1..=MOST).contains(&total)
        && room == weights.len()
}

/// A sum with its weights and the room for shares: mostly one that may be asked.
fn drawn(draws: &mut Generator) -> (u64, Vec<u64>, usize) {
    let count = draws.pick(&[0, 1, 2, 3, 4, 5, 8, 12, 15, 16, 16, 16, 16, 17]) as usize;
    let bound = draws.pick(&[
        1,
        2,
        3,
        100,
        1_000_000,
        187_500_001,
        187_500_001,
        400_000_000,
    ]);
    let mut weights: Vec<u64> = (0..count).map(|_| draws.below(bound) as u64).collect();
    if draws.below(64) == 0 && count > 0 {
        weights[0] = draws.pick(&[0, 3_000_000_000, 3_000_000_001, i64::MAX]) as u64;
    }
    let amount = match draws.below(16) {
        0 => draws.pick(&[0, 1, 2_999_999_999, 3_000_000_000, 3_000_000_001]) as u64,
        1 => draws.wide() as u64,
        2..=5 => draws.below(100) as u64,
        _ => draws.below(3_000_000_001) as u64,
    };
    let room = match draws.below(32) {
        0 => count + 1,
        1 => count.saturating_sub(1),
        _ => count,
    };
    (amount, weights, room)
}

/// What the host itself leaves in a buffer of this room, and whether the rule may be asked.
fn expected(
    rule: fn(i64, &[i64]) -> Vec<i64>,
    amount: u64,
    weights: &[u64],
    room: usize,
) -> (bool, Vec<u64>) {
    if !may_ask(amount, weights, room) {
        return (false, vec![7; room]);
    }
    let weights: Vec<i64> = weights.iter().map(|w| *w as i64).collect();
    let shares = rule(amount as i64, &weights);
    (true, shares.into_iter().map(|s| s as u64).collect())
}

/// Compares both rules on so many sums, prints the counts, and says whether all were alike.
pub fn run(proved: Proved, wanted: usize) -> bool {
    let mut draws = Generator::new(2026);
    let (mut asked, mut different) = (0, 0);
    for _ in 0..wanted {
        let (amount, weights, room) = drawn(&mut draws);
        let rules: [(PartCall, fn(i64, &[i64]) -> Vec<i64>); 2] = [
            (proved.largest_remainder, largest_remainder),
            (proved.running, running),
        ];
        for (call, own) in rules {
            let mut into = vec![7; room];
            let came = (call(amount, &weights, &mut into), into);
            let own = expected(own, amount, &weights, room);
            asked += usize::from(own.0);
            if came != own {
                different += 1;
                if different <= 10 {
                    println!("{amount} by {weights:?}: came {came:?}, host {own:?}");
                }
            }
        }
    }
    println!(
        "sums: {wanted}, by two rules; parted: {asked}; not to be asked: {}",
        2 * wanted - asked
    );
    println!("host parting: {} alike", 2 * wanted - different);
    different == 0
}

/// Largest remainder in plain Rust without allocation, as fast as it is easily written.
#[inline(never)]
pub fn plain_largest_remainder(amount: u64, weights: &[u64], into: &mut [u64]) -> bool {
    if !may_ask(amount, weights, into.len()) {
        return false;
    }
    let total: u64 = weights.iter().sum();
    let mut order = [(0u64, 0usize); MOST_WEIGHTS];
    let mut left = amount;
    for (i, weight) in weights.iter().enumerate() {
        into[i] = weight * amount / total;
        order[i] = (weight * amount % total, i);
        left -= into[i];
    }
    let order = &mut order[..weights.len()];
    order.sort_unstable_by(|a, b| b.0.cmp(&a.0).then(a.1.cmp(&b.1)));
    for (_, i) in order.iter().take(left as usize) {
        into[*i] += 1;
    }
    true
}

/// The running rule in plain Rust.
#[inline(never)]
pub fn plain_running(amount: u64, weights: &[u64], into: &mut [u64]) -> bool {
    if !may_ask(amount, weights, into.len()) {
        return false;
    }
    let total: u64 = weights.iter().sum();
    let (mut seen, mut given) = (0, 0);
    for (share, weight) in into.iter_mut().zip(weights) {
        seen += weight;
        let reached = seen * amount / total;
        *share = reached - given;
        given = reached;
    }
    true
}

/// Nanoseconds for a sum by 16 weights, the least of several rounds, and a sum of the shares.
fn time(call: PartCall, sums: &[(u64, [u64; MOST_WEIGHTS])]) -> (f64, u64) {
    let mut best = f64::INFINITY;
    let mut check = 0;
    for _ in 0..5 {
        let start = Instant::now();
        let (mut parted, mut rounds) = (0u64, 0);
        while start.elapsed() < Duration::from_millis(200) {
            let call = black_box(call);
            for (amount, weights) in sums {
                let mut into = [0; MOST_WEIGHTS];
                call(*amount, weights, &mut into);
                parted = parted.wrapping_add(into[3]);
            }
            rounds += 1;
        }
        best = best.min(start.elapsed().as_nanos() as f64 / (rounds * sums.len()) as f64);
        check = parted / rounds as u64;
    }
    (best, check)
}

/// Prints the speed of both rules beside plain Rust, and says whether the shares were equal.
pub fn speed(proved: Proved) -> bool {
    let mut draws = Generator::new(2027);
    let sums: Vec<(u64, [u64; MOST_WEIGHTS])> = (0..10_000)
        .map(|_| {
            let weights = std::array::from_fn(|_| 1 + draws.below(187_500_000) as u64);
            (draws.below(3_000_000_001) as u64, weights)
        })
        .collect();
    let mut equal = true;
    let rules: [(&str, PartCall, PartCall); 2] = [
        (
            "largest remainder",
            proved.largest_remainder,
            plain_largest_remainder,
        ),
        ("running", proved.running, plain_running),
    ];
    for (name, ours, plain) in rules {
        let (our_time, our_check) = time(ours, &sums);
        let (plain_time, plain_check) = time(plain, &sums);
        equal &= our_check == plain_check;
        let ratio = plain_time / our_time;
        println!("{name} at 16 weights: ours {our_time:.1} ns, plain Rust {plain_time:.1} ns, ratio {ratio:.2}");
    }
    equal
}

#[cfg(test)]
mod tests {
    use super::*;

    #[test]
    fn the_plain_rules_are_alike() {
        let plain = Proved {
            largest_remainder: plain_largest_remainder,
            running: plain_running,
        };
        assert!(run(plain, 20_000));
    }
}
