//! The speed of closing a full day by the proved library beside that of the host's own rules.

use std::hint::black_box;
use std::time::Instant;

use crate::day::{dues_by, records, Grid, GridRow, Member, MemberKind, Reading, BLOCKS, MEMBERS};
use crate::draws;
use crate::random::Generator;

/// Closes a day so many times: kinds, grid rows and readings as numbers give a sum over the lines.
pub type CloseCall = fn(&[i64], &[i64], &[i64], u32) -> i64;

#[cfg(linked)]
mod linked {
    extern "C" {
        fn niszorgy_host_close_days(
            kinds: *const i64,
            members: usize,
            grid: *const i64,
            grid_numbers: usize,
            readings: *const i64,
            reading_numbers: usize,
            times: u32,
        ) -> i64;
    }

    pub fn close(kinds: &[i64], grid: &[i64], readings: &[i64], times: u32) -> i64 {
        // Each pointer goes with the length of its slice.
        unsafe {
            niszorgy_host_close_days(
                kinds.as_ptr(),
                kinds.len(),
                grid.as_ptr(),
                grid.len(),
                readings.as_ptr(),
                readings.len(),
                times,
            )
        }
    }
}

#[cfg(linked)]
pub const PROVED: Option<CloseCall> = Some(linked::close);
#[cfg(not(linked))]
pub const PROVED: Option<CloseCall> = None;

const TIMES: u32 = 20_000;
const ROUNDS: usize = 7;

/// A day of 16 members as plain numbers.
struct Day {
    kinds: Vec<i64>,
    grid: Vec<i64>,
    readings: Vec<i64>,
}

/// Buyers, sellers, and solar or wind in turn; the blocks' facts are those that charges are timed with.
fn drawn_day(draws: &mut Generator) -> Day {
    let kinds: Vec<i64> = (0..MEMBERS as i64).map(|member| 1 + member % 3).collect();
    let grid = (0..BLOCKS).flat_map(|_| {
        let [_, _, _, _, frequency, price] = draws::valid(draws);
        [frequency, price]
    });
    let grid = grid.collect();
    let mut readings = Vec::new();
    for &kind in &kinds {
        for _ in 0..BLOCKS {
            let [scheduled, metered, available] = drawn_reading(draws, kind);
            readings.extend([scheduled, metered, available]);
        }
    }
    Day {
        kinds,
        grid,
        readings,
    }
}

fn drawn_reading(draws: &mut Generator, wanted: i64) -> [i64; 3] {
    loop {
        let [kind, scheduled, metered, available, _, _] = draws::valid(draws);
        if kind == wanted && (metered - scheduled).abs() <= 2_000 {
            return [scheduled, metered, available];
        }
    }
}

fn entered(day: &Day) -> (Vec<Member>, Grid) {
    let row = |block: usize| GridRow {
        frequency: day.grid[2 * block],
        price: day.grid[2 * block + 1],
    };
    let reading = |at: usize| Reading {
        scheduled: day.readings[3 * at],
        metered: day.readings[3 * at + 1],
        available: day.readings[3 * at + 2],
    };
    let member = |(place, kind): (usize, &i64)| {
        let kind = MemberKind::new(*kind).expect("a kind");
        let mut member = Member::new(kind);
        member.readings = std::array::from_fn(|block| Some(reading(place * BLOCKS + block)));
        member
    };
    let members = day.kinds.iter().enumerate().map(member).collect();
    (members, std::array::from_fn(|block| Some(row(block))))
}

/// Closes the day so many times by the host's own rules: the sum of all lines, each times its place from 1 on.
fn plain<const TESTS: bool>(members: &[Member], grid: &Grid, times: u32) -> i64 {
    let mut sum = 0i64;
    for _ in 0..times {
        let dues = dues_by::<TESTS>(black_box(members), black_box(grid)).expect("nothing is missing");
        let records = records(&dues).expect("not too much");
        let weighed = (1..)
            .zip(records)
            .map(|(place, record)| place * record.line);
        sum = sum.wrapping_add(weighed.sum());
    }
    sum
}

/// Microseconds for one close, and what was answered.
fn time(close: impl Fn(u32) -> i64) -> (f64, i64) {
    let start = Instant::now();
    let sum = close(TIMES);
    let micros = start.elapsed().as_nanos() as f64 / 1_000.0;
    (micros / f64::from(TIMES), sum)
}

/// Lets both take turns, prints the best time of each, and says whether their sums were equal.
pub fn run(proved: CloseCall) -> bool {
    let day = drawn_day(&mut Generator::new(2029));
    let (members, grid) = entered(&day);
    let mut best = [f64::INFINITY; 3];
    for _ in 0..ROUNDS {
        let timed = [
            time(|times| proved(&day.kinds, &day.grid, &day.readings, times)),
            time(|times| plain::<true>(&members, &grid, times)),
            time(|times| plain::<false>(&members, &grid, times)),
        ];
        if timed.iter().any(|(_, sum)| *sum != timed[0].1) {
            println!("host speed: the lines differ, {timed:?}");
            return false;
        }
        for (best, (micros, _)) in best.iter_mut().zip(timed) {
            *best = best.min(micros);
        }
    }
    let [ours, testing, trusting] = best;
    println!(
        "closing a day of 16 members: ours {ours:.1} us, plain Rust that tests every row as ours does {testing:.1} us, \
         ratio {:.2}; plain Rust that tests none {trusting:.1} us, ratio {:.2}",
        testing / ours,
        trusting / ours
    );
    true
}

#[cfg(test)]
mod tests {
    use super::*;

    #[test]
    fn the_day_can_be_closed() {
        let day = drawn_day(&mut Generator::new(2029));
        let (members, grid) = entered(&day);
        assert_eq!(members.len(), MEMBERS);
        assert!(plain::<true>(&members, &grid, 1) != 0);
        assert_eq!(plain::<true>(&members, &grid, 1), plain::<false>(&members, &grid, 1));
        assert!(day.readings.len() == 3 * MEMBERS * BLOCKS);
    }
}
