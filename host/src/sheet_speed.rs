//! The speed of the proved reader of sheets beside a plain one, on a full readings sheet.

#[cfg(linked)]
use crate::sheets::linked;
use crate::sheets::{plain_count, Sheet};
use std::hint::black_box;
#[cfg(linked)]
use std::time::Duration;
use std::time::Instant;

/// Readings of 16 members in all 96 blocks.
fn full_readings() -> Vec<u8> {
    let mut text = String::from("member,block,scheduled,metered,available\n");
    for member in 0..16 {
        for block in 0..96 {
            let (scheduled, metered) = (10_000 + 37 * block, 9_000 + 53 * block + member);
            text += &format!(
                "{member},{block},{scheduled},{metered},{}\n",
                member % 3 * 5_000
            );
        }
    }
    text.into_bytes()
}

/// Microseconds for one reading, the least of several rounds.
#[cfg(linked)]
fn time(mut read: impl FnMut() -> u64) -> f64 {
    let mut best = f64::INFINITY;
    for _ in 0..7 {
        let start = Instant::now();
        let mut rounds = 0;
        while start.elapsed() < Duration::from_millis(200) {
            black_box(read());
            rounds += 1;
        }
        best = best.min(start.elapsed().as_nanos() as f64 / 1_000.0 / f64::from(rounds));
    }
    best
}

/// Prints the speed of both, and says whether they read the same.
#[cfg(linked)]
pub fn run() -> bool {
    let bytes = full_readings();
    let mut into = vec![0; 16 * 96 * 5];
    let count = linked::read_into(Sheet::Readings, &bytes, &mut into);
    let sum = into.iter().fold(0u64, |sum, n| sum.wrapping_add(*n));
    let plain = plain_count(Sheet::Readings, &bytes);
    let equal = plain == Ok((count as u64 / 5, sum));
    let ours = time(|| linked::read_into(Sheet::Readings, black_box(&bytes), &mut into) as u64);
    let theirs = time(|| plain_count(Sheet::Readings, black_box(&bytes)).map_or(0, |x| x.1));
    println!(
        "a readings sheet of {} bytes: ours {ours:.1} us, plain Rust {theirs:.1} us, ratio {:.2}",
        bytes.len(),
        theirs / ours
    );
    equal
}

#[cfg(not(linked))]
pub fn run() -> bool {
    false
}

/// Reads the sheet so many times by the plain reader, and prints what the program `reading_speed` prints of the proved one.
pub fn plain(times: u32) -> bool {
    let bytes = full_readings();
    let mut fastest = u128::MAX;
    let mut read = plain_count(Sheet::Readings, &bytes);
    for _ in 0..times {
        let start = Instant::now();
        read = black_box(plain_count(Sheet::Readings, black_box(&bytes)));
        fastest = fastest.min(start.elapsed().as_nanos());
    }
    let Ok((rows, sum)) = read else {
        return false;
    };
    println!(
        "bytes,{}\nrows,{rows}\nsum,{sum}\nreadings,{times}",
        bytes.len()
    );
    eprintln!("nanoseconds of the fastest reading,{fastest}");
    true
}
