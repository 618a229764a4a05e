//! The independent host: compares the proved library with the rules written in plain Rust.

mod call_draws;
mod calls;
mod day;
mod day_speed;
mod days;
mod draws;
mod facts;
mod house;
mod parting;
mod pool;
mod random;
mod sheet_draws;
mod sheet_speed;
mod sheets;
mod speed;
mod sums;
mod tariffs;
mod worked;

use std::path::Path;
use std::process::ExitCode;

const USAGE: &str =
    "usage: host compare [COUNT] | host parting | host sheets [COUNT] | host days [RUNS] \
                     | host read FOLDER | host speed | host plain_sheet COUNT | host worked_examples \
                     | host worked_days";
const MISSING: &str =
    "host: libcapi.a or libhost_calls.a was missing in crates/capi/out or \
                       crates/host_calls/out when the host was built; build them, then the host again";

fn main() -> ExitCode {
    let words: Vec<String> = std::env::args().skip(1).collect();
    let words: Vec<&str> = words.iter().map(String::as_str).collect();
    let done = match words[..] {
        ["compare"] => with(house::PROVED, |proved| house::run(proved, 10_000_000)),
        ["compare", count] => match count.parse() {
            Ok(count) => with(house::PROVED, |proved| house::run(proved, count)),
            Err(_) => fail(USAGE),
        },
        ["parting"] => with(sums::PROVED, |proved| sums::run(proved, 1_000_000)),
        ["sheets"] => with(sheets::PROVED, |proved| sheets::run(proved, 200_000)),
        ["sheets", count] => match count.parse() {
            Ok(count) => with(sheets::PROVED, |proved| sheets::run(proved, count)),
            Err(_) => fail(USAGE),
        },
        ["days"] => with(days::PROVED, |proved| days::run(proved, 10_000)),
        ["days", runs] => match runs.parse() {
            Ok(runs) => with(days::PROVED, |proved| days::run(proved, runs)),
            Err(_) => fail(USAGE),
        },
        ["read", folder] => match sheets::read_folder(Path::new(folder)) {
            Ok(text) => {
                print!("{text}");
                true
            }
            Err(error) => fail(&format!("host: {error}")),
        },
        ["speed"] => {
            with(house::PROVED, speed::run)
                && with(sums::PROVED, sums::speed)
                && sheet_speed::run()
                && with(day_speed::PROVED, day_speed::run)
        }
        ["plain_sheet", count] => match count.parse() {
            Ok(count) => sheet_speed::plain(count),
            Err(_) => fail(USAGE),
        },
        ["worked_examples"] => {
            print!("{}", worked::text());
            true
        }
        ["worked_days"] => {
            print!("{}", worked::days_text());
            true
        }
        _ => fail(USAGE),
    };
    if done {
        ExitCode::SUCCESS
    } else {
        ExitCode::FAILURE
    }
}

/// Runs with calls of the proved library, if that was there when the host was built.
fn with<Calls>(proved: Option<Calls>, run: impl FnOnce(Calls) -> bool) -> bool {
    match proved {
        Some(proved) => run(proved),
        None => fail(MISSING),
    }
}

fn fail(message: &str) -> bool {
    eprintln!("{message}");
    false
}
