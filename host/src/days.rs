//! Pools of the proved library, compared with the host's own: every answer and every record.

use crate::call_draws::{run as drawn, Run};
use crate::calls::{Answer, Call};
use crate::day::{Record, RESERVE};
use crate::random::Generator;

/// Performs calls on a new pool, writes the answers as numbers, and says how many numbers there were.
pub type CallsCall = fn(&[Call], &mut [i64]) -> i64;

#[cfg(linked)]
mod linked {
    use crate::calls::Call;

    extern "C" {
        fn niszorgy_host_calls(calls: *const i64, count: usize, into: *mut i64, room: usize)
            -> i64;
    }

    pub fn perform(calls: &[Call], into: &mut [i64]) -> i64 {
        let calls = calls.as_flattened();
        // Each pointer goes with the length of its slice.
        unsafe { niszorgy_host_calls(calls.as_ptr(), calls.len(), into.as_mut_ptr(), into.len()) }
    }
}

#[cfg(linked)]
pub const PROVED: Option<CallsCall> = Some(linked::perform);
#[cfg(not(linked))]
pub const PROVED: Option<CallsCall> = None;

const REFUSALS: usize = 11;
/// What stands in a buffer where nothing was written.
const UNTOUCHED: i64 = -7_777_777_777_777;
/// Numbers after the room that is lent, which no call may touch.
const BEYOND: usize = 8;

#[derive(Default)]
struct Tally {
    runs: u64,
    calls: u64,
    averaged: u64,
    to_reserve: u64,
    /// Averaged days with a line that is not the charge.
    adjusted: u64,
    /// Days with a surcharge.
    surcharged: u64,
    refused: [u64; REFUSALS],
}

impl Tally {
    fn count(&mut self, answer: &Answer) {
        self.calls += 1;
        match answer {
            Answer::Closed(records) => self.count_day(records),
            Answer::Refused(refusal) => self.refused[*refusal as usize - 1] += 1,
            _ => {}
        }
    }

    fn count_day(&mut self, records: &[Record]) {
        // A day that is not shared by the average moves the reserve: its sides differ.
        let averaged = records[RESERVE].line == 0;
        let adjusted = |r: &Record| r.line != r.base + r.surcharge;
        self.averaged += u64::from(averaged);
        self.to_reserve += u64::from(!averaged);
        self.adjusted += u64::from(averaged && records.iter().any(adjusted));
        self.surcharged += u64::from(records.iter().any(|r| r.surcharge > 0));
    }

    fn print(&self) {
        println!("runs: {}, calls: {}", self.runs, self.calls);
        println!(
            "days closed by the average: {}, of them with a line that is not the charge: {}",
            self.averaged, self.adjusted
        );
        println!(
            "days closed with a line of the reserve: {}",
            self.to_reserve
        );
        println!("days with a surcharge: {}", self.surcharged);
        for (number, count) in (1..).zip(self.refused) {
            println!("refused with {number}: {count}");
        }
    }

    /// Whether days were closed in both ways, and each refusal came.
    fn is_full(&self) -> bool {
        let counts = [self.to_reserve, self.adjusted, self.surcharged];
        counts.iter().chain(&self.refused).all(|&count| count > 0)
    }
}

/// Says where the numbers that came first differ from the host's.
fn report(run: &Run, came: &[i64]) {
    let mut from = 0;
    for (call, answer) in run.calls.iter().zip(&run.answers) {
        let mut own = Vec::new();
        answer.put(&mut own);
        let to = from + own.len();
        let here = &came[from.min(came.len())..to.min(came.len())];
        if here != own {
            println!("call {call:?}: came {here:?}, host {own:?}");
            return;
        }
        from = to;
    }
    println!("all answers are alike, but not what stands after them");
}

/// Performs the calls by the library in a buffer with this room, and says whether it holds the host's numbers.
fn alike(theirs: CallsCall, run: &Run, own: &[i64], room: usize) -> bool {
    let mut into = vec![UNTOUCHED; room + BEYOND];
    let count = theirs(&run.calls, &mut into[..room]);
    let written = own.len().min(room);
    let alike = count == written as i64
        && into[..written] == own[..written]
        && into[written..].iter().all(|&number| number == UNTOUCHED);
    if !alike {
        println!("{count} numbers came, the host has {written}");
        report(run, &into[..written]);
    }
    alike
}

/// Compares so many runs, prints the counts, and says whether all answers were alike.
pub fn run(theirs: CallsCall, runs: u64) -> bool {
    let mut draws = Generator::new(2028);
    let mut tally = Tally::default();
    for number in 0..runs {
        let run = drawn(&mut draws);
        let mut own = Vec::new();
        run.answers.iter().for_each(|answer| answer.put(&mut own));
        let short = draws.below(own.len() as i64) as usize;
        let rooms = [own.len() + BEYOND, short];
        let rooms = &rooms[..1 + usize::from(number % 16 == 0)];
        if !rooms.iter().all(|&room| alike(theirs, &run, &own, room)) {
            println!("host days: different in run {number}");
            return false;
        }
        tally.runs += 1;
        run.answers.iter().for_each(|answer| tally.count(answer));
    }
    tally.print();
    if !tally.is_full() {
        println!("host days: a refusal or a way to close a day never came");
        return false;
    }
    println!("host days: {} calls alike", tally.calls);
    true
}

#[cfg(test)]
mod tests {
    use super::*;
    use crate::calls::perform;
    use crate::pool::Pool;

    /// The host's own pool in the place of the library.
    fn own_pool(calls: &[Call], into: &mut [i64]) -> i64 {
        let mut pool = Pool::new();
        let mut all = Vec::new();
        for call in calls {
            perform(&mut pool, *call).put(&mut all);
        }
        let count = all.len().min(into.len());
        into[..count].copy_from_slice(&all[..count]);
        count as i64
    }

    /// The same, but the last line of a day is one too much.
    fn faulty(calls: &[Call], into: &mut [i64]) -> i64 {
        let count = own_pool(calls, into);
        if count > 53 {
            into[count as usize - 1] += 1;
        }
        count
    }

    #[test]
    fn every_answer_is_compared_and_every_refusal_comes() {
        assert!(run(own_pool, 200));
        assert!(!run(faulty, 200));
    }
}
