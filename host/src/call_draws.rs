//! Random runs of calls on a pool. The host's own pool tells what a good call would be.

use crate::calls::{
    perform, Answer, Call, ACCOUNT, AMOUNT, CASH, CLOSE, DROP, ENROL, GRID, OPEN, PAY_IN, PAY_OUT,
    READING,
};
use crate::day::{MemberKind, BLOCKS, MOST_MONEY, RESERVE};
use crate::facts::{Kind, LEAST_FREQUENCY, MOST_ENERGY, MOST_RATE};
use crate::pool::{Pool, Refusal};
use crate::random::Generator;
use crate::tariffs::volume_limit;

/// The calls of a run, each with the host's answer.
pub struct Run {
    pool: Pool,
    pub calls: Vec<Call>,
    pub answers: Vec<Answer>,
}

/// How the entries of a day are drawn.
struct Style {
    /// No price is above this.
    most_price: i64,
    /// How far from the schedule a member is metered.
    deviations: Deviations,
    /// No amount is further from 0.
    most_amount: i64,
}

#[derive(Clone, Copy)]
enum Deviations {
    Level,
    Small,
    AtTheLimit,
    Any,
}

const SCHEDULES: [i64; 11] = [
    0, 1, 500, 9_999, 10_000, 10_001, 62_499, 62_500, 62_501, 99_999, 100_000,
];
const DAYS: [i64; 7] = [i64::MIN, -1, 0, 1, 30_000, 30_001, i64::MAX];
const AMOUNTS: [i64; 9] = [
    0,
    1,
    -1,
    MOST_MONEY,
    -MOST_MONEY,
    MOST_MONEY + 1,
    -MOST_MONEY - 1,
    i64::MIN,
    i64::MAX,
];

fn style(draws: &mut Generator) -> Style {
    Style {
        most_price: draws.pick(&[0, 3, 40, 4_000, MOST_RATE]),
        deviations: match draws.below(6) {
            0 => Deviations::Level,
            1 | 2 => Deviations::Small,
            3 => Deviations::AtTheLimit,
            _ => Deviations::Any,
        },
        most_amount: draws.pick(&[0, 5, 10_000, 5_000_000, 300_000_000, MOST_MONEY]),
    }
}

fn schedule(draws: &mut Generator) -> i64 {
    match draws.below(2) {
        0 => draws.pick(&SCHEDULES),
        _ => draws.below(MOST_ENERGY + 1),
    }
}

/// A magnitude above 0 by which to deviate.
fn magnitude(draws: &mut Generator, deviations: Deviations, scheduled: i64) -> i64 {
    match deviations {
        Deviations::Level | Deviations::Small => 1 + draws.below(9),
        Deviations::AtTheLimit => volume_limit(scheduled) + draws.below(5) - 2,
        Deviations::Any => 1 + draws.below(MOST_ENERGY),
    }
}

/// Any frequency within its limits, often at a step of the vector.
fn frequency(draws: &mut Generator) -> i64 {
    match draws.below(4) {
        0 => LEAST_FREQUENCY + draws.below(401),
        1 => draws.pick(&[4_800, 4_984, 4_985, 4_999, 5_000, 5_004, 5_005, 5_200]),
        _ => 4_980 + draws.below(31),
    }
}

/// Signs of the deviations of a day, in stretches of any length.
fn signs(draws: &mut Generator, deviations: Deviations) -> [i64; BLOCKS] {
    let mut signs = [0; BLOCKS];
    let mut from = 0;
    while from < BLOCKS {
        let length = match draws.below(4) {
            0 => 1 + draws.below(3),
            1 => draws.pick(&[6, 7, 8, 13, 14, 15]),
            2 => 1 + draws.below(30),
            _ => 1 + draws.below(96),
        };
        let sign = match deviations {
            Deviations::Level if draws.below(8) > 0 => 0,
            _ => draws.pick(&[-1, -1, 0, 1, 1]),
        };
        let to = BLOCKS.min(from + length as usize);
        signs[from..to].fill(sign);
        from = to;
    }
    signs
}

fn available(draws: &mut Generator, kind: Kind, deviation: i64) -> i64 {
    if kind != Kind::SolarOrWind {
        return 0;
    }
    let edge = 100 * deviation.abs() / draws.pick(&[15, 25, 35]);
    match draws.below(3) {
        0 => 1 + draws.below(MOST_ENERGY),
        1 => draws.pick(&[1, 100, 100_000]),
        _ => (edge + draws.below(3) - 1).clamp(1, MOST_ENERGY),
    }
}

fn reading(
    draws: &mut Generator,
    (member, kind): (usize, Kind),
    block: usize,
    deviations: Deviations,
    sign: i64,
) -> Call {
    let scheduled = schedule(draws);
    let by = sign * magnitude(draws, deviations, scheduled);
    let metered = (scheduled + by).clamp(0, MOST_ENERGY);
    let available = available(draws, kind, metered - scheduled);
    let (member, block) = (member as i64, block as i64);
    [READING, member, block, scheduled, metered, available]
}

fn amount(draws: &mut Generator, member: usize, most: i64) -> Call {
    let paise = match draws.below(4) {
        0 => draws.pick(&[most, -most]),
        _ => draws.below(2 * most + 1) - most,
    };
    [AMOUNT, member as i64, paise, 0, 0, 0]
}

/// A number that a call may be given where it asks for another.
fn stray(draws: &mut Generator) -> i64 {
    match draws.below(4) {
        0 => draws.pick(&[i64::MIN, -1, 0, 15, 16, 17, 95, 96, i64::MAX]),
        1 => draws.pick(&[4_799, 5_201, 8_001, 100_001, MOST_MONEY + 1]),
        2 => draws.below(18),
        _ => draws.wide(),
    }
}

impl Run {
    fn perform(&mut self, call: Call) -> Answer {
        let answer = perform(&mut self.pool, call);
        self.calls.push(call);
        self.answers.push(answer);
        answer
    }

    fn enrol(&mut self, draws: &mut Generator, times: i64) {
        for _ in 0..times {
            let kind = match draws.below(12) {
                0 => draws.pick(&[i64::MIN, -1, 0, 5, 9, i64::MAX]),
                1..=4 => 1,
                5..=8 => 2,
                9 | 10 => 3,
                _ => 4,
            };
            self.perform([ENROL, kind, 0, 0, 0, 0]);
        }
    }

    fn account_number(&self, draws: &mut Generator) -> i64 {
        match draws.below(8) {
            0 => stray(draws),
            1 => RESERVE as i64,
            _ => draws.below(self.pool.members().len() as i64 + 1),
        }
    }

    /// A payment into or out of an account: often what is due or one more, and the cash or one more.
    fn pay(&mut self, draws: &mut Generator) {
        let account = self.account_number(draws);
        let sum = self.pool.account(account).unwrap_or(0);
        let due = sum.abs();
        let paise = match draws.below(8) {
            0 | 1 => due,
            2 => due + 1,
            3 => self.pool.cash(),
            4 => self.pool.cash() + 1,
            5 => draws.pick(&AMOUNTS),
            _ => 1 + draws.below(due.clamp(1, MOST_MONEY)),
        };
        let towards = if sum > 0 { PAY_IN } else { PAY_OUT };
        let code = match draws.below(8) {
            0 => draws.pick(&[PAY_IN, PAY_OUT]),
            _ => towards,
        };
        self.perform([code, account, paise, 0, 0, 0]);
    }

    fn ask(&mut self, draws: &mut Generator) {
        let account = self.account_number(draws);
        self.perform([ACCOUNT, account, 0, 0, 0, 0]);
        self.perform([CASH, 0, 0, 0, 0, 0]);
    }

    /// Any call with any numbers, which is mostly refused. A day is seldom ended so.
    fn stray(&mut self, draws: &mut Generator) {
        let code = match draws.below(400) {
            0 => DROP,
            _ => draws.pick(&[ENROL, OPEN, GRID, READING, AMOUNT, PAY_IN, PAY_OUT, CLOSE]),
        };
        let mut call = [code, 0, 0, 0, 0, 0];
        for number in &mut call[1..] {
            *number = stray(draws);
        }
        self.perform(call);
    }

    /// A good entry with one of its numbers replaced.
    fn spoilt(&mut self, draws: &mut Generator, mut call: Call) {
        let place = 1 + draws.below(5) as usize;
        call[place] = match call[0] {
            AMOUNT => draws.pick(&AMOUNTS),
            _ => stray(draws),
        };
        self.perform(call);
    }

    fn open(&mut self, draws: &mut Generator) {
        if draws.below(6) == 0 {
            let day = match draws.below(2) {
                0 => draws.pick(&DAYS[..5]),
                _ => self.pool.last_day() + draws.below(3) - 2,
            };
            self.perform([OPEN, day, 0, 0, 0, 0]);
        }
        let day = self.pool.last_day() + 1 + draws.below(4);
        self.perform([OPEN, day, 0, 0, 0, 0]);
    }

    /// All entries of a day, in the order of the blocks.
    fn entries(&self, draws: &mut Generator) -> Vec<Call> {
        let style = style(draws);
        let mut entries = Vec::new();
        for block in 0..BLOCKS as i64 {
            let price = draws.below(style.most_price + 1);
            entries.push([GRID, block, frequency(draws), price, 0, 0]);
        }
        for (member, of) in self.pool.members().iter().enumerate() {
            let MemberKind::Metered(kind) = of.kind else {
                entries.push(amount(draws, member, style.most_amount));
                continue;
            };
            let signs = signs(draws, style.deviations);
            for (block, sign) in signs.into_iter().enumerate() {
                let by = style.deviations;
                entries.push(reading(draws, (member, kind), block, by, sign));
            }
        }
        entries
    }

    /// Enters a day, with strays and replaced entries among them; one entry is often left to the last.
    fn enter(&mut self, draws: &mut Generator) {
        let entries = self.entries(draws);
        let late = draws.below(2 * entries.len() as i64) as usize;
        for (place, entry) in entries.iter().enumerate() {
            match draws.below(64) {
                0 => self.stray(draws),
                1 => self.spoilt(draws, *entry),
                2 => self.pay(draws),
                _ => {}
            }
            if place != late {
                self.perform(*entry);
            }
        }
        if let Some(entry) = entries.get(late) {
            self.perform([CLOSE, draws.below(20), 0, 0, 0, 0]);
            self.perform(*entry);
        }
        self.lower_amounts(draws);
    }

    /// Sometimes enters amounts again: a later one replaces the earlier.
    fn lower_amounts(&mut self, draws: &mut Generator) {
        let regional = |run: &Run, member: usize| {
            run.pool.members().get(member).map(|of| of.kind) == Some(MemberKind::Regional)
        };
        for member in 0..self.pool.members().len() {
            if regional(self, member) && draws.below(4) == 0 {
                let call = amount(draws, member, 1_000);
                self.perform(call);
            }
        }
    }

    /// Closes the day, or drops it where it cannot be closed.
    fn end(&mut self, draws: &mut Generator) {
        if draws.below(4) == 0 {
            let room = draws.pick(&[i64::MIN, -1, 0, 1, 15, 16]);
            self.perform([CLOSE, room, 0, 0, 0, 0]);
        }
        let room = draws.pick(&[17, 17, 17, 18, 20, i64::MAX]);
        let answer = self.perform([CLOSE, room, 0, 0, 0, 0]);
        if answer == Answer::Refused(Refusal::SideTooLarge) {
            self.lower_amounts(draws);
            self.perform([CLOSE, room, 0, 0, 0, 0]);
        }
        if self.pool.is_open() || draws.below(16) == 0 {
            self.perform([DROP, 0, 0, 0, 0, 0]);
        }
    }

    fn pass_a_day(&mut self, draws: &mut Generator) {
        self.open(draws);
        self.enter(draws);
        self.end(draws);
        for _ in 0..draws.below(40) {
            self.pay(draws);
            self.ask(draws);
        }
        if draws.below(3) == 0 {
            let times = draws.below(4);
            self.enrol(draws, times);
        }
    }
}

/// A run of some days, with the host's answers.
pub fn run(draws: &mut Generator) -> Run {
    let mut run = Run {
        pool: Pool::new(),
        calls: Vec::new(),
        answers: Vec::new(),
    };
    let members = draws.pick(&[0, 1, 1, 2, 2, 3, 3, 4, 5, 6, 8, 12, 16, 18, 20]);
    run.enrol(draws, members);
    for _ in 0..1 + draws.below(6) {
        run.pass_a_day(draws);
    }
    run.perform([OPEN, draws.pick(&DAYS), 0, 0, 0, 0]);
    run.ask(draws);
    run
}
