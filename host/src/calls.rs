//! Calls on a pool as plain numbers, and what each answers.

use crate::day::{Reading, Record, RECORDS};
use crate::pool::{Pool, Refusal};

pub const ENROL: i64 = 1;
pub const OPEN: i64 = 2;
pub const GRID: i64 = 3;
pub const READING: i64 = 4;
pub const AMOUNT: i64 = 5;
pub const CLOSE: i64 = 6;
pub const DROP: i64 = 7;
pub const PAY_IN: i64 = 8;
pub const PAY_OUT: i64 = 9;
pub const ACCOUNT: i64 = 10;
pub const CASH: i64 = 11;

/// A call: its code, and five numbers that it may need. A close takes how many records it lends.
pub type Call = [i64; 6];

/// The most records that a close lends; more would make no difference.
const MOST_LENT: i64 = 20;

#[derive(Clone, Copy, Debug, PartialEq, Eq)]
pub enum Answer {
    Done,
    Enrolled(i64),
    Sum(i64),
    Refused(Refusal),
    /// A day was closed with these records.
    Closed([Record; RECORDS]),
}

impl Answer {
    /// The answer as numbers: its sort and a number, and the records of a day that was closed.
    pub fn put(&self, into: &mut Vec<i64>) {
        match *self {
            Answer::Done => into.extend([0, 0]),
            Answer::Enrolled(member) => into.extend([1, member]),
            Answer::Sum(sum) => into.extend([2, sum]),
            Answer::Refused(refusal) => into.extend([3, refusal as i64]),
            Answer::Closed(records) => {
                into.extend([0, 0]);
                into.extend(records.iter().flat_map(|r| [r.base, r.surcharge, r.line]));
            }
        }
    }
}

fn close(pool: &mut Pool, room: i64) -> Result<Answer, Refusal> {
    let mut records = [Record::default(); MOST_LENT as usize];
    let lent = room.clamp(0, MOST_LENT) as usize;
    pool.close(&mut records[..lent])?;
    Ok(Answer::Closed(std::array::from_fn(|place| records[place])))
}

fn performed(pool: &mut Pool, call: Call) -> Result<Answer, Refusal> {
    let [code, a, b, c, d, e] = call;
    let reading = Reading {
        scheduled: c,
        metered: d,
        available: e,
    };
    match code {
        ENROL => return pool.enrol(a).map(Answer::Enrolled),
        OPEN => pool.open(a)?,
        GRID => pool.grid_row(a, b, c)?,
        READING => pool.reading(a, b, reading)?,
        AMOUNT => pool.amount(a, b)?,
        CLOSE => return close(pool, a),
        DROP => pool.drop_day()?,
        PAY_IN => pool.pay_in(a, b)?,
        PAY_OUT => pool.pay_out(a, b)?,
        ACCOUNT => return pool.account(a).map(Answer::Sum),
        CASH => return Ok(Answer::Sum(pool.cash())),
        _ => panic!("no call has the code {code}"),
    }
    Ok(Answer::Done)
}

pub fn perform(pool: &mut Pool, call: Call) -> Answer {
    performed(pool, call).unwrap_or_else(Answer::Refused)
}
