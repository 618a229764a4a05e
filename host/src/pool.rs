//! A pool with all its calls and their refusals.

use crate::day::{
    dues, records, Grid, GridRow, Member, MemberKind, Reading, Record, BLOCKS, MEMBERS, MOST_MONEY,
    RECORDS, RESERVE,
};
use crate::facts::{Kind, LEAST_FREQUENCY, MOST_ENERGY, MOST_FREQUENCY, MOST_RATE};

const MOST_DAY: i64 = 30_000;

/// Why a call is not performed. The value is the number of the refusal.
#[derive(Clone, Copy, Debug, PartialEq, Eq)]
pub enum Refusal {
    WrongMoment = 1,
    NotEnrolled = 2,
    WrongKind = 3,
    OutsideLimits = 4,
    Full = 5,
    DayNotAbove = 6,
    EntryMissing = 7,
    TooFewRecords = 8,
    SideTooLarge = 9,
    MoreThanDue = 10,
    MoreThanCash = 11,
}

use Refusal::*;

pub struct Pool {
    members: Vec<Member>,
    grid: Grid,
    /// The last day that was opened, 0 before the first.
    last_day: i64,
    open: bool,
    accounts: [i64; RECORDS],
    cash: i64,
}

/// The refusal, unless the condition holds.
fn unless(holds: bool, refusal: Refusal) -> Result<(), Refusal> {
    if holds {
        Ok(())
    } else {
        Err(refusal)
    }
}

fn is_energy(number: i64) -> bool {
    (0..=MOST_ENERGY).contains(&number)
}

fn is_available(kind: Kind, number: i64) -> bool {
    match kind {
        Kind::Buyer | Kind::Seller => number == 0,
        Kind::SolarOrWind => (1..=MOST_ENERGY).contains(&number),
    }
}

fn is_block(number: i64) -> bool {
    (0..BLOCKS as i64).contains(&number)
}

fn is_payment(paise: i64) -> bool {
    (1..=MOST_MONEY).contains(&paise)
}

impl Pool {
    pub fn new() -> Pool {
        Pool {
            members: Vec::new(),
            grid: [None; BLOCKS],
            last_day: 0,
            open: false,
            accounts: [0; RECORDS],
            cash: 0,
        }
    }

    pub fn members(&self) -> &[Member] {
        &self.members
    }

    pub fn is_open(&self) -> bool {
        self.open
    }

    pub fn last_day(&self) -> i64 {
        self.last_day
    }

    fn member(&self, number: i64) -> Result<usize, Refusal> {
        match usize::try_from(number) {
            Ok(place) if place < self.members.len() => Ok(place),
            _ => Err(NotEnrolled),
        }
    }

    fn account_place(&self, number: i64) -> Result<usize, Refusal> {
        if number == RESERVE as i64 {
            Ok(RESERVE)
        } else {
            self.member(number)
        }
    }

    pub fn enrol(&mut self, kind: i64) -> Result<i64, Refusal> {
        unless(!self.open, WrongMoment)?;
        let kind = MemberKind::new(kind).ok_or(WrongKind)?;
        unless(self.members.len() < MEMBERS, Full)?;
        self.members.push(Member::new(kind));
        Ok(self.members.len() as i64 - 1)
    }

    pub fn open(&mut self, day: i64) -> Result<(), Refusal> {
        unless(!self.open, WrongMoment)?;
        unless((1..=MOST_DAY).contains(&day), OutsideLimits)?;
        unless(day > self.last_day, DayNotAbove)?;
        self.open = true;
        self.last_day = day;
        self.grid = [None; BLOCKS];
        for member in &mut self.members {
            *member = Member::new(member.kind);
        }
        Ok(())
    }

    pub fn grid_row(&mut self, block: i64, frequency: i64, price: i64) -> Result<(), Refusal> {
        unless(self.open, WrongMoment)?;
        let within = is_block(block)
            && (LEAST_FREQUENCY..=MOST_FREQUENCY).contains(&frequency)
            && (0..=MOST_RATE).contains(&price);
        unless(within, OutsideLimits)?;
        self.grid[block as usize] = Some(GridRow { frequency, price });
        Ok(())
    }

    pub fn reading(&mut self, member: i64, block: i64, reading: Reading) -> Result<(), Refusal> {
        unless(self.open, WrongMoment)?;
        let place = self.member(member)?;
        let member = &mut self.members[place];
        let MemberKind::Metered(kind) = member.kind else {
            return Err(WrongKind);
        };
        let within = is_block(block)
            && is_energy(reading.scheduled)
            && is_energy(reading.metered)
            && is_available(kind, reading.available);
        unless(within, OutsideLimits)?;
        member.readings[block as usize] = Some(reading);
        Ok(())
    }

    pub fn amount(&mut self, member: i64, paise: i64) -> Result<(), Refusal> {
        unless(self.open, WrongMoment)?;
        let place = self.member(member)?;
        let member = &mut self.members[place];
        unless(member.kind == MemberKind::Regional, WrongKind)?;
        unless((-MOST_MONEY..=MOST_MONEY).contains(&paise), OutsideLimits)?;
        member.amount = Some(paise);
        Ok(())
    }

    /// Fills the first 17 of the caller's records, and moves the accounts by their lines.
    pub fn close(&mut self, into: &mut [Record]) -> Result<(), Refusal> {
        unless(self.open, WrongMoment)?;
        let dues = dues(&self.members, &self.grid).ok_or(EntryMissing)?;
        unless(into.len() >= RECORDS, TooFewRecords)?;
        let records = records(&dues).ok_or(SideTooLarge)?;
        into[..RECORDS].copy_from_slice(&records);
        for (account, record) in self.accounts.iter_mut().zip(records) {
            *account += record.line;
        }
        self.open = false;
        Ok(())
    }

    pub fn drop_day(&mut self) -> Result<(), Refusal> {
        unless(self.open, WrongMoment)?;
        self.open = false;
        Ok(())
    }

    pub fn pay_in(&mut self, account: i64, paise: i64) -> Result<(), Refusal> {
        let place = self.account_place(account)?;
        unless(is_payment(paise), OutsideLimits)?;
        unless(paise <= self.accounts[place], MoreThanDue)?;
        self.accounts[place] -= paise;
        self.cash += paise;
        Ok(())
    }

    pub fn pay_out(&mut self, account: i64, paise: i64) -> Result<(), Refusal> {
        let place = self.account_place(account)?;
        unless(is_payment(paise), OutsideLimits)?;
        unless(paise <= -self.accounts[place], MoreThanDue)?;
        unless(paise <= self.cash, MoreThanCash)?;
        self.accounts[place] += paise;
        self.cash -= paise;
        Ok(())
    }

    pub fn account(&self, account: i64) -> Result<i64, Refusal> {
        Ok(self.accounts[self.account_place(account)?])
    }

    pub fn cash(&self) -> i64 {
        self.cash
    }
}

#[cfg(test)]
mod tests {
    use super::*;

    fn level(available: i64) -> Reading {
        Reading {
            scheduled: 1_000,
            metered: 1_000,
            available,
        }
    }

    /// A buyer above its schedule and a seller above its own in the first block; the day is open.
    fn example_day() -> Pool {
        let mut pool = Pool::new();
        assert_eq!([pool.enrol(1), pool.enrol(2)], [Ok(0), Ok(1)]);
        assert_eq!(pool.open(7), Ok(()));
        for block in 0..96 {
            assert_eq!(pool.grid_row(block, 5_000, 4_000), Ok(()));
            for (member, by) in [(0, 10), (1, 5)] {
                let metered = if block == 0 { 1_000 + by } else { 1_000 };
                let reading = Reading {
                    metered,
                    ..level(0)
                };
                assert_eq!(pool.reading(member, block, reading), Ok(()));
            }
        }
        pool
    }

    #[test]
    fn the_example_day_moves_the_accounts() {
        let mut pool = example_day();
        let untouched = Record {
            base: 7,
            surcharge: 7,
            line: 7,
        };
        let mut records = [untouched; 18];
        assert_eq!(pool.close(&mut records[..16]), Err(TooFewRecords));
        assert_eq!(records, [untouched; 18]);
        assert_eq!(pool.close(&mut records), Ok(()));
        let lines = records.map(|record| record.line);
        assert_eq!((lines[0], lines[1], lines[16]), (3_000, -3_000, 0));
        assert_eq!(records[17], untouched);
        assert_eq!(pool.account(0), Ok(3_000));
        assert_eq!(pool.account(1), Ok(-3_000));
        assert_eq!(pool.account(16), Ok(0));
        assert_eq!(pool.account(2), Err(NotEnrolled));
        assert_eq!(pool.close(&mut records), Err(WrongMoment));
    }

    #[test]
    fn payments_are_held_to_what_is_due_and_to_the_cash() {
        let mut pool = example_day();
        assert_eq!(pool.close(&mut [Record::default(); RECORDS]), Ok(()));
        assert_eq!(pool.pay_in(0, 0), Err(OutsideLimits));
        assert_eq!(pool.pay_in(0, 3_001), Err(MoreThanDue));
        assert_eq!(pool.pay_in(1, 1), Err(MoreThanDue));
        assert_eq!(pool.pay_in(0, 1_000), Ok(()));
        assert_eq!(pool.pay_out(0, 1), Err(MoreThanDue));
        assert_eq!(pool.pay_out(1, 3_001), Err(MoreThanDue));
        assert_eq!(pool.pay_out(1, 1_001), Err(MoreThanCash));
        assert_eq!(pool.pay_out(1, 1_000), Ok(()));
        assert_eq!(pool.cash(), 0);
        assert_eq!(pool.account(0), Ok(2_000));
        assert_eq!(pool.account(1), Ok(-2_000));
    }

    #[test]
    fn the_first_refusal_that_fits_gives_the_number() {
        let mut pool = Pool::new();
        assert_eq!(pool.amount(16, 0), Err(WrongMoment));
        for _ in 0..16 {
            assert!(pool.enrol(4).is_ok());
        }
        assert_eq!(pool.enrol(9), Err(WrongKind));
        assert_eq!(pool.enrol(4), Err(Full));
        assert_eq!(pool.open(0), Err(OutsideLimits));
        assert_eq!(pool.open(5), Ok(()));
        assert_eq!(pool.open(6), Err(WrongMoment));
        assert_eq!(pool.enrol(9), Err(WrongMoment));
        assert_eq!(pool.reading(16, 0, level(0)), Err(NotEnrolled));
        assert_eq!(pool.reading(3, 96, level(0)), Err(WrongKind));
        assert_eq!(pool.amount(3, MOST_MONEY + 1), Err(OutsideLimits));
        assert_eq!(pool.grid_row(96, 5_000, 0), Err(OutsideLimits));
        assert_eq!(pool.close(&mut []), Err(EntryMissing));
        assert_eq!(pool.drop_day(), Ok(()));
        assert_eq!(pool.open(5), Err(DayNotAbove));
        assert_eq!(pool.open(30_001), Err(OutsideLimits));
    }

    #[test]
    fn a_pool_without_members_closes_a_day_of_zeros() {
        let mut pool = Pool::new();
        let mut records = [Record::default(); RECORDS];
        assert_eq!(pool.open(30_000), Ok(()));
        for block in 0..96 {
            assert_eq!(pool.close(&mut records), Err(EntryMissing));
            assert_eq!(pool.grid_row(block, 4_800, 8_000), Ok(()));
        }
        assert_eq!(pool.close(&mut records), Ok(()));
        assert_eq!(records, [Record::default(); RECORDS]);
    }
}
