//! A day: what each member is charged, how the charges are shared out, and the records of the day.

use crate::facts::{Facts, Kind};
use crate::parting::largest_remainder;
use crate::tariffs::{bands, by_kind, cap, ceiling, extra, vector, HOUSE_CAP};

pub const BLOCKS: usize = 96;
pub const MEMBERS: usize = 16;
/// The account of the reserve, and its record.
pub const RESERVE: usize = 16;
pub const RECORDS: usize = 17;
pub const MOST_MONEY: i64 = 3_000_000_000;

/// A run counts once for each so many blocks.
const RUN_STEP: usize = 7;

#[derive(Clone, Copy, Debug)]
pub struct GridRow {
    pub frequency: i64,
    pub price: i64,
}

#[derive(Clone, Copy, Debug)]
pub struct Reading {
    pub scheduled: i64,
    pub metered: i64,
    pub available: i64,
}

#[derive(Clone, Copy, Debug, PartialEq, Eq)]
pub enum MemberKind {
    Metered(Kind),
    Regional,
}

impl MemberKind {
    pub fn new(number: i64) -> Option<MemberKind> {
        match number {
            1 => Some(MemberKind::Metered(Kind::Buyer)),
            2 => Some(MemberKind::Metered(Kind::Seller)),
            3 => Some(MemberKind::Metered(Kind::SolarOrWind)),
            4 => Some(MemberKind::Regional),
            _ => None,
        }
    }
}

pub type Grid = [Option<GridRow>; BLOCKS];

/// A member with its entries of the day, as far as there are any.
#[derive(Clone, Debug)]
pub struct Member {
    pub kind: MemberKind,
    pub readings: [Option<Reading>; BLOCKS],
    pub amount: Option<i64>,
}

impl Member {
    pub fn new(kind: MemberKind) -> Member {
        Member {
            kind,
            readings: [None; BLOCKS],
            amount: None,
        }
    }
}

/// What a member is charged for a day, in paise; above 0 is payable.
#[derive(Clone, Copy, Debug, Default, PartialEq, Eq)]
pub struct Due {
    pub base: i64,
    pub surcharge: i64,
    /// Of a regional amount: the line is as entered wherever the day is shared by the average.
    pub fixed: bool,
}

impl Due {
    pub fn charge(&self) -> i64 {
        self.base + self.surcharge
    }

    /// What is charged on this side, as a magnitude: 1 for payable, -1 for receivable.
    fn on(&self, side: i64) -> i64 {
        (side * self.charge()).max(0)
    }
}

#[derive(Clone, Copy, Debug, Default, PartialEq, Eq)]
pub struct Record {
    pub base: i64,
    pub surcharge: i64,
    pub line: i64,
}

fn facts(kind: Kind, reading: Reading, row: GridRow) -> Facts {
    Facts {
        kind,
        scheduled: reading.scheduled,
        metered: reading.metered,
        available: reading.available,
        frequency: row.frequency,
        price: row.price,
    }
}

/// The sum over all runs of a seventh of the length: blocks of one sign that is not 0, side by side.
pub fn sevenths(signs: &[i64]) -> i64 {
    let runs = signs.chunk_by(|a, b| a == b).filter(|run| run[0] != 0);
    runs.map(|run| (run.len() / RUN_STEP) as i64).sum()
}

fn surcharge(kind: Kind, signs: &[i64], base: i64) -> i64 {
    match kind {
        Kind::Buyer | Kind::Seller => sevenths(signs) * base.abs() / 10,
        Kind::SolarOrWind => 0,
    }
}

/// The house pile over a closure of its own, so that the compiler puts it whole into the loop over the blocks
/// and leaves the pile of the call in house.rs as it is.
fn house_pile(facts: Facts) -> i64 {
    let others = extra(ceiling(cap(HOUSE_CAP, |facts| vector(facts))));
    by_kind(Kind::SolarOrWind, bands, others)(facts)
}

/// The same facts, tested against their limits once more.
fn tested(facts: Facts) -> Option<Facts> {
    let numbers = [
        facts.kind as i64,
        facts.scheduled,
        facts.metered,
        facts.available,
        facts.frequency,
        facts.price,
    ];
    Facts::new(numbers).ok()
}

/// What the readings of a member come to, if none is missing, and none outside its limits where rows are tested.
fn metered_due<const TESTS: bool>(
    kind: Kind,
    readings: &[Option<Reading>; BLOCKS],
    grid: &Grid,
) -> Option<Due> {
    let mut signs = [0; BLOCKS];
    let mut base = 0;
    for ((sign, reading), row) in signs.iter_mut().zip(readings).zip(grid) {
        let facts = facts(kind, (*reading)?, (*row)?);
        let facts = if TESTS { tested(facts)? } else { facts };
        base += house_pile(facts);
        *sign = facts.deviation().signum();
    }
    Some(Due {
        base,
        surcharge: surcharge(kind, &signs, base),
        fixed: false,
    })
}

fn due<const TESTS: bool>(member: &Member, grid: &Grid) -> Option<Due> {
    match member.kind {
        MemberKind::Metered(kind) => metered_due::<TESTS>(kind, &member.readings, grid),
        MemberKind::Regional => member.amount.map(|base| Due {
            base,
            surcharge: 0,
            fixed: true,
        }),
    }
}

/// What each member is charged, if no entry of the day is missing. With TESTS every row is tested anew, as it has
/// to be where the caller is not relied on.
pub fn dues_by<const TESTS: bool>(members: &[Member], grid: &Grid) -> Option<Vec<Due>> {
    if grid.iter().any(Option::is_none) {
        return None;
    }
    let due = |member| due::<TESTS>(member, grid);
    members.iter().map(due).collect()
}

/// What each member is charged, of rows that were tested as they were entered.
pub fn dues(members: &[Member], grid: &Grid) -> Option<Vec<Due>> {
    dues_by::<false>(members, grid)
}

/// The charges of one side, as magnitudes.
struct Side {
    sum: i64,
    fixed: i64,
    adjustable: bool,
}

impl Side {
    fn of(dues: &[Due], side: i64) -> Side {
        let fixed = dues.iter().filter(|due| due.fixed);
        Side {
            sum: dues.iter().map(|due| due.on(side)).sum(),
            fixed: fixed.map(|due| due.on(side)).sum(),
            adjustable: dues.iter().any(|due| !due.fixed && due.on(side) > 0),
        }
    }

    /// Whether this side can come to the average.
    fn can_be(&self, average: i64) -> bool {
        if self.adjustable {
            self.fixed <= average
        } else {
            self.fixed == average
        }
    }
}

/// Parts what the average leaves to the adjustable charges of one side, and adds the shares to the lines.
fn part(dues: &[Due], sign: i64, left: i64, lines: &mut [i64]) {
    let weight = |due: &Due| if due.fixed { 0 } else { due.on(sign) };
    let weights: Vec<i64> = dues.iter().map(weight).collect();
    for (line, share) in lines.iter_mut().zip(largest_remainder(left, &weights)) {
        *line += sign * share;
    }
}

/// The lines of a day shared by the average.
fn averaged(dues: &[Due], average: i64, sides: [(i64, &Side); 2]) -> Vec<i64> {
    let as_entered = |due: &Due| if due.fixed { due.base } else { 0 };
    let mut lines: Vec<i64> = dues.iter().map(as_entered).collect();
    for (sign, side) in sides {
        if side.adjustable {
            part(dues, sign, average - side.fixed, &mut lines);
        }
    }
    lines
}

/// The members' lines and the reserve's, none where a side comes to more than the most.
pub fn share_out(dues: &[Due]) -> Option<(Vec<i64>, i64)> {
    let (payable, receivable) = (Side::of(dues, 1), Side::of(dues, -1));
    if payable.sum > MOST_MONEY || receivable.sum > MOST_MONEY {
        return None;
    }
    let average = (payable.sum + receivable.sum) / 2;
    if payable.can_be(average) && receivable.can_be(average) {
        let lines = averaged(dues, average, [(1, &payable), (-1, &receivable)]);
        Some((lines, 0))
    } else {
        let lines = dues.iter().map(Due::charge).collect();
        Some((lines, receivable.sum - payable.sum))
    }
}

/// A record for each place of a member, and the reserve's; none where a side comes to too much.
pub fn records(dues: &[Due]) -> Option<[Record; RECORDS]> {
    let (lines, reserve) = share_out(dues)?;
    let mut records = [Record::default(); RECORDS];
    for ((record, due), line) in records.iter_mut().zip(dues).zip(lines) {
        *record = Record {
            base: due.base,
            surcharge: due.surcharge,
            line,
        };
    }
    records[RESERVE].line = reserve;
    Some(records)
}

#[cfg(test)]
mod tests {
    use super::*;

    fn charged(charges: &[(i64, bool)]) -> Vec<Due> {
        let due = |&(base, fixed)| Due {
            base,
            surcharge: 0,
            fixed,
        };
        charges.iter().map(due).collect()
    }

    fn shared(charges: &[(i64, bool)]) -> (Vec<i64>, i64) {
        share_out(&charged(charges)).expect("not too much")
    }

    #[test]
    fn sharings_of_the_rules() {
        let charges = [
            (2_850, false),
            (1_900, false),
            (3_500, false),
            (1_500, false),
            (-4_750, false),
            (-3_500, false),
            (-3_000, true),
        ];
        let lines = vec![3_069, 2_046, 3_769, 1_616, -4_318, -3_182, -3_000];
        assert_eq!(shared(&charges), (lines, 0));
        assert_eq!(shared(&[(4, false), (-3, false)]), (vec![3, -3], 0));
        assert_eq!(shared(&[(1, false)]), (vec![0], 0));
        assert_eq!(shared(&[(10, false)]), (vec![10], -10));
        assert_eq!(shared(&[(10, false), (-100, true)]), (vec![10, -100], 90));
        let charges = [(-50, false), (60, true), (-40, false)];
        assert_eq!(shared(&charges), (vec![-50, 60, -40], 30));
        assert_eq!(shared(&[]), (vec![], 0));
    }

    #[test]
    fn a_side_of_exactly_the_most_is_shared() {
        let most = MOST_MONEY;
        let lines = vec![most, -most];
        assert_eq!(shared(&[(most, true), (-most, true)]), (lines, 0));
        assert_eq!(shared(&[(most, false)]), (vec![most], -most));
        assert_eq!(share_out(&charged(&[(most, true), (1, false)])), None);
        assert_eq!(share_out(&charged(&[(-most, true), (-1, false)])), None);
    }

    /// A member of this kind, metered so much above its schedule of 1,000 in some of the blocks.
    fn metered(kind: Kind, deviation: i64, blocks: std::ops::Range<usize>) -> Member {
        let mut member = Member::new(MemberKind::Metered(kind));
        for (block, reading) in member.readings.iter_mut().enumerate() {
            let by = if blocks.contains(&block) {
                deviation
            } else {
                0
            };
            *reading = Some(Reading {
                scheduled: 1_000,
                metered: 1_000 + by,
                available: if kind == Kind::SolarOrWind { 1_000 } else { 0 },
            });
        }
        member
    }

    const GRID: Grid = [Some(GridRow {
        frequency: 5_000,
        price: 4_000,
    }); BLOCKS];

    #[test]
    fn the_day_of_a_buyer_and_a_seller() {
        let members = [
            metered(Kind::Buyer, 10, 0..1),
            metered(Kind::Seller, 5, 0..1),
        ];
        let dues = dues(&members, &GRID).expect("nothing is missing");
        assert_eq!([dues[0].base, dues[1].base], [4_000, -2_000]);
        let records = records(&dues).expect("not too much");
        let lines = records.map(|record| record.line);
        assert_eq!([lines[0], lines[1], lines[RESERVE]], [3_000, -3_000, 0]);
        assert!(records[2..]
            .iter()
            .all(|&record| record == Record::default()));
    }

    #[test]
    fn runs_are_surcharged_but_for_solar_and_wind() {
        let due = |kind, deviation, blocks| due::<false>(&metered(kind, deviation, blocks), &GRID);
        let expected = |base, surcharge| {
            Some(Due {
                base,
                surcharge,
                fixed: false,
            })
        };
        assert_eq!(due(Kind::Buyer, 10, 0..6), expected(24_000, 0));
        assert_eq!(due(Kind::Buyer, 10, 0..7), expected(28_000, 2_800));
        assert_eq!(due(Kind::Seller, 10, 3..17), expected(-56_000, 11_200));
        assert_eq!(due(Kind::Buyer, -1, 0..96), expected(-38_400, 49_920));
        let sun = due(Kind::SolarOrWind, 400, 0..96);
        assert_eq!(sun, expected(96 * 22_500, 0));
    }

    #[test]
    fn sevenths_of_the_rules() {
        let one_run = |length: usize| sevenths(&vec![1; length]);
        assert_eq!([6, 7, 13, 14, 96].map(one_run), [0, 1, 1, 2, 13]);
        assert_eq!(sevenths(&[1, 1, 1, 0, 1, 1, 1, 1]), 0);
        let stretches = [(1, 7), (-1, 4), (1, 4), (0, 1), (-1, 7)];
        let signs: Vec<i64> = stretches
            .iter()
            .flat_map(|&(sign, blocks)| std::iter::repeat_n(sign, blocks))
            .collect();
        assert_eq!(sevenths(&signs), 2);
    }

    #[test]
    fn a_missing_entry_leaves_the_day_without_charges() {
        let buyer = metered(Kind::Buyer, 1, 0..96);
        let amount = Member::new(MemberKind::Regional);
        assert!(dues(&[buyer.clone()], &GRID).is_some());
        assert!(dues(&[buyer.clone(), amount], &GRID).is_none());
        let mut short = buyer.clone();
        short.readings[95] = None;
        assert!(dues(&[buyer.clone(), short], &GRID).is_none());
        let mut grid = GRID;
        grid[95] = None;
        assert!(dues(&[], &grid).is_none());
        assert_eq!(dues(&[], &GRID), Some(vec![]));
    }
}
