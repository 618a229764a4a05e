//! The host's own reader of sheets, compared with that of the proved library.

use std::collections::BTreeMap;
use std::fmt;
use std::fs::File;
use std::io::{self, ErrorKind, Read};
use std::path::Path;

use crate::random::Generator;
use crate::sheet_draws::{self, Drawn};

pub const MOST_BYTES: usize = 65_536;
/// These three bytes may stand at the start of a sheet, and are skipped.
pub const MARK: [u8; 3] = [0xEF, 0xBB, 0xBF];

#[derive(Clone, Copy, Debug, PartialEq, Eq)]
pub enum Sheet {
    Members = 1,
    Grid = 2,
    Readings = 3,
}

/// A name, and whether a cell under it may be empty and then means 0.
pub type Name = (&'static str, bool);

const MEMBERS: [Name; 3] = [("kind", false), ("pays", true), ("gets", true)];
const GRID: [Name; 3] = [("block", false), ("hz100", false), ("price", false)];
const READINGS: [Name; 5] = [
    ("member", false),
    ("block", false),
    ("scheduled", false),
    ("metered", false),
    ("available", true),
];

impl Sheet {
    pub const ALL: [Sheet; 3] = [Sheet::Members, Sheet::Grid, Sheet::Readings];

    pub fn names(self) -> &'static [Name] {
        match self {
            Sheet::Members => &MEMBERS,
            Sheet::Grid => &GRID,
            Sheet::Readings => &READINGS,
        }
    }

    /// The kind as a word, which is also the name of its file.
    fn word(self) -> &'static str {
        match self {
            Sheet::Members => "members",
            Sheet::Grid => "grid",
            Sheet::Readings => "readings",
        }
    }

    fn fault(self, line: u64, cell: u64, number: u64) -> Fault {
        Fault {
            sheet: self as u64,
            line,
            cell,
            number,
        }
    }
}

/// What is wrong with a sheet, and where. Lines and cells are counted from 1.
#[derive(Clone, Copy, Debug, PartialEq, Eq)]
pub struct Fault {
    pub sheet: u64,
    pub line: u64,
    pub cell: u64,
    pub number: u64,
}

impl fmt::Display for Fault {
    fn fmt(&self, out: &mut fmt::Formatter) -> fmt::Result {
        let [sheet, line, cell, number] = [self.sheet, self.line, self.cell, self.number];
        write!(out, "{sheet},{line},{cell},{number}")
    }
}

/// The rows of a sheet, their numbers in the order of the table of names, or its first fault.
pub type Outcome = Result<Vec<Vec<u64>>, Fault>;

/// A cell of a value line.
#[derive(Debug, PartialEq, Eq)]
enum Cell {
    Number(u64),
    Empty,
    Other,
}

impl Cell {
    fn of(bytes: &[u8]) -> Cell {
        let digits = bytes.iter().all(u8::is_ascii_digit);
        match bytes {
            [] => Cell::Empty,
            [b'0', _, ..] => Cell::Other,
            _ if digits && bytes.len() <= 10 => Cell::Number(
                bytes
                    .iter()
                    .fold(0, |number, digit| 10 * number + u64::from(digit - b'0')),
            ),
            _ => Cell::Other,
        }
    }
}

/// For each cell of the names line its place in the table of names, if the names are right.
fn columns(sheet: Sheet, line: &[u8]) -> Option<Vec<usize>> {
    let names = sheet.names();
    let place = |cell: &[u8]| names.iter().position(|(name, _)| name.as_bytes() == cell);
    let found: Vec<usize> = line
        .split(|byte| *byte == b',')
        .map(place)
        .collect::<Option<_>>()?;
    let once = |place: usize| found.iter().filter(|other| **other == place).count() == 1;
    (0..names.len()).all(once).then_some(found)
}

/// Reads a sheet: its rows, or its first fault.
pub fn read(sheet: Sheet, bytes: &[u8]) -> Outcome {
    if bytes.len() > MOST_BYTES {
        return Err(sheet.fault(0, 0, 21));
    }
    let Some(text) = bytes.strip_suffix(b"\n") else {
        return Err(sheet.fault(0, 0, 22));
    };
    let text = text.strip_prefix(&MARK).unwrap_or(text);
    let mut lines = text.split(|byte| *byte == b'\n');
    let Some(columns) = lines.next().and_then(|line| columns(sheet, line)) else {
        return Err(sheet.fault(1, 0, 23));
    };
    let mut rows = Vec::new();
    for (number, line) in (2..).zip(lines) {
        rows.push(row(sheet, &columns, number, line)?);
    }
    Ok(rows)
}

/// Reads one value line.
fn row(sheet: Sheet, columns: &[usize], number: u64, line: &[u8]) -> Result<Vec<u64>, Fault> {
    let cells: Vec<&[u8]> = line.split(|byte| *byte == b',').collect();
    if cells.len() != columns.len() {
        return Err(sheet.fault(number, 0, 24));
    }
    let mut row = vec![0; columns.len()];
    for ((at, cell), &column) in (1..).zip(cells).zip(columns) {
        let (_, may_be_empty) = sheet.names()[column];
        row[column] = match Cell::of(cell) {
            Cell::Number(value) => value,
            Cell::Empty if may_be_empty => 0,
            Cell::Empty => return Err(sheet.fault(number, at, 25)),
            Cell::Other => return Err(sheet.fault(number, at, 26)),
        };
    }
    Ok(row)
}

/// The count of rows and the wrapping sum of all numbers, in plain Rust without allocation, as fast
/// as it is easily written.
#[inline(never)]
pub fn plain_count(sheet: Sheet, bytes: &[u8]) -> Result<(u64, u64), Fault> {
    match sheet {
        Sheet::Members => plain_rows(sheet, &MEMBERS, bytes),
        Sheet::Grid => plain_rows(sheet, &GRID, bytes),
        Sheet::Readings => plain_rows(sheet, &READINGS, bytes),
    }
}

#[inline(always)]
fn plain_rows<const N: usize>(
    sheet: Sheet,
    names: &[Name; N],
    bytes: &[u8],
) -> Result<(u64, u64), Fault> {
    if bytes.len() > MOST_BYTES {
        return Err(sheet.fault(0, 0, 21));
    }
    if bytes.last() != Some(&b'\n') {
        return Err(sheet.fault(0, 0, 22));
    }
    let text = bytes.strip_prefix(&MARK).unwrap_or(bytes);
    let Some((may_be_empty, mut rest)) = plain_names(names, text) else {
        return Err(sheet.fault(1, 0, 23));
    };
    let (mut rows, mut sum) = (0_u64, 0_u64);
    while !rest.is_empty() {
        let line = rest;
        for (cell, may_be_empty_here) in may_be_empty.iter().enumerate() {
            let start = rest;
            let mut value = 0_u64;
            let mut end = 0;
            while let [byte, after @ ..] = rest {
                rest = after;
                let digit = byte.wrapping_sub(b'0');
                if digit > 9 {
                    end = *byte;
                    break;
                }
                value = value.wrapping_mul(10).wrapping_add(u64::from(digit));
            }
            // The sheet ends with 0A, so that a byte which is no digit has been met.
            let well_formed = match start.len() - rest.len() - 1 {
                0 => *may_be_empty_here,
                1 => true,
                length => length <= 10 && start[0] != b'0',
            };
            if !well_formed || end != end_of(cell, N) {
                let (cell, number) = plain_fault(line, &may_be_empty);
                return Err(sheet.fault(rows + 2, cell, number));
            }
            sum = sum.wrapping_add(value);
        }
        rows += 1;
    }
    Ok((rows, sum))
}

/// The byte after a cell of a line with so many cells.
#[inline(always)]
fn end_of(cell: usize, cells: usize) -> u8 {
    if cell + 1 < cells {
        b','
    } else {
        b'\n'
    }
}

/// For each cell of a value line whether it may be empty, and the bytes after the names line.
#[inline(always)]
fn plain_names<'a, const N: usize>(
    names: &[Name; N],
    text: &'a [u8],
) -> Option<([bool; N], &'a [u8])> {
    let mut may_be_empty = [false; N];
    let mut seen = [false; N];
    let mut rest = text;
    for (cell, may_be_empty_here) in may_be_empty.iter_mut().enumerate() {
        let stands_here = |(name, _): &Name| {
            let after = rest.strip_prefix(name.as_bytes());
            after.is_some_and(|after| after.first() == Some(&end_of(cell, N)))
        };
        let place = names.iter().position(stands_here)?;
        if seen[place] {
            return None;
        }
        seen[place] = true;
        *may_be_empty_here = names[place].1;
        rest = &rest[names[place].0.len() + 1..];
    }
    Some((may_be_empty, rest))
}

/// The cell and number of the fault of a line that has one. The bytes start with this line.
#[cold]
#[inline(never)]
fn plain_fault(bytes: &[u8], may_be_empty: &[bool]) -> (u64, u64) {
    let line = bytes.split(|byte| *byte == b'\n').next().unwrap_or(bytes);
    let cells = || line.split(|byte| *byte == b',');
    if cells().count() == may_be_empty.len() {
        for ((at, cell), may_be_empty) in (1..).zip(cells()).zip(may_be_empty) {
            match Cell::of(cell) {
                Cell::Empty if !may_be_empty => return (at, 25),
                Cell::Other => return (at, 26),
                _ => (),
            }
        }
    }
    (0, 24)
}

/// Reads the three sheets of a folder, of which a missing one is empty: the first fault as it is
/// printed, or for each sheet its count of value lines.
pub fn read_folder(folder: &Path) -> io::Result<String> {
    let named = |path: &Path, error: io::Error| {
        io::Error::new(error.kind(), format!("{}: {error}", path.display()))
    };
    folder.read_dir().map_err(|error| named(folder, error))?;
    let mut sheets = Vec::new();
    for sheet in Sheet::ALL {
        let path = folder.join(format!("{}.csv", sheet.word()));
        let bytes = bytes_of(&path).map_err(|error| named(&path, error))?;
        sheets.push((sheet, bytes));
    }
    Ok(text(&sheets))
}

/// As many bytes of a file as tell whether it is too long.
fn bytes_of(path: &Path) -> io::Result<Vec<u8>> {
    let mut bytes = Vec::new();
    match File::open(path) {
        Ok(file) => file.take(MOST_BYTES as u64 + 1).read_to_end(&mut bytes)?,
        Err(error) if error.kind() == ErrorKind::NotFound => 0,
        Err(error) => return Err(error),
    };
    Ok(bytes)
}

fn text(sheets: &[(Sheet, Vec<u8>)]) -> String {
    let mut counts = String::new();
    for (sheet, bytes) in sheets {
        match read(*sheet, bytes) {
            Ok(rows) => counts += &format!("{},{}\n", sheet.word(), rows.len()),
            Err(fault) => return format!("sheet,line,cell,number\n{fault}\n"),
        }
    }
    counts
}

/// Reads a sheet.
pub type SheetCall = fn(Sheet, &[u8]) -> Outcome;

/// The reader of the proved library, if that was there when the host was built.
#[cfg(linked)]
pub const PROVED: Option<SheetCall> = Some(linked::read);
#[cfg(not(linked))]
pub const PROVED: Option<SheetCall> = None;

/// The calls of the proved library.
#[cfg(linked)]
pub mod linked {
    use super::{Fault, Outcome, Sheet, MOST_BYTES};

    extern "C" {
        fn niszorgy_host_members(bytes: *const u8, len: usize, into: *mut u64, room: usize) -> i64;
        fn niszorgy_host_grid(bytes: *const u8, len: usize, into: *mut u64, room: usize) -> i64;
        fn niszorgy_host_readings(bytes: *const u8, len: usize, into: *mut u64, room: usize)
            -> i64;
    }

    /// How many numbers were written, or -1 for a fault, whose four numbers were written.
    pub fn read_into(sheet: Sheet, bytes: &[u8], into: &mut [u64]) -> i64 {
        let call = match sheet {
            Sheet::Members => niszorgy_host_members,
            Sheet::Grid => niszorgy_host_grid,
            Sheet::Readings => niszorgy_host_readings,
        };
        // Each pointer goes with the length of its slice.
        unsafe { call(bytes.as_ptr(), bytes.len(), into.as_mut_ptr(), into.len()) }
    }

    pub fn read(sheet: Sheet, bytes: &[u8]) -> Outcome {
        // Every cell has a byte after it; a fault has four numbers.
        let mut into = vec![0; bytes.len().min(MOST_BYTES) + 4];
        let columns = match sheet {
            Sheet::Members | Sheet::Grid => 3,
            Sheet::Readings => 5,
        };
        match usize::try_from(read_into(sheet, bytes, &mut into)) {
            Ok(count) => Ok(into[..count].chunks(columns).map(<[u64]>::to_vec).collect()),
            Err(_) => Err(Fault {
                sheet: into[0],
                line: into[1],
                cell: into[2],
                number: into[3],
            }),
        }
    }
}

#[derive(Default)]
struct Tally {
    asked: u64,
    edges: u64,
    value_lines: u64,
    /// For each sheet: well formed, then faults 21 to 26.
    outcomes: [[u64; 7]; 3],
    ways: BTreeMap<&'static str, u64>,
    different: u64,
}

impl Tally {
    fn count(&mut self, drawn: &Drawn, own: &Outcome) {
        self.asked += 1;
        let outcome = match own {
            Ok(rows) => {
                self.value_lines += rows.len() as u64;
                0
            }
            Err(fault) => fault.number as usize - 20,
        };
        self.outcomes[drawn.sheet as usize - 1][outcome] += 1;
        for way in &drawn.ways {
            *self.ways.entry(way).or_default() += 1;
        }
    }

    fn print(&self) {
        println!("sheets: {}, of them edges: {}", self.asked, self.edges);
        for (name, count) in &self.ways {
            println!("{name}: {count}");
        }
        for outcome in 0..7 {
            let [members, grid, readings] = self.outcomes.map(|counts| counts[outcome]);
            let name = match outcome {
                0 => "well formed".to_string(),
                _ => format!("fault {}", outcome + 20),
            };
            let all = members + grid + readings;
            println!("{name}: {all}; members {members}, grid {grid}, readings {readings}");
        }
        println!("value lines read: {}", self.value_lines);
    }
}

/// The count of rows and the wrapping sum of all numbers of an outcome.
fn counted(outcome: &Outcome) -> Result<(u64, u64), Fault> {
    let rows = outcome.as_ref().map_err(|fault| *fault)?;
    let sum = rows
        .iter()
        .flatten()
        .fold(0, |sum: u64, n| sum.wrapping_add(*n));
    Ok((rows.len() as u64, sum))
}

/// An outcome in short, beside another: a fault, or the count of rows and the first that differs.
fn shown(outcome: &Outcome, other: &Outcome) -> String {
    match (outcome, other) {
        (Err(fault), _) => format!("fault {fault}"),
        (Ok(rows), Err(_)) => format!("{} rows", rows.len()),
        (Ok(rows), Ok(others)) => {
            let same = rows.iter().zip(others).take_while(|(a, b)| a == b).count();
            match rows.get(same) {
                Some(row) => format!("{} rows, row {same} is {row:?}", rows.len()),
                None => format!("{} rows", rows.len()),
            }
        }
    }
}

/// All that differs on one sheet: between the call and the host's reader, between this and its plain
/// count, and between this and the rows that were written out.
fn differences(theirs: SheetCall, drawn: &Drawn, own: &Outcome) -> Vec<String> {
    let mut all = Vec::new();
    let came = theirs(drawn.sheet, &drawn.bytes);
    if came != *own {
        let (came, own) = (shown(&came, own), shown(own, &came));
        all.push(format!("came {came}, host {own}"));
    }
    let plain = plain_count(drawn.sheet, &drawn.bytes);
    if plain != counted(own) {
        let own = counted(own);
        all.push(format!(
            "the host's plain count {plain:?}, its reader {own:?}"
        ));
    }
    if let Some(rows) = drawn.rows.clone().map(Ok) {
        if rows != *own {
            let (rows, own) = (shown(&rows, own), shown(own, &rows));
            all.push(format!("written {rows}, host {own}"));
        }
    }
    all
}

/// Reads by both, first the edges, then random sheets, until as many were read as wanted.
fn compare(theirs: SheetCall, wanted: usize) -> Tally {
    let mut generator = Generator::new(2028);
    let edges = sheet_draws::edges();
    let mut tally = Tally {
        edges: edges.len().min(wanted) as u64,
        ways: sheet_draws::ways().map(|name| (name, 0)).collect(),
        ..Tally::default()
    };
    let random = std::iter::repeat_with(|| sheet_draws::any(&mut generator));
    for drawn in edges.into_iter().chain(random).take(wanted) {
        let own = read(drawn.sheet, &drawn.bytes);
        tally.count(&drawn, &own);
        let differences = differences(theirs, &drawn, &own);
        if !differences.is_empty() {
            tally.different += 1;
        }
        if !differences.is_empty() && tally.different <= 10 {
            let Drawn {
                sheet, bytes, ways, ..
            } = &drawn;
            let start = bytes[..bytes.len().min(240)].escape_ascii();
            println!("{sheet:?}, {ways:?}, {} bytes: \"{start}\"", bytes.len());
            println!("    {}", differences.join("; "));
        }
    }
    tally
}

/// Compares, prints the counts, and says whether all were alike.
pub fn run(theirs: SheetCall, wanted: usize) -> bool {
    let tally = compare(theirs, wanted);
    tally.print();
    let alike = tally.asked - tally.different;
    if tally.different > 0 {
        println!("host sheets: {} different, {alike} alike", tally.different);
    } else {
        println!("host sheets: {alike} alike");
    }
    tally.different == 0
}

#[cfg(test)]
mod tests {
    use super::*;

    fn fault(sheet: Sheet, bytes: &[u8]) -> String {
        let own = read(sheet, bytes);
        assert_eq!(plain_count(sheet, bytes), counted(&own));
        own.expect_err("a fault").to_string()
    }

    fn rows(sheet: Sheet, bytes: &[u8]) -> Vec<Vec<u64>> {
        let own = read(sheet, bytes);
        assert_eq!(plain_count(sheet, bytes), counted(&own));
        own.expect("no fault")
    }

    fn members(bytes: &[u8]) -> String {
        fault(Sheet::Members, bytes)
    }

    fn grid(bytes: &[u8]) -> String {
        fault(Sheet::Grid, bytes)
    }

    /// A grid of this line 1 and so many good lines, then these bytes.
    fn grid_of(names: &str, lines: usize, rest: &str) -> Vec<u8> {
        let lines: String = (0..lines)
            .map(|block| format!("{block},5000,4000\n"))
            .collect();
        format!("{names}{lines}{rest}").into_bytes()
    }

    #[test]
    fn the_three_cases_of_a_cell() {
        assert_eq!(Cell::of(b""), Cell::Empty);
        assert_eq!(Cell::of(b"0"), Cell::Number(0));
        assert_eq!(Cell::of(b"10"), Cell::Number(10));
        assert_eq!(Cell::of(b"9999999999"), Cell::Number(9_999_999_999));
        let others: [&[u8]; 14] = [
            b"007",
            b"00",
            b"-5",
            b"+5",
            b"5.0",
            b" ",
            b"12345678901",
            b"5\r",
            b" 5",
            b"5 ",
            b"\"5\"",
            b"\0",
            b"\xEF\xBB\xBF5",
            b"00000000001",
        ];
        for other in others {
            assert_eq!(Cell::of(other), Cell::Other, "{}", other.escape_ascii());
        }
    }

    #[test]
    fn the_examples_of_the_rules() {
        const NAMES: &str = "block,hz100,price\n";
        let too_long = grid_of(NAMES, 65_537 / 8, "");
        assert_eq!(grid(&too_long[..65_537]), "2,0,0,21");
        assert_eq!(members(b""), "1,0,0,22");
        assert_eq!(members(b"kind,pays,gets\n1,,\n2,,"), "1,0,0,22");
        assert_eq!(grid(&grid_of("block,hz100\n", 4, "")), "2,1,0,23");
        assert_eq!(grid(&grid_of("block,hz100,hz100\n", 4, "")), "2,1,0,23");
        assert_eq!(grid(&grid_of("Block,hz100,price\n", 4, "")), "2,1,0,23");
        assert_eq!(grid(&grid_of("block,hz100,price\r\n", 4, "")), "2,1,0,23");
        assert_eq!(
            grid(&grid_of(NAMES, 3, "3,5000\n4,5000,4000\n")),
            "2,5,0,24"
        );
        assert_eq!(grid(&grid_of(NAMES, 3, "\n4,5000,4000\n")), "2,5,0,24");
        assert_eq!(members(b"kind,pays,gets\n,x,\n"), "1,2,1,25");
        assert_eq!(grid(&grid_of(NAMES, 7, "x,,4000\n")), "2,9,1,26");
        let mut readings = b"member,block,scheduled,metered,available\n".to_vec();
        for block in 0..15 {
            readings.extend(format!("0,{block},1000,1000,\n").into_bytes());
        }
        readings.extend(b"0,15,1000,1O00,\n0,16,1000,1000,\n");
        assert_eq!(fault(Sheet::Readings, &readings), "3,17,4,26");
    }

    #[test]
    fn the_faults_in_their_order() {
        // The length comes before the last byte, and this before the names.
        assert_eq!(grid(&[b'x'; 65_537]), "2,0,0,21");
        assert_eq!(grid(&[b'x'; 65_536]), "2,0,0,22");
        assert_eq!(grid(b"x"), "2,0,0,22");
        assert_eq!(grid(b"\xEF\xBB\xBF"), "2,0,0,22");
        // The names come before the lines.
        assert_eq!(grid(b"\n"), "2,1,0,23");
        assert_eq!(grid(b"\xEF\xBB\xBF\n"), "2,1,0,23");
        assert_eq!(grid(b"\nblock,hz100,price\n"), "2,1,0,23");
        assert_eq!(grid(b"block,hz100,price,\n1\n"), "2,1,0,23");
        assert_eq!(grid(b"block,hz100,price,price\n"), "2,1,0,23");
        assert_eq!(grid(b"block, hz100,price\n"), "2,1,0,23");
        assert_eq!(grid(b"\xEF\xBBblock,hz100,price\n"), "2,1,0,23");
        assert_eq!(
            grid(b"\xEF\xBB\xBF\xEF\xBB\xBFblock,hz100,price\n"),
            "2,1,0,23"
        );
        // In a line the count comes first, then the leftmost cell; an earlier line comes first.
        assert_eq!(grid(b"block,hz100,price\nx,\n"), "2,2,0,24");
        assert_eq!(grid(b"block,hz100,price\n1,2,3,\n"), "2,2,0,24");
        assert_eq!(grid(b"block,hz100,price\n1,2,3\n\n"), "2,3,0,24");
        assert_eq!(grid(b"block,hz100,price\n1,2,x\n1,2\n"), "2,2,3,26");
        assert_eq!(grid(b"block,hz100,price\n1,,x\n"), "2,2,2,25");
        assert_eq!(grid(b"block,hz100,price\n1,x,\n"), "2,2,2,26");
        assert_eq!(grid(b"block,hz100,price\n1,2,3\r\n"), "2,2,3,26");
        // Cells are counted as they stand in the sheet.
        assert_eq!(members(b"gets,pays,kind\n,,\n"), "1,2,3,25");
        assert_eq!(members(b"pays,kind,gets\n,,\n"), "1,2,2,25");
        assert_eq!(members(b"pays,kind,gets\n,1, \n"), "1,2,3,26");
    }

    #[test]
    fn rows_stand_in_the_order_of_the_table() {
        assert!(rows(Sheet::Grid, b"block,hz100,price\n").is_empty());
        assert!(rows(Sheet::Grid, b"\xEF\xBB\xBFprice,hz100,block\n").is_empty());
        assert_eq!(
            rows(Sheet::Grid, b"price,block,hz100\n1,2,3\n"),
            [[2, 3, 1]]
        );
        assert_eq!(
            rows(Sheet::Members, b"gets,kind,pays\n,4,\n7,1,0\n"),
            [[4, 0, 0], [1, 0, 7]]
        );
        let readings =
            b"\xEF\xBB\xBFavailable,metered,scheduled,block,member\n,9999999999,0,95,15\n";
        assert_eq!(
            rows(Sheet::Readings, readings),
            [[15, 95, 0, 9_999_999_999, 0]]
        );
    }

    #[test]
    fn the_most_bytes() {
        let lines = "1,2,3\n".repeat(10_917);
        let mut sheet = format!("\u{feff}block,hz100,price\n{lines}1,2,33333333\n").into_bytes();
        assert_eq!(sheet.len(), MOST_BYTES);
        assert_eq!(rows(Sheet::Grid, &sheet).len(), 10_918);
        assert_eq!(rows(Sheet::Grid, &sheet)[10_917], [1, 2, 33_333_333]);
        sheet[MOST_BYTES - 2] = b'x';
        assert_eq!(grid(&sheet), "2,10919,3,26");
        sheet[MOST_BYTES - 1] = b'x';
        assert_eq!(grid(&sheet), "2,0,0,22");
        sheet.push(b'\n');
        assert_eq!(grid(&sheet), "2,0,0,21");
    }

    #[test]
    fn every_way_and_every_fault_is_met_many_times() {
        let tally = compare(read, 100_000);
        assert_eq!(tally.different, 0);
        for way in sheet_draws::ways() {
            assert!(tally.ways[way] > 500, "{way}: {}", tally.ways[way]);
        }
        for counts in tally.outcomes {
            assert!(counts.iter().all(|count| *count > 20), "{counts:?}");
        }
        assert!(run(read, 1_000) && !run(|_, _| Ok(Vec::new()), 1_000));
    }

    /// The bytes with each of these texts replaced.
    fn replaced(bytes: &[u8], from: &[u8], to: &[u8]) -> Vec<u8> {
        let mut out = Vec::new();
        let mut rest = bytes;
        while let Some(first) = rest.first() {
            match rest.strip_prefix(from) {
                Some(after) => {
                    out.extend_from_slice(to);
                    rest = after;
                }
                None => {
                    out.push(*first);
                    rest = &rest[1..];
                }
            }
        }
        out
    }

    /// Readers that err in one respect each.
    const WRONG: [(&str, SheetCall); 15] = [
        ("0D is skipped", |s, b| {
            read(s, &replaced(b, b"\r\n", b"\n"))
        }),
        ("blanks are skipped", |s, b| {
            read(s, &replaced(b, b" ", b""))
        }),
        ("a plus is skipped", |s, b| read(s, &replaced(b, b"+", b""))),
        ("quotes are skipped", |s, b| {
            read(s, &replaced(b, b"\"", b""))
        }),
        ("a leading zero is skipped", |s, b| {
            read(s, &replaced(b, b",0", b","))
        }),
        ("empty lines are skipped", |s, b| {
            read(s, &replaced(b, b"\n\n", b"\n"))
        }),
        ("the mark is skipped anywhere", |s, b| {
            read(s, &replaced(b, &MARK, b""))
        }),
        ("the mark is not skipped", |s, b| {
            match b.starts_with(&MARK) {
                true => Err(s.fault(1, 0, 23)),
                false => read(s, b),
            }
        }),
        ("the mark does not count", |s, b| {
            match b.strip_prefix(&MARK) {
                Some(rest) => read(s, rest),
                None => read(s, b),
            }
        }),
        ("a last 0A may be missing", |s, b| match b.last() {
            Some(b'\n') | None => read(s, b),
            Some(_) => read(s, &[b, b"\n"].concat()),
        }),
        ("names in any case", |s, b| read(s, &b.to_ascii_lowercase())),
        ("65,536 bytes are too many", |s, b| match b.len() {
            65_536 => Err(s.fault(0, 0, 21)),
            _ => read(s, b),
        }),
        ("only two cells are tested", |s, b| match read(s, b) {
            Err(fault) if fault.cell > 2 => Err(s.fault(fault.line, 2, fault.number)),
            outcome => outcome,
        }),
        ("lines are counted without the names", |s, b| {
            match read(s, b) {
                Err(fault) if fault.line > 1 => {
                    Err(s.fault(fault.line - 1, fault.cell, fault.number))
                }
                outcome => outcome,
            }
        }),
        ("numbers of 32 bits", |s, b| {
            let mut rows = read(s, b)?;
            rows.iter_mut()
                .flatten()
                .for_each(|n| *n = u64::from(*n as u32));
            Ok(rows)
        }),
    ];

    #[test]
    fn every_wrong_reader_is_found() {
        for (name, wrong) in WRONG {
            assert!(compare(wrong, 5_000).different > 0, "{name}");
        }
    }

    #[test]
    fn the_examples_are_read_as_expected() {
        let examples = Path::new(env!("CARGO_MANIFEST_DIR")).join("../examples/damaged");
        let folders = examples.read_dir().expect("the folder of the examples");
        let mut numbers = Vec::new();
        for folder in folders {
            let folder = folder.expect("a folder").path();
            let expected =
                std::fs::read_to_string(folder.join("expected")).expect("what is expected");
            assert_eq!(
                read_folder(&folder).expect("sheets"),
                expected,
                "{}",
                folder.display()
            );
            numbers.push(expected.trim_end().rsplit(',').next().map(String::from));
        }
        for number in 21..=26 {
            assert!(numbers.contains(&Some(number.to_string())), "{number}");
        }
    }

    #[test]
    fn the_proved_library_is_alike() {
        if let Some(proved) = PROVED {
            assert_eq!(compare(proved, 100_000).different, 0);
        }
    }
}
