//! The sheets that the comparison reads: edges of the rules, and random ones, good and damaged.

use crate::random::Generator;
use crate::sheets::{Sheet, MARK, MOST_BYTES};

/// A sheet to read.
pub struct Drawn {
    pub sheet: Sheet,
    pub bytes: Vec<u8>,
    /// The rows that were written out, where nothing was damaged.
    pub rows: Option<Vec<Vec<u64>>>,
    /// What is notable in it, and each way in which it was damaged.
    pub ways: Vec<&'static str>,
}

type Cell = Vec<u8>;
type Line = Vec<Cell>;

/// A sheet before its bytes are written out.
struct Draft {
    sheet: Sheet,
    mark: Vec<u8>,
    /// The names line, then the value lines.
    lines: Vec<Line>,
    /// The numbers of the value lines before any damage, in the order of the table of names.
    rows: Vec<Vec<u64>>,
    ways: Vec<&'static str>,
}

type Texts = &'static [&'static [u8]];

/// What is damaged: one name, all names, one cell of a value line, one value line, the whole sheet
/// before it is written out, or its bytes.
enum Damage {
    /// One of these texts stands in place of the name.
    NameIs(Texts),
    /// One of these texts is put before, after or into the name, or in its place.
    NameWith(Texts),
    Name(fn(&mut Cell, &mut Generator)),
    Names(fn(&mut Line, &mut Generator)),
    CellIs(Texts),
    CellWith(Texts),
    Cell(fn(&mut Cell, &mut Generator)),
    Values(fn(&mut Line, &mut Generator)),
    Whole(fn(&mut Draft, &mut Generator)),
    Bytes(fn(&mut Vec<u8>, &mut Generator)),
}
use Damage::{Bytes, CellIs, CellWith, Name, NameIs, NameWith, Names, Values, Whole};

/// The ways of damage. Chance may leave a sheet good, as where a zero is put before an empty cell.
const WAYS: [(&str, Damage); 60] = [
    ("name: twice", Names(twice)),
    ("name: missing", Names(one_missing)),
    ("name: one more", Names(one_name_more)),
    ("name: of any sheet", Name(|name, g| *name = any_name(g))),
    (
        "name: of none",
        NameIs(&[b"x", b"0", b"hz", b"hz10", b"pay"]),
    ),
    ("name: empty", NameIs(&[b""])),
    ("name: in other case", Name(other_case)),
    ("name: cut", Name(cut)),
    ("name: a blank", NameWith(&[b" ", b"\t", b"\xC2\xA0"])),
    ("name: a byte more", NameWith(&[b"s", b"0", b"_", b"\x7F"])),
    ("name: byte 0", NameWith(&[b"\0"])),
    ("name: above 127", NameWith(&[b"\x80", b"\xFF", &MARK])),
    ("name: quotes", Name(in_quotes)),
    (
        "names: a comma missing",
        Names(|line, g| join(line, g, b"")),
    ),
    ("names: a semicolon", Names(|line, g| join(line, g, b";"))),
    (
        "names: the line missing",
        Whole(|d, _| drop(d.lines.remove(0))),
    ),
    ("names: the line again", Whole(names_again)),
    ("names: a column missing", Whole(column_missing)),
    ("names: a column more", Whole(column_more)),
    ("names: read as any sheet", Whole(any_kind)),
    (
        "mark: EF BB BF twice",
        Whole(|d, _| d.mark = [MARK, MARK].concat()),
    ),
    ("mark: EF BB BF cut", Whole(mark_cut)),
    ("mark: a byte of it changed", Whole(mark_changed)),
    ("mark: FE FF or FF FE", Whole(mark_another)),
    ("cell: 0", CellIs(&[b"0"])),
    (
        "cell: 00 or longer",
        CellIs(&[b"00", b"000", b"0000000000"]),
    ),
    (
        "cell: leading zero",
        Damage::Cell(|cell, _| cell.insert(0, b'0')),
    ),
    ("cell: ten digits", CellIs(&[b"9999999999", b"1000000000"])),
    (
        "cell: eleven digits",
        Damage::Cell(|cell, g| *cell = digits(g, 11)),
    ),
    ("cell: more digits", Damage::Cell(more_digits)),
    ("cell: minus", CellWith(&[b"-", b"-", b"\xE2\x88\x92"])),
    ("cell: plus", CellWith(&[b"+"])),
    (
        "cell: blank",
        CellWith(&[b" ", b"\t", b"\x0B", b"\xC2\xA0"]),
    ),
    (
        "cell: another form",
        CellIs(&[b"5.0", b"1e3", b"0x10", b"1_0"]),
    ),
    ("cell: letter", CellWith(&[b"O", b"l", b"x"])),
    ("cell: next to the digits", CellWith(&[b"/", b":"])),
    ("cell: byte 0", CellWith(&[b"\0"])),
    ("cell: above 127", CellWith(&[b"\x80", b"\xB5", b"\xFF"])),
    ("cell: EF BB BF", CellWith(&[&MARK])),
    ("cell: quotes", Damage::Cell(in_quotes)),
    ("cell: empty where not allowed", Whole(empty_not_allowed)),
    (
        "line: all cells empty",
        Values(|line, _| line.iter_mut().for_each(Vec::clear)),
    ),
    ("line: two cells faulty", Values(two_faulty)),
    (
        "line: a comma missing",
        Values(|line, g| join(line, g, b"")),
    ),
    ("line: a cell missing", Values(one_missing)),
    ("line: a comma more", Values(comma_more)),
    ("line: count and cell wrong", Values(count_and_cell)),
    (
        "line: empty, at the start",
        Whole(|d, _| d.lines.insert(0, Line::new())),
    ),
    ("line: empty, in the middle", Whole(empty_in_the_middle)),
    (
        "line: empty, at the end",
        Whole(|d, _| d.lines.push(Line::new())),
    ),
    ("line: 0D before 0A", Whole(one_0d)),
    ("bytes: 0D before or for every 0A", Bytes(every_0d)),
    (
        "bytes: cut",
        Bytes(|bytes, g| bytes.truncate(index(g, bytes.len()))),
    ),
    (
        "bytes: last 0A missing",
        Bytes(|bytes, _| bytes.truncate(bytes.len() - 1)),
    ),
    (
        "bytes: one changed",
        Bytes(|bytes, g| *some(bytes, g) = some_byte(g)),
    ),
    ("bytes: one removed", Bytes(byte_removed)),
    ("bytes: one added", Bytes(byte_added)),
    ("bytes: a stretch moved, doubled or removed", Bytes(stretch)),
    ("bytes: none", Bytes(|bytes, _| bytes.clear())),
    ("bytes: only a few", Bytes(few_bytes)),
];

/// The names of all ways of damage.
pub fn ways() -> impl Iterator<Item = &'static str> {
    WAYS.iter().map(|(name, _)| *name)
}

fn damage(draft: &mut Draft, generator: &mut Generator, damage: &Damage) {
    match damage {
        NameIs(texts) => *name_of(draft, generator) = one(generator, texts).to_vec(),
        NameWith(texts) => put(name_of(draft, generator), generator, texts),
        Name(alter) => alter(name_of(draft, generator), generator),
        Names(alter) => alter(names_of(draft), generator),
        CellIs(texts) => *cell_of(draft, generator) = one(generator, texts).to_vec(),
        CellWith(texts) => put(cell_of(draft, generator), generator, texts),
        Damage::Cell(alter) => alter(cell_of(draft, generator), generator),
        Values(alter) => alter(line_of(draft, generator), generator),
        Whole(alter) => {
            line_of(draft, generator);
            alter(draft, generator)
        }
        Bytes(_) => (),
    }
}

fn index(generator: &mut Generator, length: usize) -> usize {
    generator.below(length as i64) as usize
}

fn one_in(generator: &mut Generator, count: i64) -> bool {
    generator.below(count) == 0
}

fn one<'a, T>(generator: &mut Generator, from: &'a [T]) -> &'a T {
    &from[index(generator, from.len())]
}

/// The names line, with at least one cell.
fn names_of(draft: &mut Draft) -> &mut Line {
    if draft.lines.is_empty() {
        draft.lines.push(Line::new());
    }
    at_least_one(&mut draft.lines[0])
}

fn at_least_one(line: &mut Line) -> &mut Line {
    if line.is_empty() {
        line.push(Cell::new());
    }
    line
}

fn name_of<'a>(draft: &'a mut Draft, generator: &mut Generator) -> &'a mut Cell {
    some(names_of(draft), generator)
}

/// A value line, made if there is none, with at least one cell.
fn line_of<'a>(draft: &'a mut Draft, generator: &mut Generator) -> &'a mut Line {
    let names = names_of(draft).len();
    if draft.lines.len() < 2 {
        draft.lines.push(vec![b"1".to_vec(); names]);
    }
    at_least_one(some(&mut draft.lines[1..], generator))
}

fn cell_of<'a>(draft: &'a mut Draft, generator: &mut Generator) -> &'a mut Cell {
    some(line_of(draft, generator), generator)
}

fn some<'a, T>(from: &'a mut [T], generator: &mut Generator) -> &'a mut T {
    let at = index(generator, from.len());
    &mut from[at]
}

/// Puts a text before, after or into a cell, or in its place.
fn put(cell: &mut Cell, generator: &mut Generator, texts: Texts) {
    let length = cell.len();
    let (from, to) = match generator.below(4) {
        0 => (0, 0),
        1 => (length, length),
        2 => (length / 2, length / 2),
        _ => (0, length),
    };
    cell.splice(from..to, one(generator, texts).iter().copied());
}

/// A name of any sheet.
fn any_name(generator: &mut Generator) -> Cell {
    let sheet = *one(generator, &Sheet::ALL);
    one(generator, sheet.names()).0.as_bytes().to_vec()
}

fn twice(names: &mut Line, generator: &mut Generator) {
    let name = some(names, generator).clone();
    match generator.below(3) {
        0 => names.push(name),
        _ => *some(names, generator) = name,
    }
}

fn one_missing(line: &mut Line, generator: &mut Generator) {
    line.remove(index(generator, line.len()));
}

fn one_name_more(names: &mut Line, generator: &mut Generator) {
    let at = index(generator, names.len() + 1);
    names.insert(at, any_name(generator));
}

fn other_case(name: &mut Cell, generator: &mut Generator) {
    let length = name.len();
    let which = match generator.below(3) {
        0 => 0..length,
        1 => 0..length.min(1),
        _ => length.saturating_sub(1)..length,
    };
    name[which].make_ascii_uppercase();
}

fn cut(name: &mut Cell, generator: &mut Generator) {
    let rest = match generator.below(2) {
        0 => 0..name.len().saturating_sub(1),
        _ => name.len().min(1)..name.len(),
    };
    *name = name[rest].to_vec();
}

fn in_quotes(cell: &mut Cell, generator: &mut Generator) {
    let quote = *one(generator, b"\"'");
    cell.insert(0, quote);
    cell.push(quote);
}

/// Makes one cell of two, with a text between them.
fn join(line: &mut Line, generator: &mut Generator, with: &[u8]) {
    if line.len() > 1 {
        let at = index(generator, line.len() - 1);
        let right = line.remove(at + 1);
        line[at].extend_from_slice(with);
        line[at].extend(right);
    }
}

fn names_again(draft: &mut Draft, generator: &mut Generator) {
    let at = 1 + index(generator, draft.lines.len());
    draft.lines.insert(at, draft.lines[0].clone());
}

fn column_missing(draft: &mut Draft, generator: &mut Generator) {
    let at = index(generator, draft.lines[0].len());
    for line in draft.lines.iter_mut().filter(|line| at < line.len()) {
        line.remove(at);
    }
}

fn column_more(draft: &mut Draft, generator: &mut Generator) {
    let at = index(generator, draft.lines[0].len() + 1);
    draft.lines[0].insert(at, any_name(generator));
    for line in &mut draft.lines[1..] {
        line.insert(at.min(line.len()), b"1".to_vec());
    }
}

fn any_kind(draft: &mut Draft, generator: &mut Generator) {
    draft.sheet = *one(generator, &Sheet::ALL);
}

fn mark_cut(draft: &mut Draft, generator: &mut Generator) {
    let at = 1 + index(generator, 2);
    let (left, right) = MARK.split_at(at);
    draft.mark = one(generator, &[left, right]).to_vec();
}

fn mark_changed(draft: &mut Draft, generator: &mut Generator) {
    draft.mark = MARK.to_vec();
    *some(&mut draft.mark, generator) = some_byte(generator);
}

fn mark_another(draft: &mut Draft, generator: &mut Generator) {
    draft.mark = one(generator, &[[0xFE, 0xFF], [0xFF, 0xFE]]).to_vec();
}

/// Twelve digits or more. Of the first two texts the last 64 bits are 5, and 0.
fn more_digits(cell: &mut Cell, generator: &mut Generator) {
    let count = 12 + index(generator, 30);
    *cell = match generator.below(4) {
        0 => b"18446744073709551621".to_vec(),
        1 => b"340282366920938463463374607431768211456".to_vec(),
        _ => digits(generator, count),
    };
}

fn empty_not_allowed(draft: &mut Draft, generator: &mut Generator) {
    let needed: Vec<&[u8]> = draft
        .sheet
        .names()
        .iter()
        .filter(|name| !name.1)
        .map(|name| name.0.as_bytes())
        .collect();
    let name = *one(generator, &needed);
    if let Some(at) = draft.lines[0].iter().position(|cell| cell == name) {
        line_of(draft, generator)
            .get_mut(at)
            .into_iter()
            .for_each(Vec::clear);
    }
}

const FAULTY: Texts = &[b"", b"x", b"-1", b"007", b"12345678901"];

fn two_faulty(line: &mut Line, generator: &mut Generator) {
    for _ in 0..2 {
        *some(line, generator) = one(generator, FAULTY).to_vec();
    }
}

/// A comma before or after a cell, or in its middle.
fn comma_more(line: &mut Line, generator: &mut Generator) {
    let at = index(generator, line.len());
    let length = line[at].len();
    let split = *one(generator, &[0, length / 2, length]);
    let right = line[at].split_off(split);
    line.insert(at + 1, right);
}

fn count_and_cell(line: &mut Line, generator: &mut Generator) {
    *some(line, generator) = one(generator, FAULTY).to_vec();
    match generator.below(2) {
        0 => line.push(b"1".to_vec()),
        _ => drop(line.pop()),
    }
}

fn empty_in_the_middle(draft: &mut Draft, generator: &mut Generator) {
    let at = 1 + index(generator, draft.lines.len() - 1);
    draft.lines.insert(at, Line::new());
}

fn one_0d(draft: &mut Draft, generator: &mut Generator) {
    let line = at_least_one(some(&mut draft.lines, generator));
    line.last_mut()
        .into_iter()
        .for_each(|cell| cell.push(b'\r'));
}

fn every_0d(bytes: &mut Vec<u8>, generator: &mut Generator) {
    const ENDS: Texts = &[b"\r\n", b"\r", b"\n\r"];
    let lines: Vec<&[u8]> = bytes.split(|byte| *byte == b'\n').collect();
    *bytes = lines.join(*one(generator, ENDS));
}

/// A byte: often one that means something, or stands next to one that does.
fn some_byte(generator: &mut Generator) -> u8 {
    match generator.below(2) {
        0 => *one(generator, b"\n\n,,0099 -+./:\t\r\0\x7F\xEF\xFF"),
        _ => generator.below(256) as u8,
    }
}

fn byte_removed(bytes: &mut Vec<u8>, generator: &mut Generator) {
    bytes.remove(index(generator, bytes.len()));
}

fn byte_added(bytes: &mut Vec<u8>, generator: &mut Generator) {
    let at = index(generator, bytes.len() + 1);
    bytes.insert(at, some_byte(generator));
}

fn stretch(bytes: &mut Vec<u8>, generator: &mut Generator) {
    let from = index(generator, bytes.len() + 1);
    let to = from + index(generator, (bytes.len() - from).min(40) + 1);
    let stretch = bytes[from..to].to_vec();
    let way = generator.below(3);
    if way != 0 {
        bytes.drain(from..to);
    }
    if way != 1 {
        let at = index(generator, bytes.len() + 1);
        bytes.splice(at..at, stretch);
    }
}

fn few_bytes(bytes: &mut Vec<u8>, generator: &mut Generator) {
    let count = 1 + generator.below(8);
    *bytes = (0..count)
        .map(|_| *one(generator, b"\xEF\xBB\xBF\n\n,0"))
        .collect();
}

/// So many digits without a leading zero.
fn digits(generator: &mut Generator, count: usize) -> Cell {
    let mut digit = |least: u8| least + generator.below(i64::from(b'9' - least) + 1) as u8;
    let mut text = vec![digit(if count > 1 { b'1' } else { b'0' })];
    text.extend((1..count).map(|_| digit(b'0')));
    text
}

/// A number that a cell can hold.
fn number(generator: &mut Generator) -> u64 {
    let number = match generator.below(8) {
        0 => 0,
        1 => generator.below(10),
        2 => generator.below(96),
        3 | 4 => generator.below(100_001),
        5 => generator.pick(&[999_999_999, 1_000_000_000, 4_294_967_296, 9_999_999_999]),
        _ => {
            let count = 1 + generator.below(10);
            (0..count).fold(0, |number, _| 10 * number + generator.below(10))
        }
    };
    number as u64
}

/// A row of numbers in the order of the table of names; some cells that may be empty are.
fn row(generator: &mut Generator, sheet: Sheet) -> Vec<Option<u64>> {
    let mut row = Vec::new();
    for (_, may_be_empty) in sheet.names() {
        let empty = *may_be_empty && one_in(generator, 3);
        row.push((!empty).then(|| number(generator)));
    }
    row
}

/// A row of numbers that takes exactly so many bytes with its commas and its 0A.
fn row_of(generator: &mut Generator, names: usize, bytes: usize) -> Vec<Option<u64>> {
    let mut counts = vec![1; names];
    let mut left = bytes - 2 * names;
    while left > 0 {
        let count = some(&mut counts, generator);
        if *count < 10 {
            *count += 1;
            left -= 1;
        }
    }
    let mut row = Vec::new();
    for count in counts {
        let text = digits(generator, count);
        row.push(Some(
            text.iter()
                .fold(0, |number, digit| 10 * number + u64::from(digit - b'0')),
        ));
    }
    row
}

impl Draft {
    /// A sheet without value lines, its names in this order.
    fn new(sheet: Sheet, order: &[usize], marked: bool) -> Draft {
        let name = |place: &usize| sheet.names()[*place].0.as_bytes().to_vec();
        Draft {
            sheet,
            mark: if marked { MARK.to_vec() } else { Vec::new() },
            lines: vec![order.iter().map(name).collect()],
            rows: Vec::new(),
            ways: Vec::new(),
        }
    }

    /// Adds a value line, and gives its length. The row stands in the order of the table of names.
    fn add(&mut self, order: &[usize], row: &[Option<u64>]) -> usize {
        let text = |cell: Option<u64>| cell.map_or(Cell::new(), |n| n.to_string().into_bytes());
        let line: Line = order.iter().map(|place| text(row[*place])).collect();
        let length = line.iter().map(Vec::len).sum::<usize>() + line.len();
        self.lines.push(line);
        self.rows
            .push(row.iter().map(|cell| cell.unwrap_or(0)).collect());
        length
    }

    /// Notes what is notable in it before any damage.
    fn note(mut self) -> Draft {
        let cells = || self.lines.iter().skip(1).flatten();
        let names = self.sheet.names().iter().map(|name| name.0.as_bytes());
        let in_order = names.eq(self.lines[0].iter().map(Vec::as_slice));
        let notes = [
            ("has: EF BB BF at the start", !self.mark.is_empty()),
            ("has: names in the order of the table", in_order),
            ("has: names in another order", !in_order),
            ("has: no value line", self.lines.len() == 1),
            ("has: 96 value lines or more", self.lines.len() > 96),
            ("has: empty where allowed", cells().any(Vec::is_empty)),
            ("has: 0 in a cell", cells().any(|cell| cell == b"0")),
            ("has: ten digits", cells().any(|cell| cell.len() == 10)),
        ];
        let noted = notes.into_iter().filter(|note| note.1);
        self.ways.extend(noted.map(|note| note.0));
        self
    }

    fn bytes(&self) -> Vec<u8> {
        let mut bytes = self.mark.clone();
        for line in &self.lines {
            bytes.extend(line.join(&b','));
            bytes.push(b'\n');
        }
        bytes
    }

    fn undamaged(mut self) -> Drawn {
        self.ways.push("undamaged");
        Drawn {
            rows: Some(std::mem::take(&mut self.rows)),
            ..self.damaged()
        }
    }

    fn damaged(self) -> Drawn {
        Drawn {
            bytes: self.bytes(),
            sheet: self.sheet,
            rows: None,
            ways: self.ways,
        }
    }
}

/// A good sheet, mostly of a few lines.
fn good(generator: &mut Generator) -> Draft {
    let sheet = *one(generator, &Sheet::ALL);
    let order = match one_in(generator, 3) {
        true => (0..sheet.names().len()).collect(),
        false => shuffled(generator, sheet.names().len()),
    };
    let lines = match generator.below(40) {
        0 => 96 + generator.below(20),
        _ => generator.pick(&[0, 1, 1, 2, 2, 3, 3, 4, 5, 6, 8, 12, 16, 17]),
    };
    let mut draft = Draft::new(sheet, &order, one_in(generator, 3));
    for _ in 0..lines {
        draft.add(&order, &row(generator, sheet));
    }
    draft.note()
}

fn shuffled(generator: &mut Generator, length: usize) -> Vec<usize> {
    let mut order: Vec<usize> = (0..length).collect();
    for at in (1..length).rev() {
        order.swap(at, index(generator, at + 1));
    }
    order
}

/// A random sheet: a quarter undamaged, most of the others damaged in one way, and a few large.
pub fn any(generator: &mut Generator) -> Drawn {
    match generator.below(512) {
        0 | 1 => return any_large(generator),
        2 => return any_long(generator),
        _ => (),
    }
    let mut draft = good(generator);
    let count = generator.pick(&[0, 0, 0, 0, 1, 1, 1, 1, 1, 1, 1, 1, 2, 2, 2, 3]);
    let chosen: Vec<_> = (0..count).map(|_| one(generator, &WAYS)).collect();
    if chosen.is_empty() {
        return draft.undamaged();
    }
    if chosen.len() > 1 {
        draft.ways.push("damaged in two ways or three");
    }
    for (name, way) in &chosen {
        draft.ways.push(name);
        damage(&mut draft, generator, way);
    }
    let mut drawn = draft.damaged();
    for (_, way) in &chosen {
        match way {
            Bytes(alter) if !drawn.bytes.is_empty() => alter(&mut drawn.bytes, generator),
            _ => (),
        }
    }
    drawn
}

/// A sheet of exactly so many bytes, good but for its length where that is too long.
fn large(
    generator: &mut Generator,
    sheet: Sheet,
    marked: bool,
    short: bool,
    bytes: usize,
) -> Draft {
    let names = sheet.names().len();
    let order = shuffled(generator, names);
    let mut draft = Draft::new(sheet, &order, marked);
    let shortest = sheet.names().iter().map(|name| (!name.1).then_some(7));
    let shortest: Vec<Option<u64>> = shortest.collect();
    let mut left = bytes - draft.bytes().len();
    // A line has at most 11 bytes for each name, and the last two take what is left.
    while left > 22 * names {
        left -= match short {
            true => draft.add(&order, &shortest),
            false => draft.add(&order, &row(generator, sheet)),
        };
    }
    for length in [left / 2, left - left / 2] {
        draft.add(&order, &row_of(generator, names, length));
    }
    if short {
        draft.ways.push("large: of the shortest lines");
    }
    draft.ways.push(match bytes {
        65_535 => "large: 65,535 bytes",
        65_536 => "large: 65,536 bytes",
        65_537 => "large: 65,537 bytes",
        _ => "large: more than 65,537 bytes",
    });
    draft.note()
}

/// A large sheet, in half of the cases damaged without a change of its length.
fn any_large(generator: &mut Generator) -> Drawn {
    const LENGTHS: [usize; 7] = [65_535, 65_536, 65_536, 65_536, 65_537, 65_537, 70_000];
    let sheet = *one(generator, &Sheet::ALL);
    let length = *one(generator, &LENGTHS);
    let (marked, short) = (one_in(generator, 2), one_in(generator, 4));
    let draft = large(generator, sheet, marked, short, length);
    if one_in(generator, 2) {
        return well_formed_or_too_long(draft, length);
    }
    let mut drawn = draft.damaged();
    let (way, at, byte) = match generator.below(3) {
        0 => (
            "large: last line damaged",
            length - 2,
            *one(generator, b",x\n"),
        ),
        1 => (
            "large: last byte not 0A",
            length - 1,
            *one(generator, b"\r,0\0"),
        ),
        _ => (
            "large: a byte changed",
            index(generator, length),
            some_byte(generator),
        ),
    };
    drawn.bytes[at] = byte;
    drawn.ways.push(way);
    drawn
}

fn well_formed_or_too_long(draft: Draft, length: usize) -> Drawn {
    match length <= MOST_BYTES {
        true => draft.undamaged(),
        false => draft.damaged(),
    }
}

/// A sheet with a very long part, which makes it too long or does not.
fn any_long(generator: &mut Generator) -> Drawn {
    let mut draft = good(generator);
    let long = generator.pick(&[300, 5_000, 65_000, 65_536]) as usize;
    let way = match generator.below(4) {
        0 => {
            let text = vec![*one(generator, b"k ,"); long];
            name_of(&mut draft, generator).extend(text);
            "long: names line"
        }
        1 => {
            let text = vec![*one(generator, b"019x"); long];
            *cell_of(&mut draft, generator) = text;
            "long: cell"
        }
        2 => {
            let cell = one(generator, &[&b""[..], b"1", b"x"]).to_vec();
            *line_of(&mut draft, generator) = vec![cell; long / 2];
            "long: value line"
        }
        _ => {
            draft.lines.extend(vec![Line::new(); long]);
            "long: lines without bytes"
        }
    };
    draft.ways.push(way);
    draft.damaged()
}

/// Sheets given whole: the examples of the rules, and others whose fault or place is easily mistaken.
const GIVEN: [(Sheet, &[u8]); 33] = [
    (Sheet::Members, b""),
    (Sheet::Members, b"\n"),
    (Sheet::Members, b"\n\n"),
    (Sheet::Members, b"\xEF\xBB\xBF"),
    (Sheet::Members, b"\xEF\xBB\xBF\n"),
    (Sheet::Members, b"\xEF\xBB\n"),
    (Sheet::Members, b"\xEF\xBB\xBF\xEF\xBB\xBFkind,pays,gets\n"),
    (Sheet::Members, b"\nkind,pays,gets\n"),
    (Sheet::Members, b"kind,pays,gets"),
    (Sheet::Members, b"kind,pays,gets\n"),
    (Sheet::Members, b"kind,pays,gets,\n"),
    (Sheet::Members, b",kind,pays,gets\n"),
    (Sheet::Members, b"kind,pays,gets\n\n"),
    (Sheet::Members, b"kind,pays,gets\n1,,\n2,,"),
    (Sheet::Members, b"kind,pays,gets\n,x,\n"),
    (Sheet::Members, b"kind,pays,gets\n,x\n"),
    (Sheet::Members, b"kind,pays,gets\n1,x,y,z\n"),
    (Sheet::Members, b"gets,pays,kind\n,,\n"),
    (Sheet::Members, b"gets,pays,kind\nx,,\n"),
    (Sheet::Grid, b"block,hz100\n"),
    (Sheet::Grid, b"block,hz100,hz100\n"),
    (Sheet::Grid, b"block,hz100,price,price\n0,5000,4000,4000\n"),
    (Sheet::Grid, b"Block,hz100,price\n"),
    (Sheet::Grid, b"block,hz100,price\r\n"),
    (
        Sheet::Grid,
        b"block,hz100,price\n0,1,1\n1,1,1\n2,1,1\n3,5000\n",
    ),
    (Sheet::Grid, b"block,hz100,price\n0,1,1\n1,1,1\n2,1,1\n\n"),
    (
        Sheet::Grid,
        b"block,hz100,price\n0,1,1\n1,1,1\n2,1,1\n3,1,1\n4,1,1\n5,1,1\n6,1,1\nx,,4000\n",
    ),
    (Sheet::Grid, b"block,hz100,price\n0,5000,\n1,x,4000\n"),
    (Sheet::Grid, b"block,hz100,price\n0,5000\nx,5000,4000\n"),
    (Sheet::Grid, b"block,hz100,price\n0,5000,x\n1,5000\n"),
    (
        Sheet::Readings,
        b"member,block,scheduled,metered,available\n0,15,1000,1O00,\n",
    ),
    (
        Sheet::Readings,
        b"available,member,block,scheduled,metered\n,0,15,1000,1000\n",
    ),
    (
        Sheet::Readings,
        b"available,member,block,scheduled,metered\n0,15,1000,1000,\n",
    ),
];

/// Small sheets, with and without the three bytes.
const SMALL: [(Sheet, &[u8]); 5] = [
    (Sheet::Members, b"kind,pays,gets\n1,,\n4,,70\n"),
    (Sheet::Members, b"\xEF\xBB\xBFgets,kind,pays\n70,4,\n"),
    (Sheet::Grid, b"block,hz100,price\n0,5000,40\n"),
    (Sheet::Grid, b"\xEF\xBB\xBFprice,block,hz100\n0,95,5000\n"),
    (
        Sheet::Readings,
        b"member,block,scheduled,metered,available\n0,95,10,0,\n",
    ),
];

/// What a cell may hold, or nearly, parted by bars.
const CELLS: &[u8] = b"|0|00|000|01|007|-0|-5|+5|5-|5.0|5.| | 5|5 |5\t|5\r|\r|\0|5\0|\x805|\xB5|\xEF\xBB\xBF|\
    \xEF\xBB\xBF5|x|1O00|\"5\"|/|:|1:|999999999|1000000000|4294967296|9999999999|10000000000|12345678901|\
    00000000001|0000000001|18446744073709551616|99999999999999999999";

/// Every order of so many places.
fn orders(length: usize) -> Vec<Vec<usize>> {
    let mut all = vec![Vec::new()];
    for place in 0..length {
        let mut longer = Vec::new();
        for order in &all {
            for at in 0..=order.len() {
                longer.push([&order[..at], &[place], &order[at..]].concat());
            }
        }
        all = longer;
    }
    all
}

fn edge(sheet: Sheet, parts: &[&[u8]], way: &'static str) -> Drawn {
    Drawn {
        sheet,
        bytes: parts.concat(),
        rows: None,
        ways: vec![way],
    }
}

/// The edges: sheets given whole, notable bytes in each cell, every order of names, every length at
/// the limit, and every small change of small sheets.
pub fn edges() -> Vec<Drawn> {
    let given = |(sheet, bytes)| edge(sheet, &[bytes], "edges: given whole");
    let mut all: Vec<Drawn> = GIVEN.into_iter().map(given).collect();
    let mut generator = Generator::new(2029);
    for sheet in Sheet::ALL {
        all.extend(edges_of_cells(sheet));
        all.extend(edges_of_names(sheet));
        all.extend(edges_of_length(&mut generator, sheet));
    }
    for (sheet, bytes) in SMALL {
        all.extend((0..bytes.len()).flat_map(|at| edges_at(sheet, bytes, at)));
    }
    all
}

fn edges_of_cells(sheet: Sheet) -> Vec<Drawn> {
    let mut all = Vec::new();
    let names = sheet.names().len();
    let order: Vec<usize> = (0..names).rev().collect();
    for at in 0..names {
        for cell in CELLS.split(|byte| *byte == b'|') {
            let mut draft = Draft::new(sheet, &order, false);
            draft.add(&order, &vec![Some(1); names]);
            draft.lines[1][at] = cell.to_vec();
            draft.ways.push("edges: notable bytes in each cell");
            all.push(draft.damaged());
        }
    }
    all
}

fn edges_of_names(sheet: Sheet) -> Vec<Drawn> {
    let mut all = Vec::new();
    let row: Vec<Option<u64>> = (1..).map(Some).take(sheet.names().len()).collect();
    for order in orders(row.len()) {
        for marked in [false, true] {
            let mut draft = Draft::new(sheet, &order, marked);
            draft.add(&order, &row);
            draft.ways.push("edges: every order of names");
            all.push(draft.note().undamaged());
        }
    }
    all
}

fn edges_of_length(generator: &mut Generator, sheet: Sheet) -> Vec<Drawn> {
    let mut all = Vec::new();
    for length in MOST_BYTES - 1..=MOST_BYTES + 1 {
        for (marked, short) in [(false, false), (true, false), (false, true), (true, true)] {
            let draft = large(generator, sheet, marked, short, length);
            all.push(well_formed_or_too_long(draft, length));
        }
    }
    all
}

fn edges_at(sheet: Sheet, bytes: &[u8], at: usize) -> Vec<Drawn> {
    let (left, right) = (&bytes[..at], &bytes[at + 1..]);
    let cut = edge(sheet, &[left], "edges: cut at each place");
    let removed = edge(sheet, &[left, right], "edges: each byte removed");
    let mut all = vec![cut, removed];
    for byte in 0..=255 {
        let parts = [left, &[byte], right];
        all.push(edge(sheet, &parts, "edges: each byte in each place"));
    }
    for byte in b"\n,0 \r\0x\xEF" {
        let parts = [left, &[*byte], &bytes[at..]];
        all.push(edge(sheet, &parts, "edges: a byte added at each place"));
    }
    all
}
