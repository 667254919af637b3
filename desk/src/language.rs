//! The command language of PROTOCOL.md: commands as they are read, answers as they are written.
//! Neither side's types occur here, so that the crate and the port are asked and answer in the same words.

/// The most units of a name.
pub const MAX_NAME: usize = 65_535;

/// The most columns of a layout.
pub const MAX_COLUMNS: usize = 64;

/// The most rows of a table.
pub const MAX_ROWS: usize = 65_536;

/// The most items that a word stands for by repetition: one more than a stream has bytes.
const MAX_ITEMS: usize = 268_435_456;

/// A word of an answer with more items than this, all equal, is written as `ITEM*N`.
const WRITTEN_OUT: usize = 64;

#[derive(Clone, Copy, Debug, PartialEq)]
pub enum Cell {
    Null,
    Int(i32),
    Str(i32),
    Binary,
    /// A kind and a number as they are handed over, whatever they mean.
    Handed(u8, i32),
}

#[derive(Clone, Debug, PartialEq)]
pub enum Value {
    Null,
    Int(i32),
    Text(Vec<u8>),
    Binary,
    /// A kind and a number as they are handed over, with no text beside them.
    Handed(u8, i32),
}

#[derive(Clone, Copy, Debug, PartialEq)]
pub enum Type {
    Int16,
    Int32,
    Str(u32),
    Binary,
    /// A type's number as it is handed over, whatever it means.
    Handed(u32),
}

#[derive(Clone, Copy, Debug)]
pub enum Made {
    Type(Type),
    Bits(i32),
}

#[derive(Clone, Copy, Debug)]
pub struct Spec {
    pub made: Made,
    pub nullable: bool,
    pub localizable: bool,
    pub primary_key: bool,
    pub range: Option<(i32, i32)>,
}

#[derive(Clone, Debug)]
pub struct Layout {
    pub long: bool,
    pub columns: Vec<Made>,
}

/// Which entry a take chooses.
#[derive(Clone, Copy, Debug, PartialEq)]
pub enum Choice {
    /// The first that is free or equal: document 01's choice, and the crate's.
    First,
    /// An equal one wherever it stands, else the first free one.
    Default,
}

#[derive(Clone, Debug)]
pub enum Command {
    Enc(bool, Vec<u16>),
    Dec(Vec<u16>),
    Valid(bool, Vec<u16>),
    New(u32),
    Load(Vec<u8>, Vec<u8>),
    Page(u32),
    Take(Choice, Vec<u8>),
    Drop(i32),
    Show(i32),
    Count(i32),
    State,
    WritePool,
    WriteData,
    Sum,
    Create(Choice, Value),
    Remove(Cell),
    Value(Cell),
    Col(Spec),
    Check(Spec, Value),
    Read(Layout, Vec<u8>),
    Rows(Layout, Vec<u8>),
    Place(Layout, Vec<u8>, usize, usize),
    Write(Layout, usize, Vec<Cell>),
    /// Room for entries (lengths, counts) and texts; `None`: as much as suffices.
    Lend(Option<(usize, usize, usize)>),
    /// Places of an output; `None`: as many as suffice.
    Out(Option<usize>),
    /// The first places of a room.
    Hold(Room),
    /// The last so many places of each room and output; `None`: all.
    Held(Option<usize>),
    /// A state set by hand: entries, long references, code page.
    Pool(usize, bool, u32),
    Ref(i32),
}

/// What the first places of a lent room hold.
#[derive(Clone, Debug)]
pub enum Room {
    Lengths(Vec<u32>),
    Counts(Vec<u16>),
    Text(Vec<u8>),
}

#[derive(Clone, Copy, Debug, PartialEq)]
pub enum Place {
    Nowhere,
    Column(usize),
    Cell(usize, usize),
}

#[derive(Clone, Debug)]
pub struct Held {
    pub lengths: Vec<u32>,
    pub counts: Vec<u16>,
    pub text: Vec<u8>,
    pub out: Vec<u8>,
}

#[derive(Clone, Debug)]
pub enum Answer {
    Done,
    Units(Vec<u16>),
    Decoded(bool, Vec<u16>),
    Flag(bool),
    Number(u64),
    Bytes(Vec<u8>),
    Pool(u32, bool, usize),
    Sums(Vec<u8>, Vec<u8>),
    Cell(Cell),
    Value(Value),
    Column(Type, u32, i32),
    Cells(usize, Vec<Cell>),
    Values(usize, Vec<Value>),
    Held(Held),
    Refused(u32, Place),
    Outside,
    /// What the port has to answer where document 02 changed the crate's answer.
    Request(Box<Answer>),
    Bad,
}

// ---------------------------------------------------------------- reading

fn digit(character: u8) -> Option<u8> {
    match character {
        b'0'..=b'9' => Some(character - b'0'),
        b'a'..=b'f' => Some(character - b'a' + 10),
        b'A'..=b'F' => Some(character - b'A' + 10),
        _ => None,
    }
}

/// A word and how often it stands: `WORD*N`, or once.
pub fn repeated(word: &str) -> Option<(&str, usize)> {
    match word.split_once('*') {
        Some((word, times)) => Some((word, times.parse().ok()?)),
        None => Some((word, 1)),
    }
}

/// So many times over, unless that is too much.
fn times_over<T: Copy>(items: Vec<T>, times: usize) -> Option<Vec<T>> {
    match items.len().checked_mul(times)? {
        _ if times == 1 => Some(items),
        0..=MAX_ITEMS => Some(items.repeat(times)),
        _ => None,
    }
}

pub fn bytes_of(word: &str) -> Option<Vec<u8>> {
    if word == "-" {
        return Some(Vec::new());
    }
    let (word, times) = repeated(word)?;
    times_over(plain_bytes(word)?, times)
}

fn plain_bytes(word: &str) -> Option<Vec<u8>> {
    let digits = word.as_bytes();
    if digits.is_empty() || digits.len() % 2 != 0 {
        return None;
    }
    digits.chunks_exact(2).map(|pair| Some(digit(pair[0])? << 4 | digit(pair[1])?)).collect()
}

pub fn units_of(word: &str) -> Option<Vec<u16>> {
    if word == "-" {
        return Some(Vec::new());
    }
    let (word, times) = repeated(word)?;
    let bytes = plain_bytes(word).filter(|bytes| bytes.len() % 2 == 0)?;
    times_over(bytes.chunks_exact(2).map(|pair| u16::from_be_bytes([pair[0], pair[1]])).collect(), times)
}

fn flag_of(word: &str) -> Option<bool> {
    match word {
        "0" => Some(false),
        "1" => Some(true),
        _ => None,
    }
}

fn room_of(word: &str) -> Option<Option<usize>> {
    if word == "-" {
        return Some(None);
    }
    Some(Some(word.parse().ok()?))
}

fn handed_of(rest: &str) -> Option<(u8, i32)> {
    let (kind, number) = rest.split_once(':')?;
    Some((kind.parse().ok()?, number.parse().ok()?))
}

fn cell_of(word: &str) -> Option<Cell> {
    let rest = word.get(1..)?;
    match word.as_bytes()[0] {
        b'n' if rest.is_empty() => Some(Cell::Null),
        b'b' if rest.is_empty() => Some(Cell::Binary),
        b'i' => Some(Cell::Int(rest.parse().ok()?)),
        b's' => Some(Cell::Str(rest.parse().ok()?)),
        b'k' => handed_of(rest).map(|(kind, number)| Cell::Handed(kind, number)),
        _ => None,
    }
}

fn value_of(word: &str) -> Option<Value> {
    let rest = word.get(1..)?;
    match word.as_bytes()[0] {
        b'n' if rest.is_empty() => Some(Value::Null),
        b'b' if rest.is_empty() => Some(Value::Binary),
        b'i' => Some(Value::Int(rest.parse().ok()?)),
        b't' if rest == "-" => Some(Value::Text(Vec::new())),
        b't' => Some(Value::Text(plain_bytes(rest)?)),
        b'k' => handed_of(rest).map(|(kind, number)| Value::Handed(kind, number)),
        _ => None,
    }
}

fn made_of(word: &str) -> Option<Made> {
    if let Some(bits) = word.strip_prefix('@') {
        return Some(Made::Bits(bits.parse().ok()?));
    }
    Some(Made::Type(match word {
        "i2" => Type::Int16,
        "i4" => Type::Int32,
        "b" => Type::Binary,
        _ if word.starts_with('x') => Type::Handed(word[1..].parse().ok()?),
        _ => Type::Str(word.strip_prefix('s')?.parse().ok()?),
    }))
}

fn range_of(word: &str) -> Option<Option<(i32, i32)>> {
    if word == "-" {
        return Some(None);
    }
    let (min, max) = word.split_once(',')?;
    Some(Some((min.parse().ok()?, max.parse().ok()?)))
}

fn spec_of(made: &str, marks: &str, range: &str) -> Option<Spec> {
    let marks: u32 = marks.parse().ok()?;
    if marks > 7 {
        return None;
    }
    Some(Spec {
        made: made_of(made)?,
        nullable: marks & 1 != 0,
        localizable: marks & 2 != 0,
        primary_key: marks & 4 != 0,
        range: range_of(range)?,
    })
}

/// A column of a layout: its bits, or a type behind a colon.
fn layout_column(word: &str) -> Option<Made> {
    match word.strip_prefix(':') {
        Some(coltype) => made_of(coltype),
        None => Some(Made::Bits(word.parse().ok()?)),
    }
}

fn list_of<T: Copy>(word: &str, one: fn(&str) -> Option<T>) -> Option<Vec<T>> {
    let mut items = Vec::new();
    if word == "-" {
        return Some(items);
    }
    for item in word.split(',') {
        let (item, times) = repeated(item)?;
        items.extend(times_over(vec![one(item)?], times)?);
    }
    Some(items)
}

/// A layout, by bits or by types: the two ways of making one.
fn layout_of(long: &str, columns: &str) -> Option<Layout> {
    let columns = list_of(columns, layout_column)?;
    let bits = columns.iter().filter(|made| matches!(made, Made::Bits(_))).count();
    (bits == 0 || bits == columns.len()).then_some(Layout { long: flag_of(long)?, columns })
}

fn number_of(word: &str) -> Option<i32> {
    word.parse().ok()
}

/// The command on a line, or that the line is malformed.
pub fn command_of(line: &str) -> Option<Command> {
    let words: Vec<&str> = line.split(' ').collect();
    Some(match words[..] {
        ["enc", table, name] => Command::Enc(flag_of(table)?, units_of(name)?),
        ["dec", name] => Command::Dec(units_of(name)?),
        ["valid", table, name] => Command::Valid(flag_of(table)?, units_of(name)?),
        ["new", page] => Command::New(page.parse().ok()?),
        ["load", pool, data] => Command::Load(bytes_of(pool)?, bytes_of(data)?),
        ["page", page] => Command::Page(page.parse().ok()?),
        ["take", text] => Command::Take(Choice::First, bytes_of(text)?),
        ["take-default", text] => Command::Take(Choice::Default, bytes_of(text)?),
        ["drop", number] => Command::Drop(number_of(number)?),
        ["show", number] => Command::Show(number_of(number)?),
        ["count", number] => Command::Count(number_of(number)?),
        ["state"] => Command::State,
        ["wpool"] => Command::WritePool,
        ["wdata"] => Command::WriteData,
        ["sum"] => Command::Sum,
        ["create", value] => Command::Create(Choice::First, value_of(value)?),
        ["create-default", value] => Command::Create(Choice::Default, value_of(value)?),
        ["remove", cell] => Command::Remove(cell_of(cell)?),
        ["value", cell] => Command::Value(cell_of(cell)?),
        ["col", made, marks] => Command::Col(spec_of(made, marks, "-")?),
        ["check", made, marks, range, value] => Command::Check(spec_of(made, marks, range)?, value_of(value)?),
        ["read", long, layout, stream] => Command::Read(layout_of(long, layout)?, bytes_of(stream)?),
        ["rows", long, layout, stream] => Command::Rows(layout_of(long, layout)?, bytes_of(stream)?),
        ["place", long, layout, stream, row, column] => {
            Command::Place(layout_of(long, layout)?, bytes_of(stream)?, row.parse().ok()?, column.parse().ok()?)
        }
        ["write", long, layout, rows, cells] => {
            Command::Write(layout_of(long, layout)?, rows.parse().ok()?, list_of(cells, cell_of)?)
        }
        ["lend", "-"] => Command::Lend(None),
        ["lend", lengths, counts, text] => {
            Command::Lend(Some((lengths.parse().ok()?, counts.parse().ok()?, text.parse().ok()?)))
        }
        ["out", places] => Command::Out(room_of(places)?),
        ["hold", "lengths", numbers] => Command::Hold(Room::Lengths(list_of(numbers, |number| number.parse().ok())?)),
        ["hold", "counts", numbers] => Command::Hold(Room::Counts(list_of(numbers, |number| number.parse().ok())?)),
        ["hold", "text", bytes] => Command::Hold(Room::Text(bytes_of(bytes)?)),
        ["held"] => Command::Held(None),
        ["held", places] => Command::Held(Some(places.parse().ok()?)),
        ["ref", number] => Command::Ref(number_of(number)?),
        ["pool", entries, long, page] => Command::Pool(entries.parse().ok()?, flag_of(long)?, page.parse().ok()?),
        _ => return None,
    })
}

// ---------------------------------------------------------------- writing

pub fn put_bytes(bytes: &[u8], out: &mut String) {
    const DIGITS: &[u8; 16] = b"0123456789abcdef";
    if bytes.is_empty() {
        out.push('-');
    }
    for byte in bytes {
        out.push(DIGITS[(byte >> 4) as usize] as char);
        out.push(DIGITS[(byte & 15) as usize] as char);
    }
}

pub fn put_units(units: &[u16], out: &mut String) {
    let bytes: Vec<u8> = units.iter().flat_map(|unit| unit.to_be_bytes()).collect();
    put_bytes(&bytes, out);
}

fn put_number(number: i64, out: &mut String) {
    use std::fmt::Write;
    let _ = write!(out, "{number}");
}

fn put_handed(kind: u8, number: i32, out: &mut String) {
    out.push('k');
    put_number(kind.into(), out);
    out.push(':');
    put_number(number.into(), out);
}

pub fn put_cell(cell: &Cell, out: &mut String) {
    match *cell {
        Cell::Null => out.push('n'),
        Cell::Int(number) => {
            out.push('i');
            put_number(number.into(), out);
        }
        Cell::Str(number) => {
            out.push('s');
            put_number(number.into(), out);
        }
        Cell::Binary => out.push('b'),
        Cell::Handed(kind, number) => put_handed(kind, number, out),
    }
}

fn put_value(value: &Value, out: &mut String) {
    match value {
        Value::Null => out.push('n'),
        Value::Int(number) => {
            out.push('i');
            put_number((*number).into(), out);
        }
        Value::Text(text) => {
            out.push('t');
            put_bytes(text, out);
        }
        Value::Binary => out.push('b'),
        Value::Handed(kind, number) => put_handed(*kind, *number, out),
    }
}

fn put_type(coltype: Type, out: &mut String) {
    match coltype {
        Type::Int16 => out.push_str("i2"),
        Type::Int32 => out.push_str("i4"),
        Type::Str(max) => {
            out.push('s');
            put_number(max.into(), out);
        }
        Type::Binary => out.push('b'),
        Type::Handed(number) => {
            out.push('x');
            put_number(number.into(), out);
        }
    }
}

pub fn put_list<T>(items: &[T], one: fn(&T, &mut String), out: &mut String) {
    if items.is_empty() {
        out.push('-');
    }
    for (at, item) in items.iter().enumerate() {
        if at > 0 {
            out.push(',');
        }
        one(item, out);
    }
}

/// A word of an answer: many items that are all equal are written as `ITEM*N`.
fn put_word<T: PartialEq>(items: &[T], all: fn(&[T], &mut String), out: &mut String) {
    match items {
        [first, rest @ ..] if items.len() > WRITTEN_OUT && rest.iter().all(|item| item == first) => {
            all(&items[..1], out);
            out.push('*');
            put_number(items.len() as i64, out);
        }
        _ => all(items, out),
    }
}

fn put_numbers<T: Copy + Into<i64>>(numbers: &[T], out: &mut String) {
    put_list(numbers, |number, out| put_number((*number).into(), out), out);
}

pub fn adler(bytes: &[u8]) -> u32 {
    let (mut a, mut b) = (1u32, 0u32);
    // 5,552 bytes are the most that neither sum overflows on.
    for part in bytes.chunks(5552) {
        for byte in part {
            a += u32::from(*byte);
            b += a;
        }
        a %= 65521;
        b %= 65521;
    }
    b << 16 | a
}

fn put_refusal(number: u32, place: Place, out: &mut String) {
    let panics = matches!(number, 9..=12 | 15);
    out.push_str(if panics { "panic " } else { "error " });
    put_number(number.into(), out);
    match place {
        Place::Nowhere => {}
        Place::Column(column) => put_words(&[column as i64], out),
        Place::Cell(row, column) => put_words(&[column as i64, row as i64], out),
    }
}

fn put_words(numbers: &[i64], out: &mut String) {
    for number in numbers {
        out.push(' ');
        put_number(*number, out);
    }
}

fn put_held(held: &Held, out: &mut String) {
    put_word(&held.lengths, put_numbers, out);
    out.push(' ');
    put_word(&held.counts, put_numbers, out);
    out.push(' ');
    put_word(&held.text, put_bytes, out);
    out.push(' ');
    put_word(&held.out, put_bytes, out);
}

impl Answer {
    pub fn put(&self, out: &mut String) {
        match self {
            Answer::Refused(number, place) => put_refusal(*number, *place, out),
            Answer::Outside => out.push_str("outside"),
            Answer::Request(answer) => {
                out.push_str("request ");
                answer.put(out);
            }
            Answer::Bad => out.push_str("bad"),
            Answer::Done => out.push_str("ok"),
            _ => {
                out.push_str("ok ");
                self.put_given(out);
            }
        }
    }

    fn put_given(&self, out: &mut String) {
        match self {
            Answer::Units(units) => put_word(units, put_units, out),
            Answer::Decoded(table, units) => {
                out.push_str(if *table { "1 " } else { "0 " });
                put_word(units, put_units, out);
            }
            Answer::Flag(flag) => out.push(if *flag { '1' } else { '0' }),
            Answer::Number(number) => put_number(*number as i64, out),
            Answer::Bytes(bytes) => put_word(bytes, put_bytes, out),
            Answer::Pool(page, long, entries) => {
                put_number((*page).into(), out);
                put_words(&[(*long).into(), *entries as i64], out);
            }
            Answer::Sums(pool, data) => {
                put_number(pool.len() as i64, out);
                put_words(&[adler(pool).into(), data.len() as i64, adler(data).into()], out);
            }
            Answer::Cell(cell) => put_cell(cell, out),
            Answer::Value(value) => put_value(value, out),
            Answer::Column(coltype, marks, bits) => {
                put_type(*coltype, out);
                put_words(&[(*marks).into(), (*bits).into()], out);
            }
            Answer::Cells(rows, cells) => {
                put_number(*rows as i64, out);
                out.push(' ');
                put_word(cells, |cells, out| put_list(cells, put_cell, out), out);
            }
            Answer::Values(rows, values) => {
                put_number(*rows as i64, out);
                out.push(' ');
                put_word(values, |values, out| put_list(values, put_value, out), out);
            }
            Answer::Held(held) => put_held(held, out),
            _ => {}
        }
    }
}

/// Answers the commands on standard input, a line each.
pub fn serve(mut answer: impl FnMut(Command) -> Answer) -> std::io::Result<()> {
    use std::io::{BufRead, Write};
    let mut lines = std::io::stdin().lock();
    let mut out = std::io::BufWriter::with_capacity(1 << 16, std::io::stdout().lock());
    let (mut line, mut text) = (String::new(), String::new());
    loop {
        line.clear();
        if lines.read_line(&mut line)? == 0 {
            return out.flush();
        }
        let command = line.trim_end_matches(['\n', '\r']);
        // A caller that waits for its answers says so by an empty line.
        if command.is_empty() {
            out.flush()?;
            continue;
        }
        if command.starts_with('#') {
            continue;
        }
        text.clear();
        match command_of(command) {
            Some(command) => answer(command).put(&mut text),
            None => Answer::Bad.put(&mut text),
        }
        text.push('\n');
        out.write_all(text.as_bytes())?;
    }
}
