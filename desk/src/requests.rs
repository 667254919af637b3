//! What document 02 changed: the commands on which the crate's answer no longer stands, and what has to be answered instead. The
//! crate's side says so, and the port is held to it. The second table of docs/DIFFERENCES.md has the rows.
use crate::language::{Answer, Cell, Command, Layout, Made, Place, Spec, Type, Value, MAX_COLUMNS, MAX_NAME, MAX_ROWS};

/// What the port has to answer where the crate gave this, or none where the crate's answer stands.
pub fn instead(command: &Command, given: &Answer) -> Option<Answer> {
    match (command, given) {
        (Command::Valid(_, name), _) if name.len() <= MAX_NAME && is_forbidden(name) => Some(Answer::Flag(false)),
        (Command::Check(spec, Value::Null), _) if is_nullable_binary(spec) => Some(Answer::Flag(true)),
        (Command::Write(layout, rows, cells), _) => written(layout, *rows, cells),
        (Command::Read(layout, stream), Answer::Cells(rows, cells)) => {
            emptied(layout, stream, cells, Cell::Null).map(|cells| Answer::Cells(*rows, cells))
        }
        (Command::Rows(layout, stream), Answer::Values(rows, values)) => {
            emptied(layout, stream, values, Value::Null).map(|values| Answer::Values(*rows, values))
        }
        (Command::Place(layout, stream, row, column), Answer::Cell(_)) => {
            let at = row * layout.columns.len() + column;
            empty_cells(layout, stream).iter().any(|empty| empty.cell == at).then_some(Answer::Cell(Cell::Null))
        }
        _ => None,
    }
}

/// E1: whether a name has a unit that [MS-CFB] forbids, or one that would be shown as other letters.
pub fn is_forbidden(name: &[u16]) -> bool {
    name.iter().any(|unit| matches!(unit, 0x21 | 0x2f | 0x3a | 0x5c | 0x3800..=0x483f))
}

/// E6: a column in which Null is valid since then.
fn is_nullable_binary(spec: &Spec) -> bool {
    let marked = matches!(spec.made, Made::Bits(bits) if bits & 0x1000 != 0);
    type_of(&spec.made) == Some(Type::Binary) && (spec.nullable || marked)
}

/// E2 and E6: the stream, or the first bad cell in column order and then row; none where no cell up to there is judged otherwise than
/// by document 01.
fn written(layout: &Layout, rows: usize, cells: &[Cell]) -> Option<Answer> {
    let types = types_of(layout)?;
    if rows > MAX_ROWS || cells.len() != rows * types.len() || cells.iter().any(|cell| matches!(cell, Cell::Handed(..))) {
        return None;
    }
    let (mut stream, mut changed) = (Vec::new(), false);
    for (column, one) in types.iter().enumerate() {
        for row in 0..rows {
            let cell = cells[row * types.len() + column];
            changed |= matches!(
                (one, cell),
                (Type::Int16, Cell::Int(-32_768)) | (Type::Int32, Cell::Int(i32::MIN)) | (Type::Binary, Cell::Null)
            );
            match stored(*one, layout.long, cell) {
                Ok(number) => stream.extend_from_slice(&number.to_le_bytes()[..width(*one, layout.long)]),
                Err(number) => return changed.then_some(Answer::Refused(number, Place::Cell(row, column))),
            }
        }
    }
    changed.then_some(Answer::Bytes(stream))
}

/// What a column stores for a cell, or its refusal, as document 02 leaves it.
fn stored(column: Type, long: bool, cell: Cell) -> Result<u32, u32> {
    match (column, cell) {
        (_, Cell::Null) => Ok(0),
        (Type::Binary, Cell::Binary) => Ok(1),
        (Type::Int16, Cell::Int(number)) if number.unsigned_abs() < 0x8000 => Ok((number + 0x8000) as u32),
        (Type::Int32, Cell::Int(number)) if number != i32::MIN => Ok(number as u32 ^ 0x8000_0000),
        (Type::Int16 | Type::Int32, Cell::Int(_)) => Err(17),
        (Type::Str(_), Cell::Str(number)) if !(1..=16_777_215).contains(&number) => Err(8),
        (Type::Str(_), Cell::Str(number)) if !long && number > 65_535 => Err(18),
        (Type::Str(_), Cell::Str(number)) => Ok(number as u32),
        _ => Err(16),
    }
}

/// A Binary cell that holds 0: its place among the cells row by row, and where it begins in the stream.
pub struct Empty {
    pub cell: usize,
    pub start: usize,
}

/// E6: the Binary cells that hold 0.
pub fn empty_cells(layout: &Layout, stream: &[u8]) -> Vec<Empty> {
    let Some(types) = types_of(layout) else { return Vec::new() };
    let widths: Vec<usize> = types.iter().map(|one| width(*one, layout.long)).collect();
    let rows = stream.len() / widths.iter().sum::<usize>().max(1);
    let mut found = Vec::new();
    let mut start = 0;
    for (column, one) in types.iter().enumerate() {
        let cells = (0..rows).map(|row| Empty { cell: row * types.len() + column, start: start + row * widths[column] });
        found.extend(cells.filter(|cell| *one == Type::Binary && stream[cell.start..cell.start + 2] == [0, 0]));
        start += rows * widths[column];
    }
    found
}

/// The cells or values read, with Null for those that are empty; none where none is.
fn emptied<T: Clone>(layout: &Layout, stream: &[u8], read: &[T], null: T) -> Option<Vec<T>> {
    let empty = empty_cells(layout, stream);
    let mut read = read.to_vec();
    empty.iter().for_each(|empty| read[empty.cell] = null.clone());
    (!empty.is_empty()).then_some(read)
}

fn width(column: Type, long: bool) -> usize {
    match column {
        Type::Int32 => 4,
        Type::Str(_) if long => 3,
        _ => 2,
    }
}

/// The types of a layout's columns; none where it is refused.
fn types_of(layout: &Layout) -> Option<Vec<Type>> {
    let types: Vec<Type> = layout.columns.iter().map(type_of).collect::<Option<_>>()?;
    (types.len() <= MAX_COLUMNS).then_some(types)
}

/// Document 01's type of a column; none where the column is refused.
fn type_of(made: &Made) -> Option<Type> {
    match *made {
        Made::Type(Type::Str(256..) | Type::Handed(_)) => None,
        Made::Type(named) => Some(named),
        Made::Bits(bits) if bits & !0x1000 == 0x900 => Some(Type::Binary),
        Made::Bits(bits) if bits & 0x800 != 0 => Some(Type::Str(bits as u32 & 0xff)),
        Made::Bits(bits) => match bits & 0xff {
            4 if bits & 0x400 != 0 => Some(Type::Binary),
            4 => Some(Type::Int32),
            1 | 2 => Some(Type::Int16),
            _ => None,
        },
    }
}
