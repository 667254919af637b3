//! The layouts of a package's tables, from the cells of _Columns.
use crate::language::{self, Made};
use crate::reading::Pool;
use crate::shown;
use std::collections::BTreeMap;

#[derive(Clone)]
pub struct Column {
    pub name: String,
    pub bits: i32,
}

pub struct Layout {
    pub table: Vec<u8>,
    pub columns: Vec<Column>,
}

impl Layout {
    pub fn made(table: &str, columns: &[(&str, i32)]) -> Layout {
        let columns = columns.iter().map(|(name, bits)| Column { name: (*name).into(), bits: *bits }).collect();
        Layout { table: table.into(), columns }
    }

    /// The layout itself as a table: Table, Number, Name, Type.
    pub fn of_columns() -> Layout {
        Layout::made("_Columns", &[("Table", 11584), ("Number", 9474), ("Name", 3392), ("Type", 1282)])
    }

    pub fn of_tables() -> Layout {
        Layout::made("_Tables", &[("Name", 11584)])
    }

    pub fn word(&self) -> String {
        self.columns.iter().map(|column| column.bits.to_string()).collect::<Vec<_>>().join(",")
    }

    /// The same in the words of the command language.
    pub fn handed(&self, long: bool) -> language::Layout {
        language::Layout { long, columns: self.columns.iter().map(|column| Made::Bits(column.bits)).collect() }
    }

    pub fn name(&self) -> String {
        shown::text(&self.table)
    }

    /// A cell's place, in words; rows and columns from 0, as document 01 counts them.
    pub fn place(&self, at: usize) -> String {
        let (row, column) = (at / self.columns.len().max(1), at % self.columns.len().max(1));
        let name = self.columns.get(column).map_or("", |column| &column.name);
        format!("{}, row {row}, column {column} ({name})", self.name())
    }
}

/// The number behind a cell's letter.
pub fn number(cell: &str, letter: char) -> Option<i32> {
    cell.strip_prefix(letter)?.parse().ok()
}

/// A row of _Columns, or why it says nothing.
fn column(row: usize, cells: &[&str], pool: &Pool) -> Result<(i32, Column), String> {
    let name = number(cells[2], 's').map(|reference| shown::text(pool.text(reference))).unwrap_or_default();
    let Some(place) = number(cells[1], 'i') else {
        return Err(format!("column '{name}' has no Number in _Columns, row {row}"));
    };
    match number(cells[3], 'i') {
        Some(bits) => Ok((place, Column { name, bits })),
        None => Err(format!("column {place} ('{name}') has no Type in _Columns, row {row}")),
    }
}

type Numbered = BTreeMap<i32, (usize, Column)>;

/// The columns of a table in the order of their Numbers, which run from 1 without a gap.
fn ordered(columns: Numbered) -> Result<Vec<Column>, String> {
    for (place, wanted) in columns.keys().zip(1..) {
        if *place != wanted {
            let last = columns.keys().last().unwrap_or(place);
            return Err(format!("its columns in _Columns go up to {last}, and there is none of Number {wanted}"));
        }
    }
    Ok(columns.into_values().map(|(_, column)| column).collect())
}

/// What _Columns says of each table: its layout, or why it has none. Tables are told apart by their names, not by the references.
/// A row may name no table.
pub fn layouts(cells: &[&str], pool: &Pool) -> (Vec<Layout>, Vec<(Option<Vec<u8>>, String)>) {
    let mut tables: BTreeMap<Vec<u8>, Result<Numbered, String>> = BTreeMap::new();
    let mut bad = Vec::new();
    for (row, cells) in cells.chunks_exact(4).enumerate() {
        let Some(reference) = number(cells[0], 's') else {
            bad.push((None, format!("row {row} of _Columns names no table")));
            continue;
        };
        let table = tables.entry(pool.text(reference).to_vec()).or_insert_with(|| Ok(BTreeMap::new()));
        let Ok(columns) = table else { continue };
        match column(row, cells, pool) {
            Err(why) => *table = Err(why),
            Ok((place, column)) => {
                if let Some((other, _)) = columns.insert(place, (row, column)) {
                    *table = Err(format!("it has two columns of Number {place} in _Columns, rows {other} and {row}"));
                }
            }
        }
    }
    let mut layouts = Vec::new();
    for (table, columns) in tables {
        match columns.and_then(ordered) {
            Ok(columns) => layouts.push(Layout { table, columns }),
            Err(why) => bad.push((Some(table), why)),
        }
    }
    (layouts, bad)
}
