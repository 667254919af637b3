//! Tables: columns, and their rows in a stream.

use crate::calls::{self, KindAndNumber, Layout};
use crate::column::Column;
use crate::refusal::{Place, Refusal, Result};
use crate::room::{output, spare};
use crate::stringpool::StringPool;
use crate::value::{Value, ValueRef};
use std::iter::FusedIterator;
use std::ops::Range;

/// The layout of a table.
#[derive(Clone, Debug, PartialEq, Eq)]
pub struct Table {
    columns: Vec<Column>,
    layout: Layout,
}

impl Table {
    /// A table of columns, whose references take two bytes or three. Refused with 20, 19.
    ///
    /// ```
    /// use strandroost::{Column, Table};
    ///
    /// let wide = vec![Column::build().int16(), Column::build().string(256)];
    /// let refusal = Table::new(wide, false).unwrap_err();
    /// assert_eq!(refusal.to_string(), "a text column has a maximum above 255 (refusal 19, column 1)");
    /// ```
    pub fn new(columns: Vec<Column>, long_string_refs: bool) -> Result<Table> {
        // Of too many it is enough to hand over one too many.
        let parts: Vec<_> = columns.iter().take(65).map(Column::parts).collect();
        Ok(Table { layout: Layout::new(&parts, long_string_refs)?, columns })
    }

    /// A table of the columns that bits of `_Columns` name. Refused with 20, 13.
    ///
    /// ```
    /// use strandroost::{ColumnType, Table};
    ///
    /// let table = Table::from_bitfields(&[0x2d48, 0x502], false)?;
    /// assert_eq!(table.columns()[0].coltype(), ColumnType::Str(0x48));
    /// assert!(table.columns()[0].is_primary_key());
    /// let refusal = Table::from_bitfields(&[0x502, 0x503], false).unwrap_err();
    /// assert_eq!(refusal.to_string(), "an integer column has a size other than 1, 2 or 4 (refusal 13, column 1)");
    /// # Ok::<(), strandroost::Refusal>(())
    /// ```
    pub fn from_bitfields(bits: &[i32], long_string_refs: bool) -> Result<Table> {
        let layout = Layout::from_bitfields(bits, long_string_refs)?;
        Ok(Table { columns: layout.columns().into_iter().map(Column::from_parts).collect(), layout })
    }

    /// The columns.
    pub fn columns(&self) -> &[Column] {
        &self.columns
    }

    /// The places of the primary key columns.
    ///
    /// ```
    /// use strandroost::Table;
    ///
    /// assert_eq!(Table::from_bitfields(&[0x2d48, 0x502, 0x2502], false)?.primary_key_indices(), [0, 2]);
    /// # Ok::<(), strandroost::Refusal>(())
    /// ```
    pub fn primary_key_indices(&self) -> Vec<usize> {
        let marked = self.columns.iter().enumerate().filter(|(_, column)| column.is_primary_key());
        marked.map(|(place, _)| place).collect()
    }

    /// Whether references take three bytes.
    pub fn long_string_refs(&self) -> bool {
        self.layout.long_string_refs()
    }

    /// How many complete rows a stream has. Refused with 22, 14.
    pub fn num_rows(&self, stream: &[u8]) -> Result<usize> {
        calls::num_rows(&self.layout, stream)
    }

    /// One cell of a stream. Refused with 22, 14, 15.
    pub fn read_cell(&self, stream: &[u8], row: usize, column: usize) -> Result<ValueRef> {
        calls::read_cell(&self.layout, stream, row, column).map(ValueRef::answered)
    }

    /// The rows of a stream as they are stored. Refused with 22, 14.
    pub fn read_rows(&self, stream: &[u8]) -> Result<Vec<Vec<ValueRef>>> {
        let cells = self.cells(stream)?;
        let mut rows = spare(cells.rows)?;
        for row in 0..cells.rows {
            let mut values = spare(cells.columns)?;
            values.extend(cells.row(row));
            rows.push(values);
        }
        Ok(rows)
    }

    /// The rows of a stream with their values, row by row. All cells are read here, so that the walk itself is never refused.
    /// Refused with 22, 14.
    ///
    /// ```
    /// use strandroost::{StringPool, Table, Value};
    ///
    /// let pool = StringPool::load(&[0xe4, 4, 0, 0, 2, 0, 1, 0], b"AB")?;
    /// let table = Table::from_bitfields(&[0x2d48, 0x502, 0x1900], pool.long_string_refs())?;
    /// let rows = table.rows(&[0x01, 0x00, 0x00, 0x00, 0x07, 0x80, 0x00, 0x00, 0x01, 0x00, 0x00, 0x00], &pool)?;
    /// assert_eq!(rows.len(), 2);
    /// let values: Vec<_> = rows.map(|row| row.into_values()).collect();
    /// assert_eq!(values, [["AB".into(), Value::Int(7), Value::Binary], [Value::Null, Value::Null, Value::Null]]);
    /// # Ok::<(), strandroost::Refusal>(())
    /// ```
    pub fn rows<'a>(&'a self, stream: &[u8], pool: &'a StringPool) -> Result<Rows<'a>> {
        let cells = self.cells(stream)?;
        Ok(Rows { columns: &self.columns, pool, left: 0..cells.rows, cells })
    }

    /// All cells of a stream by one call. Refused with 22, 14, before memory is asked for them.
    fn cells(&self, stream: &[u8]) -> Result<Cells> {
        let (rows, columns) = (self.num_rows(stream)?, self.columns.len());
        let (mut kinds, mut numbers) = (output(rows * columns)?, output(rows * columns)?);
        calls::read_rows(&self.layout, stream, &mut kinds, &mut numbers)?;
        Ok(Cells { rows, columns, kinds, numbers })
    }

    /// The stream of rows. Refused with 14, 23, and for a cell with 16, 17, 18. 17 is for an integer outside its column and for the
    /// column's smallest, which would read as Null; whatever is written reads back.
    ///
    /// ```
    /// use strandroost::{Column, Place, Table, ValueRef};
    ///
    /// let table = Table::new(vec![Column::build().int16()], false)?;
    /// let refusal = table.write_rows(&[vec![ValueRef::Int(1)], vec![ValueRef::Int(40_000)]]).unwrap_err();
    /// assert_eq!((refusal.number(), refusal.place()), (17, Place::Cell { row: 1, column: 0 }));
    /// assert_eq!(refusal.to_string(), "the integer does not fit its column (refusal 17, row 1, column 0)");
    /// assert_eq!(table.write_rows(&[vec![ValueRef::Int(-32_768)]]).unwrap_err().number(), 17);
    /// assert_eq!(table.read_rows(&table.write_rows(&[vec![ValueRef::Int(-32_767)]])?)?, [[ValueRef::Int(-32_767)]]);
    /// # Ok::<(), strandroost::Refusal>(())
    /// ```
    pub fn write_rows(&self, rows: &[Vec<ValueRef>]) -> Result<Vec<u8>> {
        self.judge_rows(rows)?;
        let cells = rows.len() * self.columns.len();
        let (mut kinds, mut numbers) = (spare(cells)?, spare(cells)?);
        for cell in rows.iter().flatten().map(|cell| cell.handed()) {
            kinds.push(cell.kind);
            numbers.push(cell.number);
        }
        let width: usize = self.columns.iter().map(|column| column.coltype().width(self.long_string_refs())).sum();
        let mut out = output(rows.len() * width)?;
        let bytes = calls::write_rows(&self.layout, rows.len(), &kinds, &numbers, &mut out)?;
        out.truncate(bytes);
        Ok(out)
    }

    /// 14, then 23, before memory is asked for cells.
    fn judge_rows(&self, rows: &[Vec<ValueRef>]) -> Result<()> {
        // Handed no cells, the call judges the number of rows, and has 23 for any cells that there should be.
        match calls::write_rows(&self.layout, rows.len(), &[], &[], &mut []) {
            Err(refusal) if refusal.number() != 23 => Err(refusal),
            // A row too short for one too long would go unseen in the number of cells.
            _ if rows.iter().any(|row| row.len() != self.columns.len()) => Err(Refusal::new(23, Place::Nowhere)),
            _ => Ok(()),
        }
    }
}

/// The cells of a stream, row by row.
#[derive(Clone, Debug)]
struct Cells {
    rows: usize,
    columns: usize,
    kinds: Vec<u8>,
    numbers: Vec<i32>,
}

impl Cells {
    fn row(&self, row: usize) -> impl Iterator<Item = ValueRef> + '_ {
        let places = row * self.columns..(row + 1) * self.columns;
        let kinds = self.kinds.get(places.clone()).unwrap_or_default();
        let numbers = self.numbers.get(places).unwrap_or_default();
        kinds.iter().zip(numbers).map(|(kind, number)| ValueRef::answered(KindAndNumber { kind: *kind, number: *number }))
    }
}

/// One row of a table, with its values.
#[derive(Clone, Debug, PartialEq, Eq)]
pub struct Row<'a> {
    columns: &'a [Column],
    values: Vec<Value>,
}

impl<'a> Row<'a> {
    /// How many values there are.
    pub fn len(&self) -> usize {
        self.values.len()
    }

    /// Whether there are none.
    pub fn is_empty(&self) -> bool {
        self.values.is_empty()
    }

    /// The columns of the table.
    pub fn columns(&self) -> &'a [Column] {
        self.columns
    }

    /// The value in a column, counted from 0; none past the last.
    pub fn get(&self, column: usize) -> Option<&Value> {
        self.values.get(column)
    }

    /// The values, column by column.
    pub fn values(&self) -> &[Value] {
        &self.values
    }

    /// The values themselves.
    pub fn into_values(self) -> Vec<Value> {
        self.values
    }
}

/// The rows of a table's stream, one after another: [`Table::rows`] makes it.
#[derive(Clone, Debug)]
pub struct Rows<'a> {
    columns: &'a [Column],
    pool: &'a StringPool,
    left: Range<usize>,
    cells: Cells,
}

impl<'a> Rows<'a> {
    /// The columns of the table.
    pub fn columns(&self) -> &'a [Column] {
        self.columns
    }

    fn row(&self, row: usize) -> Row<'a> {
        Row { columns: self.columns, values: self.cells.row(row).map(|cell| cell.to_value(self.pool)).collect() }
    }
}

impl<'a> Iterator for Rows<'a> {
    type Item = Row<'a>;

    fn next(&mut self) -> Option<Row<'a>> {
        self.left.next().map(|row| self.row(row))
    }

    fn nth(&mut self, n: usize) -> Option<Row<'a>> {
        self.left.nth(n).map(|row| self.row(row))
    }

    fn size_hint(&self) -> (usize, Option<usize>) {
        self.left.size_hint()
    }
}

impl ExactSizeIterator for Rows<'_> {}

impl FusedIterator for Rows<'_> {}
