//! Columns of a table.

use crate::calls::{self, ColumnParts, KindAndNumber};
use crate::refusal::Result;
use crate::stringpool;
use crate::value::Value;
use std::fmt;

/// The type of a column.
#[derive(Clone, Copy, Debug, PartialEq, Eq, Hash)]
pub enum ColumnType {
    /// Integers from -32,767 to 32,767; -32,768 is refused, since its cell would read as Null.
    Int16,
    /// Integers of 32 bits but the smallest, -2,147,483,648, which is refused for the same reason.
    Int32,
    /// Texts, with the largest length in bytes, 0 for any.
    Str(u32),
    /// A stream of the database. A cell of 0 is Null, and any other Binary.
    Binary,
}

impl ColumnType {
    /// How many bytes of a table a cell takes, where references take three bytes or two.
    ///
    /// ```
    /// use strandroost::ColumnType;
    ///
    /// assert_eq!((ColumnType::Int32.width(true), ColumnType::Str(0).width(true), ColumnType::Str(0).width(false)), (4, 3, 2));
    /// ```
    pub fn width(&self, long_string_refs: bool) -> usize {
        match self {
            ColumnType::Int16 | ColumnType::Binary => 2,
            ColumnType::Int32 => 4,
            ColumnType::Str(_) => stringpool::width(long_string_refs),
        }
    }
}

/// As the crate shows it.
///
/// ```
/// use strandroost::ColumnType;
///
/// assert_eq!(format!("{} {} {}", ColumnType::Int16, ColumnType::Int32, ColumnType::Str(72)), "SMALLINT INTEGER VARCHAR(72)");
/// ```
impl fmt::Display for ColumnType {
    fn fmt(&self, f: &mut fmt::Formatter<'_>) -> fmt::Result {
        match self {
            ColumnType::Int16 => f.pad("SMALLINT"),
            ColumnType::Int32 => f.pad("INTEGER"),
            ColumnType::Str(max_len) => f.pad(&format!("VARCHAR({max_len})")),
            ColumnType::Binary => f.pad("BINARY"),
        }
    }
}

/// A column: its type, marks and range.
#[derive(Clone, Copy, Debug, PartialEq, Eq)]
pub struct Column(ColumnParts);

/// A column being made.
#[derive(Clone, Copy, Debug, PartialEq, Eq)]
pub struct ColumnBuilder(ColumnParts);

impl Column {
    /// Begins a column without marks.
    ///
    /// ```
    /// use strandroost::{Column, ColumnType, Value};
    ///
    /// let column = Column::build().nullable().string(8);
    /// assert_eq!(column.coltype(), ColumnType::Str(8));
    /// assert_eq!(column.bitfield(), Ok(0x1d08));
    /// assert_eq!(column.is_valid_value(&Value::Str(b"ABCDEFGHI".to_vec())), Ok(false));
    /// ```
    pub fn build() -> ColumnBuilder {
        ColumnBuilder(calls::column_build())
    }

    /// The same column with the nullable mark.
    pub fn but_nullable(self) -> Column {
        Column(ColumnParts { is_nullable: true, ..self.0 })
    }

    /// The type.
    pub fn coltype(&self) -> ColumnType {
        match self.0.coltype {
            0 => ColumnType::Int16,
            1 => ColumnType::Int32,
            2 => ColumnType::Str(self.0.max_len),
            _ => ColumnType::Binary,
        }
    }

    /// The localizable mark.
    pub fn is_localizable(&self) -> bool {
        self.0.is_localizable
    }

    /// The nullable mark.
    pub fn is_nullable(&self) -> bool {
        self.0.is_nullable
    }

    /// The primary key mark.
    pub fn is_primary_key(&self) -> bool {
        self.0.is_primary_key
    }

    /// The least and the largest integer allowed.
    pub fn value_range(&self) -> Option<(i32, i32)> {
        self.0.range
    }

    /// The bits that stand for the column in `_Columns`. Refused with 19.
    pub fn bitfield(&self) -> Result<i32> {
        calls::column_bitfield(self.0)
    }

    /// Whether the column allows a value. Refused with 22, 19.
    pub fn is_valid_value(&self, value: &Value) -> Result<bool> {
        match value {
            Value::Null => calls::is_valid_value(self.0, KindAndNumber { kind: 0, number: 0 }, &[]),
            Value::Int(number) => calls::is_valid_value(self.0, KindAndNumber { kind: 1, number: *number }, &[]),
            Value::Str(text) => calls::is_valid_value(self.0, KindAndNumber { kind: 2, number: 0 }, text),
            Value::Binary => calls::is_valid_value(self.0, KindAndNumber { kind: 3, number: 0 }, &[]),
        }
    }

    pub(crate) fn from_parts(parts: ColumnParts) -> Column {
        Column(parts)
    }

    pub(crate) fn parts(&self) -> ColumnParts {
        self.0
    }
}

impl ColumnBuilder {
    /// Sets the localizable mark.
    pub fn localizable(self) -> ColumnBuilder {
        ColumnBuilder(calls::column_localizable(self.0))
    }

    /// Sets the nullable mark.
    pub fn nullable(self) -> ColumnBuilder {
        ColumnBuilder(calls::column_nullable(self.0))
    }

    /// Sets the primary key mark.
    pub fn primary_key(self) -> ColumnBuilder {
        ColumnBuilder(calls::column_primary_key(self.0))
    }

    /// Sets the least and the largest integer allowed.
    pub fn range(self, min: i32, max: i32) -> ColumnBuilder {
        ColumnBuilder(calls::column_range(self.0, min, max))
    }

    /// The column of integers of 16 bits.
    pub fn int16(self) -> Column {
        Column(calls::column_int16(self.0))
    }

    /// The column of integers of 32 bits.
    pub fn int32(self) -> Column {
        Column(calls::column_int32(self.0))
    }

    /// The column of texts of at most so many bytes, 0 for any. A maximum above 255 is refused with 19 where the column is used.
    pub fn string(self, max_len: u32) -> Column {
        Column(calls::column_string(self.0, max_len))
    }

    /// The column of streams.
    pub fn binary(self) -> Column {
        Column(calls::column_binary(self.0))
    }

    /// The column that bits name; a nullable mark and a range made before stay. Refused with 13.
    pub fn with_bitfield(self, bits: i32) -> Result<Column> {
        calls::column_from_bitfield(self.0, bits).map(Column)
    }
}
