//! Why a call was refused.

use std::{fmt, io};

/// Where in a table a refusal stands, counted from 0.
#[derive(Clone, Copy, Debug, PartialEq, Eq, Hash)]
pub enum Place {
    /// The refusal has no place.
    Nowhere,
    /// A column.
    Column(usize),
    /// A cell.
    Cell {
        /// Its row.
        row: usize,
        /// Its column.
        column: usize,
    },
}

/// A call that was refused. Everything that was lent to it is as it was before.
///
/// Printed in either way, and so by a `main` that answers it, it is a sentence:
///
/// ```
/// use strandroost::StringPool;
///
/// let refusal = StringPool::new(0x8000_0000).unwrap_err();
/// assert_eq!(refusal.number(), 21);
/// assert_eq!(refusal.to_string(), "the code page is above 2,147,483,647 (refusal 21)");
/// assert_eq!(format!("{refusal:?}"), refusal.to_string());
/// ```
#[derive(Clone, Copy, PartialEq, Eq, Hash)]
pub struct Refusal {
    number: u32,
    place: Place,
}

/// The answer of a call that may be refused.
pub type Result<T> = std::result::Result<T, Refusal>;

impl Refusal {
    pub(crate) fn new(number: u32, place: Place) -> Refusal {
        Refusal { number, place }
    }

    /// The number of the refusal, 1 to 24.
    pub fn number(&self) -> u32 {
        self.number
    }

    /// Where in the table it stands.
    pub fn place(&self) -> Place {
        self.place
    }

    /// What was wrong, as a person would say it.
    pub fn sentence(&self) -> &'static str {
        match self.number {
            1 => "the pool stream has fewer than 4 bytes",
            2 => "the pool stream ends inside an entry",
            3 => "the pool has more than 16,777,215 entries",
            4 => "the pool has more entries than there is room for",
            5 => "the data stream is shorter than the texts of the pool",
            6 => "the texts need more room than there is",
            7 => "the output is too small for the whole result, or there is no memory for it",
            8 => "a reference number is below 1 or above 16,777,215",
            9 => "the reference dropped lies past the last entry",
            10 => "the entry dropped has no reference left",
            11 => "a pool with short references has no number left for a new text",
            12 => "the pool has 16,777,215 entries and takes no more",
            13 => "an integer column has a size other than 1, 2 or 4",
            14 => "the table has more than 65,536 rows",
            15 => "the row or the column lies outside the table",
            16 => "the kind does not suit the column, or is unknown",
            17 => "the integer does not fit its column",
            18 => "the reference is above 65,535, and the table has short ones",
            19 => "a text column has a maximum above 255",
            20 => "the table has more than 64 columns",
            21 => "the code page is above 2,147,483,647",
            22 => "a stream, text, name or text room is over the largest size",
            23 => "there are not rows times columns cells",
            24 => "the state of the pool is unsound",
            _ => "the call was refused",
        }
    }
}

impl fmt::Display for Refusal {
    fn fmt(&self, f: &mut fmt::Formatter<'_>) -> fmt::Result {
        let place = match self.place {
            Place::Nowhere => String::new(),
            Place::Column(column) => format!(", column {column}"),
            Place::Cell { row, column } => format!(", row {row}, column {column}"),
        };
        f.pad(&format!("{} (refusal {}{place})", self.sentence(), self.number))
    }
}

/// As [`Display`](fmt::Display) has it, since a `main` that is refused prints this.
impl fmt::Debug for Refusal {
    fn fmt(&self, f: &mut fmt::Formatter<'_>) -> fmt::Result {
        write!(f, "{self}")
    }
}

impl std::error::Error for Refusal {}

/// For a caller that reads and writes files beside: the kind is `InvalidData`, and the refusal is inside.
impl From<Refusal> for io::Error {
    fn from(refusal: Refusal) -> io::Error {
        io::Error::new(io::ErrorKind::InvalidData, refusal)
    }
}
