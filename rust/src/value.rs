//! Cells of a table, and the values that they stand for.

use crate::calls::KindAndNumber;
use crate::refusal::Result;
use crate::stringpool::{StringPool, StringRef};
use std::fmt;

/// A value, with its text where it is one.
///
/// ```
/// use strandroost::Value;
///
/// let (text, number) = (Value::from("Arial"), Value::from(7));
/// assert_eq!((text.as_str(), text.as_bytes(), text.as_int()), (Some("Arial"), Some(&b"Arial"[..]), None));
/// assert_eq!((number.as_int(), number.is_null()), (Some(7), false));
/// assert_eq!(format!("{number} {text} {}", Value::Null), "7 \"Arial\" NULL");
/// ```
#[derive(Clone, Debug, PartialEq, Eq, Hash, PartialOrd, Ord)]
pub enum Value {
    /// No value.
    Null,
    /// An integer.
    Int(i32),
    /// A text, as bytes of the pool's code page.
    Str(Vec<u8>),
    /// A stream of the database.
    Binary,
}

impl Value {
    /// Whether there is no value.
    pub fn is_null(&self) -> bool {
        matches!(self, Value::Null)
    }

    /// Whether it is an integer.
    pub fn is_int(&self) -> bool {
        matches!(self, Value::Int(_))
    }

    /// Whether it is a text.
    pub fn is_str(&self) -> bool {
        matches!(self, Value::Str(_))
    }

    /// The integer, where it is one.
    pub fn as_int(&self) -> Option<i32> {
        match self {
            Value::Int(number) => Some(*number),
            _ => None,
        }
    }

    /// The bytes of the text, where it is one.
    pub fn as_bytes(&self) -> Option<&[u8]> {
        match self {
            Value::Str(text) => Some(text),
            _ => None,
        }
    }

    /// The text, where it is one and its bytes are UTF-8, as those of a text in ASCII are in any code page.
    pub fn as_str(&self) -> Option<&str> {
        self.as_bytes().and_then(|text| std::str::from_utf8(text).ok())
    }
}

/// As the crate shows it; bytes that are not UTF-8 are shown as `U+FFFD`.
impl fmt::Display for Value {
    fn fmt(&self, f: &mut fmt::Formatter<'_>) -> fmt::Result {
        match self {
            Value::Null => f.pad("NULL"),
            Value::Int(number) => number.fmt(f),
            Value::Str(text) => f.pad(&format!("{:?}", String::from_utf8_lossy(text))),
            Value::Binary => f.pad("BINARY_STREAM"),
        }
    }
}

impl From<bool> for Value {
    /// 1 or 0.
    fn from(value: bool) -> Value {
        Value::Int(value.into())
    }
}

impl From<i16> for Value {
    fn from(number: i16) -> Value {
        Value::Int(number.into())
    }
}

impl From<u16> for Value {
    fn from(number: u16) -> Value {
        Value::Int(number.into())
    }
}

impl From<i32> for Value {
    fn from(number: i32) -> Value {
        Value::Int(number)
    }
}

impl From<&str> for Value {
    /// The bytes are UTF-8: beyond ASCII they suit a pool of code page 65001 alone.
    fn from(text: &str) -> Value {
        Value::Str(text.into())
    }
}

impl From<String> for Value {
    /// As from `&str`.
    fn from(text: String) -> Value {
        Value::Str(text.into())
    }
}

impl From<&[u8]> for Value {
    fn from(text: &[u8]) -> Value {
        Value::Str(text.into())
    }
}

impl From<Vec<u8>> for Value {
    fn from(text: Vec<u8>) -> Value {
        Value::Str(text)
    }
}

/// What a cell of a table holds: a text is a reference into the pool.
#[derive(Clone, Copy, Debug, PartialEq, Eq, Hash)]
pub enum ValueRef {
    /// No value.
    Null,
    /// An integer.
    Int(i32),
    /// A reference to a text.
    Str(StringRef),
    /// A stream of the database.
    Binary,
}

/// A take into a pool.
type Take = fn(&mut StringPool, &[u8]) -> Result<StringRef>;

impl ValueRef {
    /// Puts a value into the pool, where it is a text, which is taken as by [`StringPool::incref`], and refused so; any other asks nothing
    /// of it.
    ///
    /// ```
    /// use strandroost::{StringPool, Value, ValueRef};
    ///
    /// let mut pool = StringPool::new(1252)?;
    /// let cell = ValueRef::create("Arial".into(), &mut pool)?;
    /// assert_eq!(cell.to_value(&pool), Value::from("Arial"));
    /// cell.remove(&mut pool)?;
    /// assert_eq!(cell.to_value(&pool), Value::from(""));
    /// # Ok::<(), strandroost::Refusal>(())
    /// ```
    pub fn create(value: Value, pool: &mut StringPool) -> Result<ValueRef> {
        ValueRef::create_by(StringPool::incref, value, pool)
    }

    /// The same by document 01's choice, which is the crate's: a text is taken, and the call refused, as by
    /// [`StringPool::incref_first`].
    ///
    /// ```
    /// use strandroost::{StringPool, ValueRef};
    ///
    /// let mut pool = StringPool::load(&[0xe4, 4, 0, 0, 0, 0, 0, 0, 4, 0, 1, 0], b"Next")?;
    /// let (kept, first) = (ValueRef::create("Next".into(), &mut pool)?, ValueRef::create_first("Next".into(), &mut pool)?);
    /// assert_ne!(kept, first);
    /// assert_eq!(kept.to_value(&pool), first.to_value(&pool));
    /// # Ok::<(), strandroost::Refusal>(())
    /// ```
    pub fn create_first(value: Value, pool: &mut StringPool) -> Result<ValueRef> {
        ValueRef::create_by(StringPool::incref_first, value, pool)
    }

    fn create_by(take: Take, value: Value, pool: &mut StringPool) -> Result<ValueRef> {
        Ok(match value {
            Value::Null => ValueRef::Null,
            Value::Int(number) => ValueRef::Int(number),
            Value::Str(text) => ValueRef::Str(take(pool, &text)?),
            Value::Binary => ValueRef::Binary,
        })
    }

    /// Drops the reference, where the cell holds one; any other asks nothing of the pool. Refused as [`StringPool::decref`].
    ///
    /// ```
    /// use strandroost::{StringPool, StringRef, ValueRef};
    ///
    /// let mut pool = StringPool::new(1252)?;
    /// ValueRef::Int(40_000).remove(&mut pool)?;
    /// let past = ValueRef::Str(StringRef::new(1)?).remove(&mut pool).unwrap_err();
    /// assert_eq!(past.to_string(), "the reference dropped lies past the last entry (refusal 9)");
    /// # Ok::<(), strandroost::Refusal>(())
    /// ```
    pub fn remove(self, pool: &mut StringPool) -> Result<()> {
        match self {
            ValueRef::Str(reference) => pool.decref(reference),
            _ => Ok(()),
        }
    }

    /// The value, with its text from the pool; empty past the last entry. Only a text asks anything of the pool, by one
    /// [`StringPool::get`].
    ///
    /// ```
    /// use strandroost::{StringPool, StringRef, Value, ValueRef};
    ///
    /// let pool = StringPool::load(&[0xe4, 4, 0, 0, 2, 0, 1, 0], b"AB")?;
    /// assert_eq!(ValueRef::Str(StringRef::new(1)?).to_value(&pool), Value::Str(b"AB".to_vec()));
    /// assert_eq!(ValueRef::Int(-7).to_value(&pool), Value::Int(-7));
    /// # Ok::<(), strandroost::Refusal>(())
    /// ```
    pub fn to_value(self, pool: &StringPool) -> Value {
        match self {
            ValueRef::Null => Value::Null,
            ValueRef::Int(number) => Value::Int(number),
            ValueRef::Str(reference) => Value::Str(pool.get(reference).to_vec()),
            ValueRef::Binary => Value::Binary,
        }
    }

    pub(crate) fn handed(self) -> KindAndNumber {
        match self {
            ValueRef::Null => KindAndNumber { kind: 0, number: 0 },
            ValueRef::Int(number) => KindAndNumber { kind: 1, number },
            ValueRef::Str(reference) => KindAndNumber { kind: 2, number: reference.number() },
            ValueRef::Binary => KindAndNumber { kind: 3, number: 0 },
        }
    }

    /// A cell that a proved call answered.
    pub(crate) fn answered(cell: KindAndNumber) -> ValueRef {
        match cell.kind {
            0 => ValueRef::Null,
            1 => ValueRef::Int(cell.number),
            2 => ValueRef::Str(StringRef::answered(cell.number)),
            _ => ValueRef::Binary,
        }
    }
}
