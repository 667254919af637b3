//! The proved calls as they are: rooms and outputs are lent, nothing is allocated, and a refusal leaves every lent byte as it was.
//! The types beside this module own their rooms and are easier to use.
//!
//! # Why the calls are safe
//!
//! A slice is handed over as its first element and its length, a struct by value and laid out as in the header, which is asserted
//! when this is compiled. The archive's functions are proved, for every input, to return, to read and to write within those lengths
//! alone, and to keep nothing. The three rooms of a pool are borrowed apart, so none is seen twice.
#![allow(unsafe_code)]

use crate::refusal::{Place, Refusal, Result};

mod c {
    //! What the archive's header, crates/msi/strandroost.h, declares.
    use std::mem::{offset_of, size_of};

    #[repr(C)]
    pub struct Refused {
        pub number: u32,
        pub place: u32,
        pub row: usize,
        pub column: usize,
    }

    #[repr(C)]
    pub struct Count {
        pub refused: Refused,
        pub value: usize,
    }

    #[repr(C)]
    pub struct Name {
        pub refused: Refused,
        pub units: usize,
        pub is_table: bool,
    }

    #[repr(C)]
    pub struct Flag {
        pub refused: Refused,
        pub value: bool,
    }

    #[repr(C)]
    #[derive(Clone, Copy)]
    pub struct Pool {
        pub num_strings: usize,
        pub codepage: u32,
        pub long_string_refs: bool,
    }

    #[repr(C)]
    pub struct PoolAnswer {
        pub refused: Refused,
        pub pool: Pool,
    }

    #[repr(C)]
    pub struct TakeAnswer {
        pub refused: Refused,
        pub pool: Pool,
        pub reference: i32,
    }

    #[repr(C)]
    pub struct Reference {
        pub refused: Refused,
        pub value: i32,
    }

    #[repr(C)]
    pub struct CellAnswer {
        pub refused: Refused,
        pub kind: u8,
        pub number: i32,
    }

    #[repr(C)]
    pub struct CreateAnswer {
        pub refused: Refused,
        pub pool: Pool,
        pub kind: u8,
        pub number: i32,
    }

    #[repr(C)]
    #[derive(Clone, Copy, Debug, PartialEq, Eq)]
    pub struct ColumnParts {
        pub coltype: u32,
        pub max_len: u32,
        pub is_localizable: bool,
        pub is_nullable: bool,
        pub is_primary_key: bool,
        pub has_range: bool,
        pub min: i32,
        pub max: i32,
    }

    #[repr(C)]
    pub struct ColumnAnswer {
        pub refused: Refused,
        pub column: ColumnParts,
    }

    #[repr(C)]
    #[derive(Clone, Copy, Debug, PartialEq, Eq)]
    pub struct Table {
        pub columns: [ColumnParts; 64],
        pub count: usize,
        pub long_string_refs: bool,
    }

    #[repr(C)]
    pub struct TableAnswer {
        pub refused: Refused,
        pub table: Table,
    }

    #[repr(C)]
    pub struct StepAnswer {
        pub refused: Refused,
        pub at: usize,
        pub found: bool,
        pub kind: u8,
        pub number: i32,
    }

    /// A struct, its name in the header, its size, and where each field begins. `desk/package` holds the header to the same lines.
    macro_rules! laid_out {
        ($name:ident, $header:literal, $size:literal, $($field:ident $at:literal),*) => {
            const _: () = assert!(size_of::<$name>() == $size $(&& offset_of!($name, $field) == $at)*, $header);
        };
    }

    laid_out!(Refused, "strandroost_refused", 24, number 0, place 4, row 8, column 16);
    laid_out!(Count, "strandroost_count", 32, refused 0, value 24);
    laid_out!(Name, "strandroost_name", 40, refused 0, units 24, is_table 32);
    laid_out!(Flag, "strandroost_flag", 32, refused 0, value 24);
    laid_out!(Reference, "strandroost_reference", 32, refused 0, value 24);
    laid_out!(Pool, "strandroost_pool", 16, num_strings 0, codepage 8, long_string_refs 12);
    laid_out!(PoolAnswer, "strandroost_pool_answer", 40, refused 0, pool 24);
    laid_out!(TakeAnswer, "strandroost_take_answer", 48, refused 0, pool 24, reference 40);
    laid_out!(CellAnswer, "strandroost_cell_answer", 32, refused 0, kind 24, number 28);
    laid_out!(CreateAnswer, "strandroost_create_answer", 48, refused 0, pool 24, kind 40, number 44);
    laid_out!(
        ColumnParts, "strandroost_column", 20, coltype 0, max_len 4, is_localizable 8, is_nullable 9, is_primary_key 10,
        has_range 11, min 12, max 16
    );
    laid_out!(ColumnAnswer, "strandroost_column_answer", 48, refused 0, column 24);
    laid_out!(Table, "strandroost_table", 1296, columns 0, count 1280, long_string_refs 1288);
    laid_out!(TableAnswer, "strandroost_table_answer", 1320, refused 0, table 24);
    laid_out!(StepAnswer, "strandroost_step_answer", 40, refused 0, at 24, found 32, kind 33, number 36);

    /// A take, by either choice.
    pub type Take = unsafe extern "C" fn(Pool, *mut u32, usize, *mut u16, usize, *mut u8, usize, *const u8, usize) -> TakeAnswer;

    /// A create, by either choice.
    pub type Create =
        unsafe extern "C" fn(u8, i32, *const u8, usize, Pool, *mut u32, usize, *mut u16, usize, *mut u8, usize) -> CreateAnswer;

    #[link(name = "msi", kind = "static")]
    extern "C" {
        pub fn strandroost_encode(name: *const u16, units: usize, is_table: bool, out: *mut u16, places: usize) -> Count;
        pub fn strandroost_decode(stored: *const u16, units: usize, out: *mut u16, places: usize) -> Name;
        pub fn strandroost_is_valid(name: *const u16, units: usize, is_table: bool) -> Flag;
        pub fn strandroost_string_ref(number: i32) -> Reference;
        pub fn strandroost_new(codepage: u32) -> PoolAnswer;
        pub fn strandroost_load(
            pool: *const u8, pool_bytes: usize, data: *const u8, data_bytes: usize, lengths: *mut u32, lengths_len: usize,
            counts: *mut u16, counts_len: usize, text: *mut u8, text_len: usize,
        ) -> PoolAnswer;
        pub fn strandroost_set_codepage(
            pool: Pool, lengths: *const u32, lengths_len: usize, counts: *const u16, counts_len: usize, text: *const u8,
            text_len: usize, codepage: u32,
        ) -> PoolAnswer;
        pub fn strandroost_refcount(
            pool: Pool, lengths: *const u32, lengths_len: usize, counts: *const u16, counts_len: usize, text: *const u8,
            text_len: usize, number: i32,
        ) -> Count;
        pub fn strandroost_get_refusal(
            pool: Pool, lengths: *const u32, lengths_len: usize, counts: *const u16, counts_len: usize, text: *const u8,
            text_len: usize, number: i32,
        ) -> Refused;
        pub fn strandroost_get(
            pool: Pool, lengths: *const u32, lengths_len: usize, counts: *const u16, counts_len: usize, text: *const u8,
            text_len: usize, number: i32, out: *mut u8, places: usize,
        ) -> Count;
        pub fn strandroost_incref(
            pool: Pool, lengths: *mut u32, lengths_len: usize, counts: *mut u16, counts_len: usize, text: *mut u8,
            text_len: usize, new: *const u8, new_len: usize,
        ) -> TakeAnswer;
        pub fn strandroost_incref_first(
            pool: Pool, lengths: *mut u32, lengths_len: usize, counts: *mut u16, counts_len: usize, text: *mut u8,
            text_len: usize, new: *const u8, new_len: usize,
        ) -> TakeAnswer;
        pub fn strandroost_decref(
            pool: Pool, lengths: *mut u32, lengths_len: usize, counts: *mut u16, counts_len: usize, text: *mut u8,
            text_len: usize, number: i32,
        ) -> PoolAnswer;
        pub fn strandroost_write_pool(
            pool: Pool, lengths: *const u32, lengths_len: usize, counts: *const u16, counts_len: usize, text: *const u8,
            text_len: usize, out: *mut u8, places: usize,
        ) -> Count;
        pub fn strandroost_write_data(
            pool: Pool, lengths: *const u32, lengths_len: usize, counts: *const u16, counts_len: usize, text: *const u8,
            text_len: usize, out: *mut u8, places: usize,
        ) -> Count;
        pub fn strandroost_create(
            kind: u8, number: i32, new: *const u8, new_len: usize, pool: Pool, lengths: *mut u32, lengths_len: usize,
            counts: *mut u16, counts_len: usize, text: *mut u8, text_len: usize,
        ) -> CreateAnswer;
        pub fn strandroost_create_first(
            kind: u8, number: i32, new: *const u8, new_len: usize, pool: Pool, lengths: *mut u32, lengths_len: usize,
            counts: *mut u16, counts_len: usize, text: *mut u8, text_len: usize,
        ) -> CreateAnswer;
        pub fn strandroost_remove(
            kind: u8, number: i32, pool: Pool, lengths: *mut u32, lengths_len: usize, counts: *mut u16, counts_len: usize,
            text: *mut u8, text_len: usize,
        ) -> PoolAnswer;
        pub fn strandroost_to_value(
            kind: u8, number: i32, pool: Pool, lengths: *const u32, lengths_len: usize, counts: *const u16,
            counts_len: usize, text: *const u8, text_len: usize,
        ) -> CellAnswer;
        pub fn strandroost_to_text(
            kind: u8, number: i32, pool: Pool, lengths: *const u32, lengths_len: usize, counts: *const u16,
            counts_len: usize, text: *const u8, text_len: usize, out: *mut u8, places: usize,
        ) -> Count;
        pub fn strandroost_column_build() -> ColumnParts;
        pub fn strandroost_column_localizable(builder: ColumnParts) -> ColumnParts;
        pub fn strandroost_column_nullable(builder: ColumnParts) -> ColumnParts;
        pub fn strandroost_column_primary_key(builder: ColumnParts) -> ColumnParts;
        pub fn strandroost_column_range(builder: ColumnParts, min: i32, max: i32) -> ColumnParts;
        pub fn strandroost_column_int16(builder: ColumnParts) -> ColumnParts;
        pub fn strandroost_column_int32(builder: ColumnParts) -> ColumnParts;
        pub fn strandroost_column_string(builder: ColumnParts, max_len: u32) -> ColumnParts;
        pub fn strandroost_column_binary(builder: ColumnParts) -> ColumnParts;
        pub fn strandroost_column_from_bitfield(builder: ColumnParts, bits: i32) -> ColumnAnswer;
        pub fn strandroost_column_bitfield(column: ColumnParts) -> Reference;
        pub fn strandroost_is_valid_value(
            column: ColumnParts, kind: u8, number: i32, text: *const u8, text_len: usize,
        ) -> Flag;
        pub fn strandroost_table_new(table: Table) -> TableAnswer;
        pub fn strandroost_table_from_bitfields(bits: *const i32, columns: usize, long_string_refs: bool) -> TableAnswer;
        pub fn strandroost_num_rows(table: Table, stream: *const u8, stream_len: usize) -> Count;
        pub fn strandroost_read_cell(
            table: Table, stream: *const u8, stream_len: usize, row: usize, column: usize,
        ) -> CellAnswer;
        pub fn strandroost_read_rows(
            table: Table, stream: *const u8, stream_len: usize, kinds: *mut u8, kinds_len: usize, numbers: *mut i32,
            numbers_len: usize,
        ) -> Count;
        pub fn strandroost_write_rows(
            table: Table, rows: usize, kinds: *const u8, kinds_len: usize, numbers: *const i32, numbers_len: usize,
            out: *mut u8, places: usize,
        ) -> Count;
        pub fn strandroost_rows_next(table: Table, stream: *const u8, stream_len: usize, at: usize) -> StepAnswer;
    }
}

/// A pool's state; its rooms are lent beside it to each call.
#[derive(Clone, Copy, Debug, PartialEq, Eq)]
pub struct State {
    /// How many entries there are.
    pub num_strings: usize,
    /// The code page, carried and never judged beyond its 31 bits.
    pub codepage: u32,
    /// Whether references take three bytes.
    pub long_string_refs: bool,
}

/// The rooms of a pool, lent to be looked at.
#[derive(Clone, Copy, Debug)]
pub struct Rooms<'a> {
    /// The length of each entry's text.
    pub lengths: &'a [u32],
    /// The reference count of each entry.
    pub counts: &'a [u16],
    /// The texts in entry order, and what room is left.
    pub text: &'a [u8],
}

/// The rooms of a pool, lent to be written.
#[derive(Debug)]
pub struct RoomsMut<'a> {
    /// The length of each entry's text.
    pub lengths: &'a mut [u32],
    /// The reference count of each entry.
    pub counts: &'a mut [u16],
    /// The texts in entry order, and what room is left.
    pub text: &'a mut [u8],
}

/// A cell, or a value with its text beside it, by its kind and number.
#[derive(Clone, Copy, Debug, PartialEq, Eq)]
pub struct KindAndNumber {
    /// 0 Null, 1 Int, 2 Str, 3 Binary. Any other is unknown, and 16 wherever a cell is handed over.
    pub kind: u8,
    /// The number; 0 for Null and Binary on reading, ignored there on writing. A value with its text beside it has one only as an Int.
    pub number: i32,
}

/// A column, or one being made.
#[derive(Clone, Copy, Debug, PartialEq, Eq)]
pub struct ColumnParts {
    /// 0 Int16, 1 Int32, 2 Str, 3 Binary. Any other is unknown, and 16 wherever the column is used.
    pub coltype: u32,
    /// The largest length of a Str, 0 for any.
    pub max_len: u32,
    /// The localizable mark.
    pub is_localizable: bool,
    /// The nullable mark.
    pub is_nullable: bool,
    /// The primary key mark.
    pub is_primary_key: bool,
    /// The least and the largest integer allowed.
    pub range: Option<(i32, i32)>,
}

/// A layout of columns, handed over whole to each call on a table, which judges it.
#[derive(Clone, Debug, PartialEq, Eq)]
pub struct Layout(c::Table);

/// A step of the row reader.
#[derive(Clone, Copy, Debug, PartialEq, Eq)]
pub struct Step {
    /// The cell, or none past the last.
    pub cell: Option<KindAndNumber>,
    /// The place after it.
    pub at: usize,
}

fn given<T>(refused: c::Refused, value: T) -> Result<T> {
    let place = match refused.place {
        1 => Place::Column(refused.column),
        2 => Place::Cell { row: refused.row, column: refused.column },
        _ => Place::Nowhere,
    };
    match refused.number {
        0 => Ok(value),
        number => Err(Refusal::new(number, place)),
    }
}

fn counted(answer: c::Count) -> Result<usize> {
    given(answer.refused, answer.value)
}

fn pooled(answer: c::PoolAnswer) -> Result<State> {
    given(answer.refused, State::from_c(answer.pool))
}

impl State {
    fn from_c(pool: c::Pool) -> State {
        State { num_strings: pool.num_strings, codepage: pool.codepage, long_string_refs: pool.long_string_refs }
    }

    fn to_c(self) -> c::Pool {
        c::Pool { num_strings: self.num_strings, codepage: self.codepage, long_string_refs: self.long_string_refs }
    }
}

impl ColumnParts {
    fn from_c(parts: c::ColumnParts) -> ColumnParts {
        ColumnParts {
            coltype: parts.coltype,
            max_len: parts.max_len,
            is_localizable: parts.is_localizable,
            is_nullable: parts.is_nullable,
            is_primary_key: parts.is_primary_key,
            range: parts.has_range.then_some((parts.min, parts.max)),
        }
    }

    fn to_c(self) -> c::ColumnParts {
        let (min, max) = self.range.unwrap_or_default();
        c::ColumnParts {
            coltype: self.coltype,
            max_len: self.max_len,
            is_localizable: self.is_localizable,
            is_nullable: self.is_nullable,
            is_primary_key: self.is_primary_key,
            has_range: self.range.is_some(),
            min,
            max,
        }
    }
}

/// Encodes a name into the front of `out`: how many units that is. Refused with 22, 7.
pub fn encode(name: &[u16], is_table: bool, out: &mut [u16]) -> Result<usize> {
    // SAFETY: the call stays within these slices, as above.
    counted(unsafe { c::strandroost_encode(name.as_ptr(), name.len(), is_table, out.as_mut_ptr(), out.len()) })
}

/// Decodes a stored name into the front of `out`: how many units that is, and whether it is a table's. Refused with 22, 7.
pub fn decode(stored: &[u16], out: &mut [u16]) -> Result<(usize, bool)> {
    // SAFETY: the call stays within these slices, as above.
    let answer = unsafe { c::strandroost_decode(stored.as_ptr(), stored.len(), out.as_mut_ptr(), out.len()) };
    given(answer.refused, (answer.units, answer.is_table))
}

/// Whether a name works as a stream's once it is encoded. Refused with 22.
pub fn is_valid(name: &[u16], is_table: bool) -> Result<bool> {
    // SAFETY: the call stays within these slices, as above.
    let answer = unsafe { c::strandroost_is_valid(name.as_ptr(), name.len(), is_table) };
    given(answer.refused, answer.value)
}

/// The reference with a number. Refused with 8.
pub fn string_ref(number: i32) -> Result<i32> {
    // SAFETY: values alone are handed over.
    let answer = unsafe { c::strandroost_string_ref(number) };
    given(answer.refused, answer.value)
}

/// An empty pool with short references. Refused with 21.
pub fn new(codepage: u32) -> Result<State> {
    // SAFETY: values alone are handed over.
    pooled(unsafe { c::strandroost_new(codepage) })
}

/// Loads a pool stream and a data stream. Refused with 22, 1, 2, 3, 4, 5, 6.
pub fn load(pool: &[u8], data: &[u8], rooms: RoomsMut<'_>) -> Result<State> {
    // SAFETY: the call stays within these slices, as above.
    pooled(unsafe {
        c::strandroost_load(
            pool.as_ptr(), pool.len(), data.as_ptr(), data.len(), rooms.lengths.as_mut_ptr(), rooms.lengths.len(),
            rooms.counts.as_mut_ptr(), rooms.counts.len(), rooms.text.as_mut_ptr(), rooms.text.len(),
        )
    })
}

/// Sets the code page. Refused with 22, 24, 21.
pub fn set_codepage(state: State, rooms: Rooms<'_>, codepage: u32) -> Result<State> {
    // SAFETY: the call stays within these slices, as above.
    pooled(unsafe {
        c::strandroost_set_codepage(
            state.to_c(), rooms.lengths.as_ptr(), rooms.lengths.len(), rooms.counts.as_ptr(), rooms.counts.len(),
            rooms.text.as_ptr(), rooms.text.len(), codepage,
        )
    })
}

/// How many references count on a number. Refused with 22, 24, 8.
pub fn refcount(state: State, rooms: Rooms<'_>, number: i32) -> Result<usize> {
    // SAFETY: the call stays within these slices, as above.
    counted(unsafe {
        c::strandroost_refcount(
            state.to_c(), rooms.lengths.as_ptr(), rooms.lengths.len(), rooms.counts.as_ptr(), rooms.counts.len(),
            rooms.text.as_ptr(), rooms.text.len(), number,
        )
    })
}

/// Whether a reference can be shown. Refused with 22, 24, 8.
pub fn get_refusal(state: State, rooms: Rooms<'_>, number: i32) -> Result<()> {
    // SAFETY: the call stays within these slices, as above.
    let refused = unsafe {
        c::strandroost_get_refusal(
            state.to_c(), rooms.lengths.as_ptr(), rooms.lengths.len(), rooms.counts.as_ptr(), rooms.counts.len(),
            rooms.text.as_ptr(), rooms.text.len(), number,
        )
    };
    given(refused, ())
}

/// Copies the text of a reference to the front of `out`: how many bytes that is. Refused with 22, 24, 8, 7.
pub fn get(state: State, rooms: Rooms<'_>, number: i32, out: &mut [u8]) -> Result<usize> {
    // SAFETY: the call stays within these slices, as above.
    counted(unsafe {
        c::strandroost_get(
            state.to_c(), rooms.lengths.as_ptr(), rooms.lengths.len(), rooms.counts.as_ptr(), rooms.counts.len(),
            rooms.text.as_ptr(), rooms.text.len(), number, out.as_mut_ptr(), out.len(),
        )
    })
}

/// One reference more on a text: its number, and the state after. The first entry that has the text and a count from 1 to 65,534
/// counts up, wherever it stands; else the text goes into the first free entry, else into a new one. Refused with 22, 24, 11, 12, 4,
/// 6; with none of the last four where an entry counts up.
pub fn incref(state: State, rooms: RoomsMut<'_>, text: &[u8]) -> Result<(i32, State)> {
    taken_by(c::strandroost_incref, state, rooms, text)
}

/// The same by document 01's choice, which is the crate's: the first entry that is free, or has the text and a count below 65,535.
/// Recorded takes that are replayed by it get the numbers that were recorded. Refused as [`incref`], by the entry chosen.
pub fn incref_first(state: State, rooms: RoomsMut<'_>, text: &[u8]) -> Result<(i32, State)> {
    taken_by(c::strandroost_incref_first, state, rooms, text)
}

fn taken_by(take: c::Take, state: State, rooms: RoomsMut<'_>, text: &[u8]) -> Result<(i32, State)> {
    // SAFETY: the call stays within these slices, as above.
    let answer = unsafe {
        take(
            state.to_c(), rooms.lengths.as_mut_ptr(), rooms.lengths.len(), rooms.counts.as_mut_ptr(), rooms.counts.len(),
            rooms.text.as_mut_ptr(), rooms.text.len(), text.as_ptr(), text.len(),
        )
    };
    given(answer.refused, (answer.reference, State::from_c(answer.pool)))
}

/// One reference less on a number. Refused with 22, 24, 8, 9, 10.
pub fn decref(state: State, rooms: RoomsMut<'_>, number: i32) -> Result<State> {
    // SAFETY: the call stays within these slices, as above.
    pooled(unsafe {
        c::strandroost_decref(
            state.to_c(), rooms.lengths.as_mut_ptr(), rooms.lengths.len(), rooms.counts.as_mut_ptr(), rooms.counts.len(),
            rooms.text.as_mut_ptr(), rooms.text.len(), number,
        )
    })
}

/// Writes the pool stream to the front of `out`: how many bytes that is. Refused with 22, 24, 7.
pub fn write_pool(state: State, rooms: Rooms<'_>, out: &mut [u8]) -> Result<usize> {
    // SAFETY: the call stays within these slices, as above.
    counted(unsafe {
        c::strandroost_write_pool(
            state.to_c(), rooms.lengths.as_ptr(), rooms.lengths.len(), rooms.counts.as_ptr(), rooms.counts.len(),
            rooms.text.as_ptr(), rooms.text.len(), out.as_mut_ptr(), out.len(),
        )
    })
}

/// Writes the data stream to the front of `out`: how many bytes that is. Refused with 22, 24, 7.
pub fn write_data(state: State, rooms: Rooms<'_>, out: &mut [u8]) -> Result<usize> {
    // SAFETY: the call stays within these slices, as above.
    counted(unsafe {
        c::strandroost_write_data(
            state.to_c(), rooms.lengths.as_ptr(), rooms.lengths.len(), rooms.counts.as_ptr(), rooms.counts.len(),
            rooms.text.as_ptr(), rooms.text.len(), out.as_mut_ptr(), out.len(),
        )
    })
}

/// Creates a value: a text (kind 2) is taken into the pool as by [`incref`], any other leaves it. Refused as `incref`; a value that is
/// no text with 22, 24, and 16 for an unknown kind.
pub fn create(value: KindAndNumber, new: &[u8], state: State, rooms: RoomsMut<'_>) -> Result<(KindAndNumber, State)> {
    created_by(c::strandroost_create, value, new, state, rooms)
}

/// The same by document 01's choice: a text is taken as by [`incref_first`].
pub fn create_first(value: KindAndNumber, new: &[u8], state: State, rooms: RoomsMut<'_>) -> Result<(KindAndNumber, State)> {
    created_by(c::strandroost_create_first, value, new, state, rooms)
}

fn created_by(
    create: c::Create, value: KindAndNumber, new: &[u8], state: State, rooms: RoomsMut<'_>,
) -> Result<(KindAndNumber, State)> {
    // SAFETY: the call stays within these slices, as above.
    let answer = unsafe {
        create(
            value.kind, value.number, new.as_ptr(), new.len(), state.to_c(), rooms.lengths.as_mut_ptr(),
            rooms.lengths.len(), rooms.counts.as_mut_ptr(), rooms.counts.len(), rooms.text.as_mut_ptr(), rooms.text.len(),
        )
    };
    let made = KindAndNumber { kind: answer.kind, number: answer.number };
    given(answer.refused, (made, State::from_c(answer.pool)))
}

/// Removes a cell's value: a reference is dropped, any other leaves the pool. Refused as `decref`; a cell that is no reference
/// with 22, 24, and 16 for an unknown kind.
pub fn remove(cell: KindAndNumber, state: State, rooms: RoomsMut<'_>) -> Result<State> {
    // SAFETY: the call stays within these slices, as above.
    pooled(unsafe {
        c::strandroost_remove(
            cell.kind, cell.number, state.to_c(), rooms.lengths.as_mut_ptr(), rooms.lengths.len(),
            rooms.counts.as_mut_ptr(), rooms.counts.len(), rooms.text.as_mut_ptr(), rooms.text.len(),
        )
    })
}

/// The value that a cell stands for; the number of a text is 0, and [`to_text`] copies it. Refused with 22, 24, 16 or 8.
pub fn to_value(cell: KindAndNumber, state: State, rooms: Rooms<'_>) -> Result<KindAndNumber> {
    // SAFETY: the call stays within these slices, as above.
    let answer = unsafe {
        c::strandroost_to_value(
            cell.kind, cell.number, state.to_c(), rooms.lengths.as_ptr(), rooms.lengths.len(), rooms.counts.as_ptr(),
            rooms.counts.len(), rooms.text.as_ptr(), rooms.text.len(),
        )
    };
    given(answer.refused, KindAndNumber { kind: answer.kind, number: answer.number })
}

/// Copies the text of a cell to the front of `out`, none of a cell that is no reference: how many bytes that is. Refused with
/// 22, 24, 16 or 8, 7.
pub fn to_text(cell: KindAndNumber, state: State, rooms: Rooms<'_>, out: &mut [u8]) -> Result<usize> {
    // SAFETY: the call stays within these slices, as above.
    counted(unsafe {
        c::strandroost_to_text(
            cell.kind, cell.number, state.to_c(), rooms.lengths.as_ptr(), rooms.lengths.len(), rooms.counts.as_ptr(),
            rooms.counts.len(), rooms.text.as_ptr(), rooms.text.len(), out.as_mut_ptr(), out.len(),
        )
    })
}

/// A column being made, without marks or range; its type does not count yet.
pub fn column_build() -> ColumnParts {
    // SAFETY: values alone are handed over.
    ColumnParts::from_c(unsafe { c::strandroost_column_build() })
}

/// Sets the localizable mark.
pub fn column_localizable(builder: ColumnParts) -> ColumnParts {
    // SAFETY: values alone are handed over.
    ColumnParts::from_c(unsafe { c::strandroost_column_localizable(builder.to_c()) })
}

/// Sets the nullable mark.
pub fn column_nullable(builder: ColumnParts) -> ColumnParts {
    // SAFETY: values alone are handed over.
    ColumnParts::from_c(unsafe { c::strandroost_column_nullable(builder.to_c()) })
}

/// Sets the primary key mark.
pub fn column_primary_key(builder: ColumnParts) -> ColumnParts {
    // SAFETY: values alone are handed over.
    ColumnParts::from_c(unsafe { c::strandroost_column_primary_key(builder.to_c()) })
}

/// Sets the least and the largest integer allowed.
pub fn column_range(builder: ColumnParts, min: i32, max: i32) -> ColumnParts {
    // SAFETY: values alone are handed over.
    ColumnParts::from_c(unsafe { c::strandroost_column_range(builder.to_c(), min, max) })
}

/// The column of integers of 16 bits.
pub fn column_int16(builder: ColumnParts) -> ColumnParts {
    // SAFETY: values alone are handed over.
    ColumnParts::from_c(unsafe { c::strandroost_column_int16(builder.to_c()) })
}

/// The column of integers of 32 bits.
pub fn column_int32(builder: ColumnParts) -> ColumnParts {
    // SAFETY: values alone are handed over.
    ColumnParts::from_c(unsafe { c::strandroost_column_int32(builder.to_c()) })
}

/// The column of texts of at most so many bytes, 0 for any.
pub fn column_string(builder: ColumnParts, max_len: u32) -> ColumnParts {
    // SAFETY: values alone are handed over.
    ColumnParts::from_c(unsafe { c::strandroost_column_string(builder.to_c(), max_len) })
}

/// The column of streams.
pub fn column_binary(builder: ColumnParts) -> ColumnParts {
    // SAFETY: values alone are handed over.
    ColumnParts::from_c(unsafe { c::strandroost_column_binary(builder.to_c()) })
}

/// The column that bits name; a nullable mark and a range made before survive. Refused with 13.
pub fn column_from_bitfield(builder: ColumnParts, bits: i32) -> Result<ColumnParts> {
    // SAFETY: values alone are handed over.
    let answer = unsafe { c::strandroost_column_from_bitfield(builder.to_c(), bits) };
    given(answer.refused, ColumnParts::from_c(answer.column))
}

/// The bits of a column. Refused with 19 or 16.
pub fn column_bitfield(column: ColumnParts) -> Result<i32> {
    // SAFETY: values alone are handed over.
    let answer = unsafe { c::strandroost_column_bitfield(column.to_c()) };
    given(answer.refused, answer.value)
}

/// Whether a value suits a column; its number counts for an Int alone, and a text stands beside a value of kind 2. Refused with 22,
/// the column's 19 or 16, the value's 16.
pub fn is_valid_value(column: ColumnParts, value: KindAndNumber, text: &[u8]) -> Result<bool> {
    // SAFETY: the call stays within these slices, as above.
    let answer =
        unsafe { c::strandroost_is_valid_value(column.to_c(), value.kind, value.number, text.as_ptr(), text.len()) };
    given(answer.refused, answer.value)
}

impl Layout {
    /// The columns as they are, not judged: each call on the layout does. Of more than 64 only the number counts.
    pub fn by_hand(columns: &[ColumnParts], long_string_refs: bool) -> Layout {
        let mut places = [column_build().to_c(); 64];
        for (place, column) in places.iter_mut().zip(columns) {
            *place = column.to_c();
        }
        Layout(c::Table { columns: places, count: columns.len(), long_string_refs })
    }

    /// The layout of columns. Refused with 20, 19 or 16.
    pub fn new(columns: &[ColumnParts], long_string_refs: bool) -> Result<Layout> {
        // SAFETY: values alone are handed over.
        let answer = unsafe { c::strandroost_table_new(Layout::by_hand(columns, long_string_refs).0) };
        given(answer.refused, Layout(answer.table))
    }

    /// The layout of the columns that bits name. Refused with 20, 13.
    pub fn from_bitfields(bits: &[i32], long_string_refs: bool) -> Result<Layout> {
        // SAFETY: the call stays within these slices, as above.
        let answer = unsafe { c::strandroost_table_from_bitfields(bits.as_ptr(), bits.len(), long_string_refs) };
        given(answer.refused, Layout(answer.table))
    }

    /// The columns in use, at most 64.
    pub fn columns(&self) -> Vec<ColumnParts> {
        self.0.columns.iter().take(self.0.count).map(|column| ColumnParts::from_c(*column)).collect()
    }

    /// How many columns are in use.
    pub fn count(&self) -> usize {
        self.0.count
    }

    /// Whether references take three bytes.
    pub fn long_string_refs(&self) -> bool {
        self.0.long_string_refs
    }
}

/// The complete rows of a table stream. Refused with 22, 20, 19 or 16, 14.
pub fn num_rows(layout: &Layout, stream: &[u8]) -> Result<usize> {
    // SAFETY: the call stays within these slices, as above.
    counted(unsafe { c::strandroost_num_rows(layout.0, stream.as_ptr(), stream.len()) })
}

/// The cell at a place. Refused with 22, 20, 19 or 16, 14, 15.
pub fn read_cell(layout: &Layout, stream: &[u8], row: usize, column: usize) -> Result<KindAndNumber> {
    // SAFETY: the call stays within these slices, as above.
    let answer = unsafe { c::strandroost_read_cell(layout.0, stream.as_ptr(), stream.len(), row, column) };
    given(answer.refused, KindAndNumber { kind: answer.kind, number: answer.number })
}

/// The cells of a table stream, row by row: how many there are. Refused with 22, 20, 19 or 16, 14, 7.
pub fn read_rows(layout: &Layout, stream: &[u8], kinds: &mut [u8], numbers: &mut [i32]) -> Result<usize> {
    // SAFETY: the call stays within these slices, as above.
    counted(unsafe {
        c::strandroost_read_rows(
            layout.0, stream.as_ptr(), stream.len(), kinds.as_mut_ptr(), kinds.len(), numbers.as_mut_ptr(), numbers.len(),
        )
    })
}

/// Writes cells handed over row by row: how many bytes that is. Refused with 20, 19 or 16, 14, 23, the cells' 16, 17, 8, 18, then 7.
pub fn write_rows(layout: &Layout, rows: usize, kinds: &[u8], numbers: &[i32], out: &mut [u8]) -> Result<usize> {
    // SAFETY: the call stays within these slices, as above.
    counted(unsafe {
        c::strandroost_write_rows(
            layout.0, rows, kinds.as_ptr(), kinds.len(), numbers.as_ptr(), numbers.len(), out.as_mut_ptr(), out.len(),
        )
    })
}

/// A step of the row reader from the place `at`, 0 at first: a cell moves it by one, the end leaves it. Each step judges the layout
/// anew; [`read_rows`] does so once for all cells. Refused with 22, 20, 19 or 16, 14.
pub fn rows_next(layout: &Layout, stream: &[u8], at: usize) -> Result<Step> {
    // SAFETY: the call stays within these slices, as above.
    let answer = unsafe { c::strandroost_rows_next(layout.0, stream.as_ptr(), stream.len(), at) };
    let cell = answer.found.then_some(KindAndNumber { kind: answer.kind, number: answer.number });
    given(answer.refused, Step { cell, at: answer.at })
}
