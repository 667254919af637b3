//! String pool, columns, rows and stream names of an MSI database, as the packer needs them.
//!
//! Behind every call that reads or writes a stream, or changes a pool, stands a function that is proved to answer what documents 01
//! and 02 say, for every input: it returns, it reads and writes only what it is lent, and a refusal leaves everything as it was. This
//! package owns the memory that those functions are lent, and turns their refusals into [`Refusal`]s. No call panics. Where the
//! system has no memory, a call that asks for much is refused with 4 (entries), 6 (texts) or 7 (cells and streams); a value that is
//! copied, and a clone, end the program there as every `Vec` does.
//!
//! Texts are bytes in the pool's code page; the code page is carried and never judged.
//!
//! ```
//! use strandroost::{Column, StringPool, Table, Value, ValueRef};
//!
//! let mut pool = StringPool::new(1252)?;
//! let name = ValueRef::create("FontFile".into(), &mut pool)?;
//! let table = Table::new(vec![Column::build().primary_key().string(72), Column::build().int32()], pool.long_string_refs())?;
//! let stream = table.write_rows(&[vec![name, ValueRef::Int(40_000)]])?;
//! for row in table.rows(&stream, &pool)? {
//!     assert_eq!(row.values(), ["FontFile".into(), Value::Int(40_000)]);
//! }
//! # Ok::<(), strandroost::Refusal>(())
//! ```
#![warn(missing_docs)]
#![deny(unsafe_code)]

#[cfg(not(all(target_arch = "x86_64", target_os = "linux", target_pointer_width = "64")))]
compile_error!("strandroost is over an archive for x86-64 Linux: compile with --target x86_64-unknown-linux-gnu");

pub mod calls;
mod column;
mod refusal;
mod room;
pub mod streamname;
mod stringpool;
mod table;
mod value;

pub use column::{Column, ColumnBuilder, ColumnType};
pub use refusal::{Place, Refusal, Result};
pub use stringpool::{Entry, StringPool, StringRef, Texts};
pub use table::{Row, Rows, Table};
pub use value::{Value, ValueRef};
