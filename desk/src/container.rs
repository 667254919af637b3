//! A package's container, read by streams.py: a program of its own for each package.
use crate::language::{bytes_of, units_of};
use crate::reading;
use std::ffi::{OsStr, OsString};
use std::process::Command;

pub struct Stream {
    /// The name as it is stored.
    pub stored: Vec<u16>,
    pub is_table: bool,
    /// The name that it stands for.
    pub name: Vec<u16>,
    /// The bytes of a table's stream; none of another's, which are not read.
    pub bytes: Vec<u8>,
}

fn stream(line: &str) -> Option<Stream> {
    let [name, size, bytes] = line.split(' ').collect::<Vec<_>>()[..] else { return None };
    let stored = units_of(name)?;
    let (is_table, decoded) = reading::decoded(&stored);
    let bytes = if bytes == "." { Vec::new() } else { bytes_of(bytes)? };
    let size: usize = size.parse().ok()?;
    (!is_table || bytes.len() == size).then_some(Stream { stored, is_table, name: decoded, bytes })
}

/// The streams in the root of a package, or why there are none.
pub fn streams(reader: &[OsString], file: &OsStr) -> Result<Vec<Stream>, String> {
    let (program, rest) = reader.split_first().ok_or("no words to start the reader by")?;
    let output = Command::new(program).args(rest).arg("--").arg(file).output();
    let output = output.map_err(|error| format!("the container's reader does not start: {error}"))?;
    if !output.status.success() {
        let why = String::from_utf8_lossy(&output.stderr);
        let last = why.trim_end().lines().last().unwrap_or("the container's reader ended without a word");
        return Err(last.to_string());
    }
    let listing = String::from_utf8_lossy(&output.stdout);
    let streams: Option<Vec<Stream>> = listing.lines().map(stream).collect();
    streams.ok_or_else(|| "the container's reader wrote a line that is none of its own".into())
}
