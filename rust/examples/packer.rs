//! A packer's work on a package: settings are stamped into its Property table, and a number that does not fit is refused in words.
//!
//!     packer POOL DATA PROPERTY NAME=VALUE..
//!
//! takes the streams _StringPool, _StringData and Property as plain files, and writes each beside itself, with .new after its name.
//! Without arguments it does so with streams made in memory, and writes nothing.
use std::{env, error::Error, ffi::OsString, fs};
use strandroost::{Column, StringPool, Table, ValueRef};

/// The Property table: its key, and a text of any length that is translated.
fn property_table(pool: &StringPool) -> strandroost::Result<Table> {
    let columns = vec![Column::build().primary_key().string(72), Column::build().localizable().string(0)];
    Table::new(columns, pool.long_string_refs())
}

/// The three streams of a package with two settings.
fn made() -> strandroost::Result<[Vec<u8>; 3]> {
    let mut pool = StringPool::new(1252)?;
    let mut rows = Vec::new();
    for (name, value) in [("ProductVersion", "1.0.0"), ("ARPNOMODIFY", "1")] {
        rows.push(vec![ValueRef::create(name.into(), &mut pool)?, ValueRef::create(value.into(), &mut pool)?]);
    }
    Ok([pool.write_pool()?, pool.write_data()?, property_table(&pool)?.write_rows(&rows)?])
}

/// The same streams with a setting more, or another value for one that is there.
fn stamped(streams: [Vec<u8>; 3], settings: &[(&str, &str)]) -> strandroost::Result<[Vec<u8>; 3]> {
    let mut pool = StringPool::load(&streams[0], &streams[1])?;
    let table = property_table(&pool)?;
    let mut rows = table.read_rows(&streams[2])?;
    for (name, value) in settings {
        let new = ValueRef::create((*value).into(), &mut pool)?;
        match rows.iter_mut().find(|row| row[0].to_value(&pool).as_str() == Some(name)) {
            Some(row) => std::mem::replace(&mut row[1], new).remove(&mut pool)?,
            None => rows.push(vec![ValueRef::create((*name).into(), &mut pool)?, new]),
        }
    }
    let stream = table.write_rows(&rows)?;
    for row in table.rows(&stream, &pool)? {
        println!("{} = {}", row.values()[0], row.values()[1]);
    }
    Ok([pool.write_pool()?, pool.write_data()?, stream])
}

/// A setting on the command line.
fn setting(word: &OsString) -> Option<(&str, &str)> {
    word.to_str()?.split_once('=').filter(|(name, _)| !name.is_empty())
}

fn main() -> Result<(), Box<dyn Error>> {
    const USAGE: &str = "packer POOL DATA PROPERTY NAME=VALUE..";
    let words: Vec<OsString> = env::args_os().skip(1).collect();
    let (files, settings) = words.split_at(words.len().min(3));
    let asked: Option<Vec<(&str, &str)>> = settings.iter().map(setting).collect();
    let new = match (files, asked) {
        ([], _) => stamped(made()?, &[("ProductVersion", "2.0.0"), ("BRANCH", "Oslo")])?,
        ([pool, data, property], Some(asked)) => stamped([fs::read(pool)?, fs::read(data)?, fs::read(property)?], &asked)?,
        _ => return Err(USAGE.into()),
    };
    // File number 40,000 in a SMALLINT is refused, before a byte is written.
    let sequence = Column::build().int16();
    if let Err(refusal) = Table::new(vec![sequence], false)?.write_rows(&[vec![ValueRef::Int(40_000)]]) {
        println!("40,000 in {}: {refusal}", sequence.coltype());
    }
    for (file, stream) in files.iter().zip(new) {
        let mut beside = file.clone();
        beside.push(".new");
        fs::write(beside, stream)?;
    }
    Ok(())
}
