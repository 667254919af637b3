//! The report: a line for each package and each table as CSV, and each table as tab-separated text from both sides.
use crate::judge;
use crate::layouts::Layout;
use crate::shown;
use std::collections::BTreeMap;
use std::fs::{self, File};
use std::io::{self, BufWriter, Write};
use std::path::{Path, PathBuf};
use std::process::{Command, Stdio};

const PACKAGES: [&str; 20] = [
    "package", "folder", "result", "refusal", "sentence", "code page", "long references", "entries", "streams", "table streams",
    "tables", "tables without a stream", "tables refused", "tables not read", "rows", "cells", "streams written", "identical",
    "expected departures", "differences",
];
const TABLES: [&str; 11] = [
    "package", "table", "rows", "columns", "cells", "refusal", "place", "sentence", "written back", "sha256 before", "sha256 after",
];

pub struct Report {
    folder: PathBuf,
    packages: BufWriter<File>,
    tables: BufWriter<File>,
    /// How many packages have each folder's name.
    names: BTreeMap<String, usize>,
}

/// The part of the report on one package.
pub struct Folder {
    pub name: String,
    path: PathBuf,
    files: BTreeMap<String, usize>,
}

fn line(fields: &[String]) -> String {
    let quoted = |field: &String| match field.contains([',', '"', '\n', '\r']) {
        true => format!("\"{}\"", field.replace('"', "\"\"")),
        false => field.clone(),
    };
    fields.iter().map(quoted).collect::<Vec<_>>().join(",") + "\r\n"
}

/// A file's name that is safe everywhere: any other byte is a percent sign and two digits.
fn safe(name: &[u8]) -> String {
    let mut made = String::new();
    for (at, byte) in name.iter().take(100).enumerate() {
        match byte {
            b'0'..=b'9' | b'A'..=b'Z' | b'a'..=b'z' | b'_' => made.push(char::from(*byte)),
            b'.' | b'-' if at > 0 => made.push(char::from(*byte)),
            _ => made.push_str(&format!("%{byte:02X}")),
        }
    }
    made
}

/// The name, or with a number behind it where it is taken.
fn own_name(names: &mut BTreeMap<String, usize>, name: &[u8]) -> String {
    // A folder takes names of 255 bytes; those that are cut alike are told apart by their number.
    let mut made = safe(name);
    made.truncate(200);
    let count = names.entry(made.clone()).or_insert(0);
    *count += 1;
    if *count == 1 { made } else { format!("{made}~{count}") }
}

/// The SHA-256 of a stream, by coreutils.
pub fn sha256(bytes: &[u8]) -> io::Result<String> {
    let mut child = Command::new("sha256sum").stdin(Stdio::piped()).stdout(Stdio::piped()).spawn()?;
    if let Some(mut input) = child.stdin.take() {
        input.write_all(bytes)?;
    }
    let output = child.wait_with_output()?;
    Ok(String::from_utf8_lossy(&output.stdout).split(' ').next().unwrap_or("").to_string())
}

fn created(folder: &Path, name: &str, titles: &[&str]) -> io::Result<BufWriter<File>> {
    let mut file = BufWriter::new(File::create(folder.join(name))?);
    file.write_all(line(&titles.iter().map(|title| title.to_string()).collect::<Vec<_>>()).as_bytes())?;
    Ok(file)
}

impl Report {
    /// A report in a folder that is new or empty, so that nothing of another one is taken for a part of it.
    pub fn begin(folder: &Path) -> io::Result<Report> {
        fs::create_dir_all(folder)?;
        if fs::read_dir(folder)?.next().is_some() {
            return Err(io::Error::other("it is not empty: a report begins in an empty folder"));
        }
        let packages = created(folder, "packages.csv", &PACKAGES)?;
        let tables = created(folder, "tables.csv", &TABLES)?;
        Ok(Report { folder: folder.into(), packages, tables, names: BTreeMap::new() })
    }

    /// A folder for a package; another package of the same name has one of its own.
    pub fn folder(&mut self, name: &[u8]) -> io::Result<Folder> {
        let name = own_name(&mut self.names, name);
        let path = self.folder.join(&name);
        for side in ["crate", "port"] {
            fs::create_dir_all(path.join(side))?;
        }
        Ok(Folder { name, path, files: BTreeMap::new() })
    }

    pub fn package(&mut self, fields: &[String; PACKAGES.len()]) -> io::Result<()> {
        self.packages.write_all(line(fields).as_bytes())?;
        self.packages.flush()
    }

    pub fn table(&mut self, fields: &[String; TABLES.len()]) -> io::Result<()> {
        self.tables.write_all(line(fields).as_bytes())?;
        self.tables.flush()
    }
}

impl Folder {
    /// A table as either side gave its values.
    pub fn table(&mut self, layout: &Layout, krate: &str, port: &str) -> io::Result<()> {
        let name = own_name(&mut self.files, &layout.table) + ".tsv";
        self.values("crate", &name, layout, krate)?;
        self.values("port", &name, layout, port)
    }

    /// A line of names with their bits, and a line for each row.
    fn values(&self, side: &str, name: &str, layout: &Layout, answer: &str) -> io::Result<()> {
        let mut file = BufWriter::new(File::create(self.path.join(side).join(name))?);
        let titles: Vec<String> = layout.columns.iter().map(|column| format!("{}:{}", column.name, column.bits)).collect();
        writeln!(file, "{}", titles.join("\t"))?;
        let Some((_, values)) = judge::list_given(answer) else {
            return writeln!(file, "# {}", shown::answer(answer));
        };
        for row in values.chunks(layout.columns.len().max(1)) {
            let fields: Vec<String> = row.iter().map(|word| shown::field(word)).collect();
            writeln!(file, "{}", fields.join("\t"))?;
        }
        file.flush()
    }
}
