//! `desk/packages`: real packages taken apart and put together again, with the crate beside the port at every step.
//! Arguments, with `--` between: the words that start the crate's side, the port's side and the container's reader; the options;
//! the packages.
mod container;
mod findings;
mod judge;
#[allow(dead_code)]
mod language;
mod layouts;
mod pipes;
mod progress;
mod reading;
#[allow(dead_code)]
#[path = "../../rust/src/refusal.rs"]
mod refusal;
mod report;
#[allow(dead_code)]
mod requests;
mod shown;
mod summary;
mod walk;
mod walk_pool;
mod walk_tables;

use pipes::{Both, Side, ENDED};
use progress::Progress;
use report::Report;
use std::ffi::{OsStr, OsString};
use std::io::Write;
use std::os::unix::ffi::OsStrExt;
use std::path::Path;
use std::time::Instant;
use summary::{counts_lines, figures, reported, result_of, row};
use walk::{Pages, Tally, Walk};

struct Options {
    krate: Vec<OsString>,
    port: Vec<OsString>,
    reader: Vec<OsString>,
    counts: bool,
    report: Option<Report>,
    files: Vec<OsString>,
}

/// The sums over all packages.
#[derive(Default)]
struct Totals {
    packages: usize,
    unread: usize,
    tally: Tally,
    expected: usize,
    differed: usize,
    not_read: usize,
}

fn say(text: &str) {
    // A reader that went away is no reason to stop; a full disk is.
    match writeln!(std::io::stdout(), "{text}") {
        Err(error) if error.kind() != std::io::ErrorKind::BrokenPipe => stop(&format!("the result cannot be written: {error}")),
        _ => {}
    }
}

fn stop(why: &str) -> ! {
    progress::note(why);
    std::process::exit(2);
}

fn options() -> Options {
    let words: Vec<OsString> = std::env::args_os().skip(1).collect();
    let parts: Vec<Vec<OsString>> = words.splitn(5, |word| word == "--").map(<[OsString]>::to_vec).collect();
    let Ok([krate, port, reader, settings, files]) = <[Vec<OsString>; 5]>::try_from(parts) else {
        stop("started as: CRATE.. -- PORT.. -- READER.. -- [--report FOLDER] [--counts] -- FILE..; desk/packages does so");
    };
    let counts = settings.iter().any(|word| word == "--counts");
    let folder = settings.iter().position(|word| word == "--report").and_then(|at| settings.get(at + 1));
    let report = folder.map(|folder| match Report::begin(Path::new(folder)) {
        Ok(report) => report,
        Err(error) => stop(&format!("no report in {}: {error}", folder.to_string_lossy())),
    });
    Options { krate, port, reader, counts, report, files }
}

/// A file's name as it is shown: what would move a terminal's cursor is spelled out.
fn shown_name(file: &OsStr) -> String {
    let spelled = |letter: char| match letter.is_control() {
        true => letter.escape_default().to_string(),
        false => letter.to_string(),
    };
    name_of(file).to_string_lossy().chars().map(spelled).collect()
}

fn name_of(file: &OsStr) -> &OsStr {
    Path::new(file).file_name().unwrap_or(file)
}

/// Both sides, running: each has answered once.
fn sides(options: &Options) -> Result<Both, String> {
    let mut raw = options.krate.clone();
    raw.push("--raw".into());
    let mut both = Both::start(&raw, &options.port).map_err(|error| format!("a side does not start: {error}"))?;
    let (krate, port) = both.ask(&["state".into()]);
    match (krate[0].as_str(), port[0].as_str()) {
        (ENDED, _) => Err("the crate's side does not answer".into()),
        (_, ENDED) => Err("the port's side does not answer".into()),
        _ => Ok(both),
    }
}

/// A package that was not opened: a line in words, and one in the report.
fn unread(options: &mut Options, file: &OsStr, why: &str) {
    let name = shown_name(file);
    say(&format!("{name:<24} not read: {why}"));
    if let Some(report) = &mut options.report {
        let mut fields: [String; 20] = Default::default();
        fields[0] = file.to_string_lossy().into_owned();
        fields[2] = "not read".into();
        fields[4] = why.into();
        if let Err(error) = report.package(&fields) {
            stop(&format!("the report cannot be written: {error}"));
        }
    }
}

/// One package: walked, its line and what is under it said, its part of the report written.
fn package(options: &mut Options, file: &OsStr, pages: &mut Pages, progress: &Progress) -> Result<Totals, String> {
    let begun = Instant::now();
    let streams = container::streams(&options.reader, file)?;
    let name = shown_name(file);
    progress.begin(format!("{name}: both sides are started"));
    let mut walk = Walk::new(name.clone(), sides(options)?, pages, streams, progress.clone());
    if walk.bytes_of("_StringPool").is_none() {
        return Err("it has no stream _StringPool: it is a compound file, and no package".into());
    }
    if let Some(report) = &mut options.report {
        walk.folder = Some(report.folder(name_of(file).as_bytes()).map_err(|error| format!("the report: {error}"))?);
    }
    // A side that ended has been noted as a difference.
    let _ = walk.taken_apart();
    let (expected, differed) = (walk.findings.expected_count(), walk.findings.differed);
    say(&row(&name, figures(&walk.tally, expected, differed, begun), result_of(&walk)));
    let counts = if options.counts { counts_lines(&walk) } else { Vec::new() };
    for line in walk.findings.lines().iter().chain(&counts) {
        say(&format!("    {line}"));
    }
    if let Some(report) = &mut options.report {
        reported(report, &file.to_string_lossy(), &walk).map_err(|error| format!("the report: {error}"))?;
    }
    Ok(Totals { packages: 1, unread: 0, tally: walk.tally.clone(), expected, differed, not_read: walk.findings.not_read.len() })
}

impl Totals {
    fn add(&mut self, other: Totals) {
        let (sum, more) = (&mut self.tally, other.tally);
        sum.streams += more.streams;
        sum.table_streams += more.table_streams;
        sum.tables += more.tables;
        sum.without_stream += more.without_stream;
        sum.refused += more.refused;
        sum.rows += more.rows;
        sum.cells += more.cells;
        sum.rewritten += more.rewritten;
        sum.identical += more.identical;
        self.packages += other.packages;
        self.expected += other.expected;
        self.differed += other.differed;
        self.not_read += other.not_read;
    }

    fn say(&self, begun: Instant) {
        let Totals { packages, unread, tally, expected, differed, not_read } = self;
        say(&row("in all", figures(tally, *expected, *differed, begun), ""));
        say(&format!(
            "packages: {packages} read, {unread} not; streams: {} are there, {} of them of tables; tables: {} listed, {} of them \
             without a stream, {} refused, {not_read} not read; {} rows, {} cells; {} of {} streams written back identically; \
             departures: {expected} expected, {differed} not; {:.1} seconds",
            tally.streams, tally.table_streams, tally.tables, tally.without_stream, tally.refused, tally.rows, tally.cells,
            tally.identical, tally.rewritten, begun.elapsed().as_secs_f64()
        ));
    }

    /// A difference is graver than what was not read.
    fn exit(&self) -> i32 {
        match () {
            () if self.differed > 0 => 1,
            () if self.unread > 0 || self.not_read > 0 => 2,
            () => 0,
        }
    }
}

fn main() {
    let begun = Instant::now();
    let mut options = options();
    let mut pages = match Side::start(&options.krate) {
        Ok(side) => Pages::new(side),
        Err(error) => stop(&format!("the crate's side does not start: {error}")),
    };
    let progress = Progress::start();
    let titles = ["streams", "tables", "no stream", "rows", "cells", "expected", "differed", "identical", "seconds"];
    say(&row("package", titles.map(String::from), "result"));
    let mut totals = Totals::default();
    let files = std::mem::take(&mut options.files);
    for (at, file) in files.iter().enumerate() {
        let name = shown_name(file);
        progress::note(&format!("package {} of {}: {name}", at + 1, files.len()));
        progress.begin(format!("{name}: its container"));
        match package(&mut options, file, &mut pages, &progress) {
            Ok(seen) => totals.add(seen),
            Err(why) => {
                totals.unread += 1;
                unread(&mut options, file, &why);
            }
        }
    }
    progress.begin(String::new());
    totals.say(begun);
    std::process::exit(totals.exit());
}
