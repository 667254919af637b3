//! What is said of a package and of all: its line with figures, its counts, its fields in the report.
use crate::refusal::{Place, Refusal};
use crate::report::{self, Report};
use crate::walk::{Miscounted, TableSeen, Tally, Walk};
use std::time::Instant;

pub fn row(name: &str, cells: [String; 9], result: &str) -> String {
    let [streams, tables, without, rows, cells, expected, differed, identical, seconds] = cells;
    let counted = format!("{streams:>7} {tables:>6} {without:>9} {rows:>7} {cells:>8} {identical:>9}");
    format!("{name:<24} {counted} {expected:>8} {differed:>8} {seconds:>7}  {result}")
}

pub fn figures(tally: &Tally, expected: usize, differed: usize, begun: Instant) -> [String; 9] {
    let Tally { streams, tables, without_stream, rows, cells, identical, rewritten, .. } = tally;
    let counts = [streams, tables, without_stream, rows, cells, &expected, &differed].map(usize::to_string);
    let [a, b, c, d, e, f, g] = counts;
    [a, b, c, d, e, f, g, format!("{identical}/{rewritten}"), format!("{:.1}", begun.elapsed().as_secs_f64())]
}

pub fn result_of(walk: &Walk) -> &'static str {
    let findings = &walk.findings;
    match () {
        () if findings.differed > 0 => "DIFFERS",
        () if !findings.not_read.is_empty() => "not all read",
        () if walk.refusal.is_some() => "refused alike",
        () if !findings.expected.is_empty() => "agrees, but for what is expected",
        () if walk.tally.refused > 0 => "agrees, with tables refused alike",
        () => "agrees",
    }
}

fn place_words(place: Place) -> String {
    match place {
        Place::Nowhere => String::new(),
        Place::Column(column) => format!("column {column}"),
        Place::Cell { row, column } => format!("row {row}, column {column}"),
    }
}

/// A table's fields in the report.
fn table_fields(file: &str, seen: &TableSeen) -> std::io::Result<[String; 11]> {
    let sum = |bytes: &Option<Vec<u8>>| bytes.as_ref().map_or(Ok(String::new()), |bytes| report::sha256(bytes));
    let columns = seen.layout.columns.len();
    // A stream of the pool has entries, and neither columns nor cells.
    let figure = |count: usize| if columns == 0 { String::new() } else { count.to_string() };
    let refused = |words: fn(Refusal) -> String| seen.refusal.map_or(String::new(), words);
    Ok([
        file.into(),
        seen.layout.name(),
        seen.rows.to_string(),
        figure(columns),
        figure(seen.rows * columns),
        refused(|refusal| refusal.number().to_string()),
        refused(|refusal| place_words(refusal.place())),
        refused(|refusal| refusal.sentence().into()),
        seen.result.clone(),
        sum(&seen.before)?,
        sum(&seen.after)?,
    ])
}

/// A package's fields in the report.
fn package_fields(file: &str, walk: &Walk) -> [String; 20] {
    let (page, long, entries) = walk.head.map_or(Default::default(), |(page, long, entries)| {
        (page.to_string(), if long { "yes" } else { "no" }.to_string(), entries.to_string())
    });
    let Tally { streams, table_streams, tables, without_stream, refused, rows, cells, rewritten, identical } = walk.tally;
    [
        file.into(),
        walk.folder.as_ref().map_or(String::new(), |folder| folder.name.clone()),
        result_of(walk).into(),
        walk.refusal.map_or(String::new(), |refusal| refusal.number().to_string()),
        walk.refusal.map_or(walk.findings.not_read.join("; "), |refusal| refusal.sentence().into()),
        page,
        long,
        entries,
        streams.to_string(),
        table_streams.to_string(),
        tables.to_string(),
        without_stream.to_string(),
        refused.to_string(),
        walk.findings.not_read.len().to_string(),
        rows.to_string(),
        cells.to_string(),
        rewritten.to_string(),
        identical.to_string(),
        walk.findings.expected_count().to_string(),
        walk.findings.differed.to_string(),
    ]
}

/// The lines of a package in the report.
pub fn reported(report: &mut Report, file: &str, walk: &Walk) -> std::io::Result<()> {
    for seen in &walk.seen {
        report.table(&table_fields(file, seen)?)?;
    }
    report.package(&package_fields(file, walk))
}

/// The entries whose count is not that of their cells.
pub fn counts_lines(walk: &Walk) -> Vec<String> {
    let wrong = &walk.miscounted;
    let mut lines = vec![format!("counts: {} entries whose count is not the number of cells that name them", wrong.len())];
    for Miscounted { reference, text, count, cells } in wrong {
        lines.push(format!("counts: reference {reference}, \"{text}\": count {count}, cells {cells}"));
    }
    if !walk.findings.not_read.is_empty() || walk.tally.refused > 0 {
        lines.push("counts: of the tables that were read; not all were".into());
    }
    lines
}
