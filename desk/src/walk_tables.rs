//! The tables of a package: which there are, their cells and values, and their streams written again.
use crate::findings::Rule;
use crate::judge::{self, Values};
use crate::layouts::{self, Layout};
use crate::reading::{self, Pool};
use crate::refusal::Refusal;
use crate::requests::{self, Empty};
use crate::shown;
use crate::walk::{flag, hex, units, Ended, Miscounted, TableSeen, Walk, EXACT};
use std::collections::BTreeSet;

impl Walk<'_> {
    /// _Columns and _Tables, and then every table that either of them lists.
    pub fn tables(&mut self, own: &Pool) -> Result<(), Ended> {
        let columns = self.table(Layout::of_columns(), own)?;
        let tables = self.table(Layout::of_tables(), own)?;
        let (Some((_, columns)), Some((_, tables))) = (judge::list_given(&columns), judge::list_given(&tables)) else {
            self.findings.not_read.push("its tables: _Columns or _Tables gave no cells".into());
            return Ok(());
        };
        let (layouts, bad) = layouts::layouts(&columns, own);
        let references = columns.chunks_exact(4).map(|row| row[0]).chain(tables.iter().copied());
        self.shown(references.filter_map(|cell| layouts::number(cell, 's')).collect(), own)?;
        let mut listed: BTreeSet<Vec<u8>> = bad.iter().filter_map(|(table, _)| table.clone()).collect();
        for (table, why) in bad {
            match table {
                Some(table) => self.not_read(&table, &why),
                None => self.findings.not_read.push(why),
            }
        }
        for layout in layouts {
            listed.insert(layout.table.clone());
            if !matches!(layout.table.as_slice(), b"_Columns" | b"_Tables") {
                self.table(layout, own)?;
            }
        }
        self.left_over(&tables, listed, own);
        Ok(())
    }

    /// The texts of these references, by show.
    fn shown(&mut self, references: BTreeSet<i32>, own: &Pool) -> Result<(), Ended> {
        let references: Vec<i32> = references.into_iter().collect();
        let lines: Vec<String> = references.iter().map(|reference| format!("show {reference}")).collect();
        let (krate, port) = self.ask(&lines)?;
        let columns = vec![layouts::Column { name: "text".into(), bits: 0 }];
        let layout = Layout { table: b"the names of the tables, by show".to_vec(), columns };
        let cells: Vec<String> = references.iter().map(|reference| format!("s{reference}")).collect();
        let cells: Vec<&str> = cells.iter().map(String::as_str).collect();
        let values = Values { layout: &layout, pool: own, cells: &cells };
        let listed = |answers: &[String]| {
            let texts: Vec<String> = answers.iter().map(|answer| answer.replacen("ok ", "t", 1)).collect();
            format!("ok {} {}", texts.len(), if texts.is_empty() { "-".into() } else { texts.join(",") })
        };
        values.judge(&mut self.findings, &listed(&krate), &listed(&port));
        Ok(())
    }

    /// A table that is listed, and why it cannot be read.
    fn not_read(&mut self, table: &[u8], why: &str) {
        let layout = Layout { table: table.to_vec(), columns: Vec::new() };
        let before = self.stream(&units(table)).map(|stream| stream.bytes.clone());
        self.tally.tables += 1;
        self.tally.without_stream += usize::from(before.is_none());
        let name = if table.is_empty() { "a table with an empty name".into() } else { layout.name() };
        self.findings.not_read.push(format!("{name}: {why}"));
        let result = format!("not read: {why}");
        self.seen.push(TableSeen { layout, rows: 0, refusal: None, result, before, after: None, cells: String::new() });
    }

    /// Tables that _Tables lists and _Columns does not have, and streams that belong to no table.
    fn left_over(&mut self, tables: &[&str], mut listed: BTreeSet<Vec<u8>>, own: &Pool) {
        for reference in tables.iter().filter_map(|cell| layouts::number(cell, 's')) {
            let table = own.text(reference).to_vec();
            if listed.insert(table.clone()) {
                self.not_read(&table, "_Tables lists it, and _Columns has no column of it");
            }
        }
        listed.extend(["_StringPool", "_StringData", "_Columns", "_Tables"].map(|name| name.as_bytes().to_vec()));
        let listed: BTreeSet<Vec<u16>> = listed.iter().map(|table| units(table)).collect();
        for stream in self.streams.iter().filter(|stream| stream.is_table && !listed.contains(&stream.name)) {
            let name = String::from_utf16_lossy(&stream.name);
            self.findings.notes.push(format!("stream {name} is marked as a table's, and no table of this name is listed"));
        }
    }

    /// The cells of a table by its layout, their values, and the stream written again; the answer with its cells.
    fn table(&mut self, layout: Layout, own: &Pool) -> Result<String, Ended> {
        let before = self.stream(&units(&layout.table)).map(|stream| stream.bytes.clone());
        let bytes = before.clone().unwrap_or_default();
        let what = format!("{} {} {}", flag(own.long), layout.word(), hex(&bytes));
        self.progress.begin(format!("{}: table {}, {} bytes", self.name, layout.name(), bytes.len()));
        let (krate, port) = self.ask(&[format!("read {what}"), format!("rows {what}")])?;
        let empty = requests::empty_cells(&layout.handed(own.long), &bytes);
        judge::cells(&mut self.findings, &layout, &empty, &krate[0], &port[0]);
        self.tally.tables += 1;
        self.tally.without_stream += usize::from(before.is_none());
        let answer = if port[0].starts_with("ok ") { port[0].clone() } else { krate[0].clone() };
        let (cells, result) = (answer.clone(), String::new());
        let mut seen = TableSeen { layout, rows: 0, refusal: None, result, before, after: None, cells };
        if let Some(refusal) = shown::refusal(&port[0]) {
            self.refused_table(&mut seen, refusal, krate[0] == port[0]);
        }
        if let Some((rows, cells)) = judge::list_given(&answer) {
            let values = Values { layout: &seen.layout, pool: own, cells: &cells };
            values.judge(&mut self.findings, &krate[1], &port[1]);
            self.reported(&seen.layout, &krate[1], &port[1]);
            seen.rows = rows;
            self.tally.rows += rows;
            self.tally.cells += cells.len();
            self.note_uses(&cells);
            if seen.refusal.is_none() {
                let by_crate = if krate[0].starts_with("ok ") { &krate[0] } else { &answer };
                self.table_written(&mut seen, flag(own.long), [by_crate, &answer], &empty)?;
            }
        }
        self.seen.push(seen);
        Ok(answer)
    }

    fn refused_table(&mut self, seen: &mut TableSeen, refusal: Refusal, alike: bool) {
        self.tally.refused += 1;
        let who = if alike { "by both" } else { "by the port alone" };
        self.findings.notes.push(format!("refused {who}: {}: {refusal}", seen.layout.name()));
        seen.refusal = Some(refusal);
        seen.result = "refused".into();
    }

    /// Each side writes the cells that it read.
    fn table_written(&mut self, seen: &mut TableSeen, long: u8, read: [&str; 2], empty: &[Empty]) -> Result<(), Ended> {
        let layout = seen.layout.word();
        let mut lines = read.map(|answer| format!("write {long} {layout} {}", answer.strip_prefix("ok ").unwrap_or("0 -"))).to_vec();
        lines.dedup();
        let (krate, port) = self.ask(&lines)?;
        let (krate, port) = (&krate[0], &port[lines.len() - 1]);
        match (judge::bytes_given(krate), judge::bytes_given(port)) {
            (Some(one), Some(other)) => self.streams_written(&seen.layout.name(), empty, one, &other),
            _ => judge::whole(&mut self.findings, || format!("{} as written", seen.layout.name()), krate, port),
        }
        seen.after = judge::bytes_given(port);
        seen.result = match &seen.before {
            Some(before) => self.compared(&seen.layout.name(), before, seen.after.as_deref()),
            None => "no stream".into(),
        };
        Ok(())
    }

    /// The crate's stream beside the port's: it has 1 in each empty cell, and with 0 there it is what document 02 wants.
    fn streams_written(&mut self, table: &str, empty: &[Empty], mut krate: Vec<u8>, port: &[u8]) {
        let starts = empty.iter().map(|cell| cell.start);
        let filled: Vec<usize> = starts.filter(|start| krate.get(*start..*start + 2) == Some(&[1, 0])).collect();
        let who = if filled.is_empty() { "crate" } else { "document 02" };
        if !filled.is_empty() {
            self.findings.expect(Rule::EmptyCell, || format!("{table} as written"));
            let cells = if filled.len() == 1 { "an empty cell".into() } else { format!("{} empty cells", filled.len()) };
            self.findings.notes.push(format!("{table} as the crate writes it is not as it was: {cells} became 1"));
            filled.iter().for_each(|start| krate[*start] = 0);
        }
        judge::streams(&mut self.findings, table, [(who, &krate), ("port", port)]);
    }

    fn reported(&mut self, layout: &Layout, krate: &str, port: &str) {
        let Some(folder) = &mut self.folder else { return };
        if let Err(error) = folder.table(layout, krate, port) {
            self.findings.not_read.push(format!("the report on {}: {error}", layout.name()));
        }
    }

    // ----------------------------------------------------- second looks

    /// Texts that the crate loses under the package's code page are compared once more under one that keeps them.
    pub fn texts_again(&mut self, pool: &[u8], data: &[u8]) -> Result<(), Ended> {
        let pool = reading::with_page(pool, EXACT);
        let Ok(own) = Pool::read(&pool, data) else { return Ok(()) };
        self.findings.under = format!(" (code page set to {EXACT})");
        self.load(&pool, data)?;
        self.written(&own)?;
        for at in 0..self.seen.len() {
            let seen = &self.seen[at];
            let Some((_, cells)) = judge::list_given(&seen.cells) else { continue };
            if !cells.iter().any(|cell| cell.starts_with('s')) {
                continue;
            }
            self.progress.begin(format!("{}: the texts of table {}, under {EXACT}", self.name, seen.layout.name()));
            let bytes = hex(seen.before.as_deref().unwrap_or_default());
            let line = format!("rows {} {} {bytes}", flag(own.long), seen.layout.word());
            let (krate, port) = self.ask(&[line])?;
            let seen = &self.seen[at];
            let cells = judge::list_given(&seen.cells).map(|(_, cells)| cells).unwrap_or_default();
            let values = Values { layout: &seen.layout, pool: &own, cells: &cells };
            values.judge(&mut self.findings, &krate[0], &port[0]);
        }
        self.findings.notes.push(format!("its texts were compared once more with the code page set to {EXACT} on both sides"));
        Ok(())
    }

    fn note_uses(&mut self, cells: &[&str]) {
        for reference in cells.iter().filter_map(|cell| layouts::number(cell, 's')) {
            let place = usize::try_from(reference - 1).unwrap_or(usize::MAX);
            if let Some(uses) = self.uses.get_mut(place) {
                *uses += 1;
            }
        }
    }

    pub fn count_uses(&mut self, own: &Pool) {
        for (at, (entry, cells)) in own.entries.iter().zip(&self.uses).enumerate() {
            if usize::from(entry.count) != *cells {
                let text = shown::text(&entry.text);
                self.miscounted.push(Miscounted { reference: at + 1, text, count: entry.count, cells: *cells });
            }
        }
    }
}
