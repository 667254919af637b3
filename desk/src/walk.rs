//! A package taken apart and put together again, with the crate beside the port at every step: its names, its pool, its tables.
use crate::container::Stream;
use crate::findings::{Findings, Rule};
use crate::judge;
use crate::language::{put_bytes, put_units};
use crate::layouts::Layout;
use crate::pipes::{Both, Side, ENDED};
use crate::progress::Progress;
use crate::refusal::Refusal;
use crate::report::Folder;
use crate::requests;
use crate::shown;
use std::collections::HashMap;

/// A code page under which the crate keeps all 256 bytes of a text, but for a byte-order mark.
pub const EXACT: u32 = 1252;

/// The crate's side within the domain: it says of a code page whether it writes it back as itself.
pub struct Pages {
    side: Side,
    kept: HashMap<u32, bool>,
}

impl Pages {
    pub fn new(side: Side) -> Pages {
        Pages { side, kept: HashMap::new() }
    }

    pub fn kept(&mut self, page: u32) -> bool {
        let side = &mut self.side;
        *self.kept.entry(page).or_insert_with(|| side.ask(&[format!("page {page}")])[0] == "ok")
    }
}

/// What was counted in a package.
#[derive(Default, Clone)]
pub struct Tally {
    /// Streams that are there, of any kind, and those of tables among them.
    pub streams: usize,
    pub table_streams: usize,
    pub tables: usize,
    pub without_stream: usize,
    pub refused: usize,
    pub rows: usize,
    pub cells: usize,
    pub rewritten: usize,
    pub identical: usize,
}

/// What was seen of a table, or of a stream of the pool.
pub struct TableSeen {
    pub layout: Layout,
    pub rows: usize,
    pub refusal: Option<Refusal>,
    /// Whether it was written back as it was, or why not.
    pub result: String,
    pub before: Option<Vec<u8>>,
    pub after: Option<Vec<u8>>,
    /// The answer with its cells, for what is asked of them again.
    pub cells: String,
}

/// An entry whose count is not the number of cells that name it.
pub struct Miscounted {
    pub reference: usize,
    pub text: String,
    pub count: u16,
    pub cells: usize,
}

/// A side that ended: the rest of the package is not asked.
pub struct Ended;

pub struct Walk<'a> {
    pub name: String,
    pub both: Both,
    pub pages: &'a mut Pages,
    pub streams: Vec<Stream>,
    pub folder: Option<Folder>,
    pub progress: Progress,
    pub findings: Findings,
    pub tally: Tally,
    pub seen: Vec<TableSeen>,
    pub head: Option<(u32, bool, usize)>,
    pub refusal: Option<Refusal>,
    pub miscounted: Vec<Miscounted>,
    /// How many cells name each entry.
    pub uses: Vec<usize>,
}

pub fn hex(bytes: &[u8]) -> String {
    let mut word = String::new();
    put_bytes(bytes, &mut word);
    word
}

fn units_word(units: &[u16]) -> String {
    let mut word = String::new();
    put_units(units, &mut word);
    word
}

pub fn flag(flag: bool) -> u8 {
    u8::from(flag)
}

/// The units of a table's name; one that is no UTF-8 has a unit for each byte.
pub fn units(text: &[u8]) -> Vec<u16> {
    match std::str::from_utf8(text) {
        Ok(text) => text.encode_utf16().collect(),
        Err(_) => text.iter().map(|byte| u16::from(*byte)).collect(),
    }
}

impl<'a> Walk<'a> {
    pub fn new(name: String, both: Both, pages: &'a mut Pages, streams: Vec<Stream>, progress: Progress) -> Walk<'a> {
        let table_streams = streams.iter().filter(|stream| stream.is_table).count();
        Walk {
            name,
            both,
            pages,
            tally: Tally { streams: streams.len(), table_streams, ..Tally::default() },
            streams,
            folder: None,
            progress,
            findings: Findings::default(),
            seen: Vec::new(),
            head: None,
            refusal: None,
            miscounted: Vec::new(),
            uses: Vec::new(),
        }
    }

    /// Asks both sides. One that has ended differs there.
    pub fn ask(&mut self, lines: &[String]) -> Result<(Vec<String>, Vec<String>), Ended> {
        let (krate, port) = self.both.ask(lines);
        for (who, answers) in [("crate", &krate), ("port", &port)] {
            if let Some(at) = answers.iter().position(|answer| answer == ENDED) {
                let command: String = lines[at].chars().take(60).collect();
                self.findings.differ(|| format!("at the command '{command}'"), &[(who, "ended without an answer".into())]);
                return Err(Ended);
            }
        }
        Ok((krate, port))
    }

    pub fn taken_apart(&mut self) -> Result<(), Ended> {
        self.names()?;
        let [pool, data] = ["_StringPool", "_StringData"].map(|name| self.bytes_of(name).unwrap_or_default());
        let Some(own) = self.pool(&pool, &data)? else { return Ok(()) };
        self.tables(&own)?;
        self.count_uses(&own);
        let lossy = self.findings.expected.keys().any(|rule| matches!(rule, Rule::Page | Rule::Text));
        if lossy && own.page != EXACT {
            self.texts_again(&pool, &data)?;
        }
        Ok(())
    }

    pub fn bytes_of(&self, table: &str) -> Option<Vec<u8>> {
        self.stream(&units(table.as_bytes())).map(|stream| stream.bytes.clone())
    }

    pub fn stream(&self, name: &[u16]) -> Option<&Stream> {
        self.streams.iter().find(|stream| stream.is_table && stream.name == name)
    }

    /// Every stored name decoded, and what it stands for encoded and judged again.
    fn names(&mut self) -> Result<(), Ended> {
        let mut lines = Vec::new();
        for Stream { stored, is_table, name, .. } in &self.streams {
            let (table, name) = (flag(*is_table), units_word(name));
            lines.push(format!("dec {}", units_word(stored)));
            lines.push(format!("enc {table} {name}"));
            lines.push(format!("valid {table} {name}"));
        }
        let (krate, port) = self.ask(&lines)?;
        for (at, stream) in self.streams.iter().enumerate() {
            let own = format!("ok {} {}", flag(stream.is_table), units_word(&stream.name));
            let ill_formed = String::from_utf16(&stream.stored).is_err();
            for at in 3 * at..3 * at + 3 {
                let command = lines[at].split(' ').next().unwrap_or("");
                let place = || format!("the name of stream {}, by {command}", String::from_utf16_lossy(&stream.name));
                if command == "dec" && port[at] != own {
                    let said = [("crate", &krate[at]), ("port", &port[at]), ("package", &own)];
                    self.findings.differ(place, &said.map(|(who, name)| (who, shown::name(name))));
                } else if command == "valid" && requests::is_forbidden(&stream.name) {
                    judge::by_request(&mut self.findings, place, Rule::Forbidden, ["ok 0", &krate[at], &port[at]].map(shown::answer));
                } else if ill_formed && krate[at] == "outside" && port[at].starts_with("ok") {
                    self.findings.expect(Rule::Name, place);
                } else {
                    judge::whole(&mut self.findings, place, &krate[at], &port[at]);
                }
            }
        }
        Ok(())
    }
}
