//! What was found when the answers of the crate and the port were laid side by side: agreement, departures that
//! docs/DIFFERENCES.md names, each by its rule, and differences.
use std::collections::BTreeMap;

/// So many differences of a package are shown; all are counted.
const SHOWN: usize = 20;

/// A departure that is expected, and the row of docs/DIFFERENCES.md that it stands on.
#[derive(Clone, Copy, PartialEq, Eq, PartialOrd, Ord)]
pub enum Rule {
    Page,
    UnknownPage,
    Text,
    Mark,
    Name,
    Columns,
    /// By document 02.
    Forbidden,
    EmptyCell,
}

impl Rule {
    pub fn words(self) -> &'static str {
        match self {
            Rule::Page => "a code page that the crate does not write back as itself",
            Rule::UnknownPage => "a code page that the crate does not know, so that it refuses the pool",
            Rule::Text => "a text above 127 that the crate does not keep under this code page",
            Rule::Mark => "a text whose byte-order mark the crate takes away",
            Rule::Name => "a stream name that is no well-formed UTF-16 and cannot be said to the crate",
            Rule::Columns => "a layout of over 64 columns, which the port refuses",
            Rule::Forbidden => "a name that the container will not take or that would be shown as another, to which the crate says yes",
            Rule::EmptyCell => "a Binary cell of 0, which the crate reads as Binary and writes as 1",
        }
    }

    /// How the row of docs/DIFFERENCES.md begins.
    pub fn row(self) -> &'static str {
        match self {
            Rule::Page => "load 00000000 -",
            Rule::UnknownPage => "load 07000000 -",
            Rule::Text => "load 0000000001000100 e4; show 1",
            Rule::Mark => "load e404000003000100 efbbbf; show 1",
            Rule::Name => "enc 0 d800",
            Rule::Columns => "read 0 1282,1282,",
            Rule::Forbidden => "valid 0 0066006f006e00740073002f006c006100740069006e",
            Rule::EmptyCell => "read 0 2304 0000",
        }
    }
}

/// How often a rule was met, and where first.
pub struct Met {
    pub count: usize,
    pub first: String,
}

#[derive(Default)]
pub struct Findings {
    pub expected: BTreeMap<Rule, Met>,
    pub differed: usize,
    shown: Vec<String>,
    /// Under what else than the package's own code page is being compared.
    pub under: String,
    /// Tables and streams that were not read, each with its reason.
    pub not_read: Vec<String>,
    pub notes: Vec<String>,
}

impl Findings {
    pub fn expect(&mut self, rule: Rule, place: impl FnOnce() -> String) {
        let met = self.expected.entry(rule).or_insert_with(|| Met { count: 0, first: place() + &self.under });
        met.count += 1;
    }

    pub fn expected_count(&self) -> usize {
        self.expected.values().map(|met| met.count).sum()
    }

    /// A difference at its place: each voice and what it says.
    pub fn differ(&mut self, place: impl FnOnce() -> String, voices: &[(&str, String)]) {
        self.differed += 1;
        if self.shown.len() < SHOWN {
            let said: Vec<String> = voices.iter().map(|(who, what)| format!("{who} {what}")).collect();
            self.shown.push(format!("DIFFERS: {}{}: {}", place(), self.under, said.join(" | ")));
        }
    }

    /// The lines under a package's own.
    pub fn lines(&self) -> Vec<String> {
        let mut lines = self.shown.clone();
        if self.differed > lines.len() {
            lines.push(format!("DIFFERS: {} more", self.differed - lines.len()));
        }
        lines.extend(self.not_read.iter().map(|why| format!("not read: {why}")));
        for (rule, Met { count, first }) in &self.expected {
            let times = if *count == 1 { "once".into() } else { format!("{count} times, first") };
            lines.push(format!("expected: {}: {times} at {first} (docs/DIFFERENCES.md: `{}`)", rule.words(), rule.row()));
        }
        lines.extend(self.notes.iter().cloned());
        lines
    }
}
