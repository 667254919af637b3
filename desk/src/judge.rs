//! Two answers side by side, and where there is one, the tool's own reading as a third voice. Each difference is noted at its
//! place, and each departure that docs/DIFFERENCES.md names by its rule.
use crate::findings::{Findings, Rule};
use crate::language::{bytes_of, put_bytes, repeated};
use crate::layouts::Layout;
use crate::reading::Pool;
use crate::requests::Empty;
use crate::shown;
use std::collections::BTreeSet;

/// A text's bytes as a value's word.
fn text_word(bytes: &[u8]) -> String {
    let mut word = String::from("t");
    put_bytes(bytes, &mut word);
    word
}

/// The rule by which the crate may give another text than the package has: it decodes texts, which loses what the code page does
/// not have, and takes a byte-order mark for one. Its 1252, also behind 28591, has all 256 bytes.
fn rule_of(page: u32, text: &[u8]) -> Option<Rule> {
    let marks: [&[u8]; 3] = [b"\xef\xbb\xbf", b"\xff\xfe", b"\xfe\xff"];
    match () {
        () if marks.iter().any(|mark| text.starts_with(mark)) => Some(Rule::Mark),
        () if text.is_ascii() || page == 1252 || page == 28591 => None,
        () => Some(Rule::Text),
    }
}

/// Answers that are the same or differ as a whole.
pub fn whole(findings: &mut Findings, place: impl FnOnce() -> String, krate: &str, port: &str) {
    if krate != port {
        findings.differ(place, &[("crate", shown::answer(krate)), ("port", shown::answer(port))]);
    }
}

/// What the port says where document 02 has something else than the crate: held to that, and expected where the crate departs from it.
pub fn by_request(findings: &mut Findings, place: impl FnOnce() -> String, rule: Rule, [wanted, krate, port]: [String; 3]) {
    if port != wanted {
        findings.differ(place, &[("crate", krate), ("port", port), ("document 02", wanted)]);
    } else if krate != port {
        findings.expect(rule, place);
    }
}

/// The bytes of an answer `ok BYTES`.
pub fn bytes_given(answer: &str) -> Option<Vec<u8>> {
    bytes_of(answer.strip_prefix("ok ")?)
}

/// The rows and the list of an answer `ok ROWS LIST`.
pub fn list_given(answer: &str) -> Option<(usize, Vec<&str>)> {
    let (rows, list) = answer.strip_prefix("ok ")?.split_once(' ')?;
    let list = match repeated(list)? {
        ("-", _) => Vec::new(),
        (item, 1) => item.split(',').collect(),
        (item, times) => vec![item; times],
    };
    Some((rows.parse().ok()?, list))
}

/// Such an answer by its size alone.
fn list_words(answer: &str) -> String {
    match list_given(answer) {
        Some((rows, list)) => format!("{rows} rows, {} cells", list.len()),
        None => shown::answer(answer),
    }
}

/// Two streams written, byte for byte.
pub fn streams(findings: &mut Findings, what: &str, voices: [(&str, &[u8]); 2]) {
    let [(_, one), (_, other)] = voices;
    if one != other {
        let at = shown::parting(one, other);
        let said = voices.map(|(who, bytes)| (who, shown::bytes_at(bytes, at)));
        findings.differ(|| format!("{what} as written, byte {at}"), &said);
    }
}

/// The cells that were read; those that are empty by the package's own bytes are document 02's.
pub fn cells(findings: &mut Findings, layout: &Layout, empty: &[Empty], krate: &str, port: &str) {
    if krate == port && empty.is_empty() {
        return;
    }
    if layout.columns.len() > 64 && port == "error 20" {
        return findings.expect(Rule::Columns, || layout.name());
    }
    match (list_given(krate), list_given(port)) {
        (Some((_, ours)), Some((_, theirs))) if ours.len() == theirs.len() => {
            let empty: BTreeSet<usize> = empty.iter().map(|empty| empty.cell).collect();
            for (at, (one, other)) in ours.iter().zip(&theirs).enumerate() {
                if empty.contains(&at) {
                    by_request(findings, || layout.place(at), Rule::EmptyCell, ["n", one, other].map(shown::word));
                } else if one != other {
                    findings.differ(|| layout.place(at), &[("crate", shown::word(one)), ("port", shown::word(other))]);
                }
            }
        }
        _ => findings.differ(|| layout.name(), &[("crate", list_words(krate)), ("port", list_words(port))]),
    }
}

/// The values of a table: what its cells stand for by the package's own texts.
pub struct Values<'a> {
    pub layout: &'a Layout,
    pub pool: &'a Pool,
    pub cells: &'a [&'a str],
}

impl Values<'_> {
    fn wanted(&self, cell: &str) -> String {
        match cell.strip_prefix('s').and_then(|number| number.parse().ok()) {
            Some(reference) => text_word(self.pool.text(reference)),
            None => cell.into(),
        }
    }

    /// Both sides' values, cell by cell.
    pub fn judge(&self, findings: &mut Findings, krate: &str, port: &str) {
        match (list_given(krate), list_given(port)) {
            (Some((_, ours)), Some((_, theirs))) if ours.len() == self.cells.len() && theirs.len() == self.cells.len() => {
                for (at, cell) in self.cells.iter().enumerate() {
                    self.judge_one(findings, at, &self.wanted(cell), ours[at], theirs[at]);
                }
            }
            _ => {
                let read = format!("{} cells", self.cells.len());
                let said = [("crate", list_words(krate)), ("port", list_words(port)), ("read gave", read)];
                findings.differ(|| format!("{}, its values", self.layout.name()), &said);
            }
        }
    }

    fn judge_one(&self, findings: &mut Findings, at: usize, wanted: &str, krate: &str, port: &str) {
        if krate == wanted && port == wanted {
            return;
        }
        let own = wanted.strip_prefix('t').and_then(bytes_of).unwrap_or_default();
        match rule_of(self.pool.page, &own) {
            Some(rule) if port == wanted && krate.starts_with('t') => findings.expect(rule, || self.layout.place(at)),
            // The cell itself was held to the package's bytes.
            _ if (krate, port, wanted) == ("b", "n", "n") => findings.expect(Rule::EmptyCell, || self.layout.place(at)),
            _ => {
                let of = |one, other| shown::beside(one, if krate == port { wanted } else { other });
                let third = if wanted.starts_with('t') { "package" } else { "its cell" };
                let said = [("crate", of(krate, port)), ("port", of(port, krate)), (third, shown::beside(wanted, port))];
                findings.differ(|| self.layout.place(at), &said);
            }
        }
    }
}

/// The streams of a pool as both wrote them. The port's are held to the package byte for byte, the crate's entry for entry.
pub struct Written<'a> {
    pub pool: &'a Pool,
    /// Whether the crate writes this code page back as itself.
    pub kept: bool,
}

impl Written<'_> {
    /// The port's two streams, to the package.
    pub fn port(&self, findings: &mut Findings, answers: &[String]) {
        let wanted = [("_StringPool", self.pool.pool_stream()), ("_StringData", self.pool.data_stream())];
        for ((what, wanted), answer) in wanted.iter().zip(answers) {
            match bytes_given(answer) {
                Some(bytes) => streams(findings, what, [("port", &bytes), ("package", wanted)]),
                None => findings.differ(|| format!("{what} as written"), &[("port", shown::answer(answer))]),
            }
        }
    }

    /// The crate's two streams, taken apart again.
    pub fn krate(&self, findings: &mut Findings, answers: &[String]) {
        let (pool, data) = (bytes_given(&answers[0]), bytes_given(&answers[1]));
        let (Some(pool), Some(data)) = (pool, data) else {
            let said = [("crate", format!("{}, {}", shown::answer(&answers[0]), shown::answer(&answers[1])))];
            return findings.differ(|| "_StringPool and _StringData as written".into(), &said);
        };
        let read = match Pool::read(&pool, &data) {
            Ok(read) if read.pool_stream() == pool && read.data_stream() == data => read,
            _ => {
                let said = [("crate", "wrote what does not read back".to_string())];
                return findings.differ(|| "_StringPool and _StringData as written".into(), &said);
            }
        };
        self.head(findings, &read);
        self.entries(findings, &read);
    }

    fn head(&self, findings: &mut Findings, read: &Pool) {
        let said = |pool: &Pool| format!("code page {}, long {}, {} entries", pool.page, pool.long, pool.entries.len());
        if (read.long, read.entries.len()) == (self.pool.long, self.pool.entries.len()) {
            if read.page == self.pool.page {
                return;
            }
            if !self.kept {
                let pages = format!("_StringPool as written ({} became {})", self.pool.page, read.page);
                return findings.expect(Rule::Page, || pages);
            }
        }
        findings.differ(|| "the head of _StringPool as written".into(), &[("crate", said(read)), ("package", said(self.pool))]);
    }

    fn entries(&self, findings: &mut Findings, read: &Pool) {
        for (at, (one, own)) in read.entries.iter().zip(&self.pool.entries).enumerate() {
            if one.count == own.count && one.text == own.text {
                continue;
            }
            let place = || format!("entry {} of the pool as written", at + 1);
            match rule_of(self.pool.page, &own.text) {
                Some(rule) if one.count == own.count => findings.expect(rule, place),
                _ => {
                    let words = [text_word(&one.text), text_word(&own.text)];
                    let said = |word: &str, other: &str, count: u16| format!("{} with count {count}", shown::beside(word, other));
                    let said = [
                        ("crate", said(&words[0], &words[1], one.count)),
                        ("package", said(&words[1], &words[0], own.count)),
                    ];
                    findings.differ(place, &said);
                }
            }
        }
    }
}
