//! The pool of a package: loaded on both sides, held to the package, and written again.
use crate::findings::Rule;
use crate::judge::{self, Written};
use crate::layouts::Layout;
use crate::reading::{self, Pool};
use crate::refusal::{Place, Refusal};
use crate::shown;
use crate::walk::{flag, hex, Ended, TableSeen, Walk, EXACT};

/// Why a stream was not written back as it was.
fn why(was: &[u8], written: &[u8]) -> String {
    if was.starts_with(written) {
        return format!("{} bytes past its end are not kept", was.len() - written.len());
    }
    let at = shown::parting(was, written);
    format!("{} bytes became {}, and byte {at} differs", was.len(), written.len())
}

impl Walk<'_> {
    /// Loads the pool on both sides and writes it again: the tool's own reading of it, or none where it is refused.
    pub fn pool(&mut self, pool: &[u8], data: &[u8]) -> Result<Option<Pool>, Ended> {
        self.progress.begin(format!("{}: its pool, {} bytes", self.name, pool.len() + data.len()));
        let known = self.load(pool, data)?;
        let own = match Pool::read(pool, data) {
            Ok(own) => own,
            Err(number) => {
                // A code page that the crate does not know hides its refusal: asked again without it.
                if !known {
                    self.load(&reading::with_page(pool, EXACT), data)?;
                }
                self.refused_pool(number);
                return Ok(None);
            }
        };
        self.head = Some((own.page, own.long, own.entries.len()));
        self.uses = vec![0; own.entries.len()];
        let written = if known { self.written(&own)? } else { self.written_by_port(&own)? };
        self.rewritten("_StringPool", pool, &written[0], own.entries.len());
        self.rewritten("_StringData", data, &written[1], own.entries.len());
        if known {
            return Ok(Some(own));
        }
        let (pool, own) = (reading::with_page(pool, EXACT), Pool { page: EXACT, ..own });
        self.findings.notes.push(format!("compared with the code page set to {EXACT} on both sides"));
        self.findings.under = format!(" (code page set to {EXACT})");
        self.load(&pool, data)?;
        self.written(&own)?;
        Ok(Some(own))
    }

    fn refused_pool(&mut self, number: u32) {
        let refusal = Refusal::new(number, Place::Nowhere);
        self.findings.notes.push(format!("refused by both: the pool: {refusal}"));
        self.refusal = Some(refusal);
    }

    /// Loads a pool, and holds both answers to the tool's own reading; whether the crate knows its code page.
    pub fn load(&mut self, pool: &[u8], data: &[u8]) -> Result<bool, Ended> {
        let (krate, port) = self.ask(&[format!("load {} {}", hex(pool), hex(data))])?;
        let (krate, port) = (krate[0].as_str(), port[0].as_str());
        let page = pool.first_chunk::<4>().map_or(EXACT, |head| u32::from_le_bytes(*head) & 0x7fff_ffff);
        let (own, rest) = match Pool::read(pool, data).map(|own| format!(" {} {}", flag(own.long), own.entries.len())) {
            Ok(rest) => (format!("ok {page}{rest}"), rest),
            Err(number) => (format!("error {number}"), String::new()),
        };
        let place = || "the pool, loaded".to_string();
        let said = || [("crate", shown::pool(krate)), ("port", shown::pool(port)), ("package", shown::pool(&own))];
        if port != own {
            self.findings.differ(place, &said());
            return Ok(krate != "error 0");
        }
        if krate == own {
            return Ok(true);
        }
        let kept = self.pages.kept(page);
        if !kept && krate == "error 0" {
            self.findings.expect(Rule::UnknownPage, || format!("the pool, loaded (code page {page})"));
            return Ok(false);
        }
        if !kept && own.starts_with("ok") && krate.starts_with("ok ") && krate.ends_with(&rest) {
            let became = krate.split(' ').nth(1).unwrap_or("");
            self.findings.expect(Rule::Page, || format!("the pool, loaded ({page} became {became})"));
        } else {
            self.findings.differ(place, &said());
        }
        Ok(krate != "error 0")
    }

    /// Both streams written by both sides; the port's.
    pub fn written(&mut self, own: &Pool) -> Result<Vec<String>, Ended> {
        let (krate, port) = self.ask(&["wpool".into(), "wdata".into()])?;
        let written = Written { pool: own, kept: self.pages.kept(own.page) };
        written.port(&mut self.findings, &port);
        written.krate(&mut self.findings, &krate);
        Ok(port)
    }

    /// The crate has no such pool: the port alone is held to the package.
    fn written_by_port(&mut self, own: &Pool) -> Result<Vec<String>, Ended> {
        let port = self.both.port.ask(&["wpool".into(), "wdata".into()]);
        Written { pool: own, kept: false }.port(&mut self.findings, &port);
        Ok(port)
    }

    fn rewritten(&mut self, name: &str, was: &[u8], answer: &str, entries: usize) {
        let after = judge::bytes_given(answer);
        let result = self.compared(name, was, after.as_deref());
        let layout = Layout { table: name.into(), columns: Vec::new() };
        let (before, cells) = (Some(was.to_vec()), String::new());
        self.seen.push(TableSeen { layout, rows: entries, refusal: None, result, before, after, cells });
    }

    /// A stream and what was written in its place.
    pub fn compared(&mut self, name: &str, was: &[u8], written: Option<&[u8]>) -> String {
        let Some(written) = written else { return "not written".into() };
        self.tally.rewritten += 1;
        if was == written {
            self.tally.identical += 1;
            return "identical".into();
        }
        let why = why(was, written);
        self.findings.notes.push(format!("not identical: {name}: {why}"));
        why
    }
}
