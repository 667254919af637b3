//! Words of the command language, put so that a person reads them.
use crate::language::{bytes_of, units_of};
use crate::refusal::{Place, Refusal};

/// A text on one line: a backslash, tab or end of line is written behind a backslash, and so is a byte that is no printable
/// character; a text that is no UTF-8 has all its bytes above 127 so.
pub fn text(bytes: &[u8]) -> String {
    let mut line = String::new();
    match std::str::from_utf8(bytes) {
        Ok(text) => text.chars().for_each(|character| put(character, &mut line)),
        Err(_) => bytes.iter().for_each(|byte| match byte {
            0x80.. => line.push_str(&format!("\\x{byte:02x}")),
            _ => put(char::from(*byte), &mut line),
        }),
    }
    line
}

fn put(character: char, line: &mut String) {
    match character {
        '\\' => line.push_str("\\\\"),
        '\t' => line.push_str("\\t"),
        '\n' => line.push_str("\\n"),
        '\r' => line.push_str("\\r"),
        '\0'..=' ' if character != ' ' => line.push_str(&format!("\\x{:02x}", character as u32)),
        '\x7f' => line.push_str("\\x7f"),
        _ => line.push(character),
    }
}

/// A cell's or a value's word: `s7` is reference 7, `tBYTES` a text.
pub fn word(word: &str) -> String {
    let rest = word.get(1..).unwrap_or("");
    match word.as_bytes().first() {
        Some(b'n') => "Null".into(),
        Some(b'b') => "Binary".into(),
        Some(b'i') => rest.into(),
        Some(b's') => format!("reference {rest}"),
        Some(b't') => format!("\"{}\"", text(&bytes_of(rest).unwrap_or_default())),
        _ => word.into(),
    }
}

/// A value as a field of a tab-separated line: Null is nothing, and a text of no bytes `""`.
pub fn field(word: &str) -> String {
    match word {
        "n" => String::new(),
        "b" => "[Binary]".into(),
        "t-" => "\"\"".into(),
        _ => match word.strip_prefix('t') {
            Some(bytes) => text(&bytes_of(bytes).unwrap_or_default()),
            None => word.get(1..).unwrap_or("").into(),
        },
    }
}

/// The refusal in an answer.
pub fn refusal(answer: &str) -> Option<Refusal> {
    let rest = answer.strip_prefix("error ").or_else(|| answer.strip_prefix("panic "))?;
    let numbers: Vec<usize> = rest.split(' ').map(|word| word.parse().ok()).collect::<Option<_>>()?;
    let (number, place) = match numbers[..] {
        [number] => (number, Place::Nowhere),
        [number, column] => (number, Place::Column(column)),
        [number, column, row] => (number, Place::Cell { row, column }),
        _ => return None,
    };
    Some(Refusal::new(u32::try_from(number).ok()?, place))
}

/// An answer as a whole, where it is short or a refusal.
pub fn answer(answer: &str) -> String {
    match refusal(answer) {
        Some(refusal) if refusal.number() == 0 => "refused, with no number".into(),
        Some(refusal) => format!("refused: {refusal}"),
        None => near(answer.as_bytes(), 0, text),
    }
}

/// What `load` answers.
pub fn pool(given: &str) -> String {
    match given.split(' ').collect::<Vec<_>>()[..] {
        ["ok", page, long, entries] => {
            format!("code page {page}, {} references, {entries} entries", if long == "0" { "short" } else { "long" })
        }
        _ => answer(given),
    }
}

/// What `dec` answers.
pub fn name(given: &str) -> String {
    match given.split(' ').collect::<Vec<_>>()[..] {
        ["ok", table, units] => {
            let units = units_of(units).unwrap_or_default();
            format!("{} '{}'", if table == "0" { "plain" } else { "a table's" }, text(String::from_utf16_lossy(&units).as_bytes()))
        }
        _ => answer(given),
    }
}

const AROUND: usize = 24;

/// Some bytes around a place, with dots where there is more.
fn near(bytes: &[u8], at: usize, shown: impl Fn(&[u8]) -> String) -> String {
    let (start, end) = (at.saturating_sub(AROUND), bytes.len().min(at + 2 * AROUND));
    let (before, after) = (if start > 0 { ".." } else { "" }, if end < bytes.len() { ".." } else { "" });
    format!("{before}{}{after}", shown(&bytes[start.min(end)..end]))
}

/// The first byte in which two differ.
pub fn parting(one: &[u8], other: &[u8]) -> usize {
    one.iter().zip(other).take_while(|(a, b)| a == b).count()
}

/// A word beside another: a long text is shown around its first byte that differs.
pub fn beside(one: &str, other: &str) -> String {
    let (Some(mine), Some(theirs)) = (one.strip_prefix('t').and_then(bytes_of), other.strip_prefix('t').and_then(bytes_of)) else {
        return word(one);
    };
    let at = parting(&mine, &theirs);
    format!("\"{}\"", near(&mine, at, text))
}

fn hex(bytes: &[u8]) -> String {
    bytes.iter().map(|byte| format!("{byte:02x}")).collect()
}

/// The bytes at a place, as far as they go.
pub fn bytes_at(bytes: &[u8], at: usize) -> String {
    match bytes.get(at..bytes.len().min(at + 8)) {
        None | Some([]) => format!("ends after {} bytes", bytes.len()),
        Some(some) => format!("{}{}", hex(some), if at + 8 < bytes.len() { ".." } else { "" }),
    }
}
