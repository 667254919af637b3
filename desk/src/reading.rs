//! The tool's own plain reading of names and pools, by document 01: a third voice beside the crate and the port, to which the
//! answers of both are held.

const MOST_BYTES: usize = 268_435_455;
const MOST_ENTRIES: usize = 16_777_215;
const LONG: u32 = 0x8000_0000;

pub struct Entry {
    pub count: u16,
    pub text: Vec<u8>,
}

pub struct Pool {
    pub page: u32,
    pub long: bool,
    pub entries: Vec<Entry>,
}

fn number(bytes: &[u8]) -> u32 {
    bytes.iter().rev().fold(0, |sum, byte| sum << 8 | u32::from(*byte))
}

/// The lengths and counts of a pool stream after its head, or the refusal's number.
fn entries_of(mut rest: &[u8]) -> Result<Vec<(usize, u16)>, u32> {
    let mut entries = Vec::new();
    while rest.len() >= 2 {
        if rest.len() < 4 {
            return Err(2);
        }
        let (length, count) = (number(&rest[..2]), number(&rest[2..4]) as u16);
        let long_length = length == 0 && count > 0;
        let used = if long_length { 8 } else { 4 };
        if rest.len() < used {
            return Err(2);
        }
        entries.push((number(if long_length { &rest[4..8] } else { &rest[..2] }) as usize, count));
        rest = &rest[used..];
    }
    Ok(entries)
}

impl Pool {
    /// The pool of the two streams, or the refusal's number.
    pub fn read(pool: &[u8], data: &[u8]) -> Result<Pool, u32> {
        if pool.len() > MOST_BYTES || data.len() > MOST_BYTES {
            return Err(22);
        }
        if pool.len() < 4 {
            return Err(1);
        }
        let head = number(&pool[..4]);
        let sizes = entries_of(&pool[4..])?;
        if sizes.len() > MOST_ENTRIES {
            return Err(3);
        }
        let (mut entries, mut at) = (Vec::new(), 0);
        for (length, count) in sizes {
            let text = data.get(at..at + length).ok_or(5u32)?.to_vec();
            at += length;
            entries.push(Entry { count, text });
        }
        Ok(Pool { page: head & !LONG, long: head & LONG != 0, entries })
    }

    /// The text of a reference: none of one past the end.
    pub fn text(&self, reference: i32) -> &[u8] {
        let place = usize::try_from(reference).ok().and_then(|number| number.checked_sub(1));
        place.and_then(|place| self.entries.get(place)).map_or(&[], |entry| &entry.text)
    }

    pub fn pool_stream(&self) -> Vec<u8> {
        let mut stream = (self.page | if self.long { LONG } else { 0 }).to_le_bytes().to_vec();
        for Entry { count, text } in &self.entries {
            let short = u16::try_from(text.len()).unwrap_or(0);
            stream.extend(short.to_le_bytes());
            stream.extend(count.to_le_bytes());
            if short == 0 && *count > 0 {
                stream.extend((text.len() as u32).to_le_bytes());
            }
        }
        stream
    }

    pub fn data_stream(&self) -> Vec<u8> {
        self.entries.iter().flat_map(|entry| entry.text.iter().copied()).collect()
    }
}

/// The head of a pool stream with another code page; its mark of long references stays.
pub fn with_page(pool: &[u8], page: u32) -> Vec<u8> {
    let mut changed = pool.to_vec();
    if let Some(head) = changed.first_chunk_mut::<4>() {
        *head = (u32::from_le_bytes(*head) & LONG | page).to_le_bytes();
    }
    changed
}

fn letter(place: u16) -> u16 {
    const LETTERS: &[u8; 64] = b"0123456789ABCDEFGHIJKLMNOPQRSTUVWXYZabcdefghijklmnopqrstuvwxyz._";
    u16::from(LETTERS[usize::from(place & 63)])
}

/// Whether a stored name is a table's, and the name that it stands for.
pub fn decoded(stored: &[u16]) -> (bool, Vec<u16>) {
    let (table, rest) = match stored {
        [0x4840, rest @ ..] => (true, rest),
        _ => (false, stored),
    };
    let mut name = Vec::new();
    for unit in rest {
        match *unit {
            0x3800..=0x47ff => name.extend([letter(*unit), letter((*unit - 0x3800) >> 6)]),
            0x4800..=0x483f => name.push(letter(*unit)),
            other => name.push(other),
        }
    }
    (table, name)
}
