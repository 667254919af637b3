//! The string pool with its own rooms.

use crate::calls::{self, Rooms, RoomsMut, State};
use crate::refusal::{Place, Refusal, Result};
use crate::room::{cut, output, spare, widen};
use std::io::{self, Read, Write};
use std::iter::{FusedIterator, Zip};
use std::slice::Iter;
use std::sync::OnceLock;

/// The largest text room, the most entries, and for how many there is room at first.
const MAX_BYTES: usize = 268_435_455;
const MAX_ENTRIES: usize = StringRef::MAX as usize;
const FEW: usize = 16;

/// A take in rooms that are lent.
type Take = fn(State, RoomsMut<'_>, &[u8]) -> Result<(i32, State)>;

/// A reference to a text in the pool: its number, from 1 on.
#[derive(Clone, Copy, Debug, PartialEq, Eq, Hash, PartialOrd, Ord)]
pub struct StringRef(i32);

impl StringRef {
    /// The least number of a reference.
    pub const MIN: i32 = 1;

    /// The largest number of a reference.
    pub const MAX: i32 = 16_777_215;

    /// The reference with a number from [`MIN`](StringRef::MIN) to [`MAX`](StringRef::MAX); refused with 8.
    ///
    /// ```
    /// use strandroost::StringRef;
    ///
    /// assert_eq!(StringRef::new(7)?.number(), 7);
    /// assert_eq!(StringRef::new(0).unwrap_err().number(), 8);
    /// # Ok::<(), strandroost::Refusal>(())
    /// ```
    pub fn new(number: i32) -> Result<StringRef> {
        calls::string_ref(number).map(StringRef)
    }

    /// The reference with a number that a proved call answered, so that it is within the limits.
    pub(crate) fn answered(number: i32) -> StringRef {
        StringRef(number)
    }

    /// The reference's number.
    pub fn number(self) -> i32 {
        self.0
    }

    /// The place of its entry, from 0 on.
    fn place(self) -> usize {
        (self.0 as usize).wrapping_sub(1)
    }

    /// Reads a reference of three bytes or of two as a table has it, and none where they are 0. An error is the reader's.
    ///
    /// ```
    /// use strandroost::StringRef;
    ///
    /// assert_eq!(StringRef::read(&mut &[7, 0][..], false)?, StringRef::new(7).ok());
    /// assert_eq!(StringRef::read(&mut &[0, 0, 0][..], true)?, None);
    /// # Ok::<(), std::io::Error>(())
    /// ```
    pub fn read<R: Read>(reader: &mut R, long_string_refs: bool) -> io::Result<Option<StringRef>> {
        let mut bytes = [0; 4];
        reader.read_exact(&mut bytes[..width(long_string_refs)])?;
        Ok(StringRef::new(i32::from_le_bytes(bytes)).ok())
    }

    /// Writes a reference, or none, as a table has it. An error is the writer's, or refusal 18: above 65,535 in two bytes.
    ///
    /// ```
    /// use strandroost::StringRef;
    ///
    /// let mut stream = Vec::new();
    /// StringRef::write(&mut stream, StringRef::new(7).ok(), true)?;
    /// assert_eq!(stream, [7, 0, 0]);
    /// let error = StringRef::write(&mut stream, StringRef::new(65_536).ok(), false).unwrap_err();
    /// assert_eq!(error.to_string(), "the reference is above 65,535, and the table has short ones (refusal 18)");
    /// # Ok::<(), std::io::Error>(())
    /// ```
    pub fn write<W: Write>(writer: &mut W, string_ref: Option<StringRef>, long_string_refs: bool) -> io::Result<()> {
        let number = string_ref.map_or(0, StringRef::number);
        if number > 65_535 && !long_string_refs {
            return Err(Refusal::new(18, Place::Nowhere).into());
        }
        writer.write_all(&number.to_le_bytes()[..width(long_string_refs)])
    }
}

/// How many bytes of a table a reference takes.
pub(crate) fn width(long_string_refs: bool) -> usize {
    if long_string_refs { 3 } else { 2 }
}

/// The string pool of a database: texts, each with how many references count on it.
///
/// Nobody else writes its rooms, so the pool is sound, and one pass over it gives a view of all texts: [`texts`](StringPool::texts)
/// walks it, and [`get`](StringPool::get) hands out parts of it.
///
/// It owns its rooms and lets them grow, so 4 and 6 reach a caller only where texts would pass 268,435,455 bytes (6), or where the
/// system has no memory for entries (4) or texts (6). A call that is refused leaves the rooms as large as they were.
///
/// ```
/// use strandroost::StringPool;
///
/// let mut pool = StringPool::new(1252)?;
/// let name = pool.incref(b"Name")?;
/// assert_eq!(pool.incref(b"Name")?, name);
/// assert_eq!((pool.get(name), pool.refcount(name)), (&b"Name"[..], 2));
/// let again = StringPool::load(&pool.write_pool()?, &pool.write_data()?)?;
/// assert_eq!(again.get(name), b"Name");
/// # Ok::<(), strandroost::Refusal>(())
/// ```
#[derive(Clone, Debug)]
pub struct StringPool {
    state: State,
    lengths: Vec<u32>,
    counts: Vec<u16>,
    text: Vec<u8>,
    /// Where each text begins and ends: found by one pass when it is first needed, and forgotten when texts move.
    bounds: OnceLock<Vec<u32>>,
}

impl StringPool {
    /// An empty pool with short references. Refused with 21.
    pub fn new(codepage: u32) -> Result<StringPool> {
        let state = calls::new(codepage)?;
        Ok(StringPool { state, lengths: Vec::new(), counts: Vec::new(), text: Vec::new(), bounds: OnceLock::new() })
    }

    /// The pool of a pool stream and a data stream. Refused with 22, 1, 2, 3, 5, each before memory is asked for what it judges.
    pub fn load(pool: &[u8], data: &[u8]) -> Result<StringPool> {
        // An entry takes four bytes of the stream at least, and the texts are no longer than the data stream.
        let (entries, bytes) = ((pool.len().saturating_sub(4) / 4).min(MAX_ENTRIES), data.len());
        let mut made = StringPool::new(0)?;
        loop {
            match calls::load(pool, data, made.rooms_mut()) {
                Ok(state) => {
                    made.state = state;
                    made.cut(state.num_strings, made.text_bytes());
                    return Ok(made);
                }
                Err(refusal) if refusal.number() == 4 && made.widen_entries(entries) => (),
                Err(refusal) if refusal.number() == 6 && widen(&mut made.text, bytes) => (),
                Err(refusal) => return Err(refusal),
            }
        }
    }

    fn rooms(&self) -> Rooms<'_> {
        Rooms { lengths: &self.lengths, counts: &self.counts, text: &self.text }
    }

    fn rooms_mut(&mut self) -> RoomsMut<'_> {
        RoomsMut { lengths: &mut self.lengths, counts: &mut self.counts, text: &mut self.text }
    }

    /// The lengths in use.
    fn lengths(&self) -> &[u32] {
        self.lengths.get(..self.state.num_strings).unwrap_or_default()
    }

    /// The counts in use.
    fn counts(&self) -> &[u16] {
        self.counts.get(..self.state.num_strings).unwrap_or_default()
    }

    /// How many bytes the texts take.
    fn text_bytes(&self) -> usize {
        self.lengths().iter().map(|length| *length as usize).sum()
    }

    /// The code page.
    pub fn codepage(&self) -> u32 {
        self.state.codepage
    }

    /// Sets the code page. Refused with 21.
    pub fn set_codepage(&mut self, codepage: u32) -> Result<()> {
        self.state = calls::set_codepage(self.state, self.rooms(), codepage)?;
        Ok(())
    }

    /// How many entries there are, free ones with them.
    pub fn num_strings(&self) -> usize {
        self.state.num_strings
    }

    /// Whether references take three bytes in a table.
    pub fn long_string_refs(&self) -> bool {
        self.state.long_string_refs
    }

    /// The text of a reference, empty past the last entry. The first call after texts moved finds where each begins, by one pass;
    /// every other is an index.
    pub fn get(&self, reference: StringRef) -> &[u8] {
        match self.bounds().get(reference.place()..reference.place() + 2) {
            Some([start, end]) => self.text.get(*start as usize..*end as usize).unwrap_or_default(),
            // Without memory for the bounds: by a pass.
            _ if self.bounds().is_empty() => self.texts().nth(reference.place()).map_or(&[], |entry| entry.text),
            _ => &[],
        }
    }

    /// Where each text begins, and last where the last one ends; none where the system has no memory for them. The pool is sound,
    /// so no sum is above the largest text room.
    fn bounds(&self) -> &[u32] {
        self.bounds.get_or_init(|| {
            let mut end: u32 = 0;
            let ends = self.lengths().iter().map(|length| {
                end = end.wrapping_add(*length);
                end
            });
            let mut bounds = spare(self.state.num_strings + 1).unwrap_or_default();
            if bounds.capacity() > 0 {
                bounds.extend(std::iter::once(0).chain(ends));
            }
            bounds
        })
    }

    /// How many references count on a number, 0 past the last entry.
    pub fn refcount(&self, reference: StringRef) -> u16 {
        self.counts().get(reference.place()).copied().unwrap_or_default()
    }

    /// Every entry in order, free ones with them, by one pass.
    ///
    /// ```
    /// use strandroost::StringPool;
    ///
    /// let mut pool = StringPool::new(1252)?;
    /// for text in ["Arial", "Times", "Arial"] {
    ///     pool.incref(text.as_bytes())?;
    /// }
    /// let twice: Vec<_> = pool.texts().filter(|entry| entry.count == 2).map(|entry| entry.text).collect();
    /// assert_eq!(twice, [b"Arial"]);
    /// # Ok::<(), strandroost::Refusal>(())
    /// ```
    pub fn texts(&self) -> Texts<'_> {
        Texts { entries: self.lengths().iter().zip(self.counts()), number: 0, rest: &self.text }
    }

    /// One reference more on a text. The first entry that has it and a count from 1 to 65,534 counts up, wherever it stands; else the
    /// text goes into the first free entry, else into a new one. Refused with 22, 11, 12, 6; with none of the last three where an
    /// entry counts up.
    ///
    /// ```
    /// use strandroost::StringPool;
    ///
    /// let mut pool = StringPool::new(1252)?;
    /// let (next, back) = (pool.incref(b"Next")?, pool.incref(b"Back")?);
    /// pool.decref(next)?;
    /// assert_eq!(pool.incref(b"Back")?, back);
    /// # Ok::<(), strandroost::Refusal>(())
    /// ```
    pub fn incref(&mut self, text: &[u8]) -> Result<StringRef> {
        self.take_by(calls::incref, text)
    }

    /// One reference more on a text, by document 01's choice, which is the crate's: the first entry that is free, or has the text and a
    /// count below 65,535. So a text may stand twice. For a caller that replays recorded takes: it gets the numbers that were recorded.
    /// Refused with 22, 11, 12, 6.
    ///
    /// ```
    /// use strandroost::StringPool;
    ///
    /// let mut pool = StringPool::new(1252)?;
    /// let (next, back) = (pool.incref(b"Next")?, pool.incref(b"Back")?);
    /// pool.decref(next)?;
    /// assert_eq!(pool.incref_first(b"Back")?, next);
    /// assert_eq!(pool.get(next), pool.get(back));
    /// # Ok::<(), strandroost::Refusal>(())
    /// ```
    pub fn incref_first(&mut self, text: &[u8]) -> Result<StringRef> {
        self.take_by(calls::incref_first, text)
    }

    fn take_by(&mut self, take: Take, text: &[u8]) -> Result<StringRef> {
        let before = (self.lengths.len(), self.text.len());
        loop {
            match take(self.state, self.rooms_mut(), text) {
                Ok((number, after)) => {
                    self.state = after;
                    return Ok(self.taken(StringRef::answered(number)));
                }
                Err(refusal) if refusal.number() == 4 && self.grow_entries() => (),
                Err(refusal) if refusal.number() == 6 && self.grow_text(text.len()) => (),
                Err(refusal) => {
                    self.cut(before.0, before.1);
                    return Err(refusal);
                }
            }
        }
    }

    /// After a take: no text moved where an equal one counted up, which leaves its count above 1.
    fn taken(&mut self, reference: StringRef) -> StringRef {
        if self.refcount(reference) == 1 {
            self.bounds.take();
        }
        reference
    }

    /// Makes both rooms of the entries so long, or neither.
    fn widen_entries(&mut self, entries: usize) -> bool {
        let before = self.lengths.len();
        let had = widen(&mut self.lengths, entries) && widen(&mut self.counts, entries);
        if !had {
            cut(&mut self.lengths, before);
        }
        had
    }

    /// Room for an entry more, or for twice as many. False where there is no memory for it.
    fn grow_entries(&mut self) -> bool {
        let needed = self.state.num_strings + 1;
        let twice = needed.max(2 * self.lengths.len()).clamp(FEW, MAX_ENTRIES);
        self.widen_entries(twice) || self.widen_entries(needed)
    }

    /// Room for a text more, or for twice as many bytes. False where there is no memory for it.
    fn grow_text(&mut self, text: usize) -> bool {
        // A text that needs room goes into the first free entry, whose bytes go, or into a new one.
        let free = self.counts().iter().position(|count| *count == 0);
        let freed = free.and_then(|place| self.lengths.get(place)).map_or(0, |length| *length as usize);
        let needed = self.text_bytes() - freed + text;
        let twice = needed.max(2 * self.text.len()).min(MAX_BYTES);
        needed <= MAX_BYTES && (widen(&mut self.text, twice) || widen(&mut self.text, needed))
    }

    /// Gives back what the rooms have over so many entries and bytes.
    fn cut(&mut self, entries: usize, bytes: usize) {
        cut(&mut self.lengths, entries);
        cut(&mut self.counts, entries);
        cut(&mut self.text, bytes);
    }

    /// One reference less on a number; the last one takes the text with it. Refused with 9, 10.
    ///
    /// ```
    /// use strandroost::StringPool;
    ///
    /// let mut pool = StringPool::new(1252)?;
    /// let name = pool.incref(b"Name")?;
    /// pool.decref(name)?;
    /// assert_eq!(pool.decref(name).unwrap_err().number(), 10);
    /// # Ok::<(), strandroost::Refusal>(())
    /// ```
    pub fn decref(&mut self, reference: StringRef) -> Result<()> {
        self.state = calls::decref(self.state, self.rooms_mut(), reference.number())?;
        if self.refcount(reference) == 0 {
            self.bounds.take();
        }
        Ok(())
    }

    /// The pool stream. Refused with 7 where the system has no memory for it.
    pub fn write_pool(&self) -> Result<Vec<u8>> {
        let mut out = output(4 + 8 * self.state.num_strings)?;
        let bytes = calls::write_pool(self.state, self.rooms(), &mut out)?;
        cut(&mut out, bytes);
        Ok(out)
    }

    /// The data stream. Refused with 7 where the system has no memory for it.
    pub fn write_data(&self) -> Result<Vec<u8>> {
        let mut out = output(self.text_bytes())?;
        calls::write_data(self.state, self.rooms(), &mut out)?;
        Ok(out)
    }
}

/// An entry of a pool: [`StringPool::texts`] gives them.
#[derive(Clone, Copy, Debug, PartialEq, Eq)]
pub struct Entry<'a> {
    /// Its number.
    pub reference: StringRef,
    /// Its text.
    pub text: &'a [u8],
    /// How many references count on it, 0 where it is free.
    pub count: u16,
}

/// The entries of a pool in order: [`StringPool::texts`] makes it.
#[derive(Clone, Debug)]
pub struct Texts<'a> {
    entries: Zip<Iter<'a, u32>, Iter<'a, u16>>,
    /// The number before the next.
    number: i32,
    /// The texts from the next on.
    rest: &'a [u8],
}

impl<'a> Iterator for Texts<'a> {
    type Item = Entry<'a>;

    fn next(&mut self) -> Option<Entry<'a>> {
        let (length, count) = self.entries.next()?;
        let text = self.rest.get(..*length as usize).unwrap_or_default();
        self.rest = self.rest.get(text.len()..).unwrap_or_default();
        self.number += 1;
        Some(Entry { reference: StringRef(self.number), text, count: *count })
    }

    fn size_hint(&self) -> (usize, Option<usize>) {
        self.entries.size_hint()
    }
}

impl ExactSizeIterator for Texts<'_> {}

impl FusedIterator for Texts<'_> {}
