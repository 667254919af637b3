//! What the crate has no notion of: lent rooms and outputs, and the refusals that come of them. The port is held to the crate's
//! answer for an output that suffices, to a small model of the pool in its rooms, and to the answers of document 01: the edges of
//! crates/edges, and every column's bits.
use crate::language::{bytes_of, put_bytes, Choice};
use crate::random::Random;

/// What the port has to answer.
#[derive(Clone)]
pub enum Expect {
    /// Not looked at: the command only sets the stage.
    Any,
    Is(String),
    /// As the crate, or 7 where its result has more than so many places.
    Limited(usize),
    /// The output after such a command: the result, then what was there; `width` bytes to a place.
    Left { places: usize, width: usize },
    /// The outputs after `read`: the kinds, then the numbers, each followed by what was there.
    LeftCells(usize),
}

#[derive(Clone)]
pub struct LentCase {
    pub kind: &'static str,
    pub lines: Vec<(String, Expect)>,
    /// What the case was made from, where a model knows its answers.
    recipe: Option<Recipe>,
}

impl LentCase {
    /// The same case with something left out: a step or an entry of its recipe, or a part of its command.
    pub fn smaller(&self, shorter: fn(&str) -> Vec<String>) -> Vec<LentCase> {
        if let Some(recipe) = &self.recipe {
            return recipe.smaller().into_iter().map(in_rooms).collect();
        }
        let command = self.lines.iter().position(|(_, expect)| matches!(expect, Expect::Limited(places) if *places < usize::MAX));
        let Some(at) = command else { return Vec::new() };
        // A number of a layout that is cut in two is another layout.
        let layout = |line: &str| line.split(' ').nth(2).filter(|_| line.starts_with('r') || line.starts_with("write")).map(String::from);
        let same = layout(&self.lines[at].0);
        let copies = shorter(&self.lines[at].0).into_iter().filter(|line| layout(line) == same).map(|line| {
            let mut copy = self.clone();
            copy.lines[at].0 = line;
            copy
        });
        copies.collect()
    }
}

/// The edges of document 01, which a proved program answers too: the commands, and the answers.
const EDGES: [&str; 2] = [include_str!("../../crates/edges/stdin"), include_str!("../../crates/edges/stdout")];

fn fill(bytes: usize) -> String {
    "ee".repeat(bytes)
}

fn or_none(word: String) -> String {
    if word.is_empty() { "-".into() } else { word }
}

/// The kind and the number of each cell in an answer to `read`.
fn cells_of(answer: &str) -> Option<Vec<(u8, i32)>> {
    let words: Vec<&str> = answer.split(' ').collect();
    let ["ok", _, cells] = words[..] else { return None };
    let cells = cells.split(',').filter(|cell| *cell != "-").map(|cell| match cell.split_at(1) {
        ("i", number) => Some((1, number.parse().ok()?)),
        ("s", number) => Some((2, number.parse().ok()?)),
        ("b", _) => Some((3, 0)),
        _ => Some((0, 0)),
    });
    cells.collect()
}

/// How many places the result of the crate's answer takes, and its bytes as they lie in the output.
fn result_of(line: &str, answer: &str, width: usize) -> Option<(usize, String)> {
    let mut words = answer.split(' ');
    if words.next() != Some("ok") {
        return None;
    }
    let word = words.last()?;
    match line.split(' ').next()? {
        "read" => return Some((cells_of(answer)?.len(), String::new())),
        // Each text is shown by itself: the longest has to fit.
        "rows" => {
            let texts = word.split(',').filter_map(|value| bytes_of(value.strip_prefix('t')?));
            return Some((texts.map(|text| text.len()).max()?, String::new()));
        }
        "load" | "take" => return None,
        _ => {}
    }
    let bytes = bytes_of(word.strip_prefix('t').unwrap_or(word))?;
    let mut lying = String::new();
    // Units are written high byte first, and lie low byte first.
    for place in bytes.chunks(width) {
        put_bytes(&place.iter().rev().copied().collect::<Vec<u8>>(), &mut lying);
    }
    Some((bytes.len() / width, lying))
}

/// The answer that is expected, given the crate's answers up to the line.
pub fn expected(case: &LentCase, at: usize, krate: &[String]) -> Option<String> {
    let (line, expect) = &case.lines[at];
    match expect {
        Expect::Any => None,
        Expect::Is(answer) => Some(answer.clone()),
        Expect::Limited(places) => {
            let width = if line.starts_with("enc") || line.starts_with("dec") { 2 } else { 1 };
            match result_of(line, &krate[at], width) {
                Some((needed, _)) if needed > *places => Some("error 7".into()),
                _ => Some(krate[at].clone()),
            }
        }
        Expect::Left { places, width } => {
            let left = match result_of(&case.lines[at - 1].0, &krate[at - 1], *width) {
                Some((needed, lying)) if needed <= *places => lying + &fill((places - needed) * width),
                _ => fill(places * width),
            };
            Some(or_none(left))
        }
        Expect::LeftCells(places) => {
            let cells = cells_of(&krate[at - 1])?;
            let cells = if cells.len() <= *places { cells } else { Vec::new() };
            let kinds: Vec<u8> = cells.iter().map(|cell| cell.0).collect();
            let numbers: Vec<u8> = cells.iter().flat_map(|cell| cell.1.to_le_bytes()).collect();
            let rest = places - cells.len();
            let left = [plain(&kinds), fill(rest), plain(&numbers), fill(4 * rest)].concat();
            Some(or_none(left))
        }
    }
}

fn plain(bytes: &[u8]) -> String {
    if bytes.is_empty() { String::new() } else { hex(bytes) }
}

/// A command whose output has so many places, after what sets the stage.
fn limited(stage: &[&str], command: String, left: Expect, places: usize) -> LentCase {
    let mut lines: Vec<(String, Expect)> = stage.iter().map(|line| (line.to_string(), Expect::Limited(usize::MAX))).collect();
    lines.push((format!("out {places}"), Expect::Is("ok".into())));
    lines.push((command, Expect::Limited(places)));
    lines.push(("held".into(), left));
    lines.push(("out -".into(), Expect::Is("ok".into())));
    LentCase { kind: "lent output", lines, recipe: None }
}

fn hex(bytes: &[u8]) -> String {
    let mut word = String::new();
    put_bytes(bytes, &mut word);
    word
}

fn listed<T: ToString>(numbers: &[T]) -> String {
    or_none(numbers.iter().map(T::to_string).collect::<Vec<_>>().join(","))
}

/// A pool in lent rooms, written down from document 01's words alone, its default take from document 02's.
struct Model {
    entries: Vec<(Vec<u8>, u16)>,
    lengths: Vec<u32>,
    counts: Vec<u16>,
    text: Vec<u8>,
}

impl Model {
    fn new(lengths: usize, counts: usize, text: usize) -> Model {
        Model { entries: Vec::new(), lengths: vec![0xeeee_eeee; lengths], counts: vec![0xeeee; counts], text: vec![0xee; text] }
    }

    fn room(&self) -> usize {
        self.lengths.len().min(self.counts.len())
    }

    fn total(entries: &[(Vec<u8>, u16)]) -> usize {
        entries.iter().map(|entry| entry.0.len()).sum()
    }

    /// Puts the entries into the rooms; bytes given up become 0 where the call is a take or a drop.
    fn put(&mut self, entries: Vec<(Vec<u8>, u16)>, clears: bool) {
        let (was, mut at) = (Model::total(&self.entries), 0);
        for (place, (text, count)) in entries.iter().enumerate() {
            self.lengths[place] = text.len() as u32;
            self.counts[place] = *count;
            self.text[at..at + text.len()].copy_from_slice(text);
            at += text.len();
        }
        if clears && at < was {
            self.text[at..was].fill(0);
        }
        self.entries = entries;
    }

    fn load(&mut self, entries: Vec<(Vec<u8>, u16)>) -> String {
        if entries.len() > self.room() {
            return "error 4".into();
        }
        if Model::total(&entries) > self.text.len() {
            return "error 6".into();
        }
        let count = entries.len();
        self.put(entries, false);
        format!("ok 1252 0 {count}")
    }

    /// The place of the entry that a take chooses; past the last it is a new one.
    fn chosen(&self, choice: Choice, text: &[u8]) -> usize {
        let free = |entry: &(Vec<u8>, u16)| entry.1 == 0;
        let equal = |entry: &(Vec<u8>, u16)| entry.0 == text && (1..=65_534).contains(&entry.1);
        let found = match choice {
            Choice::First => self.entries.iter().position(|entry| free(entry) || equal(entry)),
            Choice::Default => self.entries.iter().position(equal).or_else(|| self.entries.iter().position(free)),
        };
        found.unwrap_or(self.entries.len())
    }

    fn take(&mut self, choice: Choice, text: &[u8]) -> String {
        let (place, mut after) = (self.chosen(choice, text), self.entries.clone());
        match after.get_mut(place) {
            Some(entry) if entry.1 > 0 => entry.1 += 1,
            Some(entry) => *entry = (text.to_vec(), 1),
            None if place >= self.room() => return "error 4".into(),
            None => after.push((text.to_vec(), 1)),
        }
        if Model::total(&after) > self.text.len() {
            return "error 6".into();
        }
        self.put(after, true);
        format!("ok {}", place + 1)
    }

    fn drop(&mut self, number: usize) -> String {
        let mut after = self.entries.clone();
        match after.get_mut(number - 1) {
            None => return "panic 9".into(),
            Some(entry) if entry.1 == 0 => return "panic 10".into(),
            Some(entry) if entry.1 == 1 => *entry = (Vec::new(), 0),
            Some(entry) => entry.1 -= 1,
        }
        self.put(after, true);
        "ok".into()
    }

    /// The answer to `held`, but for the output.
    fn held(&self) -> String {
        format!("ok {} {} {}", listed(&self.lengths), listed(&self.counts), hex(&self.text))
    }
}

fn small_text(random: &mut Random) -> Vec<u8> {
    (0..random.below(4)).map(|_| random.pick(b"AB")).collect()
}

/// A text of one of the entries, or any.
fn text_among(random: &mut Random, entries: &[(Vec<u8>, u16)]) -> Vec<u8> {
    let place = random.below(2 * entries.len() + 1);
    entries.get(place).map_or_else(|| small_text(random), |entry| entry.0.clone())
}

fn choice(random: &mut Random) -> Choice {
    random.pick(&[Choice::First, Choice::Default])
}

/// The command of a take or a create by this choice.
fn word(first: &str, choice: Choice) -> String {
    match choice {
        Choice::First => first.into(),
        Choice::Default => format!("{first}-default"),
    }
}

/// A step on a pool in lent rooms.
#[derive(Clone)]
enum Step {
    Take(Choice, Vec<u8>),
    Create(Choice, Vec<u8>),
    Drop(usize),
    Remove(usize),
    Value(usize),
    /// A value that is no text leaves the pool as it is.
    Plain(&'static str, &'static str),
}

impl Step {
    /// A step on a pool that was loaded with these entries.
    fn new(random: &mut Random, entries: &[(Vec<u8>, u16)]) -> Step {
        match random.below(9) {
            0..=2 => Step::Take(choice(random), text_among(random, entries)),
            3 | 4 => Step::Create(choice(random), text_among(random, entries)),
            5 | 6 => Step::Drop(1 + random.below(5)),
            7 => Step::Remove(1 + random.below(5)),
            _ => match random.below(4) {
                0 => Step::Plain("create i-7", "ok i-7"),
                1 => Step::Plain("remove b", "ok"),
                2 => Step::Plain("value n", "ok n"),
                _ => Step::Value(1 + random.below(6)),
            },
        }
    }

    fn line_and_answer(&self, model: &mut Model) -> (String, String) {
        match self {
            Step::Take(choice, text) => (format!("{} {}", word("take", *choice), hex(text)), model.take(*choice, text)),
            Step::Create(choice, text) => {
                (format!("{} t{}", word("create", *choice), hex(text)), model.take(*choice, text).replace("ok ", "ok s"))
            }
            Step::Drop(number) => (format!("drop {number}"), model.drop(*number)),
            Step::Remove(number) => (format!("remove s{number}"), model.drop(*number)),
            Step::Value(number) => {
                let text = model.entries.get(number - 1).map_or(&[][..], |entry| &entry.0);
                (format!("value s{number}"), format!("ok t{}", hex(text)))
            }
            Step::Plain(line, answer) => (line.to_string(), answer.to_string()),
        }
    }
}

/// A load and a few steps in rooms that are sometimes too small.
#[derive(Clone)]
struct Recipe {
    lengths: usize,
    counts: usize,
    text: usize,
    entries: Vec<(Vec<u8>, u16)>,
    steps: Vec<Step>,
}

impl Recipe {
    fn new(random: &mut Random) -> Recipe {
        let (lengths, counts, text) = (random.below(6), random.below(6), random.below(9));
        let entries: Vec<_> = (0..random.below(5)).map(|_| (small_text(random), random.pick(&[0, 1, 2, 65_534, 65_535]))).collect();
        let steps = (0..6).map(|_| Step::new(random, &entries)).collect();
        Recipe { lengths, counts, text, entries, steps }
    }

    fn smaller(&self) -> Vec<Recipe> {
        let mut found = Vec::new();
        for at in 0..self.steps.len() {
            let mut copy = self.clone();
            copy.steps.remove(at);
            found.push(copy);
        }
        for at in 0..self.entries.len() {
            let mut copy = self.clone();
            copy.entries.remove(at);
            found.push(copy);
        }
        found
    }
}

/// The case of a recipe, and what the rooms hold after each step.
fn in_rooms(recipe: Recipe) -> LentCase {
    let Recipe { lengths, counts, text, .. } = recipe;
    let mut model = Model::new(lengths, counts, text);
    let mut lines = vec![
        ("new 1252".to_string(), Expect::Is("ok".into())),
        ("lend 0 0 0".into(), Expect::Is("ok".into())),
        (format!("lend {lengths} {counts} {text}"), Expect::Is("ok".into())),
    ];
    let (mut pool, mut data) = (1252u32.to_le_bytes().to_vec(), Vec::new());
    for (text, count) in &recipe.entries {
        let wide = text.is_empty() && *count > 0;
        pool.extend((text.len() as u16).to_le_bytes());
        pool.extend(count.to_le_bytes());
        pool.extend(vec![0; if wide { 4 } else { 0 }]);
        data.extend(text);
    }
    lines.push((format!("load {} {}", hex(&pool), hex(&data)), Expect::Is(model.load(recipe.entries.clone()))));
    lines.push(("held".into(), Expect::Is(model.held())));
    for step in &recipe.steps {
        let (line, answer) = step.line_and_answer(&mut model);
        lines.push((line, Expect::Is(answer)));
        lines.push(("held".into(), Expect::Is(model.held())));
    }
    lines.push(("lend -".into(), Expect::Is("ok".into())));
    LentCase { kind: "lent rooms", lines, recipe: Some(recipe) }
}

fn by_document() -> LentCase {
    let commands = EDGES[0].lines().filter(|line| !line.is_empty() && !line.starts_with('#'));
    let mut answers = EDGES[1].lines();
    let mut lines: Vec<(String, Expect)> =
        commands.map(|line| (line.to_string(), Expect::Is(answers.next().unwrap_or("(no answer is recorded)").into()))).collect();
    lines.extend(answers.map(|answer| ("(no command is recorded)".into(), Expect::Is(answer.into()))));
    LentCase { kind: "by document", lines, recipe: None }
}

/// 22 first, before 24 and whatever else is wrong: two entries in rooms for one, and a text room one byte over the size, more than the
/// program of crates/edges has.
fn over_size() -> LentCase {
    const STAGE: [&str; 5] = ["new 1252", "out 0", "lend 0 0 0", "lend 1 1 268435456", "pool 2 0 1252"];
    const CALLS: [&str; 15] = [
        "show 0", "count 0", "take 41", "take-default 41", "drop 0", "page 4294967295", "create n", "create t41", "create-default n",
        "create-default t41", "remove n", "value n", "load 00 -", "wpool", "wdata",
    ];
    const END: [&str; 4] = ["new 1252", "out -", "lend 0 0 0", "lend -"];
    let all = |lines: &[&str], answer: &str| lines.iter().map(|line| (line.to_string(), Expect::Is(answer.into()))).collect::<Vec<_>>();
    LentCase { kind: "over the size", lines: [all(&STAGE, "ok"), all(&CALLS, "error 22"), all(&END, "ok")].concat(), recipe: None }
}

/// The column of these bits by document 01's rule, in plain numbers: its type, its marks and its written bits.
fn column_of(bits: u32) -> String {
    let (size, marks) = (bits & 0xff, (bits >> 12 & 1) + (bits >> 9 & 1) * 2 + (bits >> 13 & 1) * 4);
    let (coltype, written) = match size {
        _ if bits == 0x900 || bits == 0x1900 => ("b".into(), 0x900),
        _ if bits & 0x800 != 0 => (format!("s{size}"), 0xd00 + size),
        4 if bits & 0x400 != 0 => ("b".into(), 0x900),
        4 => ("i4".into(), 0x104),
        1 | 2 => ("i2".into(), 0x502),
        _ => return "error 13".into(),
    };
    format!("ok {coltype} {marks} {}", written + (bits & 0x3200))
}

/// Every pattern of the low 16 bits.
fn column_bits() -> LentCase {
    let lines = (0..=0xffff).map(|bits| (format!("col @{bits} 0"), Expect::Is(column_of(bits))));
    LentCase { kind: "columns by their bits", lines: lines.collect(), recipe: None }
}

pub fn cases(random: &mut Random, times: usize, emit: &mut dyn FnMut(LentCase)) {
    emit(by_document());
    emit(over_size());
    emit(column_bits());
    // Three texts, the middle one free and still holding a byte; and a long pool without any.
    const POOLS: [&str; 2] = ["load e4040000030002000100000002000100 414243444546", "load e4040080 -"];
    for _ in 0..times {
        let bytes = |places| Expect::Left { places, width: 1 };
        let units: Vec<u8> = (0..random.below(5)).flat_map(|_| [0, random.pick(b"aZ09-._%")]).collect();
        let (table, places) = (random.below(2), random.below(6));
        emit(limited(&[], format!("enc {table} {}", hex(&units)), Expect::Left { places, width: 2 }, places));
        let stored: Vec<u8> = (0..random.below(4)).flat_map(|_| [random.pick(&[0x38, 0x47, 0x48, 0]), random.pick(b"\x00\x3f\x40A")]).collect();
        let places = random.below(8);
        emit(limited(&[], format!("dec {}", hex(&stored)), Expect::Left { places, width: 2 }, places));
        let (cells, places) = (random.pick(&["i1,s3", "n,n", "i-1,s65535", "i5,i5", "b,s1"]), random.below(7));
        emit(limited(&[], format!("write 0 1282,3336 1 {cells}"), bytes(places), places));
        let stream: Vec<u8> = (0..random.below(14)).map(|_| random.pick(&[0, 1, 2, 0x80, 0xff])).collect();
        let (layout, places) = (random.pick(&["1282", "260,2304", "3328,1282"]), random.below(8));
        emit(limited(&[], format!("read 0 {layout} {}", hex(&stream)), Expect::LeftCells(places), places));
        let (pool, places) = (random.pick(&POOLS), random.below(20));
        let number = 1 + random.below(4);
        let shown = random.pick(&["show N", "value sN", "wpool", "wdata"]).replace('N', &number.to_string());
        emit(limited(&[pool], shown, bytes(places), places));
        emit(limited(&[pool], format!("rows 0 3328,1282 {}", hex(&stream)), Expect::Any, random.below(5)));
        emit(in_rooms(Recipe::new(random)));
    }
}
