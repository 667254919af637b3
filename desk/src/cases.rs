//! The inputs of desk/compare. A case is a list of commands that begins in a state of its own making, so that it can be run alone.
use crate::language::{put_bytes, put_cell, put_list, put_units, Cell};
use crate::random::Random;

pub type Case = Vec<String>;

/// Units on both sides of every boundary of the stored form.
const EDGE_UNITS: [u16; 20] = [
    0x0000, 0x002d, 0x002e, 0x002f, 0x0030, 0x0039, 0x0041, 0x005a, 0x005f, 0x0061, 0x007a, 0x37ff, 0x3800, 0x47ff, 0x4800,
    0x483f, 0x4840, 0x4841, 0xe000, 0xffff,
];
const LETTERS: &[u8; 64] = b"0123456789ABCDEFGHIJKLMNOPQRSTUVWXYZabcdefghijklmnopqrstuvwxyz._";
/// Units that are no letters, beside those that are: between the ranges, at the end of a table of 128, and "a" with bit 7 or 8 set.
const BESIDE_LETTERS: [u16; 8] = [0x0040, 0x005b, 0x0060, 0x007b, 0x007f, 0x0080, 0x00e1, 0x0161];
/// Code pages that the crate knows and writes back as themselves.
const PAGES: [u32; 6] = [1252, 1250, 932, 28591, 20127, 65001];
const EDGE_INTEGERS: [i32; 12] =
    [0, 1, -1, 32_766, 32_767, -32_767, -32_768, 40_000, i32::MAX, i32::MIN, i32::MIN + 1, 65_536];
const EDGE_BITS: [i32; 17] = [
    0x502, 0x104, 0xd00, 0xd48, 0x900, 0x1502, 0x1104, 0x1d00, 0x1900, 0x2d48, 0x2502, 0x3d00, 0xfff, 0x2900, 0x404, 0x501, 0xd01,
];
const EDGE_REFS: [i32; 7] = [1, 2, 3, 65_535, 65_536, 70_000, 16_777_215];

pub struct Cases {
    pub random: Random,
    /// In hundredths: 100 is the whole of the exhaustive cases.
    pub scale: usize,
}

fn word_bytes(bytes: &[u8]) -> String {
    let mut word = String::new();
    put_bytes(bytes, &mut word);
    word
}

fn word_units(units: &[u16]) -> String {
    let mut word = String::new();
    put_units(units, &mut word);
    word
}

fn name_commands(word: &str, emit: &mut dyn FnMut(Case)) {
    for command in ["enc 0", "enc 1", "dec", "valid 0", "valid 1"] {
        emit(vec![format!("{command} {word}")]);
    }
}

/// The exhaustive lists of up to `most` items.
fn each_list<T: Copy>(of: &[T], most: usize, mut each: impl FnMut(&[T])) {
    let mut lists: Vec<Vec<T>> = vec![Vec::new()];
    for _ in 0..=most {
        for list in &lists {
            each(list);
        }
        lists = lists.iter().flat_map(|list| of.iter().map(move |item| [&list[..], &[*item]].concat())).collect();
    }
}

fn pool_head(page: u32, long: bool) -> Vec<u8> {
    (page | if long { 0x8000_0000 } else { 0 }).to_le_bytes().to_vec()
}

/// An entry of the pool stream; `wide` writes a 4-byte length whatever the length is.
fn put_entry(pool: &mut Vec<u8>, length: usize, count: u16, wide: bool) {
    let wide = (wide || length == 0 || length > 65_535) && count > 0;
    pool.extend(if wide { [0, 0] } else { (length as u16).to_le_bytes() });
    pool.extend(count.to_le_bytes());
    if wide {
        pool.extend((length as u32).to_le_bytes());
    }
}

/// Whether a layout by bits has a column of texts.
fn texts_in(layout: &str) -> bool {
    layout.split(',').filter_map(|bits| bits.parse::<i32>().ok()).any(|bits| bits & 0x800 != 0 && bits & !0x1000 != 0x900)
}

impl Cases {
    fn times(&self, at_100: usize) -> usize {
        (at_100 * self.scale).div_ceil(100)
    }

    /// Thins out an exhaustive list where the scale is below 100.
    fn kept(&mut self) -> bool {
        self.scale >= 100 || self.random.below(100) < self.scale
    }

    pub fn all(&mut self, emit: &mut dyn FnMut(Case)) {
        self.short_names(emit);
        self.names(emit);
        Cases::beside_letters(emit);
        self.short_pools(emit);
        self.pools(emit);
        self.traces(emit);
        self.full_pools(emit);
        self.short_columns(emit);
        self.checks(emit);
        self.short_tables(emit);
        self.tables(emit);
        self.long_tables(emit);
    }

    /// Short lists for crates/replay, which a person can read: commands of at most 100 characters, on
    /// names and pools, or on columns and tables.
    pub fn short_list(&mut self, tables: bool, emit: &mut dyn FnMut(String)) {
        const NAMES: [&str; 9] = ["enc", "dec", "valid", "load", "take", "drop", "show", "count", "w"];
        const TABLES: [&str; 6] = ["col", "check", "read", "rows", "place", "write"];
        let taken: &[&str] = if tables { &TABLES } else { &NAMES };
        // The replay of `rows` has no pool: a layout with texts is left out.
        let plain = |line: &str| !line.starts_with("rows") || line.split(' ').nth(2).is_some_and(|layout| !texts_in(layout));
        let mut short = |case: Case| {
            for line in case.into_iter().filter(|line| line.len() <= 100 && plain(line) && taken.iter().any(|word| line.starts_with(word))) {
                emit(line);
            }
        };
        if tables {
            self.short_columns(&mut short);
            self.checks(&mut short);
            self.short_tables(&mut short);
            self.tables(&mut short);
            return;
        }
        self.short_names(&mut short);
        self.names(&mut short);
        self.short_pools(&mut short);
        self.pools(&mut short);
        self.three_texts(&mut short);
        Cases::beside_letters(&mut short);
    }

    // ------------------------------------------------------------ names

    fn short_names(&mut self, emit: &mut dyn FnMut(Case)) {
        for unit in (0..=0xffffu16).filter(|unit| !(0xd800..0xe000).contains(unit)) {
            if self.kept() {
                let word = word_units(&[unit]);
                emit(vec![format!("enc 0 {word}")]);
                emit(vec![format!("enc 1 {word}")]);
                emit(vec![format!("dec {word}")]);
            }
        }
        let mut words = Vec::new();
        each_list(&[0x30, 0x5f, 0x7a, 0x2d, 0x37ff, 0x3800, 0x483f, 0x4840], 4, |name| words.push(word_units(name)));
        for word in words {
            if self.kept() {
                name_commands(&word, emit);
            }
        }
    }

    fn unit(&mut self, letters_in_8: usize) -> u16 {
        if self.random.below(8) < letters_in_8 {
            return self.random.pick(LETTERS).into();
        }
        match self.random.below(3) {
            0 => 0x3800 + self.random.below(0x1042) as u16,
            1 => self.random.pick(&EDGE_UNITS),
            _ => self.random.below(0xd800) as u16,
        }
    }

    fn name(&mut self, units: usize, letters_in_8: usize) -> Vec<u16> {
        let mut name: Vec<u16> = (0..units).map(|_| self.unit(letters_in_8)).collect();
        if units >= 2 && self.random.one_in(6) {
            let at = self.random.below(units - 1);
            name[at] = 0xd800 + self.random.below(0x400) as u16;
            name[at + 1] = 0xdc00 + self.random.below(0x400) as u16;
        }
        name
    }

    fn names(&mut self, emit: &mut dyn FnMut(Case)) {
        for _ in 0..self.times(40_000) {
            let near = self.random.pick(&[0, 2, 8, 29, 31, 59, 61, 62]);
            let (units, letters) = (near + self.random.below(4), self.random.below(9));
            let word = word_units(&self.name(units, letters));
            name_commands(&word, emit);
        }
        for letters in self.long_letters() {
            let name = self.name(65_535, *letters);
            emit(vec![format!("enc 1 {}", word_units(&name))]);
            emit(vec![format!("valid 1 {}", word_units(&name))]);
            // Half as many packed units are the most that unpack to a name within the size.
            emit(vec![format!("dec 4840{}", word_units(&vec![0x3fff; 32_767]))]);
        }
    }

    /// Each alone, before a letter and after one.
    fn beside_letters(emit: &mut dyn FnMut(Case)) {
        for unit in BESIDE_LETTERS {
            for name in [&[unit][..], &[unit, 0x61], &[0x61, unit]] {
                name_commands(&word_units(name), emit);
            }
        }
    }

    fn long_letters(&self) -> &'static [usize] {
        if self.scale >= 100 { &[0, 4, 8] } else { &[8] }
    }

    // ------------------------------------------------------------ pools

    fn looked_at(pool: &[u8], data: &[u8]) -> Case {
        let load = format!("load {} {}", word_bytes(pool), word_bytes(data));
        ["new 1252", &load, "wpool", "wdata", "take 41", "show 1", "count 2", "drop 1", "sum"].map(String::from).to_vec()
    }

    fn short_pools(&mut self, emit: &mut dyn FnMut(Case)) {
        // length, count, wide
        let entries = [(0, 0, false), (0, 1, true), (1, 1, false), (2, 0, false), (1, 2, true), (1, 65_535, false)];
        let mut lists = Vec::new();
        each_list(&entries, 3, |list| lists.push(list.to_vec()));
        for list in lists {
            let mut pool = pool_head(1252, list.len() % 2 == 1);
            for &(length, count, wide) in &list {
                put_entry(&mut pool, length, count, wide);
            }
            let total: usize = list.iter().map(|entry| entry.0).sum();
            for stray in 0..4 {
                let pool = [&pool[..], &[0; 3][..stray]].concat();
                for bytes in total.saturating_sub(1)..=total + 1 {
                    if self.kept() {
                        emit(Cases::looked_at(&pool, &b"ABABABAB"[..bytes]));
                    }
                }
            }
        }
        for bytes in 0..4 {
            emit(vec![format!("load {} -", word_bytes(&[0xe4, 4, 0][..bytes.min(3)]))]);
        }
    }

    fn text(&mut self) -> Vec<u8> {
        let length = match self.random.below(20) {
            0 => 0,
            1 => 30 + self.random.below(300),
            2..=8 => 1,
            _ => 1 + self.random.below(12),
        };
        let alphabet = if self.random.one_in(2) { b"AB".as_slice() } else { LETTERS.as_slice() };
        (0..length).map(|_| self.random.pick(alphabet)).collect()
    }

    fn pool(&mut self, entries: usize) -> (Vec<u8>, Vec<u8>) {
        let (page, long) = (self.random.pick(&PAGES), self.random.one_in(3));
        let (mut pool, mut data) = (pool_head(page, long), Vec::new());
        for _ in 0..entries {
            let text = self.text();
            let count = self.random.pick(&[0, 1, 1, 1, 2, 3, 65_534, 65_535]);
            put_entry(&mut pool, text.len(), count, self.random.one_in(12));
            data.extend(text);
        }
        (pool, data)
    }

    /// A copy that a fault on its way might have made: cut, lengthened, or with a byte changed past the head.
    fn damaged(&mut self, good: &[u8], head: usize) -> Vec<u8> {
        let mut bytes = good.to_vec();
        match self.random.below(4) {
            0 => bytes.truncate(self.random.below(good.len() + 1)),
            1 => bytes.extend(vec![self.random.below(128) as u8; 1 + self.random.below(5)]),
            _ if good.len() > head => {
                let at = head + self.random.below(good.len() - head);
                bytes[at] = self.random.below(128) as u8;
            }
            _ => {}
        }
        bytes
    }

    fn pools(&mut self, emit: &mut dyn FnMut(Case)) {
        for _ in 0..self.times(9_000) {
            let entries = self.random.below(12);
            let (pool, data) = self.pool(entries);
            emit(Cases::looked_at(&pool, &data));
            let (bad_pool, bad_data) = (self.damaged(&pool, 4), self.damaged(&data, 0));
            emit(Cases::looked_at(&bad_pool, &data));
            emit(Cases::looked_at(&pool, &bad_data));
        }
        // Texts at and past the 16-bit length.
        for length in [65_534, 65_535, 65_536, 65_537] {
            let text = word_bytes(&vec![b'z'; length]);
            emit(["new 1252", &format!("take {text}"), "take 41", "sum", "drop 1", "sum", &format!("take {text}"), "sum"].map(String::from).to_vec());
            let mut pool = pool_head(1252, false);
            put_entry(&mut pool, length, 1, false);
            emit(vec![format!("load {} {text}", word_bytes(&pool)), "sum".into(), "drop 1".into(), "sum".into()]);
        }
    }

    fn reference(&mut self, near: usize) -> i32 {
        if self.random.one_in(40) {
            return self.random.pick(&EDGE_REFS);
        }
        1 + self.random.below(near) as i32
    }

    fn step(&mut self, entries: usize) -> String {
        match self.random.below(20) {
            0..=6 => format!("take {}", word_bytes(&self.text())),
            7..=12 => format!("drop {}", self.reference(entries)),
            13 => format!("show {}", self.reference(entries)),
            14 => format!("count {}", self.reference(entries)),
            15 => format!("create {}", self.value()),
            16 => format!("remove s{}", self.reference(entries)),
            17 => format!("value {}", self.small_cell(entries)),
            18 => "sum".into(),
            _ => self.random.pick(&["state", "page 1250", "page 932", "remove n", "remove i7"]).into(),
        }
    }

    fn traces(&mut self, emit: &mut dyn FnMut(Case)) {
        for _ in 0..self.times(60) {
            let entries = self.random.pick(&[0, 3, 40]);
            let (pool, data) = self.pool(entries);
            let mut case = vec![format!("load {} {}", word_bytes(&pool), word_bytes(&data))];
            let near = self.random.pick(&[4, 60, 400]);
            for _ in 0..3_000 {
                case.push(self.step(near));
            }
            case.push("wpool".into());
            case.push("wdata".into());
            emit(case);
        }
        self.three_texts(emit);
    }

    /// Three texts alone: counts go up and down, and places are given up and taken again.
    fn three_texts(&mut self, emit: &mut dyn FnMut(Case)) {
        for _ in 0..self.times(20) {
            let mut case = vec!["new 1252".to_string()];
            for _ in 0..2_000 {
                let text = self.random.pick(&["-", "41", "4142"]);
                case.push(if self.random.one_in(2) { format!("take {text}") } else { format!("drop {}", 1 + self.random.below(4)) });
            }
            case.push("sum".into());
            emit(case);
        }
    }

    /// Pools at the limit of short references: the last places, and none left.
    fn full_pools(&mut self, emit: &mut dyn FnMut(Case)) {
        for (entries, long) in [(65_533, false), (65_535, false), (65_540, false), (65_535, true)] {
            let mut pool = pool_head(1252, long);
            for _ in 0..entries {
                put_entry(&mut pool, 1, 65_535, false);
            }
            let mut case = vec![format!("load {} {}", word_bytes(&pool), word_bytes(&vec![b'A'; entries]))];
            for step in ["take 41", "take 42", "take 42", "take 43", "state", "drop 65535", "take 41", "sum", "show 65535", "count 65536"] {
                case.push(step.into());
            }
            case.push(format!("write {} 3328 2 s65535,s65536", u8::from(long)));
            emit(case);
        }
    }

    // ---------------------------------------------------------- columns

    fn short_columns(&mut self, emit: &mut dyn FnMut(Case)) {
        for bits in 0..=0xffff {
            if self.kept() {
                emit(vec![format!("col @{bits} 0")]);
            }
        }
        for marks in 0..8 {
            for max in 0..256 {
                emit(vec![format!("col s{max} {marks}")]);
            }
            for coltype in ["i2", "i4", "b"] {
                emit(vec![format!("col {coltype} {marks}")]);
            }
        }
        for _ in 0..self.times(60_000) {
            let bits = if self.random.one_in(2) { self.random.next() as i32 } else { self.bits() };
            emit(vec![format!("col @{bits} {}", self.random.below(8))]);
        }
    }

    /// Bits of a column as packages have them, with one bit changed now and then.
    fn bits(&mut self) -> i32 {
        let bits = self.random.pick(&EDGE_BITS);
        if self.random.one_in(6) { bits ^ 1 << self.random.below(32) } else { bits }
    }

    fn made(&mut self) -> String {
        match self.random.below(5) {
            0 => "i2".into(),
            1 => "i4".into(),
            2 => "b".into(),
            3 => format!("s{}", self.random.pick(&[0, 1, 2, 12, 254, 255])),
            _ => format!("@{}", self.bits()),
        }
    }

    fn integer(&mut self) -> i32 {
        if self.random.one_in(3) {
            return self.random.below(200) as i32 - 100;
        }
        self.random.pick(&EDGE_INTEGERS)
    }

    fn value(&mut self) -> String {
        match self.random.below(5) {
            0 => "n".into(),
            1 => "b".into(),
            2 => format!("i{}", self.integer()),
            _ => format!("t{}", word_bytes(&self.text())),
        }
    }

    fn checks(&mut self, emit: &mut dyn FnMut(Case)) {
        for _ in 0..self.times(90_000) {
            let range = if self.random.one_in(2) { "-".into() } else { format!("{},{}", self.integer(), self.integer()) };
            let (made, value) = (self.made(), self.value());
            emit(vec![format!("check {made} {} {range} {value}", self.random.below(8))]);
        }
    }

    // ----------------------------------------------------------- tables

    fn short_tables(&mut self, emit: &mut dyn FnMut(Case)) {
        let mut streams = Vec::new();
        each_list(&[0x00, 0x01, 0x80, 0xff], 5, |bytes: &[u8]| streams.push(word_bytes(bytes)));
        for layout in ["1282", "260", "3328", "2304", "1282,3336"] {
            for stream in &streams {
                if self.kept() {
                    emit(vec![format!("read {} {layout} {stream}", self.random.below(2))]);
                }
            }
        }
        // Every pair of bytes in the two integer columns, once each.
        for number in 0..=0xffffu16 {
            if self.kept() {
                emit(vec![format!("read 0 1282 {}", word_bytes(&number.to_le_bytes()))]);
                emit(vec![format!("write 0 1282 1 i{}", number as i16)]);
            }
        }
    }

    fn layout(&mut self) -> Vec<i32> {
        let columns = match self.random.below(12) {
            0 => 0,
            1 => 64,
            2 => 10 + self.random.below(20),
            _ => 1 + self.random.below(6),
        };
        (0..columns).map(|_| self.bits()).collect()
    }

    fn layout_word(layout: &[i32]) -> String {
        let mut word = String::new();
        put_list(layout, |bits, word| word.push_str(&bits.to_string()), &mut word);
        word
    }

    fn small_cell(&mut self, near: usize) -> String {
        let mut word = String::new();
        let cell = match self.random.below(5) {
            0 => Cell::Null,
            1 => Cell::Binary,
            2 => Cell::Int(self.integer()),
            _ => Cell::Str(self.reference(near)),
        };
        put_cell(&cell, &mut word);
        word
    }

    /// A cell that suits its column, but for one in `faults`.
    fn cell(&mut self, bits: i32, faults: usize) -> Cell {
        let binary = bits & !0x1000 == 0x900 || bits & 0x800 == 0 && bits & 0xff == 4 && bits & 0x400 != 0;
        if self.random.one_in(faults) {
            let number = self.random.below(100) as i32;
            let reference = self.reference(9);
            return self.random.pick(&[Cell::Null, Cell::Int(number), Cell::Binary, Cell::Str(reference)]);
        }
        if binary {
            return Cell::Binary;
        }
        if self.random.one_in(5) {
            return Cell::Null;
        }
        if bits & 0x800 != 0 {
            return Cell::Str(1 + self.random.below(65_535) as i32);
        }
        let number = self.integer();
        Cell::Int(if bits & 0xff == 4 { number } else { number as i16 as i32 })
    }

    fn table(&mut self, emit: &mut dyn FnMut(Case)) {
        let layout = self.layout();
        let (word, long) = (Cases::layout_word(&layout), self.random.below(2));
        let bytes = self.random.below(6) * layout.len() + self.random.below(40);
        let stream: Vec<u8> = (0..bytes).map(|_| if self.random.one_in(3) { 0 } else { self.random.next() as u8 }).collect();
        let stream = word_bytes(&stream);
        emit(vec![format!("read {long} {word} {stream}")]);
        emit(vec!["load e404000001000100020001000000030000000000 414243".into(), format!("rows {long} {word} {stream}")]);
        let (row, column) = (self.random.below(5), self.random.below(layout.len() + 2));
        emit(vec![format!("place {long} {word} {stream} {row} {column}")]);
        let (rows, faults) = (self.random.below(5), self.random.pick(&[7, 60, 1_000_000]));
        let cells: Vec<Cell> = (0..rows).flat_map(|_| layout.clone()).map(|bits| self.cell(bits, faults)).collect();
        let mut written = String::new();
        put_list(&cells, put_cell, &mut written);
        emit(vec![format!("write {long} {word} {rows} {written}")]);
    }

    fn tables(&mut self, emit: &mut dyn FnMut(Case)) {
        for _ in 0..self.times(55_000) {
            self.table(emit);
        }
    }

    fn long_tables(&mut self, emit: &mut dyn FnMut(Case)) {
        for (rows, over) in [(65_535, 1), (65_536, 0), (65_536, 1), (65_537, 0)] {
            let stream: Vec<u8> = (0..2 * rows + over).map(|at| (at * 31 % 251) as u8).collect();
            emit(vec![format!("read 0 1282 {}", word_bytes(&stream))]);
        }
        for numbers in [32_700..32_800, 39_950..40_050] {
            let cells: Vec<String> = numbers.clone().map(|number| format!("i{number},i{number}")).collect();
            emit(vec![format!("write 0 260,260 {} {}", numbers.len(), cells.join(","))]);
        }
        let cells: Vec<Cell> = (0..2 * 65_536).map(|at| Cell::Int(at % 30_000)).collect();
        let mut word = String::new();
        put_list(&cells, put_cell, &mut word);
        emit(vec![format!("write 0 1282,260 65536 {word}")]);
    }
}
