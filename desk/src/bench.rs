//! `desk/bench`: the crate and the port on the same inputs, in one program and one run. Prints a line for each measurement: what,
//! at what size, the crate's nanoseconds and the port's, the best of many rounds each. Of a take by default, which the crate does
//! not have, the port's nanoseconds by document 01's choice stand in place of the crate's.
//! Buffers: the crate makes its own in every call, as its signatures ask; the port's rooms and outputs are lent, and have been
//! written before. Inputs lie in memory before the clock starts.
#![allow(dead_code, unused_macros)]

extern crate byteorder;
extern crate encoding_rs;
extern crate uuid;

mod internal {
    #[macro_use]
    mod macros;
    pub mod category;
    pub mod codepage;
    pub mod column;
    pub mod language;
    pub mod streamname;
    pub mod stringpool;
    pub mod table;
    pub mod value;
}

mod file_table;
mod random;

use internal::column::{Column, ColumnType};
use internal::streamname;
use internal::stringpool::{StringPool, StringPoolBuilder, StringRef};
use internal::table::Table;
use internal::value::{Value, ValueRef};
use random::Random;
use std::hint::black_box;
use std::io::Cursor;
use std::rc::Rc;
use std::time::{Duration, Instant};
use strandroost::calls::{self, KindAndNumber, Layout, Rooms, RoomsMut, State};

/// The fewest rounds of a measurement, the time on the clock that is enough, and the time in all after which no round begins.
const ROUNDS: usize = 5;
const LONG_ENOUGH: Duration = Duration::from_millis(50);
const TOO_LONG: Duration = Duration::from_millis(300);
const BITS: [i32; 6] = [0x2d48, 0x502, 0x104, 0xd00, 0x1d00, 0x1502];
/// An icon's name, and its stream in a nullable Binary column.
const ICONS: [i32; 2] = [0x2d48, 0x1900];

/// Nanoseconds of a call: the best of the rounds that fit into `LONG_ENOUGH` on the clock, each of so many calls. `reset` begins
/// a round and `before` makes what a call is handed, both outside the clock.
fn timed_on<S, T>(
    state: &mut S,
    calls: usize,
    mut reset: impl FnMut(&mut S),
    mut before: impl FnMut() -> T,
    mut call: impl FnMut(&mut S, T),
) -> f64 {
    let (mut best, mut spent, mut rounds, began) = (Duration::MAX, Duration::ZERO, 0, Instant::now());
    while rounds < ROUNDS || spent < LONG_ENOUGH && began.elapsed() < TOO_LONG {
        reset(state);
        let inputs: Vec<T> = (0..calls).map(|_| before()).collect();
        let clock = Instant::now();
        for input in inputs {
            call(state, input);
        }
        let round = clock.elapsed();
        (best, spent, rounds) = (best.min(round), spent + round, rounds + 1);
    }
    best.as_nanos() as f64 / calls as f64
}

/// The same of calls that leave nothing behind.
fn timed<T>(calls: usize, before: impl FnMut() -> T, mut call: impl FnMut(T)) -> f64 {
    timed_on(&mut (), calls, |()| (), before, |(), input| call(input))
}

fn show(what: &str, size: usize, krate: f64, port: f64) {
    println!("{what}\t{size}\t{krate:.1}\t{port:.1}");
}

// ---------------------------------------------------------------- names

/// Such names as a packer makes: their letters come in runs of one kind.
fn packer_names() -> Vec<String> {
    (0..1000).map(|n| format!("Component{n:05}_FontTable-{}", n % 7)).collect()
}

/// Names of 26 letters drawn from all 64, so that nothing foretells what kind the next one is. The crate says what the 64 are.
fn drawn_names() -> Vec<String> {
    let letters: Vec<char> = streamname::decode(&('\u{4800}'..='\u{483f}').collect::<String>()).0.chars().collect();
    let mut random = Random::new(1);
    (0..1000).map(|_| (0..26).map(|_| random.pick(&letters)).collect()).collect()
}

fn bench_names(kind: &str, plain: &[String]) {
    let units: Vec<Vec<u16>> = plain.iter().map(|name| name.encode_utf16().collect()).collect();
    let stored: Vec<String> = plain.iter().map(|name| streamname::encode(name, true)).collect();
    let stored_units: Vec<Vec<u16>> = stored.iter().map(|name| name.encode_utf16().collect()).collect();
    let mut out = vec![0u16; 80];
    let krate = timed(20, || (), |()| plain.iter().for_each(|name| drop(black_box(streamname::encode(name, true)))));
    let port = timed(20, || (), |()| units.iter().for_each(|name| drop(black_box(calls::encode(name, true, &mut out)))));
    show(&format!("encode{kind}"), plain.len(), krate, port);
    let krate = timed(20, || (), |()| stored.iter().for_each(|name| drop(black_box(streamname::decode(name)))));
    let port = timed(20, || (), |()| stored_units.iter().for_each(|name| drop(black_box(calls::decode(name, &mut out)))));
    show(&format!("decode{kind}"), plain.len(), krate, port);
    let krate = timed(20, || (), |()| plain.iter().for_each(|name| drop(black_box(streamname::is_valid(name, true)))));
    let port = timed(20, || (), |()| units.iter().for_each(|name| drop(black_box(calls::is_valid(name, true)))));
    show(&format!("is_valid{kind}"), plain.len(), krate, port);
}

// ----------------------------------------------------------------- pool

struct Pools {
    stream: Vec<u8>,
    data: Vec<u8>,
    krate: StringPool,
    state: State,
    lengths: Vec<u32>,
    counts: Vec<u16>,
    text: Vec<u8>,
    out: Vec<u8>,
}

fn text_at(n: usize, mixed: bool) -> String {
    match mixed {
        false => format!("Component{n:06}"),
        true => format!("Component{n:06}.Font_{}", &"Serif-BoldItalic"[..n * 7919 % 17]),
    }
}

/// Texts that are in no pool here, one after another.
fn new_texts() -> impl FnMut() -> String {
    let mut next = 0;
    move || {
        next += 1;
        text_at(900_000 + next % 90_000, false)
    }
}

fn crate_load(stream: &[u8], data: &[u8]) -> StringPool {
    let builder = StringPoolBuilder::read_from_pool(Cursor::new(stream)).expect("a good pool stream");
    builder.build_from_data(Cursor::new(data)).expect("a good data stream")
}

fn crate_ref(number: usize) -> StringRef {
    let bytes = (number as u32).to_le_bytes();
    StringRef::read(&mut &bytes[..3], true).expect("three bytes").expect("a number above 0")
}

/// A cell that holds a text: its kind, and the number of its reference.
fn text_cell(number: usize) -> KindAndNumber {
    KindAndNumber { kind: 2, number: number as i32 }
}

impl Pools {
    fn new(entries: usize, mixed: bool) -> Pools {
        let (mut stream, mut data) = (0x8000_04e4u32.to_le_bytes().to_vec(), Vec::new());
        for n in 0..entries {
            let text = text_at(n, mixed);
            stream.extend((text.len() as u16).to_le_bytes());
            stream.extend(1u16.to_le_bytes());
            data.extend(text.bytes());
        }
        let krate = crate_load(&stream, &data);
        let (lengths, counts) = (vec![0; entries + 64], vec![0; entries + 64]);
        let (text, out) = (vec![0; data.len() + 65_536], vec![0; data.len() + 8 * entries + 64]);
        let state = calls::new(1252).expect("a known code page");
        let mut made = Pools { stream, data, krate, state, lengths, counts, text, out };
        made.state = made.port_load();
        made
    }

    fn rooms(&self) -> Rooms<'_> {
        Rooms { lengths: &self.lengths, counts: &self.counts, text: &self.text }
    }

    fn rooms_mut(&mut self) -> RoomsMut<'_> {
        RoomsMut { lengths: &mut self.lengths, counts: &mut self.counts, text: &mut self.text }
    }

    fn port_load(&mut self) -> State {
        let rooms = RoomsMut { lengths: &mut self.lengths, counts: &mut self.counts, text: &mut self.text };
        calls::load(&self.stream, &self.data, rooms).expect("rooms that suffice")
    }

    /// By document 01's choice, which is the crate's.
    fn port_take(&mut self, text: &[u8]) {
        self.state = calls::incref_first(self.state, self.rooms_mut(), text).expect("a take").1;
    }

    fn port_take_default(&mut self, text: &[u8]) {
        self.state = calls::incref(self.state, self.rooms_mut(), text).expect("a take").1;
    }

    fn port_drop(&mut self, number: usize) {
        self.state = calls::decref(self.state, self.rooms_mut(), number as i32).expect("a drop");
    }

    fn port_create(&mut self, text: &[u8]) {
        self.state = calls::create_first(text_cell(0), text, self.state, self.rooms_mut()).expect("a take").1;
    }

    fn port_remove(&mut self, number: usize) {
        self.state = calls::remove(text_cell(number), self.state, self.rooms_mut()).expect("a drop");
    }

    /// Gives the last entry references to spare, so that its text stays where ten are dropped.
    fn spare(&mut self, last: &str) {
        for _ in 0..10 {
            self.krate.incref(last.to_string());
            self.port_take(last.as_bytes());
        }
    }

    fn bench_streams(&mut self, entries: usize) {
        let times = 300_000 / entries + 1;
        let krate = timed(times, || (), |()| drop(black_box(crate_load(&self.stream, &self.data))));
        let port = timed(times, || (), |()| drop(black_box(self.port_load())));
        show("load", entries, krate, port);
        let krate = timed(times, Vec::new, |mut out: Vec<u8>| self.krate.write_pool(&mut out).expect("a vector takes all"));
        let mut out = std::mem::take(&mut self.out);
        let port = timed(times, || (), |()| drop(black_box(calls::write_pool(self.state, self.rooms(), &mut out))));
        show("write_pool", entries, krate, port);
        let krate = timed(times, Vec::new, |mut out: Vec<u8>| self.krate.write_data(&mut out).expect("a vector takes all"));
        let port = timed(times, || (), |()| drop(black_box(calls::write_data(self.state, self.rooms(), &mut out))));
        show("write_data", entries, krate, port);
        self.out = out;
    }

    /// Both pools as they were loaded.
    fn reload(&mut self) {
        self.krate = crate_load(&self.stream, &self.data);
        self.state = self.port_load();
    }

    /// A call on each side's pool, which is loaded again for each round.
    fn compare<T>(
        &mut self,
        what: &str,
        size: usize,
        calls: usize,
        ready: impl Fn(&mut Pools),
        mut inputs: impl FnMut() -> T,
        krate: impl Fn(&mut StringPool, T),
        port: impl Fn(&mut Pools, T),
    ) {
        let fresh = |pools: &mut Pools| {
            pools.reload();
            ready(pools);
        };
        let crate_time = timed_on(self, calls, fresh, &mut inputs, |pools, input| krate(&mut pools.krate, input));
        let port_time = timed_on(self, calls, fresh, &mut inputs, |pools, input| port(pools, input));
        show(what, size, crate_time, port_time);
    }

    fn bench_hit(&mut self, what: &str, entries: usize, text: &str) {
        let krate = |pool: &mut StringPool, text: String| drop(black_box(pool.incref(text)));
        self.compare(what, entries, 20, |_| (), || text.to_string(), krate, |pools, text| pools.port_take(text.as_bytes()));
    }

    /// Texts that are not there: an entry is added for each.
    fn bench_miss(&mut self, what: &str, entries: usize) {
        let krate = |pool: &mut StringPool, text: String| drop(black_box(pool.incref(text)));
        self.compare(what, entries, 10, |_| (), new_texts(), krate, |pools, text| pools.port_take(text.as_bytes()));
    }

    /// A take by default, the first entry free or not; and by document 01's choice where none is free.
    fn bench_default(&mut self, what: &str, entries: usize, free: bool, calls: usize, mut inputs: impl FnMut() -> String) {
        let fresh = |pools: &mut Pools| pools.state = pools.port_load();
        let freed = |pools: &mut Pools| {
            fresh(pools);
            if free {
                pools.port_drop(1);
            }
        };
        let first = timed_on(self, calls, fresh, &mut inputs, |pools, text| pools.port_take(text.as_bytes()));
        let default = timed_on(self, calls, freed, &mut inputs, |pools, text| pools.port_take_default(text.as_bytes()));
        show(what, entries, first, default);
    }

    fn bench_defaults(&mut self, entries: usize, mixed: bool, free: bool) {
        let lengths = if mixed { "mixed" } else { "equal" };
        let kind = if free { "take by default, first entry free" } else { "take by default" };
        for (which, place) in [("last", entries - 1), ("middle", entries / 2)] {
            let what = format!("{kind}, {which} of {lengths} lengths");
            self.bench_default(&what, entries, free, 20, || text_at(place, mixed));
        }
        if !mixed {
            // Of the texts that are there: a free entry has none.
            self.bench_default(&format!("{kind}, first"), entries, free, 20, || text_at(usize::from(free), mixed));
        }
        // The first new text fills the free entry, so that there is one for one call.
        let calls = if free { 1 } else { 10 };
        self.bench_default(&format!("{kind}, new among {lengths} lengths"), entries, free, calls, new_texts());
    }

    fn bench_numbers(&mut self, entries: usize) {
        let middle = entries / 2;
        let krate = timed(20, || (), |()| drop(black_box(self.krate.get(crate_ref(middle)).len())));
        let mut out = std::mem::take(&mut self.out);
        let port = timed(20, || (), |()| drop(black_box(calls::get(self.state, self.rooms(), middle as i32, &mut out))));
        self.out = out;
        show("get", entries, krate, port);
        let last = text_at(entries - 1, true);
        let krate = |pool: &mut StringPool, number: usize| pool.decref(crate_ref(number));
        self.compare("drop, text stays", entries, 10, |pools| pools.spare(&last), || entries, krate, Pools::port_drop);
        // Entries with one reference: the text goes, and the tail moves. Ten places after the middle, over and over.
        let mut at = 0;
        let next = || {
            at = at % 10 + 1;
            middle + at
        };
        self.compare("drop, text goes", entries, 10, |_| (), next, krate, Pools::port_drop);
    }

    /// Values that hold a text: taken into the pool, shown with it, and dropped where it stays.
    fn bench_values(&mut self, entries: usize) {
        let (middle, last) = (entries / 2, text_at(entries - 1, true));
        let krate = |pool: &mut StringPool, text: String| drop(black_box(ValueRef::create(Value::Str(text), pool)));
        let port = |pools: &mut Pools, text: String| pools.port_create(text.as_bytes());
        self.compare("create, a text of the middle", entries, 20, |_| (), || text_at(middle, true), krate, port);
        let krate = timed(20, || (), |()| drop(black_box(ValueRef::Str(crate_ref(middle)).to_value(&self.krate))));
        let mut out = std::mem::take(&mut self.out);
        // The port's call shows the value without its text, which a second one copies.
        let port = timed(20, || (), |()| {
            drop(black_box(calls::to_value(text_cell(middle), self.state, self.rooms())));
            drop(black_box(calls::to_text(text_cell(middle), self.state, self.rooms(), &mut out)));
        });
        self.out = out;
        show("to_value, a text", entries, krate, port);
        let krate = |pool: &mut StringPool, number: usize| ValueRef::Str(crate_ref(number)).remove(pool);
        self.compare("remove, text stays", entries, 10, |pools| pools.spare(&last), || entries, krate, Pools::port_remove);
    }
}

fn bench_pools(sizes: &[usize]) {
    for &entries in sizes {
        for mixed in [false, true] {
            let mut pools = Pools::new(entries, mixed);
            let lengths = if mixed { "mixed" } else { "equal" };
            if mixed {
                pools.bench_streams(entries);
            }
            pools.bench_hit(&format!("take, last of {lengths} lengths"), entries, &text_at(entries - 1, mixed));
            pools.bench_hit(&format!("take, middle of {lengths} lengths"), entries, &text_at(entries / 2, mixed));
            if !mixed {
                pools.bench_hit("take, first", entries, &text_at(0, mixed));
            }
            pools.bench_miss(&format!("take, new among {lengths} lengths"), entries);
            pools.bench_defaults(entries, mixed, false);
            pools.bench_defaults(entries, mixed, true);
            pools.reload();
            if mixed {
                pools.bench_numbers(entries);
                pools.bench_values(entries);
            }
        }
    }
}

// --------------------------------------------------------------- tables

/// The bytes of a table. A Binary cell holds 1, which both sides write again.
fn table_stream(columns: &[Column], rows: usize) -> Vec<u8> {
    let mut stream = Vec::new();
    for column in columns {
        let (start, bytes) = (stream.len(), rows * column.coltype().width(false) as usize);
        match column.coltype() {
            ColumnType::Binary => stream.extend((0..bytes).map(|at| u8::from(at % 2 == 0))),
            _ => stream.extend((start..start + bytes).map(|at| (at * 31 % 251) as u8)),
        }
    }
    stream
}

/// A table of these columns on both sides, and a stream of so many rows.
fn tables(bits: &[i32], rows: usize) -> (Rc<Table>, Layout, Vec<u8>) {
    let columns: Vec<Column> = bits.iter().map(|bits| Column::build("x").with_bitfield(*bits).expect("good bits")).collect();
    let stream = table_stream(&columns, rows);
    (Table::new("T".into(), columns, false), Layout::from_bitfields(bits, false).expect("good bits"), stream)
}

fn bench_table(kind: &str, bits: &[i32], rows: usize) {
    let (table, layout, stream) = tables(bits, rows);
    let (mut kinds, mut numbers) = (vec![0u8; rows * bits.len()], vec![0i32; rows * bits.len()]);
    let times = 60_000 / rows + 1;
    let krate = timed(times, || (), |()| drop(black_box(table.read_rows(Cursor::new(&stream)).expect("good rows"))));
    let port = timed(times, || (), |()| drop(black_box(calls::read_rows(&layout, &stream, &mut kinds, &mut numbers))));
    show(&format!("read_rows{kind}"), rows, krate, port);
    let cells: Vec<Vec<ValueRef>> = table.read_rows(Cursor::new(&stream)).expect("good rows");
    let mut out = vec![0u8; stream.len()];
    let krate = timed(
        times,
        || (Vec::with_capacity(stream.len()), cells.clone()),
        |(mut out, cells)| table.write_rows(&mut out, cells).expect("a vector takes all"),
    );
    let port =
        timed(times, || (), |()| drop(black_box(calls::write_rows(&layout, rows, &kinds, &numbers, &mut out))));
    show(&format!("write_rows{kind}"), rows, krate, port);
    assert!(out == stream, "the port wrote another stream");
}

/// Every cell of a table one by one, by its place and by the row reader: each call judges the layout anew. The crate has no call
/// for one cell, so beside both stands its read of all rows, and a look at each cell.
fn bench_cells(rows: usize) {
    let (table, layout, stream) = tables(&BITS, rows);
    let krate = timed(1, || (), |()| {
        let cells = table.read_rows(Cursor::new(&stream)).expect("good rows");
        cells.iter().flatten().for_each(|cell| drop(black_box(*cell)));
    });
    let port = timed(1, || (), |()| {
        for place in 0..rows * BITS.len() {
            drop(black_box(calls::read_cell(&layout, &stream, place / BITS.len(), place % BITS.len())));
        }
    });
    show("read_cell, every cell", rows, krate, port);
    let port = timed(1, || (), |()| {
        let mut at = 0;
        while let Ok(step) = calls::rows_next(&layout, &stream, at) {
            at = step.at;
            if black_box(step.cell).is_none() {
                break;
            }
        }
    });
    show("row reader, every cell", rows, krate, port);
}

// ------------------------------------------------- every cell as a value

/// The packer's walk, with the pool loaded beforehand and with its load.
fn bench_walk(files: usize) {
    let package = file_table::Package::new(files);
    assert_eq!(package.by_crate(&package.crate_load()), package.by_port(&package.port_load()), "the walks differ");
    let by_crate = |pool: &mut StringPool, ()| drop(black_box(package.by_crate(pool)));
    let by_port = |pool: &mut strandroost::StringPool, ()| drop(black_box(package.by_port(pool)));
    let krate = timed_on(&mut package.crate_load(), 1, |pool| *pool = package.crate_load(), || (), by_crate);
    let port = timed_on(&mut package.port_load(), 1, |pool| *pool = package.port_load(), || (), by_port);
    show("walk over every cell", 8 * files, krate, port);
    let krate = timed(1, || (), |()| drop(black_box(package.by_crate(&package.crate_load()))));
    let port = timed(1, || (), |()| drop(black_box(package.by_port(&package.port_load()))));
    show("load, and walk over every cell", 8 * files, krate, port);
}

/// With `--quick` the largest sizes are left out.
fn main() {
    let sizes = if std::env::args().any(|word| word == "--quick") { 2 } else { 3 };
    bench_names("", &packer_names());
    bench_names(", all 64 letters", &drawn_names());
    bench_pools(&[1_000, 10_000, 60_000][..sizes]);
    for rows in &[1_000, 10_000, 65_536][..sizes] {
        bench_table("", &BITS, *rows);
        bench_table(", icons", &ICONS, *rows);
    }
    // The cost of one cell does not grow with the rows.
    bench_cells(1_000);
    bench_walk(34_000);
}
