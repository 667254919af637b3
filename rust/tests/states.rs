//! What the package answers by itself, from the rooms that it owns, held to the exported calls: over random states, the same is
//! asked of a pool of the package and of the calls on rooms lent by hand.

use strandroost::calls::{self, KindAndNumber, Layout, Rooms, RoomsMut, State};
use strandroost::{streamname, Column, Refusal, StringPool, StringRef, Table, Value, ValueRef};

/// Numbers that look random and are the same in every run.
struct Numbers(u64);

impl Numbers {
    fn next(&mut self) -> u64 {
        self.0 = self.0.wrapping_mul(6_364_136_223_846_793_005).wrapping_add(1_442_695_040_888_963_407);
        self.0 >> 33
    }

    fn below(&mut self, most: u64) -> u64 {
        self.next() % most
    }

    fn bytes(&mut self, most: u64) -> Vec<u8> {
        (0..self.below(most)).map(|_| self.next() as u8).collect()
    }

    /// A pool stream of so many entries at most, some free and some with bytes all the same, and the data stream to it.
    fn streams(&mut self, most: u64) -> (Vec<u8>, Vec<u8>) {
        let long = self.below(2) as u32;
        let (mut stream, mut data) = ((1252 | long << 31).to_le_bytes().to_vec(), Vec::new());
        for _ in 0..self.below(most) {
            let text = self.text();
            let count = [0, 1, 1, 2, 65_534, 65_535][self.below(6) as usize];
            stream.extend((text.len() as u16).to_le_bytes());
            stream.extend((count as u16).to_le_bytes());
            if text.is_empty() && count > 0 {
                stream.extend([0; 4]);
            }
            data.extend(text);
        }
        (stream, data)
    }

    /// One of some forty texts, so that equal ones meet.
    fn text(&mut self) -> Vec<u8> {
        vec![b'A' + self.below(8) as u8; self.below(6) as usize]
    }
}

/// A pool in rooms lent by hand, which suffice.
struct Lent {
    state: State,
    lengths: Vec<u32>,
    counts: Vec<u16>,
    text: Vec<u8>,
}

impl Lent {
    fn load(stream: &[u8], data: &[u8]) -> Result<Lent, Refusal> {
        let (lengths, counts, text) = (vec![7; 999], vec![7; 999], vec![7; 9_999]);
        let mut made = Lent { state: calls::new(0)?, lengths, counts, text };
        made.state = calls::load(stream, data, made.lend())?;
        Ok(made)
    }

    fn rooms(&self) -> Rooms<'_> {
        Rooms { lengths: &self.lengths, counts: &self.counts, text: &self.text }
    }

    fn lend(&mut self) -> RoomsMut<'_> {
        RoomsMut { lengths: &mut self.lengths, counts: &mut self.counts, text: &mut self.text }
    }

    fn get(&self, number: i32) -> Vec<u8> {
        let mut out = vec![0; 99];
        let bytes = calls::get(self.state, self.rooms(), number, &mut out).unwrap();
        out[..bytes].to_vec()
    }

    fn value(&self, cell: KindAndNumber) -> Value {
        let shown = calls::to_value(cell, self.state, self.rooms()).unwrap();
        let mut out = vec![0; 99];
        let bytes = calls::to_text(cell, self.state, self.rooms(), &mut out).unwrap();
        match shown.kind {
            0 => Value::Null,
            1 => Value::Int(shown.number),
            2 => Value::Str(out[..bytes].to_vec()),
            _ => Value::Binary,
        }
    }

    fn create(&mut self, first: bool, value: &Value) -> Result<KindAndNumber, Refusal> {
        let (kind, number) = match value {
            Value::Null => (0, 0),
            Value::Int(number) => (1, *number),
            Value::Str(_) => (2, 0),
            Value::Binary => (3, 0),
        };
        let text = value.as_bytes().unwrap_or_default();
        let create = if first { calls::create_first } else { calls::create };
        let (cell, after) = create(KindAndNumber { kind, number }, text, self.state, self.lend())?;
        self.state = after;
        Ok(cell)
    }

    fn remove(&mut self, cell: KindAndNumber) -> Result<(), Refusal> {
        self.state = calls::remove(cell, self.state, self.lend())?;
        Ok(())
    }
}

fn cell(kind: u8, number: i32) -> KindAndNumber {
    KindAndNumber { kind, number }
}

fn handed(value: ValueRef) -> KindAndNumber {
    match value {
        ValueRef::Null => cell(0, 0),
        ValueRef::Int(number) => cell(1, number),
        ValueRef::Str(reference) => cell(2, reference.number()),
        ValueRef::Binary => cell(3, 0),
    }
}

/// Everything that is shown of a pool, number by number and by one pass.
fn same(pool: &StringPool, lent: &Lent) {
    let entries = lent.state.num_strings as i32;
    let page = (pool.num_strings() as i32, pool.codepage(), pool.long_string_refs());
    assert_eq!(page, (entries, lent.state.codepage, lent.state.long_string_refs));
    for number in (1..=entries + 2).chain([StringRef::MAX]) {
        let reference = StringRef::new(number).unwrap();
        assert_eq!(pool.get(reference), lent.get(number));
        assert_eq!(usize::from(pool.refcount(reference)), calls::refcount(lent.state, lent.rooms(), number).unwrap());
        assert_eq!(ValueRef::Str(reference).to_value(pool), lent.value(cell(2, number)));
    }
    let mut texts = pool.texts();
    for number in 1..=entries {
        assert_eq!(texts.len() as i32, entries - number + 1);
        let entry = texts.next().unwrap();
        let count = calls::refcount(lent.state, lent.rooms(), number).unwrap();
        assert_eq!((entry.reference.number(), entry.text, usize::from(entry.count)), (number, &lent.get(number)[..], count));
    }
    assert_eq!((texts.len(), texts.next(), texts.next()), (0, None, None));
    let mut out = vec![0; 9_999];
    let bytes = calls::write_pool(lent.state, lent.rooms(), &mut out).unwrap();
    assert_eq!(pool.write_pool().unwrap(), &out[..bytes]);
    let bytes = calls::write_data(lent.state, lent.rooms(), &mut out).unwrap();
    assert_eq!(pool.write_data().unwrap(), &out[..bytes]);
}

/// A step on both pools: a take by either choice, a drop, a value that is no text, or another code page.
fn step(numbers: &mut Numbers, pool: &mut StringPool, lent: &mut Lent) {
    let first = numbers.below(2) == 1;
    let create = if first { ValueRef::create_first } else { ValueRef::create };
    match numbers.below(8) {
        0..=2 => {
            let value = Value::Str(numbers.text());
            let taken = create(value.clone(), pool).map(handed);
            assert_eq!(taken, lent.create(first, &value));
        }
        3..=5 => {
            let number = 1 + numbers.below(lent.state.num_strings as u64 + 2) as i32;
            let dropped = ValueRef::Str(StringRef::new(number).unwrap()).remove(pool);
            assert_eq!(dropped, lent.remove(cell(2, number)));
        }
        6 => {
            for shown in [Value::Null, Value::Int(7), Value::Binary] {
                let value = create(shown.clone(), pool).unwrap();
                assert_eq!(Ok(handed(value)), lent.create(first, &shown));
                assert_eq!((value.to_value(pool), lent.value(handed(value))), (shown.clone(), shown));
                assert_eq!(value.remove(pool), lent.remove(handed(value)));
            }
        }
        _ => {
            let page = numbers.next() as u32;
            assert!(pool.set_codepage(page).is_ok());
            lent.state = calls::set_codepage(lent.state, lent.rooms(), page).unwrap();
        }
    }
}

#[test]
fn pools_are_shown_as_the_calls_show_them() {
    let mut numbers = Numbers(1);
    for _ in 0..150 {
        let (stream, data) = numbers.streams(24);
        let (mut pool, mut lent) = (StringPool::load(&stream, &data).unwrap(), Lent::load(&stream, &data).unwrap());
        same(&pool, &lent);
        for _ in 0..12 {
            step(&mut numbers, &mut pool, &mut lent);
            // What was shown before a step must not be shown after it.
            if numbers.below(3) > 0 {
                same(&pool, &lent);
            }
        }
        same(&pool.clone(), &lent);
    }
}

#[test]
fn loads_are_those_of_the_call_in_rooms_that_suffice() {
    let mut numbers = Numbers(2);
    for _ in 0..2_000 {
        let (mut stream, mut data) = numbers.streams(12);
        for _ in 0..numbers.below(3) {
            let at = numbers.below(stream.len() as u64) as usize;
            stream[at] = numbers.next() as u8;
        }
        stream.truncate(stream.len() - numbers.below(stream.len() as u64 + 1) as usize % 4);
        data.truncate(data.len().saturating_sub(numbers.below(4) as usize));
        match (StringPool::load(&stream, &data), Lent::load(&stream, &data)) {
            (Ok(pool), Ok(lent)) => same(&pool, &lent),
            (pool, lent) => assert_eq!(pool.err(), lent.err()),
        }
    }
}

/// The values of a table's stream, cell by cell, by the row reader.
fn by_steps(layout: &Layout, stream: &[u8], lent: &Lent) -> Vec<Value> {
    let (mut values, mut at) = (Vec::new(), 0);
    loop {
        let step = calls::rows_next(layout, stream, at).unwrap();
        let Some(cell) = step.cell else { return values };
        values.push(lent.value(cell));
        at = step.at;
    }
}

#[test]
fn rows_have_the_values_of_their_cells() {
    let mut numbers = Numbers(3);
    for _ in 0..300 {
        let (stream, data) = numbers.streams(12);
        let (pool, lent) = (StringPool::load(&stream, &data).unwrap(), Lent::load(&stream, &data).unwrap());
        let some = [0x502, 0x104, 0xd48, 0x900, 0x2d00];
        let bits: Vec<i32> = (0..numbers.below(5)).map(|_| some[numbers.below(5) as usize]).collect();
        let long = numbers.below(2) == 1;
        let cells: Vec<u8> = (0..numbers.below(90)).map(|_| numbers.below(3) as u8 * numbers.below(9) as u8).collect();
        let table = Table::from_bitfields(&bits, long).unwrap();
        let layout = Layout::from_bitfields(&bits, long).unwrap();
        let rows = table.rows(&cells, &pool).unwrap();
        assert_eq!(rows.len(), calls::num_rows(&layout, &cells).unwrap());
        let values: Vec<Value> = rows.flat_map(|row| row.into_values()).collect();
        assert_eq!(values, by_steps(&layout, &cells, &lent));
        let stored = table.read_rows(&cells).unwrap();
        assert_eq!(stored.concat().iter().map(|cell| cell.to_value(&pool)).collect::<Vec<_>>(), values);
    }
}

#[test]
fn any_bytes_are_answered() {
    let mut numbers = Numbers(4);
    let table = Table::new(vec![Column::build().int16(), Column::build().string(0), Column::build().binary()], true).unwrap();
    for _ in 0..20_000 {
        let (pool, data) = (numbers.bytes(24), numbers.bytes(24));
        if let Ok(mut pool) = StringPool::load(&pool, &data) {
            let reference = StringRef::new(1 + numbers.below(6) as i32).unwrap();
            let (_, _, _) = (pool.get(reference).len(), pool.decref(reference), pool.incref(&data));
            assert!(pool.write_pool().is_ok() && pool.write_data().is_ok());
        }
        let rows = table.read_rows(&data).unwrap();
        assert_eq!(rows.len(), data.len() / 7);
        let units: Vec<u16> = pool.iter().map(|byte| u16::from(*byte) * 257).collect();
        let stored = streamname::encode_units(&units, true).unwrap();
        assert!(streamname::decode_units(&stored).unwrap().1);
    }
}
