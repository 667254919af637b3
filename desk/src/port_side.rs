//! The port's calls, asked in the words of language.rs. Rooms and outputs are lent as the commands say: by default as much as
//! suffices.
use crate::language::{self, Answer, Cell, Choice, Command, Held, Made, Place, Room, Spec, Type, Value};
use strandroost::calls::{self, ColumnParts, KindAndNumber, Layout, Rooms, RoomsMut, State};
use std::collections::HashMap;
use strandroost::Refusal;

/// What lent memory holds before a call writes it.
const FILL: u8 = 0xee;
/// The bytes of a cell in bulk: a kind, and a number apart from it.
const CELL: usize = 5;
const MAX_BYTES: usize = 268_435_455;

type Asked<T> = Result<T, Refusal>;

pub struct PortSide {
    state: State,
    lengths: Vec<u32>,
    counts: Vec<u16>,
    text: Vec<u8>,
    /// Whether the rooms are as `lend` made them, and do not grow.
    lent: bool,
    /// The places of an output, where `out` set them.
    places: Option<usize>,
    /// The last output as it was left, and how many bytes a place has: of cells the kinds, then the numbers.
    out: Vec<u8>,
    width: usize,
    /// The texts that `rows` has shown of this pool, by reference: every call on a text judges the whole pool.
    shown: HashMap<i32, Vec<u8>>,
    /// Whether `rows` has asked the pool for a value that is no text.
    judged: bool,
}

/// The last so many places, or all where there are fewer.
fn last<T>(room: &[T], places: usize) -> &[T] {
    &room[room.len().saturating_sub(places)..]
}

/// The first places of a room hold these; whether it has as many.
fn put_first<T: Copy>(held: &[T], room: &mut [T]) -> bool {
    match room.get_mut(..held.len()) {
        Some(first) => first.copy_from_slice(held),
        None => return false,
    }
    true
}

/// Whether a command may change the pool, its rooms or the outputs, and so what a value is shown as.
fn changes(command: &Command) -> bool {
    use Command::*;
    matches!(
        command,
        New(_) | Load(..) | Page(_) | Take(..) | Drop(_) | Create(..) | Remove(_) | Lend(_) | Out(_) | Hold(_) | Pool(..)
    )
}

fn place_out(place: strandroost::Place) -> Place {
    match place {
        strandroost::Place::Nowhere => Place::Nowhere,
        strandroost::Place::Column(column) => Place::Column(column),
        strandroost::Place::Cell { row, column } => Place::Cell(row, column),
    }
}

fn cell_out(kind: u8, number: i32) -> Cell {
    match kind {
        0 => Cell::Null,
        1 => Cell::Int(number),
        2 => Cell::Str(number),
        3 => Cell::Binary,
        _ => Cell::Handed(kind, number),
    }
}

fn cell_in(cell: Cell) -> KindAndNumber {
    let (kind, number) = match cell {
        Cell::Null => (0, 0),
        Cell::Int(number) => (1, number),
        Cell::Str(number) => (2, number),
        Cell::Binary => (3, 0),
        Cell::Handed(kind, number) => (kind, number),
    };
    KindAndNumber { kind, number }
}

fn parts(spec: &Spec, coltype: Type) -> ColumnParts {
    let (coltype, max_len) = match coltype {
        Type::Int16 => (0, 0),
        Type::Int32 => (1, 0),
        Type::Str(max) => (2, max),
        Type::Binary => (3, 0),
        Type::Handed(number) => (number, 0),
    };
    ColumnParts {
        coltype,
        max_len,
        is_localizable: spec.localizable,
        is_nullable: spec.nullable,
        is_primary_key: spec.primary_key,
        range: spec.range,
    }
}

fn column(spec: &Spec) -> Asked<ColumnParts> {
    match spec.made {
        Made::Bits(bits) => calls::column_from_bitfield(parts(spec, Type::Int16), bits),
        Made::Type(coltype) => Ok(parts(spec, coltype)),
    }
}

fn type_out(column: &ColumnParts) -> Type {
    match column.coltype {
        0 => Type::Int16,
        1 => Type::Int32,
        2 => Type::Str(column.max_len),
        3 => Type::Binary,
        number => Type::Handed(number),
    }
}

/// A column by itself has no place in the command language.
fn alone(refusal: Refusal) -> Answer {
    Answer::Refused(refusal.number(), Place::Nowhere)
}

fn column_answer(spec: &Spec) -> Answer {
    let made = column(spec).and_then(|made| calls::column_bitfield(made).map(|bits| (made, bits)));
    match made {
        Ok((made, bits)) => {
            let marks =
                u32::from(made.is_nullable) + 2 * u32::from(made.is_localizable) + 4 * u32::from(made.is_primary_key);
            Answer::Column(type_out(&made), marks, bits)
        }
        Err(refusal) => alone(refusal),
    }
}

fn check_answer(spec: &Spec, value: &Value) -> Answer {
    let (handed, text) = value_in(value);
    match column(spec).and_then(|made| calls::is_valid_value(made, handed, text)) {
        Ok(valid) => Answer::Flag(valid),
        Err(refusal) => alone(refusal),
    }
}

/// A layout by bits is made first; one by types is handed over as it is, and the call on the table judges it.
fn layout_in(layout: &language::Layout) -> Asked<Layout> {
    let plain = Spec { made: Made::Bits(0), nullable: false, localizable: false, primary_key: false, range: None };
    let (mut bits, mut types) = (Vec::new(), Vec::new());
    for made in &layout.columns {
        match *made {
            Made::Bits(one) => bits.push(one),
            Made::Type(coltype) => types.push(parts(&plain, coltype)),
        }
    }
    match types.is_empty() {
        true => Layout::from_bitfields(&bits, layout.long),
        false => Ok(Layout::by_hand(&types, layout.long)),
    }
}

/// A value's kind and number, and the text beside it.
fn value_in(value: &Value) -> (KindAndNumber, &[u8]) {
    let (kind, number, text): (u8, i32, &[u8]) = match value {
        Value::Null => (0, 0, &[]),
        Value::Int(number) => (1, *number, &[]),
        Value::Text(text) => (2, 0, text),
        Value::Binary => (3, 0, &[]),
        Value::Handed(kind, number) => (*kind, *number, &[]),
    };
    (KindAndNumber { kind, number }, text)
}

impl PortSide {
    pub fn new() -> Asked<PortSide> {
        Ok(PortSide {
            state: calls::new(1252)?,
            lengths: Vec::new(),
            counts: Vec::new(),
            text: Vec::new(),
            lent: false,
            places: None,
            out: Vec::new(),
            width: 1,
            shown: HashMap::new(),
            judged: false,
        })
    }

    pub fn answer(&mut self, command: Command) -> Answer {
        if changes(&command) {
            self.shown.clear();
            self.judged = false;
        }
        match self.asked(command) {
            Ok(answer) => answer,
            Err(refusal) => Answer::Refused(refusal.number(), place_out(refusal.place())),
        }
    }

    fn asked(&mut self, command: Command) -> Asked<Answer> {
        Ok(match command {
            Command::Enc(table, name) => {
                let units = self.with_units(name.len() + 1, |out| calls::encode(&name, table, out))?;
                Answer::Units(self.units(units))
            }
            Command::Dec(stored) => {
                let (units, table) = self.with_units(stored.len() * 2, |out| calls::decode(&stored, out))?;
                Answer::Decoded(table, self.units(units))
            }
            Command::Valid(table, name) => Answer::Flag(calls::is_valid(&name, table)?),
            Command::New(page) => {
                self.state = calls::new(page)?;
                Answer::Done
            }
            Command::Load(pool, data) => self.load(&pool, &data)?,
            Command::Page(page) => {
                self.state = calls::set_codepage(self.state, self.rooms(), page)?;
                Answer::Done
            }
            Command::Take(choice, text) => Answer::Number(self.take(choice, &text)? as u64),
            Command::Drop(number) => {
                self.state = calls::decref(self.state, self.rooms_mut(), number)?;
                Answer::Done
            }
            Command::Show(number) => Answer::Bytes(self.show(number)?),
            Command::Count(number) => Answer::Number(calls::refcount(self.state, self.rooms(), number)? as u64),
            Command::State => Answer::Pool(self.state.codepage, self.state.long_string_refs, self.state.num_strings),
            Command::WritePool => Answer::Bytes(self.pool_stream()?),
            Command::WriteData => Answer::Bytes(self.data_stream()?),
            Command::Sum => Answer::Sums(self.pool_stream()?, self.data_stream()?),
            Command::Create(choice, value) => Answer::Cell(self.create(choice, &value)?),
            Command::Remove(cell) => {
                self.state = calls::remove(cell_in(cell), self.state, self.rooms_mut())?;
                Answer::Done
            }
            Command::Value(cell) => Answer::Value(self.value(cell_in(cell))?),
            Command::Col(spec) => column_answer(&spec),
            Command::Check(spec, value) => check_answer(&spec, &value),
            Command::Read(layout, stream) => self.read(&layout_in(&layout)?, &stream)?,
            Command::Rows(layout, stream) => self.values(&layout_in(&layout)?, &stream)?,
            Command::Place(layout, stream, row, column) => {
                let cell = calls::read_cell(&layout_in(&layout)?, &stream, row, column)?;
                Answer::Cell(cell_out(cell.kind, cell.number))
            }
            Command::Write(layout, rows, cells) => self.write(&layout_in(&layout)?, rows, &cells)?,
            Command::Lend(sizes) => self.lend(sizes),
            Command::Out(places) => {
                self.places = places;
                Answer::Done
            }
            Command::Hold(room) => self.hold(room),
            Command::Held(places) => self.held(places.unwrap_or(usize::MAX)),
            Command::Ref(number) => Answer::Number(calls::string_ref(number)? as u64),
            Command::Pool(num_strings, long_string_refs, codepage) => {
                self.state = State { num_strings, codepage, long_string_refs };
                Answer::Done
            }
        })
    }

    // ------------------------------------------------------------ rooms

    fn rooms(&self) -> Rooms<'_> {
        Rooms { lengths: &self.lengths, counts: &self.counts, text: &self.text }
    }

    fn rooms_mut(&mut self) -> RoomsMut<'_> {
        RoomsMut { lengths: &mut self.lengths, counts: &mut self.counts, text: &mut self.text }
    }

    fn resize(&mut self, lengths: usize, counts: usize, text: usize) {
        self.lengths.resize(lengths, u32::from_le_bytes([FILL; 4]));
        self.counts.resize(counts, u16::from_le_bytes([FILL; 2]));
        self.text.resize(text, FILL);
    }

    fn lend(&mut self, sizes: Option<(usize, usize, usize)>) -> Answer {
        self.lent = sizes.is_some();
        if let Some((lengths, counts, text)) = sizes {
            self.resize(lengths, counts, text);
        }
        Answer::Done
    }

    /// Rooms that hold so many entries and bytes more than they do.
    fn grow(&mut self, entries: usize, bytes: usize) {
        if !self.lent {
            let entries = self.lengths.len().min(self.counts.len()).max(entries);
            let text = self.text.len().max(bytes).min(MAX_BYTES);
            self.resize(entries, entries, text);
        }
    }

    fn hold(&mut self, room: Room) -> Answer {
        let fits = match room {
            Room::Lengths(numbers) => put_first(&numbers, &mut self.lengths),
            Room::Counts(numbers) => put_first(&numbers, &mut self.counts),
            Room::Text(bytes) => put_first(&bytes, &mut self.text),
        };
        if fits { Answer::Done } else { Answer::Bad }
    }

    fn held(&self, places: usize) -> Answer {
        Answer::Held(Held {
            lengths: last(&self.lengths, places).to_vec(),
            counts: last(&self.counts, places).to_vec(),
            text: last(&self.text, places).to_vec(),
            out: self.left(places.min(self.out.len())),
        })
    }

    /// The last places of the last output.
    fn left(&self, places: usize) -> Vec<u8> {
        let (kinds, rest) = self.out.split_at(if self.width == CELL { self.out.len() / CELL } else { 0 });
        let width = if self.width == CELL { CELL - 1 } else { self.width };
        [last(kinds, places), last(rest, width * places)].concat()
    }

    // ---------------------------------------------------------- outputs

    /// A call with an output of bytes.
    fn with_bytes<T>(&mut self, enough: usize, call: impl FnOnce(&mut [u8]) -> Asked<T>) -> Asked<T> {
        let mut out = vec![FILL; self.places.unwrap_or(enough)];
        let answer = call(&mut out);
        (self.out, self.width) = (out, 1);
        answer
    }

    /// A call with an output of units.
    fn with_units<T>(&mut self, enough: usize, call: impl FnOnce(&mut [u16]) -> Asked<T>) -> Asked<T> {
        let mut out = vec![u16::from_le_bytes([FILL; 2]); self.places.unwrap_or(enough)];
        let answer = call(&mut out);
        (self.out, self.width) = (out.iter().flat_map(|unit| unit.to_le_bytes()).collect(), 2);
        answer
    }

    fn units(&self, units: usize) -> Vec<u16> {
        self.out[..2 * units].chunks_exact(2).map(|two| u16::from_le_bytes([two[0], two[1]])).collect()
    }

    // ------------------------------------------------------------- pool

    fn load(&mut self, pool: &[u8], data: &[u8]) -> Asked<Answer> {
        self.grow(pool.len() / 4, data.len());
        self.state = calls::load(pool, data, self.rooms_mut())?;
        Ok(Answer::Pool(self.state.codepage, self.state.long_string_refs, self.state.num_strings))
    }

    /// A call that takes a text. Rooms that were too small grow twofold, so that a long trace does not grow them at every step.
    fn taking<T>(&mut self, text: &[u8], call: impl Fn(State, RoomsMut<'_>) -> Asked<(T, State)>) -> Asked<T> {
        loop {
            let state = self.state;
            match call(state, self.rooms_mut()) {
                Ok((answer, after)) => {
                    self.state = after;
                    return Ok(answer);
                }
                Err(refusal) if self.lent || !matches!(refusal.number(), 4 | 6) => return Err(refusal),
                Err(refusal) if refusal.number() == 6 && self.text.len() == MAX_BYTES => return Err(refusal),
                Err(_) => self.grow(2 * self.lengths.len() + 16, 2 * self.text.len() + text.len() + 64),
            }
        }
    }

    fn take(&mut self, choice: Choice, text: &[u8]) -> Asked<i32> {
        let incref = match choice {
            Choice::First => calls::incref_first,
            Choice::Default => calls::incref,
        };
        self.taking(text, |state, rooms| incref(state, rooms, text))
    }

    fn create(&mut self, choice: Choice, value: &Value) -> Asked<Cell> {
        let create = match choice {
            Choice::First => calls::create_first,
            Choice::Default => calls::create,
        };
        let (handed, text) = value_in(value);
        let made = self.taking(text, |state, rooms| create(handed, text, state, rooms))?;
        Ok(cell_out(made.kind, made.number))
    }

    fn show(&mut self, number: i32) -> Asked<Vec<u8>> {
        let mut out = vec![FILL; self.places.unwrap_or(self.text_length(number))];
        let answer = calls::get(self.state, self.rooms(), number, &mut out);
        (self.out, self.width) = (out, 1);
        Ok(self.out[..answer?].to_vec())
    }

    fn text_length(&self, number: i32) -> usize {
        let place = usize::try_from(number).ok().and_then(|number| number.checked_sub(1));
        place.and_then(|place| self.lengths.get(place)).map_or(0, |length| *length as usize).min(self.text.len())
    }

    fn pool_stream(&mut self) -> Asked<Vec<u8>> {
        let mut out = vec![FILL; self.places.unwrap_or(4 + 8 * self.state.num_strings.min(self.lengths.len()))];
        let answer = calls::write_pool(self.state, self.rooms(), &mut out);
        (self.out, self.width) = (out, 1);
        Ok(self.out[..answer?].to_vec())
    }

    fn data_stream(&mut self) -> Asked<Vec<u8>> {
        let mut out = vec![FILL; self.places.unwrap_or(self.text.len())];
        let answer = calls::write_data(self.state, self.rooms(), &mut out);
        (self.out, self.width) = (out, 1);
        Ok(self.out[..answer?].to_vec())
    }

    fn value(&mut self, cell: KindAndNumber) -> Asked<Value> {
        let shown = calls::to_value(cell, self.state, self.rooms())?;
        Ok(match shown.kind {
            0 => Value::Null,
            1 => Value::Int(shown.number),
            2 => {
                let mut out = vec![FILL; self.places.unwrap_or(self.text_length(cell.number))];
                let answer = calls::to_text(cell, self.state, self.rooms(), &mut out);
                (self.out, self.width) = (out, 1);
                Value::Text(self.out[..answer?].to_vec())
            }
            3 => Value::Binary,
            kind => Value::Handed(kind, shown.number),
        })
    }

    // ------------------------------------------------------------ table

    fn read(&mut self, layout: &Layout, stream: &[u8]) -> Asked<Answer> {
        let rows = calls::num_rows(layout, stream).unwrap_or(0);
        let places = self.places.unwrap_or(rows * layout.count());
        let (mut kinds, mut numbers) = (vec![FILL; places], vec![i32::from_le_bytes([FILL; 4]); places]);
        let answer = calls::read_rows(layout, stream, &mut kinds, &mut numbers);
        self.out = kinds.iter().copied().chain(numbers.iter().flat_map(|number| number.to_le_bytes())).collect();
        self.width = CELL;
        let cells = kinds.iter().zip(&numbers).take(answer?).map(|(kind, number)| cell_out(*kind, *number));
        Ok(Answer::Cells(rows, cells.collect()))
    }

    /// A cell's value among many of one pool: each text is asked for once, and of the other values the first.
    fn value_again(&mut self, cell: KindAndNumber) -> Asked<Value> {
        if self.places.is_some() {
            return self.value(cell);
        }
        if let Some(text) = self.shown.get(&cell.number).filter(|_| cell.kind == 2) {
            (self.out, self.width) = (text.clone(), 1);
            return Ok(Value::Text(text.clone()));
        }
        match cell_out(cell.kind, cell.number) {
            Cell::Null if self.judged => Ok(Value::Null),
            Cell::Int(number) if self.judged => Ok(Value::Int(number)),
            Cell::Binary if self.judged => Ok(Value::Binary),
            _ => {
                let value = self.value(cell)?;
                match &value {
                    Value::Text(text) => drop(self.shown.insert(cell.number, text.clone())),
                    _ => self.judged = true,
                }
                Ok(value)
            }
        }
    }

    /// By the row reader, which is asked once more after the end.
    fn values(&mut self, layout: &Layout, stream: &[u8]) -> Asked<Answer> {
        let (rows, mut values, mut at) = (calls::num_rows(layout, stream)?, Vec::new(), 0);
        loop {
            let step = calls::rows_next(layout, stream, at)?;
            match step.cell {
                Some(cell) => values.push(self.value_again(cell)?),
                None if calls::rows_next(layout, stream, step.at)? == step => return Ok(Answer::Values(rows, values)),
                None => return Ok(Answer::Bad),
            }
            at = step.at;
        }
    }

    fn write(&mut self, layout: &Layout, rows: usize, cells: &[Cell]) -> Asked<Answer> {
        let (kinds, numbers): (Vec<u8>, Vec<i32>) =
            cells.iter().map(|cell| cell_in(*cell)).map(|cell| (cell.kind, cell.number)).unzip();
        let bytes = self.with_bytes(4 * cells.len(), |out| calls::write_rows(layout, rows, &kinds, &numbers, out))?;
        Ok(Answer::Bytes(self.out[..bytes].to_vec()))
    }
}
