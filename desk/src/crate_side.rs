//! The crate's modules, asked in the words of language.rs.
//! The crate has no numbers for its refusals: they are told by the kind of error, by the stage, by the panic's message, and the
//! place of a cell by how much had been written.
use crate::internal::codepage::CodePage;
use crate::internal::column::{Column, ColumnType};
use crate::internal::streamname;
use crate::internal::stringpool::{StringPool, StringPoolBuilder, StringRef};
use crate::internal::table::{Rows, Table};
use crate::internal::value::{Value as CrateValue, ValueRef};
use crate::language::{Answer, Cell, Choice, Command, Layout, Made, Place, Spec, Type, Value, MAX_COLUMNS, MAX_NAME, MAX_ROWS};
use crate::requests;
use std::io::{self, Cursor, Read};
use std::panic::{catch_unwind, AssertUnwindSafe};
use std::rc::Rc;

const MAX_BYTES: usize = 268_435_455;
const MAX_ENTRIES: u32 = 16_777_215;
const MAX_STORED: usize = 65_536;

/// Why there is no plain answer.
enum Stop {
    Refused(u32, Place),
    Outside,
}

type Asked<T> = Result<T, Stop>;

fn refused<T>(number: u32) -> Asked<T> {
    Err(Stop::Refused(number, Place::Nowhere))
}

/// Notes whether the first read was filled, so that 1 and 2 can be told apart.
struct Counted<'a> {
    rest: &'a [u8],
    filled: usize,
}

impl Read for Counted<'_> {
    fn read(&mut self, buffer: &mut [u8]) -> io::Result<usize> {
        self.rest.read(buffer)
    }

    fn read_exact(&mut self, buffer: &mut [u8]) -> io::Result<()> {
        self.rest.read_exact(buffer)?;
        self.filled += 1;
        Ok(())
    }
}

fn string_ref(number: i32) -> Asked<StringRef> {
    if !(1..=MAX_ENTRIES as i32).contains(&number) {
        return Err(Stop::Outside);
    }
    let bytes = number.to_le_bytes();
    match StringRef::read(&mut &bytes[..3], true) {
        Ok(Some(made)) => Ok(made),
        _ => Err(Stop::Outside),
    }
}

fn cell_in(cell: &Cell) -> Asked<ValueRef> {
    Ok(match *cell {
        Cell::Null => ValueRef::Null,
        Cell::Int(number) => ValueRef::Int(number),
        Cell::Str(number) => ValueRef::Str(string_ref(number)?),
        Cell::Binary => ValueRef::Binary,
        Cell::Handed(..) => return Err(Stop::Outside),
    })
}

fn cell_out(cell: ValueRef) -> Cell {
    match cell {
        ValueRef::Null => Cell::Null,
        ValueRef::Int(number) => Cell::Int(number),
        ValueRef::Str(made) => Cell::Str(made.number()),
        ValueRef::Binary => Cell::Binary,
    }
}

fn type_out(coltype: ColumnType) -> Type {
    match coltype {
        ColumnType::Int16 => Type::Int16,
        ColumnType::Int32 => Type::Int32,
        ColumnType::Str(max) => Type::Str(max as u32),
        ColumnType::Binary => Type::Binary,
    }
}

/// The number of a panic, by its message.
fn panic_number(payload: &(dyn std::any::Any + Send)) -> u32 {
    let message = match (payload.downcast_ref::<String>(), payload.downcast_ref::<&str>()) {
        (Some(message), _) => message.as_str(),
        (_, Some(message)) => message,
        _ => "",
    };
    let known = [
        ("decref: string_ref", 9),
        ("decref: string refcount", 10),
        ("Too many strings", 11),
        ("Too many distinct", 12),
    ];
    known.iter().find(|(start, _)| message.starts_with(start)).map_or(0, |(_, number)| *number)
}

pub struct CrateSide {
    pool: StringPool,
    /// Lifts the guard of the domain: answers are then whatever the crate gives.
    raw: bool,
}

impl CrateSide {
    pub fn new(raw: bool) -> CrateSide {
        CrateSide { pool: StringPool::new(CodePage::Windows1252), raw }
    }

    pub fn answer(&mut self, command: Command) -> Answer {
        let given = match catch_unwind(AssertUnwindSafe(|| self.asked(command.clone()))) {
            Ok(Ok(answer)) => answer,
            Ok(Err(Stop::Refused(number, place))) => Answer::Refused(number, place),
            Ok(Err(Stop::Outside)) => Answer::Outside,
            Err(payload) => Answer::Refused(panic_number(&*payload), Place::Nowhere),
        };
        match requests::instead(&command, &given) {
            Some(answer) if !self.raw => Answer::Request(Box::new(answer)),
            _ => given,
        }
    }

    fn asked(&mut self, command: Command) -> Asked<Answer> {
        Ok(match command {
            Command::Enc(table, name) => units(&streamname::encode(&self.name(&name, MAX_NAME)?, table)),
            Command::Dec(name) => self.decoded(&name)?,
            Command::Valid(table, name) => Answer::Flag(streamname::is_valid(&self.name(&name, MAX_NAME)?, table)),
            Command::New(page) => {
                self.pool = StringPool::new(self.page(page)?);
                Answer::Done
            }
            Command::Load(pool, data) => self.load(&pool, &data)?,
            Command::Page(page) => {
                let page = self.page(page)?;
                self.pool.set_codepage(page);
                Answer::Done
            }
            Command::Take(choice, text) => {
                let text = self.taken(choice, &text)?;
                Answer::Number(self.pool.incref(text).number() as u64)
            }
            Command::Drop(number) => {
                self.pool.decref(string_ref(number)?);
                Answer::Done
            }
            Command::Show(number) => Answer::Bytes(self.text_out(self.pool.get(string_ref(number)?))),
            Command::Count(number) => Answer::Number(self.pool.refcount(string_ref(number)?).into()),
            Command::State => self.state(),
            Command::WritePool => Answer::Bytes(self.pool_stream()),
            Command::WriteData => Answer::Bytes(self.data_stream()),
            Command::Sum => Answer::Sums(self.pool_stream(), self.data_stream()),
            Command::Create(choice, value) => {
                let value = match value {
                    Value::Text(text) => CrateValue::Str(self.taken(choice, &text)?),
                    _ => self.value_in(value)?,
                };
                Answer::Cell(cell_out(ValueRef::create(value, &mut self.pool)))
            }
            Command::Remove(cell) => {
                cell_in(&cell)?.remove(&mut self.pool);
                Answer::Done
            }
            Command::Value(cell) => Answer::Value(self.value_out(cell_in(&cell)?.to_value(&self.pool))),
            Command::Col(spec) => column_answer(&self.column(&spec)?),
            Command::Check(spec, value) => {
                let value = self.value_in(value)?;
                Answer::Flag(self.column(&spec)?.is_valid_value(&value))
            }
            Command::Read(layout, stream) => {
                let (_, rows) = self.read(&layout, &stream)?;
                Answer::Cells(rows.len(), rows.into_iter().flatten().map(cell_out).collect())
            }
            Command::Rows(layout, stream) => self.rows(&layout, &stream)?,
            Command::Place(layout, stream, row, column) => {
                let (_, rows) = self.read(&layout, &stream)?;
                match rows.get(row).and_then(|cells| cells.get(column)) {
                    Some(cell) => Answer::Cell(cell_out(*cell)),
                    None => return refused(15),
                }
            }
            Command::Write(layout, rows, cells) => self.write(&layout, rows, &cells)?,
            Command::Lend(_) | Command::Out(_) | Command::Hold(_) | Command::Held(_) | Command::Pool(..) | Command::Ref(_) => {
                return Err(Stop::Outside)
            }
        })
    }

    fn name(&self, units: &[u16], most: usize) -> Asked<String> {
        if units.len() > most && !self.raw {
            return Err(Stop::Outside);
        }
        String::from_utf16(units).map_err(|_| Stop::Outside)
    }

    fn decoded(&self, stored: &[u16]) -> Asked<Answer> {
        let (name, table) = streamname::decode(&self.name(stored, MAX_STORED)?);
        let units: Vec<u16> = name.encode_utf16().collect();
        if units.len() > MAX_NAME && !self.raw {
            return Err(Stop::Outside);
        }
        Ok(Answer::Decoded(table, units))
    }

    fn page(&self, id: u32) -> Asked<CodePage> {
        let page = i32::try_from(id).ok().and_then(CodePage::from_id);
        match page {
            Some(page) if self.raw || page.id() as u32 == id => Ok(page),
            _ => Err(Stop::Outside),
        }
    }

    /// A text of the language is the bytes of the pool's code page.
    fn text_in(&self, bytes: &[u8]) -> Asked<String> {
        if bytes.is_ascii() {
            return Ok(String::from_utf8_lossy(bytes).into_owned());
        }
        if self.raw {
            return Ok(self.pool.codepage().decode(bytes));
        }
        Err(Stop::Outside)
    }

    /// A text to be taken: the crate has document 01's choice alone.
    fn taken(&self, choice: Choice, bytes: &[u8]) -> Asked<String> {
        if choice == Choice::Default && !self.raw {
            return Err(Stop::Outside);
        }
        self.text_in(bytes)
    }

    fn text_out(&self, text: &str) -> Vec<u8> {
        self.pool.codepage().encode(text)
    }

    fn value_in(&self, value: Value) -> Asked<CrateValue> {
        Ok(match value {
            Value::Null => CrateValue::Null,
            Value::Int(number) => CrateValue::Int(number),
            Value::Text(text) => CrateValue::Str(self.text_in(&text)?),
            Value::Binary => CrateValue::Binary,
            Value::Handed(..) => return Err(Stop::Outside),
        })
    }

    fn value_out(&self, value: CrateValue) -> Value {
        match value {
            CrateValue::Null => Value::Null,
            CrateValue::Int(number) => Value::Int(number),
            CrateValue::Str(text) => Value::Text(self.text_out(&text)),
            CrateValue::Binary => Value::Binary,
        }
    }

    fn load(&mut self, pool: &[u8], data: &[u8]) -> Asked<Answer> {
        if !self.raw && (pool.len() > MAX_BYTES || data.len() > MAX_BYTES) {
            return Err(Stop::Outside);
        }
        match pool.first_chunk::<4>() {
            Some(head) if !self.raw => drop(self.page(u32::from_le_bytes(*head) & 0x7fff_ffff)?),
            _ => {}
        }
        let mut source = Counted { rest: pool, filled: 0 };
        let builder = match StringPoolBuilder::read_from_pool(&mut source) {
            Ok(builder) => builder,
            // A code page that it does not know, outside the domain.
            Err(error) if error.kind() == io::ErrorKind::InvalidData => return refused(0),
            Err(_) if source.filled == 0 => return refused(1),
            Err(_) => return refused(2),
        };
        let mut texts = Counted { rest: data, filled: 0 };
        let made = match builder.build_from_data(&mut texts) {
            Ok(made) => made,
            Err(_) => return refused(5),
        };
        let used = data.len() - texts.rest.len();
        let inside = data[..used].is_ascii() && made.num_strings() <= MAX_ENTRIES;
        if !inside && !self.raw {
            return Err(Stop::Outside);
        }
        self.pool = made;
        Ok(self.state())
    }

    fn state(&self) -> Answer {
        Answer::Pool(self.pool.codepage().id() as u32, self.pool.long_string_refs(), self.pool.num_strings() as usize)
    }

    fn pool_stream(&self) -> Vec<u8> {
        let mut stream = Vec::new();
        let _ = self.pool.write_pool(&mut stream);
        stream
    }

    fn data_stream(&self) -> Vec<u8> {
        let mut stream = Vec::new();
        let _ = self.pool.write_data(&mut stream);
        stream
    }

    fn column(&self, spec: &Spec) -> Asked<Column> {
        let mut builder = Column::build("");
        if spec.nullable {
            builder = builder.nullable();
        }
        if spec.localizable {
            builder = builder.localizable();
        }
        if spec.primary_key {
            builder = builder.primary_key();
        }
        if let Some((min, max)) = spec.range {
            builder = builder.range(min, max);
        }
        match spec.made {
            Made::Bits(bits) => builder.with_bitfield(bits).or_else(|_| refused(13)),
            Made::Type(Type::Int16) => Ok(builder.int16()),
            Made::Type(Type::Int32) => Ok(builder.int32()),
            Made::Type(Type::Binary) => Ok(builder.binary()),
            Made::Type(Type::Str(max)) if max > 255 && !self.raw => Err(Stop::Outside),
            Made::Type(Type::Str(max)) => Ok(builder.string(max as usize)),
            Made::Type(Type::Handed(_)) => Err(Stop::Outside),
        }
    }

    fn table(&self, layout: &Layout) -> Asked<Rc<Table>> {
        if layout.columns.len() > MAX_COLUMNS && !self.raw {
            return Err(Stop::Outside);
        }
        let mut columns = Vec::new();
        for (place, made) in layout.columns.iter().enumerate() {
            let spec = Spec { made: *made, nullable: false, localizable: false, primary_key: false, range: None };
            match self.column(&spec) {
                Ok(column) => columns.push(column),
                Err(Stop::Refused(number, _)) => return Err(Stop::Refused(number, Place::Column(place))),
                Err(stop) => return Err(stop),
            }
        }
        Ok(Table::new(String::new(), columns, layout.long))
    }

    fn read(&self, layout: &Layout, stream: &[u8]) -> Asked<(Rc<Table>, Vec<Vec<ValueRef>>)> {
        let table = self.table(layout)?;
        match table.read_rows(Cursor::new(stream)) {
            Ok(rows) => Ok((table, rows)),
            Err(error) if error.kind() == io::ErrorKind::InvalidData => refused(14),
            Err(_) => refused(0),
        }
    }

    fn rows(&self, layout: &Layout, stream: &[u8]) -> Asked<Answer> {
        let (table, cells) = self.read(layout, stream)?;
        let mut rows = Rows::new(&self.pool, table, cells);
        let (mut values, mut count) = (Vec::new(), 0);
        for row in rows.by_ref() {
            count += 1;
            values.extend((0..row.len()).map(|column| self.value_out(row[column].clone())));
        }
        // Asked again after the last row, it answers that there is none.
        if rows.next().is_some() {
            return refused(0);
        }
        Ok(Answer::Values(count, values))
    }

    fn write(&self, layout: &Layout, rows: usize, cells: &[Cell]) -> Asked<Answer> {
        let table = self.table(layout)?;
        let columns = table.columns().len();
        if cells.len() != rows * columns || rows > MAX_ROWS && !self.raw {
            return Err(Stop::Outside);
        }
        let cells = cells.iter().map(cell_in).collect::<Asked<Vec<ValueRef>>>()?;
        if !self.raw && cells.iter().enumerate().any(|(at, cell)| over_width(&table, at, cell)) {
            return Err(Stop::Outside);
        }
        let handed = (0..rows).map(|row| cells[row * columns..(row + 1) * columns].to_vec()).collect();
        let mut output = Vec::new();
        match table.write_rows(&mut output, handed) {
            Ok(()) => Ok(Answer::Bytes(output)),
            Err(error) => Err(refused_cell(&table, layout.long, rows, output.len(), &error.to_string())),
        }
    }
}

fn units(name: &str) -> Answer {
    Answer::Units(name.encode_utf16().collect())
}

fn column_answer(column: &Column) -> Answer {
    let marks =
        u32::from(column.is_nullable()) + 2 * u32::from(column.is_localizable()) + 4 * u32::from(column.is_primary_key());
    Answer::Column(type_out(column.coltype()), marks, column.bitfield())
}

/// An Int outside its Int16 column, which the crate cuts to 16 bits.
fn over_width(table: &Table, at: usize, cell: &ValueRef) -> bool {
    let column = &table.columns()[at % table.columns().len()];
    match cell {
        ValueRef::Int(number) => column.coltype() == ColumnType::Int16 && i16::try_from(*number).is_err(),
        _ => false,
    }
}

/// The cell that was refused begins where writing stopped.
fn refused_cell(table: &Table, long: bool, rows: usize, written: usize, message: &str) -> Stop {
    let number = if message.contains("long_string_refs") { 18 } else { 16 };
    let mut start = 0;
    for (place, column) in table.columns().iter().enumerate() {
        let width = column.coltype().width(long) as usize;
        if written < start + width * rows {
            return Stop::Refused(number, Place::Cell((written - start) / width, place));
        }
        start += width * rows;
    }
    Stop::Refused(0, Place::Nowhere)
}
