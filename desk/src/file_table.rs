//! The packer's walk: every cell of a package's File table as a value, by the crate's `Rows` and by the package's, from the same
//! streams. Each side answers the same sum over all values, so that none is left out.
use crate::internal::column::Column;
use crate::internal::stringpool::{StringPool, StringPoolBuilder};
use crate::internal::table::{Rows, Table};
use crate::internal::value::Value;
use std::io::Cursor;

/// File, Component_, FileName, FileSize, Version, Language, Attributes, Sequence.
const BITS: [i32; 8] = [0x2d48, 0xd48, 0xfff, 0x104, 0x1d48, 0x1d14, 0x1502, 0x1502];
/// How many files a component has, and how many versions there are among all.
const FILES_OF_ONE: usize = 17;
const VERSIONS: usize = 40;

/// The streams of a package of so many files, eight cells to a file, two texts of its own to each. References take three bytes.
pub struct Package {
    pool: Vec<u8>,
    data: Vec<u8>,
    table: Vec<u8>,
}

/// The streams' texts as they are put in, each with its number.
struct Texts {
    pool: Vec<u8>,
    data: Vec<u8>,
    number: usize,
}

impl Texts {
    fn put(&mut self, text: &str, count: usize) -> usize {
        self.pool.extend((text.len() as u16).to_le_bytes());
        self.pool.extend((count as u16).to_le_bytes());
        self.data.extend(text.bytes());
        self.number += 1;
        self.number
    }
}

impl Package {
    pub fn new(files: usize) -> Package {
        let mut texts = Texts { pool: 0x8000_04e4u32.to_le_bytes().to_vec(), data: Vec::new(), number: 0 };
        let language = texts.put("1033", files);
        let versions: Vec<usize> = (0..VERSIONS).map(|n| texts.put(&format!("10.0.{n}.1284"), files / VERSIONS)).collect();
        let components: Vec<usize> =
            (0..files / FILES_OF_ONE + 1).map(|n| texts.put(&format!("Component{n:05}_Shared"), FILES_OF_ONE)).collect();
        let keys: Vec<usize> = (0..files).map(|n| texts.put(&format!("FontFile{n:05}.ttf"), 1)).collect();
        let names: Vec<usize> = (0..files).map(|n| texts.put(&format!("FONT{n:04X}|Grotesk-{n:05}-BoldItalic.ttf"), 1)).collect();
        let reference = |number: usize| number.to_le_bytes()[..3].to_vec();
        let small = |number: usize| (number as u16 ^ 0x8000).to_le_bytes().to_vec();
        let large = |number: usize| (number as u32 ^ 0x8000_0000).to_le_bytes().to_vec();
        // Column after column, as a table is stored; one file in four has no version.
        let column = |cell: &dyn Fn(usize) -> Vec<u8>| (0..files).flat_map(cell).collect::<Vec<u8>>();
        let table = [
            column(&|n| reference(keys[n])),
            column(&|n| reference(components[n / FILES_OF_ONE])),
            column(&|n| reference(names[n])),
            column(&|n| large(n * 977)),
            column(&|n| reference(if n % 4 == 0 { 0 } else { versions[n % VERSIONS] })),
            column(&|_| reference(language)),
            column(&|n| small(n % 4 * 512)),
            column(&|n| small(n % 32_767 + 1)),
        ];
        Package { pool: texts.pool, data: texts.data, table: table.concat() }
    }

    pub fn crate_load(&self) -> StringPool {
        let builder = StringPoolBuilder::read_from_pool(Cursor::new(&self.pool)).expect("a good pool stream");
        builder.build_from_data(Cursor::new(&self.data)).expect("a good data stream")
    }

    pub fn port_load(&self) -> strandroost::StringPool {
        strandroost::StringPool::load(&self.pool, &self.data).expect("good streams")
    }

    /// The crate's walk.
    pub fn by_crate(&self, pool: &StringPool) -> usize {
        let columns = BITS.iter().map(|bits| Column::build("x").with_bitfield(*bits).expect("good bits")).collect();
        let table = Table::new("File".into(), columns, true);
        let cells = table.read_rows(Cursor::new(&self.table)).expect("good rows");
        let of_value = |value: &Value| match value {
            Value::Int(number) => *number as usize,
            Value::Str(text) => text.len() + usize::from(text.as_bytes()[text.len() / 2]),
            _ => 1,
        };
        let of_row = |row: crate::internal::table::Row| (0..row.len()).map(|at| of_value(&row[at])).sum::<usize>();
        Rows::new(pool, table, cells).map(of_row).sum()
    }

    /// The package's.
    pub fn by_port(&self, pool: &strandroost::StringPool) -> usize {
        use strandroost::Value;
        let table = strandroost::Table::from_bitfields(&BITS, true).expect("good bits");
        let of_value = |value: &Value| match value {
            Value::Int(number) => *number as usize,
            Value::Str(text) => text.len() + usize::from(text[text.len() / 2]),
            _ => 1,
        };
        table.rows(&self.table, pool).expect("good rows").map(|row| row.values().iter().map(of_value).sum::<usize>()).sum()
    }
}
