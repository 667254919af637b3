//! What the examples of the package do not show: rooms that grow, refusals that are handed on, and their order.

use strandroost::calls::{self, ColumnParts, Layout};
use strandroost::{streamname, Column, ColumnType, Place, Refusal, StringPool, StringRef, Table, Value, ValueRef};

fn reference(number: i32) -> StringRef {
    StringRef::new(number).unwrap()
}

#[test]
fn rooms_grow_with_the_pool() {
    let mut pool = StringPool::new(1252).unwrap();
    for number in 0..3_000 {
        let text = format!("Component{number:06}");
        assert_eq!(pool.incref(text.as_bytes()).unwrap().number(), number + 1);
    }
    assert_eq!(pool.num_strings(), 3_000);
    assert_eq!(pool.get(reference(2_000)), b"Component001999");
    let again = StringPool::load(&pool.write_pool().unwrap(), &pool.write_data().unwrap()).unwrap();
    assert_eq!(again.write_pool(), pool.write_pool());
    assert_eq!(again.write_data(), pool.write_data());
}

#[test]
fn a_short_pool_that_is_full_refuses_with_11() {
    let mut stream = 1252u32.to_le_bytes().to_vec();
    for _ in 0..65_535 {
        stream.extend([1, 0, 0xff, 0xff]);
    }
    let mut pool = StringPool::load(&stream, &[b'A'; 65_535]).unwrap();
    assert_eq!(pool.incref(b"B").unwrap_err().number(), 11);
    assert_eq!(pool.write_pool().unwrap(), stream);
}

#[test]
fn a_caption_that_is_there_is_taken_again_and_stands_twice_by_the_old_choice() {
    // A free entry before "Next", which counts 1.
    let loaded = StringPool::load(&[0xe4, 4, 0, 0, 0, 0, 0, 0, 4, 0, 1, 0], b"Next").unwrap();
    let counts = |pool: &StringPool| pool.texts().map(|entry| entry.count).collect::<Vec<_>>();
    let (mut kept, mut twice) = (loaded.clone(), loaded);
    assert_eq!((kept.incref(b"Next").unwrap().number(), counts(&kept)), (2, vec![0, 2]));
    assert_eq!((twice.incref_first(b"Next").unwrap().number(), counts(&twice)), (1, vec![1, 1]));
    assert_eq!((kept.write_data().unwrap(), twice.write_data().unwrap()), (b"Next".to_vec(), b"NextNext".to_vec()));
}

#[test]
fn a_damaged_stream_is_refused_and_said_in_words() {
    let refusal = StringPool::load(&[0xe4, 4, 0, 0, 9, 0], &[]).unwrap_err();
    assert_eq!((refusal.number(), refusal.place()), (2, Place::Nowhere));
    assert_eq!(refusal.to_string(), "the pool stream ends inside an entry (refusal 2)");
    let answered: Result<(), Refusal> = Err(refusal);
    assert_eq!(format!("{answered:?}"), format!("Err({refusal})"));
    assert_eq!(std::io::Error::from(refusal).to_string(), refusal.to_string());
}

#[test]
fn streams_that_load_no_pool_are_refused_in_their_order() {
    let entry = [0xe4, 4, 0, 0, 2, 0, 1, 0];
    assert_eq!(StringPool::load(&[], &[]).unwrap_err().number(), 1);
    assert_eq!(StringPool::load(&entry, b"A").unwrap_err().number(), 5);
    assert_eq!(StringPool::load(&entry, b"ABC").unwrap().write_data().unwrap(), b"AB");
    assert_eq!(StringPool::load(&entry[..5], b"ABC").unwrap().num_strings(), 0);
    // A length of four bytes that no stream has.
    let long = [0xe4, 4, 0, 0, 0, 0, 1, 0, 0xff, 0xff, 0xff, 0xff];
    assert_eq!(StringPool::load(&long, b"ABC").unwrap_err().number(), 5);
}

#[test]
fn rows_of_unequal_length_are_23_after_14() {
    let table = Table::new(vec![Column::build().int16(), Column::build().int16()], false).unwrap();
    let mut rows = vec![vec![ValueRef::Int(1)], vec![ValueRef::Int(1), ValueRef::Null, ValueRef::Null]];
    assert_eq!(table.write_rows(&rows).unwrap_err().number(), 23);
    rows.resize(65_536, vec![ValueRef::Null; 2]);
    assert_eq!(table.write_rows(&rows).unwrap_err().number(), 23);
    rows.push(Vec::new());
    assert_eq!(table.write_rows(&rows).unwrap_err().number(), 14);
}

#[test]
fn a_table_without_columns_has_rows_without_cells() {
    let table = Table::new(Vec::new(), false).unwrap();
    assert_eq!(table.write_rows(&[Vec::new(), Vec::new()]).unwrap(), []);
    assert_eq!(table.write_rows(&[vec![ValueRef::Null]]).unwrap_err().number(), 23);
    assert_eq!(table.write_rows(&vec![vec![ValueRef::Null]; 65_537]).unwrap_err().number(), 14);
    assert_eq!(table.rows(b"ABC", &StringPool::new(0).unwrap()).unwrap().len(), 0);
}

#[test]
fn too_many_columns_are_refused_with_20() {
    assert_eq!(Table::new(vec![Column::build().string(300); 65], false).unwrap_err().number(), 20);
}

#[test]
fn bits_and_columns_agree() {
    let column = Column::build().nullable().range(1, 5).with_bitfield(0x2502).unwrap();
    assert!(column.is_nullable() && column.is_primary_key() && !column.is_localizable());
    assert_eq!((column.bitfield(), column.value_range()), (Ok(0x3502), Some((1, 5))));
    assert_eq!(column.is_valid_value(&Value::Int(6)), Ok(false));
    assert_eq!(Column::build().with_bitfield(0x503).unwrap_err().number(), 13);
    let key = Column::build().primary_key().range(1, 5).int16();
    assert_eq!(key.but_nullable(), Column::build().primary_key().nullable().range(1, 5).int16());
}

#[test]
fn widths_are_those_of_the_archive() {
    for column in [Column::build().int16(), Column::build().int32(), Column::build().string(9), Column::build().binary()] {
        for long in [false, true] {
            let table = Table::new(vec![column], long).unwrap();
            let stream = vec![1; 60];
            assert_eq!(table.num_rows(&stream).unwrap(), 60 / column.coltype().width(long));
        }
    }
}

#[test]
fn limits_of_references_are_those_of_the_archive() {
    assert_eq!(reference(StringRef::MIN).number(), StringRef::MIN);
    assert_eq!(reference(StringRef::MAX).number(), StringRef::MAX);
    assert_eq!(StringRef::new(StringRef::MIN - 1).unwrap_err().number(), 8);
    assert_eq!(StringRef::new(StringRef::MAX + 1).unwrap_err().number(), 8);
}

#[test]
fn references_are_read_and_written_as_a_table_has_them() {
    for (number, long) in [(1, false), (65_535, false), (1, true), (65_536, true), (StringRef::MAX, true)] {
        let table = Table::new(vec![Column::build().string(0)], long).unwrap();
        let mut stream = Vec::new();
        StringRef::write(&mut stream, Some(reference(number)), long).unwrap();
        assert_eq!(table.write_rows(&[vec![ValueRef::Str(reference(number))]]).unwrap(), stream);
        assert_eq!(StringRef::read(&mut &stream[..], long).unwrap(), Some(reference(number)));
        assert!(StringRef::read(&mut &stream[1..], long).is_err());
    }
    let mut none = Vec::new();
    StringRef::write(&mut none, None, false).unwrap();
    assert_eq!(none, [0, 0]);
}

#[test]
fn names_go_by_str_and_by_units() {
    for name in ["", "Property", "\u{5}SummaryInformation", "Grüße 😀", "a-b"] {
        for is_table in [false, true] {
            let units: Vec<u16> = name.encode_utf16().collect();
            let stored = streamname::encode(name, is_table).unwrap();
            assert_eq!(streamname::encode_units(&units, is_table).unwrap(), stored.encode_utf16().collect::<Vec<_>>());
            assert_eq!(streamname::decode(&stored).unwrap(), (name.to_string(), is_table));
            assert_eq!(streamname::is_valid(name, is_table), streamname::is_valid_units(&units, is_table));
        }
    }
    for units in [65_535, 65_536, 65_537, 1_000_000] {
        let name = "-".repeat(units);
        assert_eq!(streamname::encode(&name, true).is_ok(), units <= 65_535);
        assert_eq!(streamname::is_valid(&name, true).is_ok(), units <= 65_535);
        assert_eq!(streamname::decode(&name).is_ok(), units <= 65_535);
    }
    let letters = "\u{3800}".repeat(32_767);
    assert_eq!(streamname::decode(&letters).unwrap().0.len(), 65_534);
    assert_eq!(streamname::decode(&(letters + "\u{3800}")).unwrap_err().number(), 22);
}

#[test]
fn a_valid_name_comes_back_and_the_container_takes_it() {
    let names = [
        ("fonts/latin", false),
        ("fonts\\latin", false),
        ("fonts:latin", false),
        ("fonts!", false),
        ("\u{3800}", false),
        ("a\u{483f}", false),
        ("fonts.latin", true),
        ("\u{37ff}", true),
        ("a\u{4840}", true),
        ("\u{4841}", true),
    ];
    for (name, valid) in names {
        for is_table in [false, true] {
            assert_eq!(streamname::is_valid(name, is_table), Ok(valid), "{name}");
            let back = streamname::decode(&streamname::encode(name, is_table).unwrap()).unwrap();
            assert!(!valid || back == (name.to_string(), is_table), "{name}");
        }
    }
}

#[test]
fn values_are_made_from_what_a_caller_has() {
    let numbers = [Value::from(true), Value::from(-7i16), Value::from(40_000u16), Value::from(-40_000)];
    assert_eq!(numbers.map(|number| number.as_int()), [Some(1), Some(-7), Some(40_000), Some(-40_000)]);
    let text = Value::Str(b"Arial".to_vec());
    for made in [Value::from("Arial"), String::from("Arial").into(), b"Arial"[..].into(), b"Arial".to_vec().into()] {
        assert_eq!(made, text);
    }
    assert_eq!((Value::Str(vec![0xe4]).as_str(), Value::Str(vec![0xe4]).as_bytes()), (None, Some(&[0xe4][..])));
    assert!(Value::Null < Value::Int(-1) && Value::Int(9) < text && text < Value::Binary);
    assert_eq!(format!("{:>15}|{:<4}|", Value::Binary, Value::Int(7)), "  BINARY_STREAM|7   |");
}

#[test]
fn types_are_shown_as_the_crate_shows_them() {
    let types = [ColumnType::Int16, ColumnType::Int32, ColumnType::Str(0), ColumnType::Str(255), ColumnType::Binary];
    assert_eq!(types.map(|one| one.to_string()), ["SMALLINT", "INTEGER", "VARCHAR(0)", "VARCHAR(255)", "BINARY"]);
}

#[test]
fn rows_say_how_many_are_left() {
    let pool = StringPool::new(1252).unwrap();
    let table = Table::from_bitfields(&[0x502], false).unwrap();
    let mut rows = table.rows(&[1, 0x80, 2, 0x80, 3, 0x80, 0xff], &pool).unwrap();
    assert_eq!((rows.len(), rows.columns().len()), (3, 1));
    assert_eq!(rows.next().unwrap().get(0), Some(&Value::Int(1)));
    assert_eq!((rows.size_hint(), rows.clone().count()), ((2, Some(2)), 2));
    let last = rows.nth(1).unwrap();
    assert_eq!((last.values(), last.len(), last.get(1)), (&[Value::Int(3)][..], 1, None));
    assert_eq!((rows.len(), rows.next(), rows.next()), (0, None, None));
}

#[test]
fn what_a_caller_owns_goes_between_threads() {
    fn owned<T: Send + Sync + Clone + 'static>() {}
    owned::<StringPool>();
    owned::<Table>();
    owned::<Value>();
    owned::<Refusal>();
    owned::<Layout>();
}

#[test]
fn columns_by_hand_are_judged_by_the_call() {
    let wide = ColumnParts { coltype: 2, max_len: 256, ..calls::column_build() };
    assert_eq!(calls::num_rows(&Layout::by_hand(&[wide], false), &[]).unwrap_err().place(), Place::Column(0));
}
