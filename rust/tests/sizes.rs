//! The sizes of document 01 that need rooms of 33 to 268 megabytes: refusals 3, 12 and 22, each at the last input that
//! is taken and at the first that is refused.

use strandroost::calls::{self, KindAndNumber, Rooms, RoomsMut, State};
use strandroost::Table;

const MAX_ENTRIES: usize = 16_777_215;
const MAX_BYTES: usize = 268_435_455;

/// A pool in rooms of its own.
struct Lent {
    lengths: Vec<u32>,
    counts: Vec<u16>,
    text: Vec<u8>,
}

impl Lent {
    fn new(entries: usize, count: u16, bytes: usize) -> Lent {
        Lent { lengths: vec![0; entries], counts: vec![count; entries], text: vec![0; bytes] }
    }

    fn rooms(&self) -> Rooms<'_> {
        Rooms { lengths: &self.lengths, counts: &self.counts, text: &self.text }
    }

    fn lend(&mut self) -> RoomsMut<'_> {
        RoomsMut { lengths: &mut self.lengths, counts: &mut self.counts, text: &mut self.text }
    }
}

fn state(num_strings: usize, long_string_refs: bool) -> State {
    State { num_strings, codepage: 1252, long_string_refs }
}

/// A pool stream of so many free entries, each four zeros.
fn stream(entries: usize) -> Vec<u8> {
    vec![0; 4 + 4 * entries]
}

fn number<T: std::fmt::Debug>(answer: Result<T, strandroost::Refusal>) -> u32 {
    answer.map_or_else(|refusal| refusal.number(), |_| 0)
}

#[test]
fn one_entry_too_many_is_3_whatever_the_rooms() {
    let mut none = Lent::new(0, 0, 0);
    let mut all = Lent::new(MAX_ENTRIES, 9, 0);
    let too_many = stream(MAX_ENTRIES + 1);
    assert_eq!(number(calls::load(&too_many, &[], none.lend())), 3);
    assert_eq!(number(calls::load(&too_many, &[], all.lend())), 3);
    assert!(all.counts.iter().all(|count| *count == 9));
    assert_eq!(number(calls::load(&[&too_many[..], &[0, 0]].concat(), &[], all.lend())), 2);
    assert_eq!(number(calls::load(&stream(MAX_ENTRIES), &[], none.lend())), 4);
    assert_eq!(calls::load(&stream(MAX_ENTRIES), &[], all.lend()).unwrap().num_strings, MAX_ENTRIES);
    assert!(all.counts.iter().all(|count| *count == 0));
}

#[test]
fn a_new_entry_after_the_last_number_is_12_and_11_where_references_are_short() {
    for take in [calls::incref, calls::incref_first] {
        let mut lent = Lent::new(MAX_ENTRIES + 1, u16::MAX, 1);
        assert_eq!(number(take(state(MAX_ENTRIES, true), lent.lend(), b"A")), 12);
        assert_eq!(number(take(state(MAX_ENTRIES, false), lent.lend(), b"A")), 11);
        assert_eq!(number(calls::refcount(state(MAX_ENTRIES + 1, true), lent.rooms(), 1)), 24);
        let after = state(MAX_ENTRIES, true);
        assert_eq!(take(state(MAX_ENTRIES - 1, true), lent.lend(), b"A").unwrap(), (16_777_215, after));
        assert_eq!((lent.lengths[MAX_ENTRIES - 1], lent.counts[MAX_ENTRIES - 1], lent.text[0]), (1, 1, b'A'));
        assert_eq!(take(after, lent.lend(), b"A").unwrap(), (16_777_215, after));
    }
}

#[test]
fn streams_texts_and_text_rooms_above_the_size_are_22() {
    let over = vec![7; MAX_BYTES + 1];
    let most = &over[..MAX_BYTES];
    let mut small = Lent::new(1, 0, 1);
    let table = Table::from_bitfields(&[0x502], false).unwrap();
    assert_eq!(number(calls::load(&over, &[], small.lend())), 22);
    assert_eq!(number(calls::load(&[0; 4], &over, small.lend())), 22);
    assert_eq!(number(calls::load(most, most, small.lend())), 2);
    for take in [calls::incref, calls::incref_first] {
        assert_eq!(number(take(state(0, false), small.lend(), &over)), 22);
        assert_eq!(number(take(state(0, false), small.lend(), most)), 6);
    }
    let unknown = KindAndNumber { kind: 4, number: 0 };
    for create in [calls::create, calls::create_first] {
        assert_eq!(number(create(unknown, &over, state(0, false), small.lend())), 22);
        assert_eq!(number(create(unknown, most, state(0, false), small.lend())), 16);
    }
    assert_eq!(number(calls::is_valid_value(calls::column_build(), unknown, &over)), 22);
    assert_eq!(number(calls::is_valid_value(calls::column_build(), unknown, most)), 16);
    assert_eq!(number(table.num_rows(&over)), 22);
    assert_eq!(number(table.num_rows(most)), 14);
    assert_eq!((small.lengths[0], small.counts[0], small.text[0]), (0, 0, 0));

    let mut room = Lent::new(1, 0, MAX_BYTES + 1);
    assert_eq!(number(calls::load(&[0; 4], &[], room.lend())), 22);
    assert_eq!(number(calls::incref(state(0, false), room.lend(), most)), 22);
    assert_eq!(number(calls::get(state(0, false), room.rooms(), 1, &mut [])), 22);
    assert_eq!(number(calls::remove(unknown, state(0, false), room.lend())), 22);
    assert_eq!(number(calls::to_text(unknown, state(0, false), room.rooms(), &mut [])), 22);
    assert_eq!(number(calls::write_data(state(0, false), room.rooms(), &mut [])), 22);
    room.text.truncate(MAX_BYTES);
    assert_eq!(calls::incref(state(0, false), room.lend(), most).unwrap(), (1, state(1, false)));
    assert!(room.text == most);
    let mut out = vec![0; MAX_BYTES];
    assert_eq!(calls::write_data(state(1, false), room.rooms(), &mut out).unwrap(), MAX_BYTES);
    assert!(out == most);
}
