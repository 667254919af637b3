//! What memory the package asks for, and when: sizes are judged first, a refusal leaves no room behind, and a system that has no
//! memory is a refusal and no abort.

use std::alloc::{GlobalAlloc, Layout, System};
use std::cell::Cell;
use strandroost::{streamname, Column, StringPool, StringRef, Table, ValueRef};

const MAX_BYTES: usize = 268_435_455;
const MEGABYTE: usize = 1 << 20;

/// The system's memory, with how much this thread holds, the most that it held, and the most that it may hold.
struct Counted;

thread_local! {
    static HELD: Cell<isize> = const { Cell::new(0) };
    static MOST: Cell<isize> = const { Cell::new(0) };
    static LIMIT: Cell<isize> = const { Cell::new(isize::MAX) };
}

/// A piece of the system's in place of one of `before` bytes, counted; none where that would be too much.
fn counted(before: usize, size: usize, give: impl FnOnce() -> *mut u8) -> *mut u8 {
    let held = HELD.get() + size as isize - before as isize;
    let given = if held > LIMIT.get() { std::ptr::null_mut() } else { give() };
    if !given.is_null() {
        HELD.set(held);
        MOST.set(MOST.get().max(held));
    }
    given
}

// SAFETY: every piece is the system's own, or none.
unsafe impl GlobalAlloc for Counted {
    unsafe fn alloc(&self, layout: Layout) -> *mut u8 {
        // SAFETY: handed on as the caller promises.
        counted(0, layout.size(), || unsafe { System.alloc(layout) })
    }

    unsafe fn alloc_zeroed(&self, layout: Layout) -> *mut u8 {
        // SAFETY: handed on as the caller promises.
        counted(0, layout.size(), || unsafe { System.alloc_zeroed(layout) })
    }

    unsafe fn realloc(&self, piece: *mut u8, layout: Layout, size: usize) -> *mut u8 {
        // SAFETY: handed on as the caller promises.
        counted(layout.size(), size, || unsafe { System.realloc(piece, layout, size) })
    }

    unsafe fn dealloc(&self, piece: *mut u8, layout: Layout) {
        HELD.set(HELD.get() - layout.size() as isize);
        // SAFETY: handed on as the caller promises.
        unsafe { System.dealloc(piece, layout) }
    }
}

#[global_allocator]
static ALL: Counted = Counted;

/// What a call answered, how much memory it held at most beyond what was held before, and how much it left held.
fn watched<T>(call: impl FnOnce() -> T) -> (T, isize, isize) {
    let before = HELD.get();
    MOST.set(before);
    let answer = call();
    (answer, MOST.get() - before, HELD.get() - before)
}

/// The same in a system that has so many bytes left.
fn within<T>(bytes: isize, call: impl FnOnce() -> T) -> (T, isize) {
    LIMIT.set(HELD.get() + bytes);
    let (answer, _, left) = watched(call);
    LIMIT.set(isize::MAX);
    (answer, left)
}

fn number<T>(answer: Result<T, strandroost::Refusal>) -> u32 {
    answer.map_or_else(|refusal| refusal.number(), |_| 0)
}

/// A pool stream of so many entries of one byte.
fn stream(entries: usize) -> Vec<u8> {
    [&[0xe4, 4, 0, 0x80][..], &[1, 0, 1, 0].repeat(entries)].concat()
}

#[test]
fn a_gibibyte_is_22_without_memory() {
    let huge = vec![0; 1 << 30];
    let table = Table::from_bitfields(&[0x502], false).unwrap();
    let (pool, data) = (watched(|| number(StringPool::load(&huge, &[]))), watched(|| number(StringPool::load(&[0; 4], &huge))));
    assert_eq!((pool, data), ((22, 0, 0), (22, 0, 0)));
    let mut short = StringPool::new(1252).unwrap();
    assert_eq!(watched(|| number(short.incref(&huge))), (22, 0, 0));
    let (rows, most, _) = watched(|| number(table.read_rows(&huge)));
    assert!((rows, most) == (22, 0));
}

#[test]
fn names_over_their_size_ask_for_no_more_than_a_name() {
    let (name, units) = ("-".repeat(1 << 26), vec![0x2d; 1 << 26]);
    for (refused, most, left) in [
        watched(|| number(streamname::encode(&name, true))),
        watched(|| number(streamname::decode(&name))),
        watched(|| number(streamname::is_valid(&name, true))),
        watched(|| number(streamname::encode_units(&units, true))),
        watched(|| number(streamname::decode_units(&units))),
    ] {
        assert_eq!((refused, left), (22, 0));
        assert!(most < MEGABYTE as isize, "{most}");
    }
}

#[test]
fn a_load_that_is_refused_asks_for_nothing_that_it_does_not_need() {
    let entries = 16_777_216;
    let mut free = vec![0; 4 + 4 * entries];
    assert_eq!(watched(|| number(StringPool::load(&free, &[]))), (3, 0, 0));
    free.extend([0; 2]);
    assert_eq!(watched(|| number(StringPool::load(&free, &[]))), (2, 0, 0));
    // 5 is judged with the entries, and before there is room for texts.
    let data = vec![b'A'; 64 * MEGABYTE];
    let stream = [&stream(9)[..], &[0, 0, 1, 0], &(65 * MEGABYTE as u32).to_le_bytes()].concat();
    let (refused, most, left) = watched(|| number(StringPool::load(&stream, &data)));
    assert_eq!((refused, left), (5, 0));
    assert!(most < 1_000, "{most}");
}

#[test]
fn a_pool_holds_what_its_streams_hold() {
    let data = vec![b'A'; 64 * MEGABYTE];
    let (pool, _, left) = watched(|| StringPool::load(&stream(1_000), &data).unwrap());
    assert_eq!(left, 1_000 * (4 + 2 + 1));
    drop(pool);
}

#[test]
fn a_take_that_is_refused_leaves_no_room_behind() {
    // There is no room for another entry, so 4 comes before 6.
    let mut pool = StringPool::load(&stream(1), b"A").unwrap();
    let text = vec![b'B'; MAX_BYTES];
    let (refused, most, left) = watched(|| number(pool.incref(&text)));
    assert_eq!((refused, left), (6, 0));
    assert!(most < 1_000, "{most}");
    assert_eq!((pool.num_strings(), pool.get(StringRef::new(1).unwrap())), (1, &b"A"[..]));
}

#[test]
fn the_largest_texts_are_taken_where_a_free_entry_makes_room() {
    // A free entry of five bytes, and "A".
    let mut pool = StringPool::load(&[0xe4, 4, 0, 0, 5, 0, 0, 0, 1, 0, 1, 0], b"XXXXXA").unwrap();
    let text = vec![b'B'; MAX_BYTES];
    let (refused, most, left) = watched(|| number(pool.incref(&text)));
    assert_eq!((refused, left), (6, 0));
    assert!(most < 1_000, "{most}");
    assert_eq!(pool.incref(&text[1..]).unwrap().number(), 1);
    assert_eq!(pool.get(StringRef::new(2).unwrap()), b"A");
    assert!(pool.get(StringRef::new(1).unwrap()) == &text[1..]);
    assert_eq!(number(pool.incref(b"C")), 6);
}

#[test]
fn rows_beyond_their_number_are_14_without_memory() {
    let table = Table::new(vec![Column::build().int32(); 8], false).unwrap();
    let rows = vec![vec![ValueRef::Null; 8]; 65_537];
    assert_eq!(watched(|| number(table.write_rows(&rows))), (14, 0, 0));
}

#[test]
fn a_system_without_memory_is_a_refusal() {
    let (stream, data) = (stream(100_000), vec![b'A'; 100_000]);
    for (bytes, refused) in [(399_999, 4), (599_999, 4), (699_999, 6)] {
        assert_eq!(within(bytes, || number(StringPool::load(&stream, &data))), (refused, 0));
    }
    let (pool, left) = within(700_000, || StringPool::load(&stream, &data).unwrap());
    assert_eq!(left, 700_000);
    assert_eq!(within(800_003, || number(pool.write_pool())), (7, 0));
    assert_eq!(within(99_999, || number(pool.write_data())), (7, 0));
    let table = Table::from_bitfields(&[0x502], false).unwrap();
    assert_eq!(within(9_999, || number(table.read_rows(&data[..20_000]))), (7, 0));
}

#[test]
fn a_system_without_memory_is_no_abort() {
    let (stream, data) = (stream(100_000), vec![b'A'; 100_000]);
    let pool = StringPool::load(&stream, &data).unwrap();
    let last = StringRef::new(100_000).unwrap();
    // The bounds of the texts would take 400,004 bytes: without them it is a pass.
    assert_eq!(within(399_999, || pool.get(last)), (&b"A"[..], 0));
    let table = Table::from_bitfields(&[0x502; 8], false).unwrap();
    let rows = vec![vec![ValueRef::Null; 8]; 60_000];
    for bytes in [100_000, 2_000_000, 2_500_000] {
        assert_eq!(within(bytes, || number(table.write_rows(&rows))), (7, 0));
    }
    let cells = vec![0; 120_000];
    let table = Table::from_bitfields(&[0x502], false).unwrap();
    for bytes in [299_999, 300_000, 1_800_000] {
        assert_eq!(within(bytes, || number(table.read_rows(&cells))), (7, 0));
    }
    let many = vec![Column::build().int16(); 1_000_000];
    assert_eq!(within(100_000, || number(Table::new(many, false))).0, 20);
}

#[test]
fn rooms_grow_twofold_where_there_is_memory_and_by_what_is_needed_where_there_is_not() {
    let loaded = StringPool::load(&stream(100_000), &vec![b'A'; 100_000]).unwrap();
    // An entry takes six bytes, and the text one.
    for (bytes, refused) in [(5, 4), (6, 6)] {
        let mut pool = loaded.clone();
        assert_eq!(within(bytes, || number(pool.incref(b"B"))), (refused, 0));
    }
    // Room for twice as many lengths, and not for the counts beside them, is room for neither.
    for (bytes, held) in [(7, 7), (500_000, 100_006), (700_000, 700_000)] {
        let mut pool = loaded.clone();
        assert_eq!(within(bytes, || pool.incref(b"B").unwrap().number()), (100_001, held));
        assert_eq!(pool.get(StringRef::new(100_001).unwrap()), b"B");
    }
}
