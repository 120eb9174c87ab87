//! No call allocates, whether it answers a result or a refusal.
mod lists;

use furzewrench::{
    bytes_as_rows, layout, layout_and_read_back, layout_source, needs_space, read_pieces, read_sheet,
    rows_as_bytes, Kind, Options, Row,
};
use std::alloc::{GlobalAlloc, Layout, System};
use std::cell::Cell;

thread_local! {
    static ALLOCATIONS: Cell<usize> = const { Cell::new(0) };
}

/// The system's allocator, which counts what a thread asks of it.
struct Counting;

#[global_allocator]
static COUNTING: Counting = Counting;

// SAFETY: each call is the system allocator's; the count allocates nothing.
unsafe impl GlobalAlloc for Counting {
    unsafe fn alloc(&self, layout: Layout) -> *mut u8 {
        ALLOCATIONS.with(|count| count.set(count.get() + 1));
        // SAFETY: as this call.
        unsafe { System.alloc(layout) }
    }

    unsafe fn dealloc(&self, memory: *mut u8, layout: Layout) {
        // SAFETY: as this call.
        unsafe { System.dealloc(memory, layout) }
    }
}

/// How often a call asks for memory.
fn allocations<T>(call: impl FnOnce() -> T) -> usize {
    let before = ALLOCATIONS.get();
    let _answer = std::hint::black_box(call());
    ALLOCATIONS.get() - before
}

#[test]
fn the_count_counts() {
    assert_eq!(allocations(|| vec![1, 2, 3]), 1);
}

#[test]
fn layouts() {
    let (rows, text) = lists::log();
    let (mut out, mut pieces) = ([0; 64], [0; 64]);
    let sizes = [(0, 0), (8, 0), (9, 0), (9, 11), (9, 12), (64, 64)];
    for (space, piece_space) in sizes {
        for rows in [&rows[..], &rows[1..]] {
            let (out, pieces) = (&mut out[..space], &mut pieces[..piece_space]);
            let options = Options::default();
            assert_eq!(allocations(|| layout(options, rows, &text, out)), 0);
            assert_eq!(allocations(|| layout_source(b"#!rl\n", rows, &text, out)), 0);
            assert_eq!(allocations(|| layout_and_read_back(options, rows, &text, out, pieces)), 0);
        }
    }
}

#[test]
fn readers_and_rows() {
    let (mut bytes, mut pieces) = ([0; 64], [0; 64]);
    let (rows, text) = bytes.split_at_mut(32);
    for sheet in ["what kind text\nT 22 a\n", "what kind text\nT 22 a", ""] {
        assert_eq!(allocations(|| read_sheet(sheet.as_bytes(), rows, text)), 0);
        assert_eq!(allocations(|| read_pieces(sheet.as_bytes(), &mut pieces)), 0);
    }
    assert_eq!(allocations(|| read_pieces(b"a\0", &mut pieces)), 0);
    assert_eq!(allocations(|| needs_space(22, 35)), 0);
    let row = [Row::token(Kind::Identifier, 0, 1)];
    assert_eq!(allocations(|| bytes_as_rows(rows_as_bytes(&row)).0[0]), 0);
}
