//! No place of a value takes memory, where the room for places is there: by an allocator that counts, for each thread.

use mouktelf::rows::{Columns, Parts, RowPlace};
use std::alloc::{GlobalAlloc, Layout, System};
use std::cell::Cell;

struct Counting;

thread_local! {
    static ALLOCATED: Cell<usize> = const { Cell::new(0) };
}

// SAFETY: each call is the system's.
unsafe impl GlobalAlloc for Counting {
    unsafe fn alloc(&self, layout: Layout) -> *mut u8 {
        let _ = ALLOCATED.try_with(|it| it.set(it.get() + 1));
        System.alloc(layout)
    }

    unsafe fn dealloc(&self, at: *mut u8, layout: Layout) {
        System.dealloc(at, layout)
    }
}

#[global_allocator]
static ALLOCATOR: Counting = Counting;

/// An INTN and a VARBINARY(max) (MS-TDS 2.2.7.4, 2.2.7.17).
#[test]
fn places_take_no_memory() {
    let token = [0x81, 2, 0, 0, 0, 0, 0, 9, 0, 0x26, 4, 1, 0x6E, 0, 0, 0, 0, 0, 9, 0, 0xA5, 0xFF, 0xFF, 1, 0x6D, 0];
    let columns = Columns::of(&token, false).unwrap().unwrap();
    let row = [0xD1, 4, 7, 0, 0, 0, 3, 0, 0, 0, 0, 0, 0, 0, 3, 0, 0, 0, 0x61, 0x62, 0x63, 0, 0, 0, 0];
    let (rows, mut places, mut many) = (row.repeat(10), Vec::new(), vec![RowPlace::default(); 20]);
    assert_eq!(columns.places(&row, &mut places), Ok(row.len()));
    let before = ALLOCATED.with(Cell::get);
    for _ in 0..100 {
        assert_eq!(columns.places(&row, &mut places), Ok(row.len()));
        assert_eq!(columns.places_of_rows(&rows, &mut many), Ok((10, rows.len())));
        assert_eq!(columns.come(0, &[], &row[1..9], &mut places), Ok((1, 5)));
        assert_eq!(Parts::default().next(&row[6..]), (&b"abc"[..], 15));
    }
    assert_eq!(ALLOCATED.with(Cell::get), before);
    places.push(RowPlace::default());
    places.shrink_to_fit();
    assert!(ALLOCATED.with(Cell::get) > before);
}
