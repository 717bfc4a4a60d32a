//! An allocator that counts, in each thread by itself, and refuses allocations.
#![allow(dead_code, unsafe_code)]

use std::alloc::{GlobalAlloc, Layout, System};
use std::cell::Cell;

/// Which allocations are refused, counted from 0.
#[derive(Clone, Copy, Debug, PartialEq)]
pub enum Refused {
    Never,
    Only(u64),
    AllFrom(u64),
}

impl Refused {
    fn has(self, number: u64) -> bool {
        match self {
            Refused::Never => false,
            Refused::Only(one) => number == one,
            Refused::AllFrom(first) => number >= first,
        }
    }
}

/// What a work asked of the allocator.
#[derive(Clone, Copy, Debug, Default)]
pub struct Taken {
    /// How many allocations it asked for.
    pub asked: u64,
    /// How many of these were refused.
    pub refused: u64,
    /// How many bytes more are held after it than before.
    pub held: isize,
    /// How many bytes more were held at once than before it.
    pub peak: isize,
}

thread_local! {
    static REFUSED: Cell<Refused> = const { Cell::new(Refused::Never) };
    static TAKEN: Cell<Taken> = const { Cell::new(Taken { asked: 0, refused: 0, held: 0, peak: 0 }) };
}

/// Does a work with these allocations refused.
pub fn refusing<T>(refused: Refused, work: impl FnOnce() -> T) -> (T, Taken) {
    TAKEN.set(Taken::default());
    REFUSED.set(refused);
    let result = work();
    REFUSED.set(Refused::Never);
    (result, TAKEN.get())
}

/// Does a work with its first allocation refused alone, then with its second, and so on until none is; `then` is
/// told each result, and what it took. Returns how many allocations were refused.
pub fn refuse_each<T>(mut work: impl FnMut() -> T, mut then: impl FnMut(T, Taken)) -> u64 {
    let mut number = 0;
    loop {
        let (result, taken) = refusing(Refused::Only(number), &mut work);
        then(result, taken);
        if taken.refused == 0 {
            return number;
        }
        number += 1;
    }
}

/// Does a part of a work that is the test's own: of this nothing is counted or refused.
pub fn apart<T>(part: impl FnOnce() -> T) -> T {
    let (refused, taken) = (REFUSED.replace(Refused::Never), TAKEN.get());
    let result = part();
    REFUSED.set(refused);
    TAKEN.set(taken);
    result
}

struct Counting;

/// Counts an allocation, and says whether it is made.
fn is_made(bytes: isize) -> bool {
    let mut taken = TAKEN.get();
    let is_made = !REFUSED.get().has(taken.asked);
    taken.asked += 1;
    if is_made {
        taken.held += bytes;
        taken.peak = taken.peak.max(taken.held);
    } else {
        taken.refused += 1;
    }
    TAKEN.set(taken);
    is_made
}

// What is made and freed is the system's.
unsafe impl GlobalAlloc for Counting {
    unsafe fn alloc(&self, layout: Layout) -> *mut u8 {
        match is_made(layout.size() as isize) {
            true => System.alloc(layout),
            false => std::ptr::null_mut(),
        }
    }

    unsafe fn realloc(&self, old: *mut u8, layout: Layout, size: usize) -> *mut u8 {
        match is_made(size as isize - layout.size() as isize) {
            true => System.realloc(old, layout, size),
            false => std::ptr::null_mut(),
        }
    }

    unsafe fn dealloc(&self, old: *mut u8, layout: Layout) {
        let mut taken = TAKEN.get();
        taken.held -= layout.size() as isize;
        TAKEN.set(taken);
        System.dealloc(old, layout);
    }
}

#[global_allocator]
static ALLOCATOR: Counting = Counting;
