//! The calls of `pokhvizi/steps.h` and `pokhvizi/compose.h` over the crate `pokhvizi`, whose source is
//! proved: this file makes slices of a caller's pointers and lengths. The headers say which rules a caller
//! keeps. A null pointer with the length 0 is an empty slice here.

#![no_std]

use core::slice;
use plain::document_sizes::sizes_t;
use plain::document_steps::anchor_t;
use plain::libyaml_composer::{composer_t, open_t, place_t};
use plain::libyaml_types::yaml_mark_t;
use plain::token_steps::{handle_t, step_event_t, step_fault_t, step_span_t, steps_t};
use plain::pokhvizi_c::{compose, steps, tags};

#[cfg(not(target_family = "wasm"))]
extern "C" {
    fn abort() -> !;
}

/// Never called: that no call panics is proved.
#[panic_handler]
fn panic(_: &core::panic::PanicInfo<'_>) -> ! {
    #[cfg(not(target_family = "wasm"))]
    // SAFETY: C's own.
    unsafe {
        abort()
    }
    #[cfg(target_family = "wasm")]
    loop {}
}

unsafe fn slice_of<'a, T>(first: *const T, count: usize) -> &'a [T] {
    match count {
        0 => &[],
        _ => slice::from_raw_parts(first, count),
    }
}

unsafe fn slice_of_mut<'a, T>(first: *mut T, count: usize) -> &'a mut [T] {
    match count {
        0 => &mut [],
        _ => slice::from_raw_parts_mut(first, count),
    }
}

// ---- steps.h ----

#[no_mangle]
pub unsafe extern "C" fn pokhvizi_steps_new(steps: *mut steps_t) {
    steps.write(steps_t::new());
}

#[no_mangle]
pub unsafe extern "C" fn pokhvizi_differs(steps: &steps_t, kind: u8) -> u8 {
    steps::pokhvizi_differs(steps, kind)
}

#[no_mangle]
pub unsafe extern "C" fn pokhvizi_step(
    steps: &mut steps_t,
    states: *mut u8,
    states_room: usize,
    marks: *mut yaml_mark_t,
    marks_room: usize,
    kind: u8,
    fact: u8,
    at: &step_span_t,
    event: &mut step_event_t,
    fault: &mut step_fault_t,
) -> u32 {
    let (states, marks) = (slice_of_mut(states, states_room), slice_of_mut(marks, marks_room));
    steps::pokhvizi_step(steps, states, marks, kind, fact, at, event, fault)
}

#[no_mangle]
pub unsafe extern "C" fn pokhvizi_step_exact(
    steps: &mut steps_t,
    states: *mut u8,
    states_room: usize,
    marks: *mut yaml_mark_t,
    marks_room: usize,
    kind: u8,
    fact: u8,
    at: &step_span_t,
    event: &mut step_event_t,
    fault: &mut step_fault_t,
) -> u32 {
    let (states, marks) = (slice_of_mut(states, states_room), slice_of_mut(marks, marks_room));
    steps::pokhvizi_step_exact(steps, states, marks, kind, fact, at, event, fault)
}

#[no_mangle]
pub unsafe extern "C" fn pokhvizi_expected(steps: &steps_t, states: *const u8, states_room: usize) -> u32 {
    steps::pokhvizi_expected(steps, slice_of(states, states_room))
}

#[no_mangle]
pub unsafe extern "C" fn pokhvizi_version_fact(major: i32, minor: i32) -> u8 {
    tags::pokhvizi_version_fact(major, minor)
}

#[no_mangle]
pub unsafe extern "C" fn pokhvizi_directive_fact(
    handles: *const handle_t,
    count: usize,
    texts: *const u8,
    length: usize,
    handle: *const u8,
    handle_length: usize,
) -> u8 {
    let (handles, texts) = (slice_of(handles, count), slice_of(texts, length));
    tags::pokhvizi_directive_fact(handles, texts, slice_of(handle, handle_length))
}

#[no_mangle]
pub unsafe extern "C" fn pokhvizi_tag(
    handles: *const handle_t,
    count: usize,
    texts: *const u8,
    length: usize,
    handle: *const u8,
    handle_length: usize,
    suffix: *const u8,
    suffix_length: usize,
    out: *mut u8,
    room: usize,
    size: &mut usize,
) -> u8 {
    let (handles, texts) = (slice_of(handles, count), slice_of(texts, length));
    let (handle, suffix) = (slice_of(handle, handle_length), slice_of(suffix, suffix_length));
    tags::pokhvizi_tag(handles, texts, handle, suffix, slice_of_mut(out, room), size)
}

// ---- compose.h ----

#[no_mangle]
pub unsafe extern "C" fn pokhvizi_composer_new(composer: *mut composer_t, max_entries: u32) {
    composer.write(composer_t::new(max_entries));
}

#[no_mangle]
pub unsafe extern "C" fn pokhvizi_compose(
    composer: &mut composer_t,
    stack: *mut open_t,
    stack_room: usize,
    kind: u8,
    fact: i32,
    place: &mut place_t,
) -> u32 {
    compose::pokhvizi_compose(composer, slice_of_mut(stack, stack_room), kind, fact, place)
}

#[no_mangle]
pub unsafe extern "C" fn pokhvizi_carrier(
    anchors: *const anchor_t,
    count: usize,
    texts: *const u8,
    length: usize,
    anchor: *const u8,
    anchor_length: usize,
) -> i32 {
    let (anchors, texts) = (slice_of(anchors, count), slice_of(texts, length));
    compose::pokhvizi_carrier(anchors, texts, slice_of(anchor, anchor_length))
}

#[no_mangle]
pub unsafe extern "C" fn pokhvizi_size_new(size: *mut sizes_t, max: u64) {
    size.write(sizes_t::new(max));
}

#[no_mangle]
pub unsafe extern "C" fn pokhvizi_count(
    size: &mut sizes_t,
    sizes: *mut u64,
    room: usize,
    deed: u32,
    kind: u8,
    place: &place_t,
) -> u32 {
    compose::pokhvizi_count(size, slice_of_mut(sizes, room), deed, kind, place)
}
