//! unsafe_libyaml WORK ROUNDS < token-lines: what `libyaml.c` does, by the Rust crate's parser and loader. WORK is `events`
//! or `nodes`. With `--cfg NAME` it is `NAME-events` alone, by that wrapper of `by_value.rs`.
//!
//! Of the crate's sources, `$UNSAFE_LIBYAML/src`, the files api, loader, parser and yaml are read when this is compiled.
//! What they use of the crate's other files is written here, over the C library's allocator. In the scanner's place
//! stands the one function that the parser calls, so that each token is a copy made when it is asked for.
//!
//! cc -O2 -c read_tokens.c && UNSAFE_LIBYAML=DIR rustc -O unsafe_libyaml.rs -C link-arg=read_tokens.o -C link-arg=-lyaml
#![allow(warnings, static_mut_refs)]
use std::mem::MaybeUninit;

macro_rules! __assert { ($e:expr $(,)?) => { if !$e { std::process::abort() } }; }
macro_rules! grow {
    ($f:ident, $o:expr, $($part:ident),+) => {
        $crate::api::$f($(core::ptr::addr_of_mut!($o.$part) as *mut *mut $crate::libc::c_void),+)
    };
}
macro_rules! room { ($n:expr) => { $crate::api::yaml_malloc($n as u64) as *mut _ }; }
macro_rules! BUFFER_INIT { ($b:expr, $n:expr) => {{
    $b.start = room!($n); $b.pointer = $b.start; $b.last = $b.start; $b.end = $b.start.wrapping_add($n);
}}; }
macro_rules! BUFFER_DEL { ($b:expr) => { $crate::api::yaml_free($b.start as *mut _) }; }
macro_rules! STACK_INIT { ($s:expr, $t:ty) => {{
    $s.start = room!(16 * core::mem::size_of::<$t>()); $s.top = $s.start; $s.end = $s.start.wrapping_add(16);
}}; }
macro_rules! STACK_DEL { ($s:expr) => {{
    $crate::api::yaml_free($s.start as *mut _);
    $s.start = core::ptr::null_mut(); $s.top = $s.start; $s.end = $s.start;
}}; }
macro_rules! STACK_EMPTY { ($s:expr) => { $s.start == $s.top }; }
macro_rules! STACK_LIMIT { ($context:expr, $s:expr) => {
    if $crate::PointerExt::c_offset_from($s.top, $s.start) < i32::MAX as isize - 1 { $crate::success::OK }
    else { (*$context).error = $crate::YAML_MEMORY_ERROR; $crate::success::FAIL }
}; }
macro_rules! PUSH { ($s:expr, $v:expr) => {{
    if $s.top == $s.end { grow!(yaml_stack_extend, $s, start, top, end); }
    core::ptr::write($s.top, $v);
    $s.top = $s.top.wrapping_add(1);
}}; }
macro_rules! POP { ($s:expr) => {{ $s.top = $s.top.wrapping_sub(1); *$s.top }}; }
macro_rules! QUEUE_INIT { ($q:expr, $t:ty) => {{
    $q.start = room!(16 * core::mem::size_of::<$t>());
    $q.head = $q.start; $q.tail = $q.start; $q.end = $q.start.wrapping_add(16);
}}; }
macro_rules! QUEUE_DEL { ($q:expr) => { $crate::api::yaml_free($q.start as *mut _) }; }
macro_rules! QUEUE_EMPTY { ($q:expr) => { $q.head == $q.tail }; }
macro_rules! DEQUEUE { ($q:expr) => { *{ $q.head = $q.head.wrapping_add(1); $q.head.wrapping_sub(1) } }; }

mod libc {
    pub use core::ffi::c_void;
    pub use core::primitive::{i32 as c_int, i64 as c_long, i8 as c_char, u32 as c_uint, u64 as c_ulong, u8 as c_uchar};
}
mod externs {
    use crate::libc::*;
    extern "C" {
        pub fn malloc(n: c_ulong) -> *mut c_void;
        pub fn realloc(p: *mut c_void, n: c_ulong) -> *mut c_void;
        pub fn free(p: *mut c_void);
        pub fn memcpy(to: *mut c_void, from: *const c_void, n: c_ulong) -> *mut c_void;
        pub fn memmove(to: *mut c_void, from: *const c_void, n: c_ulong) -> *mut c_void;
        pub fn memset(to: *mut c_void, c: c_int, n: c_ulong) -> *mut c_void;
        pub fn strdup(s: *const c_char) -> *mut c_char;
        pub fn strlen(s: *const c_char) -> c_ulong;
        pub fn strcmp(a: *const c_char, b: *const c_char) -> c_int;
    }
}
mod ops {
    pub trait ForceAdd: Sized { fn force_add(self, other: Self) -> Self; }
    pub trait ForceMul: Sized { fn force_mul(self, other: Self) -> Self; }
    macro_rules! force { ($($t:ty)*) => { $(
        impl ForceAdd for $t { fn force_add(self, o: Self) -> Self { self.checked_add(o).unwrap() } }
        impl ForceMul for $t { fn force_mul(self, o: Self) -> Self { self.checked_mul(o).unwrap() } }
    )* }; }
    force!(i32 i64 u32 u64);
}
mod success {
    #[must_use]
    #[derive(Copy, Clone)]
    pub struct Success { pub ok: bool, pub fail: bool }
    pub const OK: Success = Success { ok: true, fail: false };
    pub const FAIL: Success = Success { ok: false, fail: true };
}
pub trait PointerExt: Sized { fn c_offset_from(self, origin: Self) -> isize; }
impl<T> PointerExt for *const T { fn c_offset_from(self, o: Self) -> isize { unsafe { self.offset_from(o) } } }
impl<T> PointerExt for *mut T { fn c_offset_from(self, o: Self) -> isize { unsafe { self.offset_from(o) } } }

mod yaml { include!(concat!(env!("UNSAFE_LIBYAML"), "/src/yaml.rs")); }
mod api { include!(concat!(env!("UNSAFE_LIBYAML"), "/src/api.rs")); }
mod parser { include!(concat!(env!("UNSAFE_LIBYAML"), "/src/parser.rs")); }
mod loader { include!(concat!(env!("UNSAFE_LIBYAML"), "/src/loader.rs")); }
pub use api::*;
pub use loader::*;
pub use parser::*;
pub use yaml::*;
pub use yaml::{yaml_encoding_t::*, yaml_error_type_t::*, yaml_event_type_t::*, yaml_mapping_style_t::*, yaml_node_type_t::*,
    yaml_parser_state_t::*, yaml_scalar_style_t::*, yaml_sequence_style_t::*, yaml_token_type_t::*};
mod by_value;

extern "C" {
    /// The tokens of standard input, in libyaml's layout, which the crate's is too.
    fn read_tokens(tokens: *mut *mut yaml_token_t) -> usize;
    fn size_of_token() -> usize;
}

/// The tokens, and how many of them were copied in this round.
static mut TOKENS: &[yaml_token_t] = &[];
static mut AT: usize = 0;

unsafe fn copy_bytes(bytes: *const u8, length: usize) -> *mut u8 {
    let copy = externs::malloc(length as u64 + 1) as *mut u8;
    core::ptr::copy_nonoverlapping(bytes, copy, length);
    *copy.add(length) = 0;
    copy
}

unsafe fn copy_text(text: *const u8) -> *mut u8 {
    copy_bytes(text, externs::strlen(text as *const i8) as usize)
}

#[inline(never)]
unsafe fn copy_token(copy: *mut yaml_token_t) {
    let token = TOKENS.as_ptr().add(AT);
    AT += 1;
    core::ptr::write(copy, *token);
    let (from, to) = (&(*token).data, &mut (*copy).data);
    if (*token).type_ == YAML_SCALAR_TOKEN {
        to.scalar.value = copy_bytes(from.scalar.value, from.scalar.length as usize);
        return;
    }
    if (*token).type_ as u32 <= YAML_VALUE_TOKEN as u32 && (*token).type_ != YAML_TAG_DIRECTIVE_TOKEN {
        return;
    }
    match (*token).type_ {
        YAML_TAG_DIRECTIVE_TOKEN => {
            to.tag_directive.handle = copy_text(from.tag_directive.handle);
            to.tag_directive.prefix = copy_text(from.tag_directive.prefix);
        }
        YAML_ALIAS_TOKEN => to.alias.value = copy_text(from.alias.value),
        YAML_ANCHOR_TOKEN => to.anchor.value = copy_text(from.anchor.value),
        YAML_TAG_TOKEN => {
            to.tag.handle = copy_text(from.tag.handle);
            to.tag.suffix = copy_text(from.tag.suffix);
        }
        _ => {}
    }
}

mod scanner {
    use crate::{success::*, *};
    /// What the parser calls where it has no token.
    pub unsafe fn yaml_parser_fetch_more_tokens(parser: *mut yaml_parser_t) -> Success {
        if AT == TOKENS.len() {
            return FAIL;
        }
        let tokens = &mut (*parser).tokens;
        if tokens.head == tokens.tail {
            tokens.head = tokens.start;
            tokens.tail = tokens.start;
        }
        copy_token(tokens.tail);
        tokens.tail = tokens.tail.add(1);
        (*parser).token_available = true;
        (*parser).stream_start_produced = true;
        OK
    }
}

/// How many events or nodes there were, and a checksum of the types and marks of those that were looked at.
#[derive(Default)]
struct Seen {
    items: u64,
    checksum: u64,
}

impl Seen {
    fn look(&mut self, number: u64, start: &yaml_mark_t, end: &yaml_mark_t) {
        for part in [number, start.index, end.index] {
            self.checksum = self.checksum.wrapping_mul(31).wrapping_add(part);
        }
    }
}

#[cold]
fn stop() -> ! {
    eprintln!("unsafe_libyaml: a round failed");
    std::process::exit(3);
}

fn check(success: success::Success) {
    if success.fail {
        stop();
    }
}

/// A round of events.
#[inline(never)]
unsafe fn parse(seen: &mut Seen, looks: bool) {
    let mut parser = MaybeUninit::<yaml_parser_t>::uninit();
    let parser = parser.as_mut_ptr();
    AT = 0;
    check(yaml_parser_initialize(parser));
    loop {
        let mut event = MaybeUninit::<yaml_event_t>::uninit();
        let event = event.as_mut_ptr();
        check(yaml_parser_parse(parser, event));
        seen.items += 1;
        if looks {
            seen.look((*event).type_ as u64, &(*event).start_mark, &(*event).end_mark);
        }
        let is_last = (*event).type_ as u64 == 2;
        yaml_event_delete(event);
        if is_last {
            break;
        }
    }
    yaml_parser_delete(parser);
}

/// A round of documents.
#[inline(never)]
unsafe fn load(seen: &mut Seen, looks: bool) {
    let mut parser = MaybeUninit::<yaml_parser_t>::uninit();
    let parser = parser.as_mut_ptr();
    AT = 0;
    check(yaml_parser_initialize(parser));
    loop {
        let mut document = MaybeUninit::<yaml_document_t>::uninit();
        let document = document.as_mut_ptr();
        check(yaml_parser_load(parser, document));
        let more = (*document).nodes.top.offset_from((*document).nodes.start) as usize;
        seen.items += more as u64;
        if looks {
            for node in std::slice::from_raw_parts((*document).nodes.start, more) {
                seen.look(node.type_ as u64, &node.start_mark, &node.end_mark);
            }
        }
        yaml_document_delete(document);
        if more == 0 {
            break;
        }
    }
    yaml_parser_delete(parser);
}

type Round = unsafe fn(&mut Seen, bool);

/// What this program does: with more works in it, the compiler would not put the parser into its callers.
const WORKS: &[(&str, Round)] = &[
    #[cfg(not(any(moved, copied, serde)))]
    ("events", parse),
    #[cfg(not(any(moved, copied, serde)))]
    ("nodes", load),
    #[cfg(moved)]
    ("moved-events", by_value::parse::<by_value::Moved>),
    #[cfg(copied)]
    ("copied-events", by_value::parse::<by_value::Copied>),
    #[cfg(serde)]
    ("serde-events", by_value::parse_as_serde),
];

unsafe fn run_rounds(work: &str, round: Round, rounds: u64) {
    let mut tokens = core::ptr::null_mut();
    let count = read_tokens(&mut tokens);
    TOKENS = std::slice::from_raw_parts(tokens, count);
    let (mut seen, mut counted) = (Seen::default(), Seen::default());
    for turn in 0..=rounds {
        round(if turn == 0 { &mut seen } else { &mut counted }, turn == 0);
    }
    println!("{work} {} {} {}", seen.items, seen.checksum, counted.items);
}

fn main() {
    let words: Vec<String> = std::env::args().skip(1).collect();
    let work = WORKS.iter().find(|(word, _)| words.first().is_some_and(|first| first == word));
    match (work, words.get(1).and_then(|word| word.parse().ok()), words.len()) {
        (Some((word, round)), Some(rounds), 2) => unsafe {
            assert_eq!(size_of_token(), core::mem::size_of::<yaml_token_t>());
            run_rounds(word, *round, rounds);
        },
        _ => {
            let works = WORKS.iter().map(|(word, _)| *word).collect::<Vec<_>>().join("|");
            eprintln!("usage: unsafe_libyaml {works} ROUNDS < token-lines");
            std::process::exit(2);
        }
    }
}
