//! The original's parser by its fields, which it doesn't export: its queue of tokens is read in place, and it keeps the run.
//!
//! Cargo.toml names one version of the original, and the test below looks at what stands in each field that is used here.

use crate::fault::Fault;
use crate::run::Run;
use crate::tokens::Token;
use original::*;
use std::mem::{size_of, MaybeUninit};
use std::ops::Deref;
use std::{ffi::c_void, ptr};

/// The fields of a parser that its clients read.
pub type Prefix = <yaml_parser_t as Deref>::Target;

#[repr(C)]
struct Buffer {
    start: *mut u8,
    end: *mut u8,
    pointer: *mut u8,
    last: *mut u8,
}

#[repr(C)]
struct Queue<T> {
    start: *mut T,
    end: *mut T,
    head: *mut T,
    tail: *mut T,
}

/// A parser.
#[repr(C)]
pub struct Parser {
    pub told: Prefix,
    read_handler: *const c_void,
    read_handler_data: *mut c_void,
    input: [*const u8; 3],
    eof: bool,
    buffer: Buffer,
    unread: u64,
    raw_buffer: Buffer,
    encoding: yaml_encoding_t,
    offset: u64,
    mark: yaml_mark_t,
    stream_start_produced: bool,
    stream_end_produced: bool,
    flow_level: i32,
    tokens: Queue<Token>,
    tokens_parsed: u64,
    token_available: bool,
    indents: yaml_stack_t<i32>,
    indent: i32,
    simple_key_allowed: bool,
    simple_keys: yaml_stack_t<yaml_simple_key_t>,
    not_simple_keys: i32,
    // What the original's own parser and loader keep.
    states: yaml_stack_t<yaml_parser_state_t>,
    state: yaml_parser_state_t,
    marks: yaml_stack_t<yaml_mark_t>,
    tag_directives: yaml_stack_t<yaml_tag_directive_t>,
    aliases: yaml_stack_t<yaml_alias_data_t>,
    /// In the place of the document that is loaded: the run, between two calls.
    pub run: *mut Run,
}

const _: () = assert!(size_of::<Parser>() == size_of::<yaml_parser_t>());

impl Parser {
    /// Whether the parser has an error, or gave its last token.
    #[inline]
    pub fn has_stopped(&self) -> bool {
        self.stream_end_produced || self.told.error != YAML_NO_ERROR
    }

    /// Whether the scanner would give the head of the queue as it is: no KEY may still have to go before it.
    #[inline(always)]
    unsafe fn is_ready(&self) -> bool {
        if self.tokens.head == self.tokens.tail {
            return false;
        }
        let first = self.simple_keys.start.add(self.not_simple_keys as usize);
        let mut key = self.simple_keys.top;
        loop {
            if key == first {
                return true;
            }
            key = key.sub(1);
            if (*key).possible {
                return false;
            }
        }
    }

    /// Whether the token that was taken last was put back.
    #[inline]
    pub fn has_put_back(&self) -> bool {
        self.token_available
    }

    /// Takes the token that was put back.
    #[inline]
    pub unsafe fn take_again(parser: *mut Parser) -> *mut Token {
        let token = (*parser).tokens.head;
        (*parser).tokens.head = token.add(1);
        (*parser).tokens_parsed += 1;
        (*parser).token_available = false;
        (*parser).stream_end_produced = (*token).is_last();
        token
    }

    /// Takes the next token, where none was put back. It stays where it is until another is taken; a null pointer after the last.
    ///
    /// # Errors
    ///
    /// The scanner's, which the parser then has no longer.
    #[inline(always)]
    pub unsafe fn take(parser: *mut Parser) -> Result<*mut Token, Fault> {
        if (*parser).is_ready() {
            let token = (*parser).tokens.head;
            (*parser).tokens.head = token.add(1);
            (*parser).tokens_parsed += 1;
            (*parser).stream_end_produced = (*token).is_last();
            return Ok(token);
        }
        let mut copy = MaybeUninit::<yaml_token_t>::uninit();
        match yaml_parser_scan(parser.cast(), copy.as_mut_ptr()).ok {
            true if (*copy.as_ptr()).type_ == YAML_NO_TOKEN => Ok(ptr::null_mut()),
            true => Ok((*parser).tokens.head.sub(1)),
            false => Err(Fault::take(parser)),
        }
    }

    /// Puts the token that was taken last back into the queue.
    #[inline]
    pub unsafe fn put_back(parser: *mut Parser) {
        (*parser).tokens.head = (*parser).tokens.head.sub(1);
        (*parser).tokens_parsed -= 1;
        (*parser).token_available = true;
        (*parser).stream_end_produced = false;
    }
}

#[cfg(test)]
mod tests {
    use super::*;
    use crate::events::shape_within;

    /// The scanner's own calls change the fields as these are read, until all tokens are taken by either way.
    #[test]
    fn fields_are_the_originals() {
        let text = "%TAG !e! x\n--- {a: [b, 'c'], ? d}\n--- !e!e &f\n- g: h\n  i: *f\n- [j]: k\n...\n";
        unsafe {
            let (mut one, mut other) = (MaybeUninit::<yaml_parser_t>::uninit(), MaybeUninit::<yaml_parser_t>::uninit());
            for parser in [one.as_mut_ptr(), other.as_mut_ptr()] {
                assert!(yaml_parser_initialize(parser).ok);
                yaml_parser_set_input_string(parser, text.as_ptr(), text.len() as u64);
            }
            let (one, other) = (one.as_mut_ptr(), other.as_mut_ptr().cast::<Parser>());
            let first = &*other;
            assert!(!first.stream_start_produced && !first.stream_end_produced && !first.token_available);
            assert!(first.tokens.head == first.tokens.start && first.tokens.tail == first.tokens.start);
            assert_eq!(first.tokens.end.offset_from(first.tokens.start), 16);
            assert_eq!(first.simple_keys.end.offset_from(first.simple_keys.start), 16);
            assert!(first.simple_keys.top == first.simple_keys.start && first.run.is_null());
            let (mut count, mut ready) = (0, 0);
            while !(*other).has_stopped() {
                let mut token = MaybeUninit::<yaml_token_t>::uninit();
                assert!(yaml_parser_scan(one, token.as_mut_ptr()).ok);
                ready += u32::from((*other).is_ready());
                let taken = Parser::take(other).ok().filter(|token| !token.is_null()).expect("a token");
                count += 1;
                assert_eq!((*other).tokens_parsed, count);
                Parser::put_back(other);
                assert!((*other).has_put_back() && Parser::take_again(other) == taken);
                let (there, here) = (token.assume_init_mut(), &mut *taken);
                assert_eq!((there.type_, there.end_mark.index), (here.type_, here.end_mark.index));
                assert_eq!(there.start_mark.column, here.begin().column);
                assert_eq!((*one.cast::<Parser>()).tokens_parsed, count);
                assert_eq!((*one.cast::<Parser>()).stream_end_produced, (*other).stream_end_produced);
                yaml_token_delete(there);
                here.leave();
            }
            assert!(count > 40 && ready > 15, "{count} {ready}");
            yaml_parser_delete(one);
            yaml_parser_delete(other.cast());
        }
    }

    #[test]
    fn a_shape_has_the_marks_of_its_event() {
        let mut event = MaybeUninit::<yaml_event_t>::zeroed();
        unsafe {
            let shape = shape_within(event.as_mut_ptr());
            assert!(ptr::addr_of!((*shape).start_mark).cast() == ptr::addr_of!((*event.as_ptr()).start_mark));
            assert!(ptr::addr_of!((*shape).end_mark).cast() == ptr::addr_of!((*event.as_ptr()).end_mark));
        }
    }
}
