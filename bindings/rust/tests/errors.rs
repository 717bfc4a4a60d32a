//! What an error tells beside its words.

use std::ffi::c_void;
use std::mem::{size_of, MaybeUninit};
use std::{ptr, slice};
use unsafe_libyaml::*;

type Parser = Box<MaybeUninit<yaml_parser_t>>;

unsafe fn begun(text: &[u8]) -> Parser {
    let mut parser = Box::new(MaybeUninit::uninit());
    assert!(yaml_parser_initialize(parser.as_mut_ptr()).ok);
    yaml_parser_set_input_string(parser.as_mut_ptr(), text.as_ptr(), text.len() as u64);
    parser
}

/// Parses all events of a text, or loads all its documents; returns the parser.
unsafe fn read(text: &[u8], loads: bool) -> Parser {
    let mut parser = begun(text);
    let at = parser.as_mut_ptr();
    let (mut event, mut document) = (MaybeUninit::uninit(), MaybeUninit::uninit());
    loop {
        let is_last = if loads {
            let given = yaml_parser_load(at, document.as_mut_ptr()).ok;
            let is_last = !given || yaml_document_get_root_node(document.as_mut_ptr()).is_null();
            if given {
                yaml_document_delete(document.as_mut_ptr());
            }
            is_last
        } else {
            let given = yaml_parser_parse(at, event.as_mut_ptr()).ok;
            let is_last = !given || (*event.as_ptr()).type_ == YAML_STREAM_END_EVENT;
            yaml_event_delete(event.as_mut_ptr());
            is_last
        };
        if is_last {
            return parser;
        }
    }
}

const NODE: &str = "a scalar, a tag, '[', '{', a block sequence, a block mapping";

/// A text, what was expected where its error is, and the same with the fixes if it is something else.
const EXPECTED: [(&str, &str, Option<&str>); 14] = [
    ("[a\n  }", "',' or ']'", None),
    ("{a: b ]", "',' or '}'", None),
    ("- a\nb: c", "'-' or the end of the block sequence", None),
    (
        "a: b\n- c",
        "a key or the end of the block mapping",
        Some("a key, a value or the end of the block mapping"),
    ),
    (
        "k:\n- &x ,",
        "{NODE}, '-', a key or the end of the block mapping",
        Some("{NODE}, '-', a key, a value or the end of the block mapping"),
    ),
    (
        "&a &b c",
        "{NODE}, %YAML, %TAG, '---', '...' or the end of the stream",
        None,
    ),
    ("%YAML 1.1\n%YAML 1.1\n---", "%TAG or '---'", None),
    (
        "a\n...\nb",
        "%YAML, %TAG, '---', '...' or the end of the stream",
        Some(""),
    ),
    ("[a, }", "a flow node, a key or ']'", None),
    ("[a, b", "',' or ']'", None),
    ("%YAML 2.0\n---", "", None),
    ("!e!x a", "", None),
    ("%TAG !e! a\n%TAG !e! b\n---", "", None),
    ("a: 'b", "", None),
];

#[test]
fn an_error_says_what_was_expected() {
    for (text, exact, fixed) in EXPECTED {
        let wanted = fixed.filter(|_| cfg!(feature = "fixes")).unwrap_or(exact);
        for loads in [false, true] {
            let mut parser = unsafe { read(text.as_bytes(), loads) };
            let expected = unsafe { errors::expected(parser.as_ptr()) };
            assert_eq!(expected.to_string(), wanted.replace("{NODE}", NODE), "{text}");
            assert_eq!(expected.is_empty(), wanted.is_empty());
            unsafe { yaml_parser_delete(parser.as_mut_ptr()) };
        }
    }
}

#[test]
fn without_an_error_nothing_was_expected() {
    for text in ["", "a", "- [b, {c: d}]\n"] {
        let mut parser = unsafe { begun(text.as_bytes()) };
        assert!(unsafe { errors::expected(parser.as_ptr()) }.is_empty());
        unsafe { yaml_parser_delete(parser.as_mut_ptr()) };
        let mut parser = unsafe { read(text.as_bytes(), false) };
        assert!(unsafe { errors::expected(parser.as_ptr()) }.is_empty());
        unsafe { yaml_parser_delete(parser.as_mut_ptr()) };
    }
}

#[test]
fn types_are_in_the_set() {
    let mut parser = unsafe { read(b"[a }", false) };
    let expected = unsafe { errors::expected(parser.as_ptr()) };
    for (kind, is_one) in [
        (YAML_FLOW_ENTRY_TOKEN, true),
        (YAML_FLOW_SEQUENCE_END_TOKEN, true),
        (YAML_FLOW_MAPPING_END_TOKEN, false),
        (YAML_NO_TOKEN, false),
    ] {
        assert_eq!(expected.contains(kind), is_one, "{kind:?}");
    }
    unsafe { yaml_parser_delete(parser.as_mut_ptr()) };
}

/// A text, what its error is about in a parse, and in a load.
const NAMES: [(&str, Option<&str>, Option<&str>); 20] = [
    ("- *ab\n", None, Some("ab")),
    ("- &x 1\n- !t &x 2\n", None, Some("x")),
    ("- &x 1\n- &x !t\n", None, Some("x")),
    ("&a [*a, &b {}, *c]", None, Some("c")),
    ("--- &a b\n--- *a\n", None, Some("a")),
    ("!e!x a", Some("!e!"), Some("!e!")),
    ("!e!x &a b", Some("!e!"), Some("!e!")),
    ("&a !e!x b", Some("!e!"), Some("!e!")),
    ("- !a b\n- &c !d!e f\n", Some("!d!"), Some("!d!")),
    ("%TAG !e! a\n--- !e!b c\n--- !e!d e\n", Some("!e!"), Some("!e!")),
    ("!f!x &a &b c", Some("!f!"), Some("!f!")),
    ("%TAG !e! a\n%TAG !f! b\n%TAG !e! c\n---", Some("!e!"), Some("!e!")),
    ("%TAG !! a\n%TAG !! b\n---", Some("!!"), Some("!!")),
    ("*a : [b }", None, Some("a")),
    // No name: another error, or none.
    ("[&a b }", None, None),
    ("&a &b c", None, None),
    ("%YAML 2.0\n---", None, None),
    ("!e!x &a @", None, None),
    ("[&a b, *a]", None, None),
    ("", None, None),
];

#[test]
fn an_error_says_what_it_is_about() {
    for (text, of_parse, of_load) in NAMES {
        for (loads, wanted) in [(false, of_parse), (true, of_load)] {
            let mut parser = unsafe { read(text.as_bytes(), loads) };
            let name = unsafe { errors::name(parser.as_ptr()) };
            assert_eq!(name.map(|name| name.to_str().unwrap()), wanted, "{text}");
            unsafe { yaml_parser_delete(parser.as_mut_ptr()) };
            assert_eq!(unsafe { errors::name(parser.as_ptr()) }, None);
        }
    }
}

/// What an error tells lasts while its parser is moved, and while later calls fail.
#[test]
fn it_lasts_until_the_parser_is_deleted() {
    let mut parser = unsafe { read(b"[a }", true) };
    let mut alias = unsafe { read(b"*a", true) };
    let name = unsafe { errors::name(alias.as_ptr()) }.unwrap();
    let (mut event, mut document) = (MaybeUninit::uninit(), MaybeUninit::uninit());
    for _ in 0..3 {
        let moved = Box::new(unsafe { ptr::read(&*parser) });
        unsafe { ptr::write_bytes(parser.as_mut_ptr(), 0xAA, 1) };
        parser = moved;
        let at = parser.as_mut_ptr();
        assert_eq!(unsafe { errors::expected(at) }.to_string(), "',' or ']'");
        alias = Box::new(unsafe { ptr::read(&*alias) });
        assert_eq!(unsafe { errors::name(alias.as_ptr()) }, Some(name));
        assert_eq!(name.to_bytes(), b"a");
        assert!(!unsafe { yaml_parser_load(at, document.as_mut_ptr()) }.ok);
        assert!(unsafe { yaml_parser_parse(at, event.as_mut_ptr()) }.ok);
    }
    unsafe { yaml_parser_delete(alias.as_mut_ptr()) };
    unsafe { yaml_parser_delete(parser.as_mut_ptr()) };
    assert!(unsafe { errors::expected(parser.as_ptr()) }.is_empty());
}

/// Returns a parser in words of a pointer's size.
unsafe fn words(parser: *const yaml_parser_t) -> Vec<usize> {
    let count = size_of::<yaml_parser_t>() / size_of::<usize>();
    slice::from_raw_parts(parser.cast::<usize>(), count).to_vec()
}

/// An input that comes a byte at a time, and where the parser that reads it has the document, if it has one.
struct Watching<'a> {
    text: &'a [u8],
    parser: *const yaml_parser_t,
    document: *const yaml_document_t,
    at: Option<usize>,
}

unsafe fn read_and_watch(data: *mut c_void, buffer: *mut u8, _size: u64, size_read: *mut u64) -> i32 {
    let watching = &mut *data.cast::<Watching>();
    *size_read = 0;
    if let [byte, rest @ ..] = watching.text {
        (*buffer, *size_read, watching.text) = (*byte, 1, rest);
    }
    let is_document = |&word: &usize| word == watching.document as usize;
    watching.at = words(watching.parser).iter().position(is_document).or(watching.at);
    1
}

/// Returns where the original's loads have the document.
unsafe fn place_of_document() -> Option<usize> {
    let (mut document, mut parser) = (MaybeUninit::uninit(), Box::new(MaybeUninit::uninit()));
    let (document, parser) = (document.as_mut_ptr(), parser.as_mut_ptr());
    let mut watching = Watching {
        text: b"- a\n- b\n- c\n",
        parser,
        document,
        at: None,
    };
    assert!(yaml_parser_initialize(parser).ok);
    yaml_parser_set_input(parser, read_and_watch, ptr::addr_of_mut!(watching).cast());
    assert!(original::yaml_parser_load(parser, document).ok);
    yaml_document_delete(document);
    original::yaml_parser_delete(parser);
    watching.at
}

/// What is kept stands there from the first call on, and the original's parses leave it alone.
#[test]
fn the_original_uses_its_place_for_loads_alone() {
    let at = unsafe { place_of_document() }.expect("the original's parser has the document");
    for text in ["[a }", "!e!x a", "[a ]", "a: 'b"] {
        unsafe {
            let mut here = begun(text.as_bytes());
            assert_eq!(words(here.as_ptr())[at], 0, "{text}");
            yaml_parser_delete(here.as_mut_ptr());
            let mut here = read(text.as_bytes(), false);
            assert_ne!(words(here.as_ptr())[at], 0, "{text}");
            yaml_parser_delete(here.as_mut_ptr());
            let (mut there, mut event) = (begun(text.as_bytes()), MaybeUninit::uninit());
            while original::yaml_parser_parse(there.as_mut_ptr(), event.as_mut_ptr()).ok
                && (*event.as_ptr()).type_ != YAML_NO_EVENT
            {
                yaml_event_delete(event.as_mut_ptr());
            }
            assert_eq!(words(there.as_ptr())[at], 0, "{text}");
            original::yaml_parser_delete(there.as_mut_ptr());
        }
    }
}
