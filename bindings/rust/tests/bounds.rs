//! Bounds, and the version: they are of the process, so no other test runs beside this one.

use std::ffi::CStr;
use std::mem::MaybeUninit;
use unsafe_libyaml::*;

/// How many events or documents there are of a text, and the fault that ends them.
unsafe fn told(text: &str, loads: bool) -> (usize, String) {
    let (mut parser, mut count) = (Box::new(MaybeUninit::uninit()), 0);
    let parser: *mut yaml_parser_t = parser.as_mut_ptr();
    assert!(yaml_parser_initialize(parser).ok);
    yaml_parser_set_input_string(parser, text.as_ptr(), text.len() as u64);
    loop {
        let (mut event, mut document) = (MaybeUninit::uninit(), MaybeUninit::uninit());
        let (given, is_last) = if loads {
            let given = yaml_parser_load(parser, document.as_mut_ptr()).ok;
            let is_last = !given || yaml_document_get_root_node(document.as_mut_ptr()).is_null();
            if given {
                yaml_document_delete(document.as_mut_ptr());
            }
            (given, is_last)
        } else {
            let given = yaml_parser_parse(parser, event.as_mut_ptr()).ok;
            let is_last = !given || (*event.as_ptr()).type_ == YAML_STREAM_END_EVENT;
            yaml_event_delete(event.as_mut_ptr());
            (given, is_last)
        };
        if is_last {
            let (mut fault, problem) = (String::new(), (&*parser).problem);
            if !given {
                fault = CStr::from_ptr(problem.cast()).to_string_lossy().into_owned();
                fault += &format!(" {}", (&*parser).problem_mark.index);
            }
            yaml_parser_delete(parser);
            return (count, fault);
        }
        count += 1;
    }
}

#[test]
fn bounds_hold() {
    assert!(!POKHVIZI_VERSION.is_empty());
    let deep = |levels: usize| "[".repeat(levels) + &"]".repeat(levels);
    for levels in [1, 3, 31, 32, 33, 1000] {
        bounds::set_max_depth(levels);
        for text in [deep(levels), "- ".repeat(levels) + "x", "? ".repeat(levels) + "x"] {
            assert_eq!(unsafe { told(&text, true) }, (1, String::new()), "{levels}");
            assert_eq!(unsafe { told(&text, false) }.1, "", "{levels}");
        }
        let fault = format!("found too many levels {levels}");
        for loads in [false, true] {
            assert_eq!(unsafe { told(&deep(levels + 1), loads) }.1, fault);
            assert_eq!(unsafe { told(&"[".repeat(100_000), loads) }.1, fault);
        }
    }
    bounds::set_max_depth(0);
    assert_eq!(unsafe { told("a", true) }, (1, String::new()));
    assert_eq!(unsafe { told("[]", true) }, (0, "found too many levels 0".to_owned()));
    bounds::set_max_depth(usize::MAX);
    bounds::set_max_nodes(4);
    assert_eq!(unsafe { told("[a, b, c]", true) }, (1, String::new()));
    for (text, at) in [
        ("[a, b, c, d]", 10),
        ("--- [a]\n--- [a, b, c, d]", 22),
        ("- &a b\n- *a\n- *a\n- *a\n- *a\n", 24),
    ] {
        assert_eq!(unsafe { told(text, true) }.1, format!("found too many nodes {at}"));
        assert_eq!(unsafe { told(text, false) }.1, format!("found too many nodes {at}"));
    }
    bounds::set_max_nodes(u32::MAX);
    unsafe { bounds_of_the_beginning_hold() };
    expansion_is_bounded();
}

/// A parser keeps the bounds with which it began.
unsafe fn bounds_of_the_beginning_hold() {
    let bounds: [(fn(u32), &str); 3] = [
        (|most| bounds::set_max_depth(most as usize), "found too many levels"),
        (bounds::set_max_nodes, "found too many nodes"),
        (
            |most| bounds::set_max_expanded(most.into()),
            "found too many nodes, with aliases written out",
        ),
    ];
    for (set, fault) in bounds {
        set(1);
        assert_eq!(second("x\n--- [[y]]", || set(u32::MAX)), fault);
        assert_eq!(second("x\n--- [[y]]", || set(1)), "");
        set(u32::MAX);
    }
}

/// The problem of a text's second document, between which and the first something changes; empty if there is none.
unsafe fn second(text: &str, change: impl Fn()) -> String {
    let (mut parser, mut document) = (Box::new(MaybeUninit::uninit()), MaybeUninit::uninit());
    let parser: *mut yaml_parser_t = parser.as_mut_ptr();
    assert!(yaml_parser_initialize(parser).ok);
    yaml_parser_set_input_string(parser, text.as_ptr(), text.len() as u64);
    assert!(yaml_parser_load(parser, document.as_mut_ptr()).ok);
    yaml_document_delete(document.as_mut_ptr());
    change();
    let problem = if yaml_parser_load(parser, document.as_mut_ptr()).ok {
        yaml_document_delete(document.as_mut_ptr());
        String::new()
    } else {
        CStr::from_ptr((&*parser).problem.cast()).to_string_lossy().into_owned()
    };
    yaml_parser_delete(parser);
    problem
}

/// With aliases written out: how many nodes a text may have, and where it is too large for one less or has no end.
fn expansion_is_bounded() {
    let (large, endless) = (
        "found too many nodes, with aliases written out",
        "found an alias within the node that it names",
    );
    let list = "[".to_owned() + &"a, ".repeat(500) + "]";
    for (text, size, at) in [
        ("a", 1, 0),
        ("[a, b]", 3, 4),
        ("{a: b, c: d}", 5, 10),
        ("- &a [x, y]\n- *a\n", 7, 14),
        ("- &a [x, y]\n- *a\n- z", 8, 19),
        ("&k a: *k", 3, 6),
        ("- &a [x, x]\n- &b [*a, *a]\n- &c [*b, *b]\n- *c\n", 41, 42),
        (list.as_str(), 501, 3 * 499 + 1),
    ] {
        bounds::set_max_expanded(size);
        assert_eq!(unsafe { told(text, true) }, (1, String::new()), "{text}");
        bounds::set_max_expanded(size - 1);
        assert_eq!(unsafe { told(text, true) }, (0, format!("{large} {at}")), "{text}");
        assert_eq!(unsafe { told(text, false) }.1, format!("{large} {at}"), "{text}");
    }
    bounds::set_max_expanded(3);
    assert_eq!(unsafe { told("--- [a, b]\n--- [c, d]\n", true) }, (2, String::new()));
    assert_eq!(
        unsafe { told("--- [a, b]\n--- [c, d, e]\n", true) },
        (1, format!("{large} 22"))
    );
    for (bound, fault) in [
        (i64::MAX as u64 - 1, format!("{endless} 7")),
        (i64::MAX as u64, String::new()),
    ] {
        bounds::set_max_expanded(bound);
        assert_eq!(unsafe { told("&a [x, *a]", true) }.1, fault);
        assert_eq!(unsafe { told("&a [x, *a]", false) }.1, fault);
    }
    // A parse goes on where a load has another fault.
    bounds::set_max_expanded(6);
    assert_eq!(unsafe { endless_name(false) }, "a");
    assert_eq!(unsafe { endless_name(true) }, "a");
    for (text, fault, at) in [
        ("[*a, *a, *a, *a, *a, *a, *a]", "found undefined alias", 1),
        ("[&a [x, y], &a z, *a]", "second occurrence", 12),
    ] {
        assert_eq!(unsafe { told(text, true) }.1, format!("{fault} {at}"));
        assert_eq!(unsafe { told(text, false) }.1, "");
    }
    assert_eq!(unsafe { told("[&a [x, y], &a z, *a, w]", false) }.1, format!("{large} 22"));
    bounds::set_max_nodes(3);
    assert_eq!(
        unsafe { told("[*a, *a, *a, *a]", false) }.1,
        "found too many nodes 13"
    );
    bounds::set_max_nodes(u32::MAX);    keys_differ();
}

/// What the error of an alias within the node that it names is about.
unsafe fn endless_name(loads: bool) -> String {
    let (mut parser, text) = (Box::new(MaybeUninit::uninit()), b"&a [x, *a]");
    let parser: *mut yaml_parser_t = parser.as_mut_ptr();
    assert!(yaml_parser_initialize(parser).ok);
    yaml_parser_set_input_string(parser, text.as_ptr(), text.len() as u64);
    let (mut event, mut document) = (MaybeUninit::uninit(), MaybeUninit::uninit());
    if loads {
        assert!(!yaml_parser_load(parser, document.as_mut_ptr()).ok);
    } else {
        while yaml_parser_parse(parser, event.as_mut_ptr()).ok {
            yaml_event_delete(event.as_mut_ptr());
        }
    }
    let name = errors::name(parser).unwrap().to_string_lossy().into_owned();
    yaml_parser_delete(parser);
    name
}

/// A key that its mapping has is refused. Each row is a text, how many documents a load gives, how many events a parse, and the fault.
fn keys_differ() {
    let twice = "found duplicate key";
    bounds::set_max_expanded(u64::MAX);
    for (text, documents, events, fault) in [
        ("{a: 1, b: 1, a: 2}", 0, 7, format!("{twice} 13")),
        ("{a: 1, 'a': 2}", 0, 5, format!("{twice} 7")),
        ("1: a\n!!str 1: b", 1, 9, String::new()),
        ("[{&x [k]: 1}, {*x : 1, *x : 2}]", 0, 12, format!("{twice} 23")),
        ("{&x 'k': 1, a: {k: 1, *x : 2}}", 0, 9, format!("{twice} 22")),
        ("a: {a: {a: 1}}\nb: {a: 1}\n---\na: 1\n", 2, 24, String::new()),
    ] {
        bounds::set_unique_keys(true);
        assert_eq!(unsafe { told(text, true) }, (documents, fault.clone()), "{text}");
        assert_eq!(unsafe { told(text, false) }, (events, fault), "{text}");
        bounds::set_unique_keys(false);
        assert_eq!(unsafe { told(text, true) }.1, "", "{text}");
    }
}
