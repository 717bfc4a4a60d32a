//! Reads files within bounds, those that lines of standard input name where no words do, and prints the kinds and marks of `events` or
//! `nodes`, or how many there are, and the fault, in lines that begin as those of events.c:
//!
//!     bounds events|nodes|unique_events|unique_nodes DEPTH NODES EXPANDED < NAMES
//!     bounds count_events|count_nodes DEPTH NODES EXPANDED NAME..
//!
//! DEPTH, NODES and EXPANDED are numbers, or `-` if there is no such bound. Keys of the last two have to differ. Run by clients.sh and hostile_texts.py.

use std::ffi::{c_char, CStr};
use std::mem::MaybeUninit;
use std::{env, fs, io};
use unsafe_libyaml::*;

const NAMES: [&str; 11] = [
    "NO-EVENT", "STREAM-START", "STREAM-END", "DOCUMENT-START", "DOCUMENT-END", "ALIAS", "SCALAR", "SEQUENCE-START", "SEQUENCE-END",
    "MAPPING-START", "MAPPING-END",
];

fn place(mark: yaml_mark_t) -> String {
    format!("{}:{}:{}", mark.index, mark.line, mark.column)
}

unsafe fn text(text: *const c_char) -> String {
    match text.is_null() {
        true => "-".to_owned(),
        false => CStr::from_ptr(text).to_string_lossy().into_owned(),
    }
}

unsafe fn put_event(event: &yaml_event_t) {
    let anchor = match event.type_ {
        YAML_ALIAS_EVENT => event.data.alias.anchor,
        YAML_SCALAR_EVENT => event.data.scalar.anchor,
        YAML_SEQUENCE_START_EVENT => event.data.sequence_start.anchor,
        YAML_MAPPING_START_EVENT => event.data.mapping_start.anchor,
        _ => std::ptr::null_mut(),
    };
    let anchor = if anchor.is_null() { "-".to_owned() } else { format!("={}", text(anchor.cast())) };
    println!("{} {} {} {anchor}", NAMES[event.type_ as usize], place(event.start_mark), place(event.end_mark));
}

unsafe fn put_nodes(document: &yaml_document_t) {
    println!("DOCUMENT");
    let mut node = document.nodes.start;
    while node != document.nodes.top {
        println!("{} {} {}", (*node).type_ as u32, place((*node).start_mark), place((*node).end_mark));
        node = node.add(1);
    }
}

unsafe fn put_fault(parser: *mut yaml_parser_t) {
    let (problem, context) = (text((*parser).problem.cast()), text((*parser).context.cast()));
    let (at, from) = (place((*parser).problem_mark), place((*parser).context_mark));
    let (offset, value) = ((*parser).problem_offset, (*parser).problem_value);
    println!("error {} {problem} {at} {context} {from} {offset} {value}", (*parser).error as u32);
}

/// Counts the next event, or the next document's nodes, and puts them where they are told; returns whether there may be more.
unsafe fn take_next(parser: *mut yaml_parser_t, loads: bool, tells: bool, count: &mut usize) -> bool {
    let (mut event, mut document) = (MaybeUninit::uninit(), MaybeUninit::uninit());
    let (given, is_last) = if loads {
        let given = yaml_parser_load(parser, document.as_mut_ptr()).ok;
        let is_last = !given || yaml_document_get_root_node(document.as_mut_ptr()).is_null();
        if given {
            let nodes = &(*document.as_ptr()).nodes;
            *count += nodes.top.offset_from(nodes.start) as usize;
        }
        if tells && given && !is_last {
            put_nodes(&*document.as_ptr());
        }
        if given {
            yaml_document_delete(document.as_mut_ptr());
        }
        (given, is_last)
    } else {
        let given = yaml_parser_parse(parser, event.as_mut_ptr()).ok;
        *count += usize::from(given);
        if tells && given {
            put_event(&*event.as_ptr());
        }
        let is_last = !given || (*event.as_ptr()).type_ == YAML_STREAM_END_EVENT;
        yaml_event_delete(event.as_mut_ptr());
        (given, is_last)
    };
    if !given {
        put_fault(parser);
    }
    !is_last
}

fn main() -> io::Result<()> {
    let words: Vec<String> = env::args().skip(1).collect();
    if let Ok(depth) = words[1].parse() {
        bounds::set_max_depth(depth);
    }
    if let Ok(nodes) = words[2].parse() {
        bounds::set_max_nodes(nodes);
    }
    if let Ok(nodes) = words[3].parse() {
        bounds::set_max_expanded(nodes);
    }
    bounds::set_unique_keys(words[0].starts_with("unique_"));
    let (loads, tells) = (words[0].ends_with("nodes"), !words[0].starts_with("count"));
    let names = match tells {
        true => io::stdin().lines().collect::<Result<_, _>>()?,
        false => words[4..].to_vec(),
    };
    for name in names {
        let text = fs::read(&name)?;
        if tells {
            println!("file {name}");
        }
        let mut count = 0;
        let mut parser = MaybeUninit::<yaml_parser_t>::uninit();
        let parser = parser.as_mut_ptr();
        unsafe {
            assert!(yaml_parser_initialize(parser).ok);
            yaml_parser_set_input_string(parser, text.as_ptr(), text.len() as u64);
            while take_next(parser, loads, tells, &mut count) {}
            yaml_parser_delete(parser);
        }
        if !tells {
            println!("{count}");
        }
    }
    Ok(())
}
