//! Loads all documents of a file by `unsafe-libyaml`, and says how many nodes they have and the peak of resident memory in KB.
//!
//!     loads FILE
//!
//! Run by clients.sh.

use std::mem::MaybeUninit;
use std::{env, fs, process, ptr};
use unsafe_libyaml::*;

/// Returns how many nodes a document has, and deletes it; 0 after the last.
unsafe fn next(parser: *mut yaml_parser_t) -> isize {
    let mut document = MaybeUninit::<yaml_document_t>::uninit();
    let document = document.as_mut_ptr();
    if !yaml_parser_load(parser, document).ok {
        eprintln!("an error");
        process::exit(1);
    }
    let count = match yaml_document_get_root_node(document) == ptr::null_mut() {
        true => 0,
        false => (*document).nodes.top.offset_from((*document).nodes.start),
    };
    yaml_document_delete(document);
    count
}

fn peak() -> String {
    let status = fs::read_to_string("/proc/self/status").unwrap_or_default();
    let line = status.lines().find_map(|line| line.strip_prefix("VmHWM:"));
    line.unwrap_or_default().trim_matches(|c: char| !c.is_ascii_digit()).to_string()
}

fn main() {
    let name = env::args().nth(1).unwrap_or_default();
    let text = fs::read(name).unwrap_or_else(|_| process::exit(2));
    let mut parser = MaybeUninit::<yaml_parser_t>::uninit();
    let parser = parser.as_mut_ptr();
    let mut all = 0;
    unsafe {
        if !yaml_parser_initialize(parser).ok {
            process::exit(3);
        }
        yaml_parser_set_input_string(parser, text.as_ptr(), text.len() as u64);
        loop {
            match next(parser) {
                0 => break,
                count => all += count,
            }
        }
        yaml_parser_delete(parser);
    }
    println!("{all} {}", peak());
}
