//! What the crate tells of the error of each file that a line of standard input names, by parses and by loads, in lines as those of
//! errors.py:
//!
//!     errors < NAMES
//!
//! Run by clients.sh.

use std::ffi::CStr;
use std::mem::MaybeUninit;
use std::{fs, io};
use unsafe_libyaml::*;

/// Reads to the end, or to the error; returns whether there is one.
unsafe fn fails(parser: *mut yaml_parser_t, loads: bool) -> bool {
    let (mut event, mut document) = (MaybeUninit::uninit(), MaybeUninit::uninit());
    loop {
        if loads {
            if !yaml_parser_load(parser, document.as_mut_ptr()).ok {
                return true;
            }
            let is_last = yaml_document_get_root_node(document.as_mut_ptr()).is_null();
            yaml_document_delete(document.as_mut_ptr());
            if is_last {
                return false;
            }
        } else {
            if !yaml_parser_parse(parser, event.as_mut_ptr()).ok {
                return true;
            }
            let is_last = (*event.as_ptr()).type_ == YAML_STREAM_END_EVENT;
            yaml_event_delete(event.as_mut_ptr());
            if is_last {
                return false;
            }
        }
    }
}

unsafe fn tell(parser: *const yaml_parser_t, what: &str) {
    let (problem, place) = ((*parser).problem, (*parser).problem_mark.index);
    let problem = CStr::from_ptr(problem.cast()).to_string_lossy();
    let name = errors::name(parser).map_or("-".into(), CStr::to_string_lossy);
    println!("{what} {place} {problem}: {} | {name}", errors::expected(parser).words().join(" "));
}

fn main() -> io::Result<()> {
    for name in io::stdin().lines() {
        let name = name?;
        let text = fs::read(&name)?;
        println!("file {name}");
        for (what, loads) in [("events", false), ("nodes", true)] {
            let mut parser = MaybeUninit::<yaml_parser_t>::uninit();
            let parser = parser.as_mut_ptr();
            unsafe {
                assert!(yaml_parser_initialize(parser).ok);
                yaml_parser_set_input_string(parser, text.as_ptr(), text.len() as u64);
                if fails(parser, loads) && [YAML_PARSER_ERROR, YAML_COMPOSER_ERROR].contains(&(*parser).error) {
                    tell(parser, what);
                }
                yaml_parser_delete(parser);
            }
        }
    }
    Ok(())
}
