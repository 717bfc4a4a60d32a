//! `unsafe-libyaml` with its parser and loader replaced by proved ones; its scanner, emitter, types and memory stay.
//!
//! A project that uses `unsafe-libyaml`, for example through `serde_yaml`, takes it by two lines of its `Cargo.toml`:
//!
//! ```toml
//! [patch.crates-io]
//! unsafe-libyaml = { path = "PATH" }
//! ```
//!
//! PATH is `bindings/rust` of a clone of the repository, or the unpacked archive of a release; README.md says what compiles the proved
//! code in each. `cargo tree -i unsafe-libyaml@0.2.12` shows which packages use the patch: if cargo leaves it out, it only warns
//! and builds with the original.
//!
//! [`yaml_parser_parse`], [`yaml_parser_load`] and [`yaml_parser_delete`] are replaced. A parse takes as many tokens of the
//! scanner as its event needs, a load as many as its document needs, where they stand in the scanner's queue, and their texts are
//! moved. The `yaml_parser_t` itself keeps what the parser needs, and what an error tells, in its last field: so you may move and
//! delete it as before, at any time, and two parsers share nothing.
//!
//! These differ from the original, besides what DIFFERENCES.md of the repository lists:
//!
//! - A failed allocation of the library is the fault `YAML_MEMORY_ERROR`; one of Rust's ends the process, as there.
//! - A load within a document that is being parsed is the parser's fault `load within a document`.
//! - A load after a fault fails again with that fault.
//! - A document with more nodes than it may have is the composer's fault `found too many nodes`, in place of one of memory.
//! - [`POKHVIZI_VERSION`] and the modules [`bounds`] and [`errors`] are added.
//!
//! Events and errors are the original's. With the feature `fixes` they are those of this project's own grammar.

#![allow(non_camel_case_types, clippy::missing_safety_doc)]

pub mod bounds;
mod composer;
mod documents;
mod door;
pub mod errors;
mod events;
mod expansion;
mod fault;
mod keys;
mod memory;
mod parser;
mod run;
mod steps;
mod tokens;

use parser::Parser;
use std::ops::Deref;
use std::ptr;

pub use original::*;

/// The version of this crate, which the original hasn't: a program that names it doesn't compile where cargo left the patch out.
pub const POKHVIZI_VERSION: &str = "0.4.0";

/// Whether a call succeeded.
#[must_use]
pub struct Success {
    pub ok: bool,
}

/// The opposite of [`Success`], to which that dereferences.
pub struct Failure {
    pub fail: bool,
}

impl Deref for Success {
    type Target = Failure;

    fn deref(&self) -> &Failure {
        if self.ok {
            &Failure { fail: false }
        } else {
            &Failure { fail: true }
        }
    }
}

/// Parses the input and produces the next event, as libyaml's `yaml_parser_parse`; after the last, and after a fault, none.
pub unsafe fn yaml_parser_parse(parser: *mut yaml_parser_t, event: *mut yaml_event_t) -> Success {
    ptr::write_bytes(event, 0, 1);
    let parser = parser.cast::<Parser>();
    Success {
        ok: (*parser).has_stopped() || run::parse(parser, event),
    }
}

/// Loads the next document, as libyaml's `yaml_parser_load`; after the last, one without nodes.
pub unsafe fn yaml_parser_load(parser: *mut yaml_parser_t, document: *mut yaml_document_t) -> Success {
    let (none, no_tags) = (ptr::null_mut(), ptr::null_mut());
    ptr::write_bytes(document, 0, 1);
    let parser = parser.cast::<Parser>();
    if (*parser).told.error != YAML_NO_ERROR {
        return Success { ok: false };
    }
    let ok = match run::load(parser, document) {
        Ok(true) => true,
        Ok(false) => yaml_document_initialize(document, none, no_tags, no_tags, false, false).ok,
        Err(()) => false,
    };
    Success { ok }
}

/// Destroys a parser, as libyaml's `yaml_parser_delete`.
pub unsafe fn yaml_parser_delete(parser: *mut yaml_parser_t) {
    run::discard(parser.cast());
    original::yaml_parser_delete(parser);
}
