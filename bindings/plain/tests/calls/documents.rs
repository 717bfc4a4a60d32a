//! Documents by calls, halves of documents of loads that fail, and documents that are equal but for their
//! ends.

use crate::joined;
use crate::lines::data::Row;
use crate::lines::growing::listed;
use crate::lines::tokens::source_of;
use crate::lines::written::document_lines;
use pokhvizi::kit::Global;
use pokhvizi::unsafe_libyaml::*;

type Made = Result<yaml_document_t, yaml_refusal_t>;

/// A document without nodes or directives.
fn empty() -> Made {
    yaml_document_initialize(Global, None, &[], true, true)
}

fn add_word(document: &mut yaml_document_t) -> Result<i32, yaml_refusal_t> {
    yaml_document_add_scalar(document, None, b"a", YAML_PLAIN_SCALAR_STYLE)
}

/// Whether the root is there, which of the ids -1 to 2 name a node, and whether 1 names the root.
fn known() -> Result<[bool; 6], yaml_refusal_t> {
    let mut document = empty()?;
    add_word(&mut document)?;
    let (root, node) = (yaml_document_get_root_node(&document), |id| yaml_document_get_node(&document, id));
    let [before, none, first, second] = [-1, 0, 1, 2].map(|id| node(id).is_some());
    Ok([root.is_some(), before, none, first, second, node(1) == root])
}

/// A sequence, whose items are a scalar and itself.
fn list_of_two() -> Made {
    let mut document = empty()?;
    let list = yaml_document_add_sequence(&mut document, None, YAML_ANY_SEQUENCE_STYLE)?;
    let word = add_word(&mut document)?;
    yaml_document_append_sequence_item(&mut document, list, word)?;
    yaml_document_append_sequence_item(&mut document, list, list)?;
    Ok(document)
}

fn tagged_word() -> Made {
    let mut document = empty()?;
    yaml_document_add_scalar(&mut document, Some(b"!"), b"", YAML_DOUBLE_QUOTED_SCALAR_STYLE)?;
    Ok(document)
}

/// A mapping, whose only pair has a scalar and the mapping itself.
fn map_of_one() -> Made {
    let mut document = empty()?;
    let map = yaml_document_add_mapping(&mut document, None, YAML_BLOCK_MAPPING_STYLE)?;
    let word = add_word(&mut document)?;
    yaml_document_append_mapping_pair(&mut document, map, word, map)?;
    Ok(document)
}

fn with_directives() -> Made {
    let version = Some(yaml_version_directive_t { major: 1, minor: -1 });
    yaml_document_initialize(Global, version, &[(b"!e!", b"tag:e,2000:")], false, true)
}

fn lines_of(made: Made) -> String {
    joined(&document_lines(&made.unwrap()))
}

/// Adds a mapping with a tag that is no text: the error, and how many nodes there are then.
fn refused_tag() -> (Result<i32, yaml_refusal_t>, usize) {
    let mut document = empty().unwrap();
    let added = yaml_document_add_mapping(&mut document, Some(&[0xff]), YAML_BLOCK_MAPPING_STYLE);
    (added, document.nodes().len())
}

/// Which of three documents that are equal but for their ends are equal, whichever is compared with the
/// other: that of a scalar which ends at the stream's end, there but later, and with a DOCUMENT-END.
fn equal(row: &Row) -> String {
    let load = |lines: &&str| {
        let mut parser = yaml_parser_initialize(Global, source_of(&lines.replace(';', "\n")));
        yaml_parser_load(&mut parser).unwrap()
    };
    let all: Vec<yaml_document_t> = row.fields.iter().map(load).collect();
    let compared =
        |one| [[0, 1, 2].map(|other| all[one] == all[other]), [0, 1, 2].map(|other| all[other] == all[one])];
    format!("{:?}", [0, 1, 2].map(compared))
}

#[test]
fn documents_are_made_by_calls() {
    crate::table("documents", 7, |row| match row.name {
        "ids count from one" => format!("{:?}", known().unwrap()),
        "items are appended in order" => lines_of(list_of_two()),
        "a given tag stays" => lines_of(tagged_word()),
        "a tag that is no text adds no node" => format!("{:?}", refused_tag()),
        "a pair is appended" => lines_of(map_of_one()),
        "directives stay" => lines_of(with_directives()),
        "documents differ by their ends" => equal(row),
        name => panic!("no call: {name}"),
    });
}

/// A row has the parts of a list, and the bound on each list of a document; and the kind of the error,
/// the name that it is about, and the lines of half a document.
#[test]
fn a_load_that_fails_gives_half_a_document() {
    crate::table("halves", 10, |row| {
        let mut parser = yaml_parser_initialize(Global, listed(row.fields[0], 1));
        yaml_parser_set_max_entries(&mut parser, row.number(1));
        let half = yaml_parser_load_partial(&mut parser).unwrap_err();
        let lines = half.document.as_ref().map_or(String::new(), document_lines);
        format!("{:?} {:?};{}", half.error, half.name, joined(&lines))
    });
}
