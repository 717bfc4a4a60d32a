//! Constructors and calls on documents, by names and words.
#![allow(dead_code)]

use pokhvizi::kit::Global;
use pokhvizi::unsafe_libyaml::*;

/// The constructors with texts.
pub const CONSTRUCTORS: [&str; 5] = ["document start", "alias", "scalar", "sequence start", "mapping start"];

/// The texts of a constructor or of a document.
#[derive(Clone, Copy)]
pub struct Texts<'a> {
    pub directives: &'a [(&'a [u8], &'a [u8])],
    pub anchor: &'a [u8],
    pub tag: &'a [u8],
    pub value: &'a [u8],
}

/// Texts of which no two are the same.
pub const SHORT: Texts<'_> =
    Texts { directives: &[(b"!a!", b"p:"), (b"!b!", b"q:")], anchor: b"a", tag: b"!t", value: b"text" };

/// A document without directives.
pub fn empty() -> yaml_document_t {
    yaml_document_initialize(Global, None, &[], true, true).unwrap()
}

/// Calls the constructor of this name with these texts.
pub fn construct(name: &str, texts: Texts<'_>) -> Result<yaml_event_t, yaml_refusal_t> {
    let (anchor, tag) = (Some(texts.anchor), Some(texts.tag));
    match name {
        "document start" => yaml_document_start_event_initialize(Global, None, texts.directives, true),
        "alias" => yaml_alias_event_initialize(Global, texts.anchor),
        "scalar" => {
            yaml_scalar_event_initialize(Global, anchor, tag, texts.value, true, true, YAML_ANY_SCALAR_STYLE)
        }
        "sequence start" => {
            yaml_sequence_start_event_initialize(Global, anchor, tag, true, YAML_ANY_SEQUENCE_STYLE)
        }
        "mapping start" => {
            yaml_mapping_start_event_initialize(Global, anchor, tag, true, YAML_ANY_MAPPING_STYLE)
        }
        _ => panic!("no constructor: {name}"),
    }
}

fn id_of(word: &str) -> i32 {
    word.parse().unwrap()
}

/// Appends the children that a word names, `1[2,3` to the sequence 1, or `1{2:3,4:5` to the mapping 1.
fn append(document: &mut yaml_document_t, word: &str) -> Result<(), yaml_refusal_t> {
    if let Some((list, items)) = word.split_once('[') {
        return items
            .split(',')
            .try_for_each(|item| yaml_document_append_sequence_item(document, id_of(list), id_of(item)));
    }
    let (mapping, pairs) = word.split_once('{').unwrap();
    pairs.split(',').try_for_each(|pair| {
        let (key, value) = pair.split_once(':').unwrap();
        yaml_document_append_mapping_pair(document, id_of(mapping), id_of(key), id_of(value))
    })
}

/// Makes the call that a word names: `.` adds a scalar, `[` a sequence, `{` a mapping, each with `!` after it
/// if it has a tag; a word that begins with an id appends children.
pub fn make(document: &mut yaml_document_t, word: &str, texts: Texts<'_>) -> Result<(), yaml_refusal_t> {
    let tag = word.ends_with('!').then_some(texts.tag);
    let added = match word.as_bytes()[0] {
        b'.' => yaml_document_add_scalar(document, tag, texts.value, YAML_ANY_SCALAR_STYLE),
        b'[' => yaml_document_add_sequence(document, tag, YAML_ANY_SEQUENCE_STYLE),
        b'{' => yaml_document_add_mapping(document, tag, YAML_ANY_MAPPING_STYLE),
        _ => return append(document, word),
    };
    added.map(drop)
}
