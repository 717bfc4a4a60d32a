//! The keys of a text that is being typed: its tokens up to the first that can't come next, completed.

use crate::lines::data::text_of;
use crate::lines::tokens::token_of;
use pokhvizi::libyaml_types::yaml_mark_t;
use pokhvizi::unsafe_libyaml::{unnamed_yaml_node_t_data, yaml_document_t};
use pokhvizi::yaml::PushLoader;
use std::collections::BTreeMap;
use std::fmt::Write;

/// The keys of a document that are scalars, in the order of the text.
fn keys_of(document: &yaml_document_t) -> BTreeMap<u64, (yaml_mark_t, &str)> {
    let pairs = document.nodes().iter().flat_map(|node| document.pairs(node));
    pairs
        .filter_map(|(key, _)| match &key.content {
            unnamed_yaml_node_t_data::Scalar(scalar) => {
                Some((key.start_mark.index, (key.start_mark, scalar.value.as_str())))
            }
            _ => None,
        })
        .collect()
}

#[test]
fn half_a_text_has_its_keys() {
    let tokens = text_of("bindings/plain/tests/data/half.tokens");
    let (mut loader, mut documents, mut told) = (PushLoader::new(), Vec::new(), String::new());
    for token in tokens.lines().map(token_of) {
        let (kind, mark) = (token.type_(), token.start_mark);
        if !loader.expected().contains(kind) {
            writeln!(told, "{mark}: {kind:?} can't come next").unwrap();
            loader.complete(mark, &mut documents).unwrap();
            break;
        }
        loader.push(token, &mut documents).unwrap();
    }
    for (mark, key) in documents.iter().map(keys_of).flat_map(BTreeMap::into_values) {
        writeln!(told, "{mark}: {key}").unwrap();
    }
    assert_eq!(told, text_of("bindings/plain/tests/data/half.stdout"));
}
