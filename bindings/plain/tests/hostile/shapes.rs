//! The nodes of large documents.

use crate::large::N;
use pokhvizi::unsafe_libyaml::unnamed_yaml_node_t_data::{Mapping, Scalar, Sequence};
use pokhvizi::unsafe_libyaml::*;

/// How large and deep the documents are, as an id.
const LAST: i32 = N as i32;

/// What a node is: a scalar of this text and style, or so many items or pairs, which are all the same.
#[derive(Debug, PartialEq)]
enum Shape<'a> {
    Scalar(&'a str, yaml_scalar_style_t),
    Items(usize, i32),
    Pairs(usize, i32, i32),
    Other,
}

/// What the node of this id is in the document of this name.
fn wanted(list: &str, id: i32) -> Shape<'static> {
    match list {
        "nested sequences" if id == LAST => Shape::Items(0, 0),
        "nested sequences" => Shape::Items(1, id + 1),
        "sequences in sequences" if id <= LAST => Shape::Items(1, id + 1),
        "sequences in sequences" => Shape::Scalar("text", YAML_ANY_SCALAR_STYLE),
        "nested pairs" if id <= 2 * LAST => wanted_pair(id),
        "aliases" => Shape::Items(N as usize, 1),
        _ => Shape::Scalar("", YAML_PLAIN_SCALAR_STYLE),
    }
}

/// Sequences of mappings in one another: the value of each mapping's pair is a scalar after all of these.
fn wanted_pair(id: i32) -> Shape<'static> {
    match id % 2 {
        1 => Shape::Items(1, id + 1),
        _ => Shape::Pairs(1, id + 1, 3 * LAST + 2 - id / 2),
    }
}

fn shape_of(node: &yaml_node_t) -> Shape<'_> {
    match &node.content {
        Scalar(scalar) => Shape::Scalar(&scalar.value, scalar.style),
        Sequence(sequence) => {
            let first = sequence.items.first().map_or(0, |item| *item);
            match sequence.items.iter().all(|item| *item == first) {
                true => Shape::Items(sequence.items.len(), first),
                false => Shape::Other,
            }
        }
        Mapping(mapping) => match &mapping.pairs[..] {
            [pair] => Shape::Pairs(1, pair.key, pair.value),
            _ => Shape::Other,
        },
    }
}

/// Wants that these are the nodes of the document of this name.
pub fn assert_shaped(list: &str, nodes: &[yaml_node_t]) {
    for (id, node) in (1..).zip(nodes) {
        assert_eq!(shape_of(node), wanted(list, id), "{list}, node {id}");
    }
}
