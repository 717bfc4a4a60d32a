//! Lines of events, documents and errors.

use super::fields::{field_of, mark_text};
use super::tokens::source_of;
use pokhvizi::kit::{Global, String as Text};
use pokhvizi::libyaml_documents::{unnamed_yaml_node_t_data, yaml_document_t, yaml_node_t};
use pokhvizi::libyaml_types::*;
use pokhvizi::unsafe_libyaml::{yaml_parser_documents, yaml_parser_initialize};

pub const ENCODINGS: [&str; 4] = ["any", "utf8", "utf16le", "utf16be"];
pub const SCALARS: [&str; 6] = ["any", "plain", "single", "double", "literal", "folded"];
const COLLECTIONS: [&str; 3] = ["any", "block", "flow"];
const ERRORS: [&str; 8] = ["none", "memory", "reader", "scanner", "parser", "composer", "writer", "emitter"];

fn optional(text: &Option<Text>) -> String {
    text.as_ref().map_or("-".to_string(), |text| field_of(text.as_bytes()))
}

fn flag(is_so: bool) -> &'static str {
    ["0", "1"][usize::from(is_so)]
}

fn marks_of(start: &yaml_mark_t, end: &yaml_mark_t) -> String {
    format!("{} {}", mark_text(start), mark_text(end))
}

fn directives(version: Option<yaml_version_directive_t>, tags: &[yaml_tag_directive_t]) -> String {
    let version = version.map(|version| format!("{}.{}", version.major, version.minor));
    let mut fields = vec![version.unwrap_or("-".to_string()), tags.len().to_string()];
    for tag in tags {
        fields.extend([&tag.handle, &tag.prefix].map(|text| field_of(text.as_bytes())));
    }
    fields.join(" ")
}

fn properties(anchor: &Option<Text>, tag: &Option<Text>) -> String {
    format!("{} {}", optional(anchor), optional(tag))
}

/// The line of an event.
pub fn event_line(event: &yaml_event_t) -> String {
    use unnamed_yaml_event_t_data::*;
    let marks = marks_of(&event.start_mark, &event.end_mark);
    let (name, fields) = match &event.content {
        NoEvent => ("NO-EVENT", None),
        StreamStart(start) => ("STREAM-START", Some(ENCODINGS[start.encoding.number() as usize].to_string())),
        StreamEnd => ("STREAM-END", None),
        DocumentStart(start) => {
            let rest = directives(start.version_directive, &start.tag_directives);
            ("DOCUMENT-START", Some(format!("{} {rest}", flag(start.implicit))))
        }
        DocumentEnd(end) => ("DOCUMENT-END", Some(flag(end.implicit).to_string())),
        Alias(alias) => ("ALIAS", Some(field_of(alias.anchor.as_bytes()))),
        Scalar(scalar) => ("SCALAR", Some(scalar_fields(scalar))),
        SequenceStart(start) => {
            let (rest, style) =
                (properties(&start.anchor, &start.tag), COLLECTIONS[start.style.number() as usize]);
            ("SEQUENCE-START", Some(format!("{rest} {} {style}", flag(start.implicit))))
        }
        SequenceEnd => ("SEQUENCE-END", None),
        MappingStart(start) => {
            let (rest, style) =
                (properties(&start.anchor, &start.tag), COLLECTIONS[start.style.number() as usize]);
            ("MAPPING-START", Some(format!("{rest} {} {style}", flag(start.implicit))))
        }
        MappingEnd => ("MAPPING-END", None),
    };
    let fields = fields.map_or(String::new(), |fields| format!(" {fields}"));
    format!("{name} {marks}{fields}\n")
}

fn scalar_fields(scalar: &unnamed_yaml_event_t_data_scalar) -> String {
    let (rest, value) = (properties(&scalar.anchor, &scalar.tag), field_of(scalar.value.as_bytes()));
    let flags = [scalar.plain_implicit, scalar.quoted_implicit].map(flag).join(" ");
    format!("{rest} {value} {flags} {}", SCALARS[scalar.style.number() as usize])
}

/// The lines of an error.
pub fn fault_lines(fault: &yaml_parser_t_prefix) -> String {
    let (error, at) = (ERRORS[fault.error.number() as usize], mark_text(&fault.problem_mark));
    let line = format!("FAULT {error} {at} {}\n", fault.problem.unwrap_or("-"));
    match fault.context {
        Some(context) => format!("{line}CONTEXT {} {context}\n", mark_text(&fault.context_mark)),
        None => line,
    }
}

/// The lines of a document: its own, and those of its nodes.
pub fn document_lines(document: &yaml_document_t) -> String {
    let marks = marks_of(&document.start_mark(), &document.end_mark());
    let flags = [document.start_implicit(), document.end_implicit()].map(flag).join(" ");
    let rest = directives(document.version_directive(), document.tag_directives());
    let mut lines = format!("DOCUMENT {marks} {flags} {rest}\n");
    for (node, id) in document.nodes().iter().zip(1..) {
        lines += &node_line(id, node);
    }
    lines
}

fn node_line(id: i32, node: &yaml_node_t) -> String {
    use unnamed_yaml_node_t_data::*;
    let place = format!("{} {}", marks_of(&node.start_mark, &node.end_mark), field_of(node.tag.as_bytes()));
    let (name, style, children) = match &node.content {
        Scalar(scalar) => {
            let (value, style) = (field_of(scalar.value.as_bytes()), SCALARS[scalar.style.number() as usize]);
            return format!("{id} SCALAR {place} {value} {style}\n");
        }
        Sequence(sequence) => {
            let items: Vec<String> = sequence.items.iter().map(i32::to_string).collect();
            ("SEQUENCE", sequence.style.number(), items)
        }
        Mapping(mapping) => {
            let pairs = mapping.pairs.iter().map(|pair| format!("{}:{}", pair.key, pair.value));
            ("MAPPING", mapping.style.number(), pairs.collect())
        }
    };
    let count = [children.len().to_string()];
    let children: Vec<String> = count.into_iter().chain(children).collect();
    format!("{id} {name} {place} {} {}\n", COLLECTIONS[style as usize], children.join(" "))
}

/// The lines of what an iterator gives, up to its first error.
pub fn lines_of<T>(
    values: impl Iterator<Item = Result<T, yaml_parser_t_prefix>>,
    line: impl Fn(&T) -> String,
) -> String {
    values.map(|value| value.map_or_else(|fault| fault_lines(&fault), |value| line(&value))).collect()
}

/// The lines of the events of token lines, and of their error.
pub fn events(tokens: &str) -> String {
    lines_of(yaml_parser_initialize(Global, source_of(tokens)), event_line)
}

/// The lines of the documents of token lines, and of their error.
pub fn nodes(tokens: &str) -> String {
    lines_of(yaml_parser_documents(&mut yaml_parser_initialize(Global, source_of(tokens))), document_lines)
}
