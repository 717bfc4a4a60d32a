//! Enums: the numbers of their last variants, and their texts.

use pokhvizi::kit::{Global, String as Text, Vec as List};
use pokhvizi::libyaml_types::*;
use pokhvizi::unsafe_libyaml::*;

/// The numbers of four variants.
fn numbers() -> [u32; 4] {
    [
        YAML_SCALAR_TOKEN.number(),
        YAML_MAPPING_END_EVENT.number(),
        yaml_parser_state_t::YAML_PARSE_END_STATE.number(),
        YAML_EMITTER_ERROR.number(),
    ]
}

fn text(text: &str) -> Text {
    Text::from_str(Global, text).unwrap()
}

fn token() -> unnamed_yaml_token_t_data {
    let (value, style) = (text("x"), YAML_PLAIN_SCALAR_STYLE);
    unnamed_yaml_token_t_data::Scalar(unnamed_yaml_token_t_data_scalar { value, style })
}

fn event() -> unnamed_yaml_event_t_data {
    unnamed_yaml_event_t_data::Alias(unnamed_yaml_event_t_data_alias { anchor: text("a") })
}

fn document_start() -> unnamed_yaml_event_t_data_document_start {
    let (version_directive, tag_directives) = (None, List::new(Global));
    unnamed_yaml_event_t_data_document_start { implicit: true, version_directive, tag_directives }
}

#[test]
fn enums_have_numbers_and_texts() {
    crate::table("enums", 8, |row| match row.name {
        "numbers of enums" => format!("{:?}", numbers()),
        "the name of a refusal" => format!("{:?}", yaml_refusal_t::NotUtf8),
        "a text that is none" => yaml_refusal_t::NotUtf8.to_string(),
        "a failed allocation" => yaml_refusal_t::Memory.to_string(),
        "too many nodes" => yaml_refusal_t::TooManyNodes.to_string(),
        "a token is shown" => format!("{:?}", token()),
        "an event is shown" => format!("{:?}", event()),
        "the start of a document is shown" => format!("{:?}", document_start()),
        name => panic!("no call: {name}"),
    });
}
