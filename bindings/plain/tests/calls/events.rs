//! Events by calls, of texts in which the zero byte counts, and of bytes that are no text.

use crate::joined;
use crate::lines::written::event_line;
use pokhvizi::kit::Global;
use pokhvizi::libyaml_types::unnamed_yaml_event_t_data::NoEvent;
use pokhvizi::unsafe_libyaml::*;

/// A text with a zero byte in it.
const ZERO: &[u8] = b"a\0b";

const SURROGATE: &[u8] = b"\xed\xa0\x80";

type Made = Result<yaml_event_t, yaml_refusal_t>;

fn scalar(value: &[u8]) -> Made {
    yaml_scalar_event_initialize(Global, None, None, value, true, false, YAML_PLAIN_SCALAR_STYLE)
}

fn document_start() -> Made {
    let version = Some(yaml_version_directive_t { major: 1, minor: 2 });
    let pairs: [(&[u8], &[u8]); 2] = [(ZERO, ZERO), (b"", b"p:")];
    yaml_document_start_event_initialize(Global, version, &pairs, true)
}

/// Makes the call of this name.
fn made(name: &str) -> Made {
    let zero = Some(ZERO);
    match name {
        "a scalar" => {
            let style = YAML_DOUBLE_QUOTED_SCALAR_STYLE;
            yaml_scalar_event_initialize(Global, zero, zero, ZERO, false, true, style)
        }
        "a scalar without a tag" => {
            let style = YAML_FOLDED_SCALAR_STYLE;
            yaml_scalar_event_initialize(Global, None, None, ZERO, false, false, style)
        }
        "an alias" => yaml_alias_event_initialize(Global, ZERO),
        "the start of a sequence" => {
            yaml_sequence_start_event_initialize(Global, zero, zero, true, YAML_FLOW_SEQUENCE_STYLE)
        }
        "the start of a mapping" => {
            yaml_mapping_start_event_initialize(Global, zero, zero, false, YAML_FLOW_MAPPING_STYLE)
        }
        "the start of a document" => document_start(),
        "a prefix that is no text" => {
            yaml_document_start_event_initialize(Global, None, &[(b"!e!", b"\xff")], false)
        }
        "the last character" => scalar(b"\xf4\x8f\xbf\xbf"),
        "past the last character" => scalar(b"\xf4\x90\x80\x80"),
        "a surrogate" => scalar(SURROGATE),
        "an alias that is a surrogate" => yaml_alias_event_initialize(Global, SURROGATE),
        _ => panic!("no call: {name}"),
    }
}

/// Whether an event is empty after a first and after a second deletion.
fn empties_twice() -> [bool; 2] {
    let mut event = scalar(b"x").unwrap();
    event.end_mark.index = 1;
    [(); 2].map(|()| {
        yaml_event_delete(&mut event);
        event.content == NoEvent && (event.start_mark, event.end_mark) == (ZERO_MARK, ZERO_MARK)
    })
}

#[test]
fn constructors_give_the_event_of_their_arguments_or_refuse_them() {
    crate::table("constructors", 12, |row| match row.name {
        "an event is emptied twice" => format!("{:?}", empties_twice()),
        name => match made(name) {
            Ok(event) => joined(&event_line(&event)),
            Err(refusal) => format!("{refusal:?}"),
        },
    });
}
