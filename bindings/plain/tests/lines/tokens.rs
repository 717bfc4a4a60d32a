//! Tokens of lines.

use super::fields::{mark_of, text_of};
use super::written::{ENCODINGS, SCALARS};
use pokhvizi::kit::Global;
use pokhvizi::libyaml_types::*;
use pokhvizi::unsafe_libyaml::YAML_READER_ERROR;

fn encoding_of(word: &str) -> yaml_encoding_t {
    use yaml_encoding_t::*;
    let all = [YAML_ANY_ENCODING, YAML_UTF8_ENCODING, YAML_UTF16LE_ENCODING, YAML_UTF16BE_ENCODING];
    all[ENCODINGS.iter().position(|&name| name == word).unwrap()]
}

fn style_of(word: &str) -> yaml_scalar_style_t {
    use yaml_scalar_style_t::*;
    let all = [
        YAML_ANY_SCALAR_STYLE,
        YAML_PLAIN_SCALAR_STYLE,
        YAML_SINGLE_QUOTED_SCALAR_STYLE,
        YAML_DOUBLE_QUOTED_SCALAR_STYLE,
        YAML_LITERAL_SCALAR_STYLE,
        YAML_FOLDED_SCALAR_STYLE,
    ];
    all[SCALARS.iter().position(|&name| name == word).unwrap()]
}

/// The token of a line.
pub fn token_of(line: &str) -> yaml_token_t {
    use unnamed_yaml_token_t_data::*;
    let fields: Vec<&str> = line.split(' ').collect();
    let (start, end) = (mark_of(fields[1]), mark_of(fields[2]));
    let text = |place: usize| text_of(fields[place]);
    let content = match fields[0] {
        "STREAM-START" => return yaml_token_t::stream_start(encoding_of(fields[3]), start, end),
        "VERSION-DIRECTIVE" => {
            let (major, minor) = fields[3].split_once('.').unwrap();
            return yaml_token_t::version_directive(
                major.parse().unwrap(),
                minor.parse().unwrap(),
                start,
                end,
            );
        }
        "TAG-DIRECTIVE" => {
            return yaml_token_t::tag_directive(Global, &text(3), &text(4), start, end).unwrap()
        }
        "ALIAS" => return yaml_token_t::alias(Global, &text(3), start, end).unwrap(),
        "ANCHOR" => return yaml_token_t::anchor(Global, &text(3), start, end).unwrap(),
        "TAG" => return yaml_token_t::tag(Global, &text(3), &text(4), start, end).unwrap(),
        "SCALAR" => return yaml_token_t::scalar(Global, &text(3), style_of(fields[4]), start, end).unwrap(),
        "STREAM-END" => StreamEnd,
        "DOCUMENT-START" => DocumentStart,
        "DOCUMENT-END" => DocumentEnd,
        "BLOCK-SEQUENCE-START" => BlockSequenceStart,
        "BLOCK-MAPPING-START" => BlockMappingStart,
        "BLOCK-END" => BlockEnd,
        "FLOW-SEQUENCE-START" => FlowSequenceStart,
        "FLOW-SEQUENCE-END" => FlowSequenceEnd,
        "FLOW-MAPPING-START" => FlowMappingStart,
        "FLOW-MAPPING-END" => FlowMappingEnd,
        "BLOCK-ENTRY" => BlockEntry,
        "FLOW-ENTRY" => FlowEntry,
        "KEY" => Key,
        "VALUE" => Value,
        "NO-TOKEN" => NoToken,
        name => panic!("{name} is no token"),
    };
    yaml_token_t::new(content, start, end)
}

/// The tokens of these lines.
pub fn tokens_of(lines: &str) -> Vec<yaml_token_t> {
    lines.lines().map(token_of).collect()
}

/// The fault of a source over so many lines where they end.
pub fn end_of_lines(count: u64) -> yaml_source_fault_t {
    let (index, line, column) = (count, count, 0);
    let at = yaml_mark_t { index, line, column };
    yaml_source_fault_t::new(YAML_READER_ERROR, Some("no more tokens"), count, -1, at, None, ZERO_MARK)
}

/// A source of the tokens of these lines, which ends as a source over lines does.
pub fn source_of(lines: &str) -> yaml_list_source_t {
    let tokens = tokens_of(lines);
    let end = end_of_lines(tokens.len() as u64);
    yaml_list_source_t::new(tokens.into(), end)
}
