//! Marks and texts as the fields of lines.

use pokhvizi::libyaml_types::yaml_mark_t;
use std::fmt::Write;

/// The mark of a field.
pub fn mark_of(field: &str) -> yaml_mark_t {
    let numbers: Vec<u64> = field.split(':').map(|number| number.parse().unwrap()).collect();
    yaml_mark_t { index: numbers[0], line: numbers[1], column: numbers[2] }
}

/// The field of a mark.
pub fn mark_text(mark: &yaml_mark_t) -> String {
    format!("{}:{}:{}", mark.index, mark.line, mark.column)
}

/// The bytes of a text field, which is escaped after its `=`.
pub fn text_of(field: &str) -> Vec<u8> {
    let (bytes, mut text, mut place) = (field.as_bytes(), Vec::new(), 1);
    assert_eq!(bytes[0], b'=');
    while place < bytes.len() {
        let digits = bytes.get(place + 1..place + 3).and_then(|two| std::str::from_utf8(two).ok());
        match digits.and_then(|two| u8::from_str_radix(two, 16).ok()) {
            Some(byte) if bytes[place] == b'%' => {
                text.push(byte);
                place += 3;
            }
            _ => {
                text.push(bytes[place]);
                place += 1;
            }
        }
    }
    text
}

/// The field of a text's bytes.
pub fn field_of(text: &[u8]) -> String {
    let mut field = String::from("=");
    for &byte in text {
        match byte {
            b'%' => field.push_str("%25"),
            0x21..=0x7E => field.push(byte as char),
            _ => write!(field, "%{byte:02X}").unwrap(),
        }
    }
    field
}
