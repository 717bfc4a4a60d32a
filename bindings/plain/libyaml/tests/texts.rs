//! Texts to documents and events in one call, and the errors of each part.

use pokhvizi::yaml::ErrorKind;
use pokhvizi_libyaml::{documents, events, from_slice, from_str, Error, MAX_DEPTH};

fn error_of(text: &[u8]) -> Error {
    let error = from_slice(text).unwrap_err();
    let others = [documents(text).find_map(Result::err), events(text).find_map(Result::err)];
    for other in others.into_iter().flatten() {
        assert_eq!((&other, other.name(), other.expected()), (&error, error.name(), error.expected()));
    }
    error
}

#[test]
fn a_text_is_one_document() {
    let document = from_str("a: [1, 2]\nb: {c: d}\n").unwrap();
    assert_eq!(document.text_at(&["a", "1"]), Some("2"));
    assert_eq!(document.text_at(&["b", "c"]), Some("d"));
    assert_eq!(from_slice(b"\xff\xfea\0").unwrap().text_at(&[]), Some("a"));
    assert_eq!(documents("a\n---\nb\n").map(|each| each.unwrap().nodes().len()).sum::<usize>(), 2);
    assert_eq!(documents("").count(), 0);
    assert_eq!(events("[a]").count(), 7);
    for (text, problem) in [
        ("# nothing\n", "found no document at line 1, column 1"),
        ("a\n--- b\n", "found another document at line 2, column 1"),
    ] {
        let error = from_str(text).unwrap_err();
        assert_eq!((error.kind(), error.to_string().as_str()), (ErrorKind::COMPOSER, problem));
    }
}

#[test]
fn errors_have_places_names_and_what_was_expected() {
    for (text, told, name, expected) in [
        (
            &b"a: [1, 2\nb: 3\n"[..],
            "did not find expected ',' or ']' at line 2, column 2; while parsing a flow sequence at line 1, column 4",
            None,
            "',' or ']'",
        ),
        (b"[*b]", "found undefined alias at line 1, column 2", Some("b"), ""),
        (b"- !e!x y\n", "found undefined tag handle at line 1, column 3; while parsing a node at line 1, column 3", Some("!e!"), ""),
        (b"- !e!x *y\n", "found undefined tag handle at line 1, column 3; while parsing a node at line 1, column 3", Some("!e!"), ""),
        (b"%TAG !e! a\n%TAG !e! b\n--- c\n", "found duplicate %TAG directive at line 2, column 1", Some("!e!"), ""),
        (b"a: b\n- c\n", "did not find expected key at line 2, column 1; while parsing a block mapping at line 1, column 1", None,
            "a key, a value or the end of the block mapping"),
        (b"a: \xff\n", "invalid leading UTF-8 octet at position 3", None, ""),
        (b"a: 'b\n", "found unexpected end of stream at line 2, column 1; while scanning a quoted scalar at line 1, column 4", None, ""),
    ] {
        let error = error_of(text);
        assert_eq!(error.to_string(), told);
        assert_eq!((error.name(), error.expected().to_string().as_str()), (name, expected), "{told}");
    }
    assert_eq!(error_of(b"a: \xff\n").position(), Some(3));
}

#[test]
fn depth_is_bounded() {
    let nested = |depth| "[".repeat(depth) + &"]".repeat(depth);
    assert!(from_str(&nested(MAX_DEPTH)).is_ok());
    let error = error_of(nested(MAX_DEPTH + 1).as_bytes());
    assert_eq!((error.problem(), error.mark().column), (Some("found too many levels"), 1000));
}

#[test]
fn duplicate_keys_have_text_and_place() {
    let document = from_str("a: 1\nb: 2\n\"a\": 3\na: 4\n").unwrap();
    let found = document.duplicate_key().unwrap().unwrap();
    assert_eq!(found.to_string(), "found duplicate key \"a\" at line 4, column 1; first at line 1, column 1");
    let document = from_str("&x [1]: a\n*x : b\n").unwrap();
    let found = document.duplicate_key().unwrap().unwrap();
    assert_eq!(found.to_string(), "found duplicate key at line 1, column 1; first at line 1, column 1");
}
