//! The parser and loader over libyaml's scanner give what libyaml's own do, over the YAML texts of the repository.

use pokhvizi::yaml::{Documents, Event, EventData, Mark, NodeData, Parser};
use pokhvizi_libyaml::Scanner;
use std::ffi::CStr;
use std::fs;
use std::mem::MaybeUninit;
use std::path::Path;

type Place = (u64, u64, u64);

/// A number of the kind, both places, the texts, and what may be left out.
type Told = (u32, Place, Place, Vec<Option<Vec<u8>>>, Vec<bool>);

/// The events, and the words and the place of the error after them.
type Run = (Vec<Told>, Option<(Option<String>, Place)>);

fn place_of(mark: Mark) -> Place {
    (mark.index, mark.line, mark.column)
}

fn told(event: &Event) -> Told {
    let text = |text: &Option<pokhvizi::kit::String>| text.as_ref().map(|text| text.as_bytes().to_vec());
    let (texts, flags) = match &event.content {
        EventData::DocumentStart(start) => (vec![], vec![start.implicit]),
        EventData::DocumentEnd(end) => (vec![], vec![end.implicit]),
        EventData::Alias(alias) => (vec![Some(alias.anchor.as_bytes().to_vec())], vec![]),
        EventData::Scalar(scalar) => {
            let value = Some(scalar.value.as_bytes().to_vec());
            let flags = vec![scalar.plain_implicit, scalar.quoted_implicit];
            (vec![text(&scalar.anchor), text(&scalar.tag), value], flags)
        }
        EventData::SequenceStart(start) => {
            (vec![text(&start.anchor), text(&start.tag)], vec![start.implicit])
        }
        EventData::MappingStart(start) => (vec![text(&start.anchor), text(&start.tag)], vec![start.implicit]),
        _ => (vec![], vec![]),
    };
    (
        event.type_().number(),
        place_of(event.start_mark),
        place_of(event.end_mark),
        texts,
        flags,
    )
}

fn run(text: &[u8]) -> Run {
    let mut events = Vec::new();
    for event in Parser::new(Scanner::new(text).unwrap()) {
        match event {
            Ok(event) => events.push(told(&event)),
            Err(error) => {
                return (
                    events,
                    Some((error.problem().map(String::from), place_of(error.mark()))),
                )
            }
        }
    }
    (events, None)
}

unsafe fn original_text(text: *const u8) -> Option<Vec<u8>> {
    (!text.is_null()).then(|| CStr::from_ptr(text.cast()).to_bytes().to_vec())
}

fn original_place(mark: libyaml::yaml_mark_t) -> Place {
    (mark.index, mark.line, mark.column)
}

unsafe fn original_told(event: &libyaml::yaml_event_t) -> Told {
    let data = &event.data;
    let (texts, flags) = match event.type_ {
        libyaml::YAML_DOCUMENT_START_EVENT => (vec![], vec![data.document_start.implicit]),
        libyaml::YAML_DOCUMENT_END_EVENT => (vec![], vec![data.document_end.implicit]),
        libyaml::YAML_ALIAS_EVENT => (vec![original_text(data.alias.anchor)], vec![]),
        libyaml::YAML_SCALAR_EVENT => {
            let scalar = &data.scalar;
            let value = std::slice::from_raw_parts(scalar.value, scalar.length as usize).to_vec();
            let flags = vec![scalar.plain_implicit, scalar.quoted_implicit];
            (
                vec![
                    original_text(scalar.anchor),
                    original_text(scalar.tag),
                    Some(value),
                ],
                flags,
            )
        }
        libyaml::YAML_SEQUENCE_START_EVENT => {
            let start = &data.sequence_start;
            (
                vec![original_text(start.anchor), original_text(start.tag)],
                vec![start.implicit],
            )
        }
        libyaml::YAML_MAPPING_START_EVENT => {
            let start = &data.mapping_start;
            (
                vec![original_text(start.anchor), original_text(start.tag)],
                vec![start.implicit],
            )
        }
        _ => (vec![], vec![]),
    };
    let (start, end) = (original_place(event.start_mark), original_place(event.end_mark));
    (event.type_ as u32, start, end, texts, flags)
}

/// Calls libyaml's own parser, with a text that stays while it is called.
fn with_original<T>(text: &[u8], call: impl FnOnce(*mut libyaml::yaml_parser_t) -> T) -> T {
    unsafe {
        let mut parser = MaybeUninit::uninit();
        assert!(libyaml::yaml_parser_initialize(parser.as_mut_ptr()).ok);
        libyaml::yaml_parser_set_input_string(parser.as_mut_ptr(), text.as_ptr(), text.len() as u64);
        let result = call(parser.as_mut_ptr());
        libyaml::yaml_parser_delete(parser.as_mut_ptr());
        result
    }
}

fn original_run(text: &[u8]) -> Run {
    with_original(text, |parser| unsafe {
        let mut events = Vec::new();
        loop {
            let mut event = MaybeUninit::uninit();
            if libyaml::yaml_parser_parse(parser, event.as_mut_ptr()).fail {
                let fault: &libyaml::yaml_parser_t = &*parser;
                let words = CStr::from_ptr(fault.problem).to_string_lossy().into_owned();
                return (events, Some((Some(words), original_place(fault.problem_mark))));
            }
            let told = original_told(event.assume_init_ref());
            libyaml::yaml_event_delete(event.as_mut_ptr());
            let is_last = told.0 == libyaml::YAML_STREAM_END_EVENT as u32;
            events.push(told);
            if is_last {
                return (events, None);
            }
        }
    })
}

/// The numbers of nodes of each document, with the kinds and places of its nodes, and whether an error follows.
type Loaded = (Vec<Vec<(u32, Place)>>, bool);

fn load(text: &[u8]) -> Loaded {
    let kind = |data: &NodeData| match data {
        NodeData::Scalar(_) => 1,
        NodeData::Sequence(_) => 2,
        NodeData::Mapping(_) => 3,
    };
    let mut all = Vec::new();
    for document in Documents::new(Scanner::new(text).unwrap()) {
        let Ok(document) = document else {
            return (all, true);
        };
        let nodes = document.nodes().iter();
        all.push(
            nodes
                .map(|node| (kind(&node.content), place_of(node.start_mark)))
                .collect(),
        );
    }
    (all, false)
}

fn original_load(text: &[u8]) -> Loaded {
    with_original(text, |parser| unsafe {
        let mut all = Vec::new();
        loop {
            let mut document = MaybeUninit::uninit();
            if libyaml::yaml_parser_load(parser, document.as_mut_ptr()).fail {
                return (all, true);
            }
            let mut nodes = Vec::new();
            for id in 1.. {
                let node = libyaml::yaml_document_get_node(document.as_mut_ptr(), id);
                if node.is_null() {
                    break;
                }
                nodes.push(((*node).type_ as u32, original_place((*node).start_mark)));
            }
            libyaml::yaml_document_delete(document.as_mut_ptr());
            if nodes.is_empty() {
                return (all, false);
            }
            all.push(nodes);
        }
    })
}

fn texts() -> Vec<(String, Vec<u8>)> {
    let top = Path::new(env!("CARGO_MANIFEST_DIR")).join("../../..");
    let folders = ["examples", "scripts/parts/broken", "scripts/parts/whole"].map(|folder| top.join(folder));
    let files = folders
        .iter()
        .flat_map(|folder| fs::read_dir(folder).unwrap().map(|entry| entry.unwrap().path()));
    let yaml = files.filter(|path| path.extension().is_some_and(|ending| ending == "yaml"));
    yaml.map(|path| (path.display().to_string(), fs::read(path).unwrap()))
        .collect()
}

#[test]
fn events_are_libyamls() {
    let mut compared = 0;
    for (name, text) in texts() {
        let (own, original) = (run(&text), original_run(&text));
        if own == original {
            compared += 1;
        } else {
            // Only where this project's grammar has what libyaml refuses: what comes before is libyaml's.
            assert!(
                original.1.is_some() && own.0.starts_with(&original.0),
                "{name}: {own:?} {original:?}"
            );
        }
    }
    assert!(compared >= 60, "only {compared} are the same");
}

#[test]
fn documents_are_libyamls() {
    let mut documents = 0;
    for (name, text) in texts() {
        if run(&text) == original_run(&text) {
            let loaded = load(&text);
            documents += loaded.0.len();
            assert_eq!(loaded, original_load(&text), "{name}");
        }
    }
    assert!(documents >= 30, "only {documents} documents");
}
