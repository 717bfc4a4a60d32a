//! Makes tokens of bytes, and asks everything of them: what one call says, the others have to say too.

use pokhvizi::kit::Global;
use pokhvizi::yaml::*;
use std::collections::HashMap;
use std::num::NonZeroU32;

/// What was seen of some tokens, so that a test can tell that inputs reach everything.
#[derive(Clone, Copy, Debug, Default, PartialEq, Eq)]
pub struct Seen {
    /// The events before the end or the error.
    pub events: usize,
    /// The documents.
    pub documents: usize,
    /// Whether the stream ended without an error.
    pub ended: bool,
    /// Whether the loader alone has an error.
    pub refused: bool,
    /// Whether a document has a duplicate key.
    pub repeated: bool,
    /// Whether a document contains itself.
    pub endless: bool,
    /// Whether half a document is given.
    pub half: bool,
    /// Whether half a document is given where a list is full.
    pub full: bool,
}

const NAMES: [&str; 4] = ["a", "b", "", "\u{e9}"];
const HANDLES: [&str; 4] = ["!", "!!", "!e!", ""];

/// The content of a token, by a byte: its kind by the low bits, a text by the others.
fn data_of(byte: u8) -> TokenData {
    use TokenData::*;
    let (name, handle) = (NAMES[(byte >> 5) as usize & 3], HANDLES[(byte >> 5) as usize & 3]);
    let style = if byte & 0x80 == 0 {
        ScalarStyle::PLAIN
    } else {
        ScalarStyle::DOUBLE_QUOTED
    };
    let scalar = TokenData::scalar(name, style).unwrap();
    match byte & 31 {
        0 => StreamEnd,
        1 => TokenData::stream_start(Encoding::UTF8),
        2 => TokenData::version_directive(1, 1 + i32::from(byte >> 5)),
        3 => TokenData::tag_directive(handle, name).unwrap(),
        4 => DocumentStart,
        5 => DocumentEnd,
        6 => BlockSequenceStart,
        7 => BlockMappingStart,
        8 | 9 => BlockEnd,
        10 => FlowSequenceStart,
        11 => FlowSequenceEnd,
        12 => FlowMappingStart,
        13 => FlowMappingEnd,
        14 | 15 => BlockEntry,
        16 | 17 => FlowEntry,
        18..=20 => Key,
        21 | 22 => Value,
        23 => TokenData::alias(name).unwrap(),
        24 => TokenData::anchor(name).unwrap(),
        25 => TokenData::tag(handle, name).unwrap(),
        26 => NoToken,
        _ => scalar,
    }
}

/// The tokens of bytes, between the start and the end of a stream.
pub fn tokens_of(bytes: &[u8]) -> Vec<Token> {
    let start = TokenData::stream_start(Encoding::UTF8);
    let inner = bytes.iter().map(|&byte| data_of(byte));
    let all = [start].into_iter().chain(inner).chain([TokenData::StreamEnd]);
    let at = |index: usize| Mark {
        index: index as u64,
        line: 0,
        column: index as u64,
    };
    all.enumerate()
        .map(|(place, data)| Token::new(data, at(2 * place), at(2 * place + 1)))
        .collect()
}

type Run<T> = (Vec<T>, Option<Error>);

/// The values of an iterator, and the error after them, which is the last.
fn run_of<T>(mut values: impl Iterator<Item = Result<T, Error>>) -> Run<T> {
    let mut given = Vec::new();
    while let Some(value) = values.next() {
        match value {
            Ok(value) => given.push(value),
            Err(error) => {
                assert!(values.next().is_none());
                return (given, Some(error));
            }
        }
    }
    (given, None)
}

fn events_in_place(bytes: &[u8]) -> (usize, Option<Error>) {
    let (mut parser, mut event, mut count) = (
        Parser::new(TokenList::from(tokens_of(bytes))),
        Event::default(),
        0,
    );
    while let Some(read) = parser.next_into(&mut event) {
        match read {
            Ok(()) => count += 1,
            Err(error) => return (count, Some(error)),
        }
    }
    (count, None)
}

/// Pushes tokens. A token that the parser takes has to be of a type that it expects.
fn pushed(bytes: &[u8]) -> Run<Event> {
    let (mut parser, mut events) = (PushParser::new(), Vec::new());
    for token in tokens_of(bytes) {
        let (expected, kind) = (parser.expected(), token.type_());
        let is_over = expected == TokenTypes::none();
        match parser.push(token, &mut events) {
            Err(error) => return (events, Some(error)),
            Ok(()) => assert!(is_over || expected.contains(kind), "{kind:?} isn't expected"),
        }
    }
    (events, None)
}

/// Completes what stands before a token that isn't expected: then nothing is lacking, and the document that
/// was open is given. What stands in a token may be an error.
fn assert_completed(bytes: &[u8], all: &[Event]) {
    let (mut parser, mut events) = (PushParser::new(), Vec::new());
    let (mut loader, mut documents) = (PushLoader::new(), Vec::new());
    let (mut is_refused, mut is_loaded) = (false, true);
    let (tokens, again) = (tokens_of(bytes), tokens_of(bytes));
    let mark = tokens[tokens.len() - 1].end_mark;
    for (token, again) in tokens.into_iter().zip(again) {
        if !parser.expected().contains(token.type_()) {
            break;
        }
        is_refused |= parser.push(token, &mut events).is_err();
        is_loaded &= loader.push(again, &mut documents).is_ok();
    }
    assert!(all.starts_with(&events));
    if let Err(error) = parser.complete(mark, &mut events) {
        assert_eq!(error.problem(), Some("found undefined tag handle"));
        is_refused = true;
    }
    assert_nested(&events, !is_refused);
    let before = documents.len();
    is_loaded &= loader.complete(mark, &mut documents).is_ok();
    let ends = events
        .iter()
        .filter(|event| event.type_() == EventType::YAML_DOCUMENT_END_EVENT);
    assert_eq!(documents.len(), if is_loaded { ends.count() } else { before });
    assert!(parser.expected() == TokenTypes::none() && loader.expected() == TokenTypes::none());
}

/// A node, in words: its type, tag, text, style, children and place.
fn node_line(tag: &str, text: &str, children: &[i32], place: (Mark, Mark), style: &str) -> String {
    format!("{tag} {text:?} {children:?} {place:?} {style}")
}

fn lines_of(document: &Document) -> Vec<String> {
    let line = |node: &Node| {
        let (text, children, style): (&str, Vec<i32>, String) = match &node.content {
            NodeData::Scalar(scalar) => (&scalar.value, Vec::new(), format!("{:?}", scalar.style)),
            NodeData::Sequence(sequence) => ("", sequence.items.to_vec(), format!("{:?}", sequence.style)),
            NodeData::Mapping(mapping) => (
                "",
                mapping
                    .pairs
                    .iter()
                    .flat_map(|pair| [pair.key, pair.value])
                    .collect(),
                format!("{:?}", mapping.style),
            ),
        };
        node_line(
            &node.tag,
            text,
            &children,
            (node.start_mark, node.end_mark),
            &style,
        )
    };
    document.nodes().iter().map(line).collect()
}

/// A node of half a document, as `half_of` makes it.
struct Made {
    tag: String,
    text: String,
    style: String,
    children: Vec<i32>,
    place: (Mark, Mark),
    is_mapping: bool,
}

/// How many of these events documents take whose lists have at most `most` entries, by a walk that counts.
/// Beside it, how many nodes the last document has then.
fn taken_within(events: &[Event], most: usize) -> (usize, usize) {
    let (mut nodes, mut open) = (0, Vec::<(bool, usize)>::new());
    for (taken, event) in events.iter().enumerate() {
        let opens = match &event.content {
            EventData::Alias(_) | EventData::Scalar(_) => None,
            EventData::SequenceStart(_) => Some(false),
            EventData::MappingStart(_) => Some(true),
            EventData::DocumentStart(_) => {
                nodes = 0;
                continue;
            }
            EventData::SequenceEnd | EventData::MappingEnd => {
                open.pop();
                continue;
            }
            _ => continue,
        };
        let is_node = event.type_() != EventType::YAML_ALIAS_EVENT;
        // a value is in the pair of its key
        let entries = match open.last() {
            Some(&(false, children)) => children,
            Some(&(true, children)) if children % 2 == 0 => children / 2,
            _ => 0,
        };
        if is_node && nodes >= most || entries >= most {
            return (taken, nodes);
        }
        nodes += usize::from(is_node);
        if let Some((_, children)) = open.last_mut() {
            *children += 1;
        }
        open.extend(opens.map(|is_mapping| (is_mapping, 0)));
    }
    (events.len(), nodes)
}

/// The nodes of the document that these events leave open, at most `most`, made by a walk without the loader.
fn half_of(events: &[Event], most: usize) -> Option<Vec<String>> {
    let start = events
        .iter()
        .rposition(|event| event.type_() == EventType::YAML_DOCUMENT_START_EVENT)?;
    let (mut nodes, mut open, mut anchors) = (Vec::<Made>::new(), Vec::<usize>::new(), HashMap::new());
    let put = |nodes: &mut Vec<Made>, open: &[usize], id: usize| {
        if let Some(&parent) = open.last() {
            nodes[parent - 1].children.push(id as i32);
        }
    };
    for event in &events[start + 1..] {
        let place = (event.start_mark, event.end_mark);
        let (tag, default, text, style, is_mapping) = match &event.content {
            EventData::DocumentEnd(_) => return None,
            EventData::Alias(alias) => {
                put(&mut nodes, &open, anchors[&*alias.anchor]);
                continue;
            }
            EventData::SequenceEnd | EventData::MappingEnd => {
                nodes[open.pop().unwrap() - 1].place.1 = event.end_mark;
                continue;
            }
            EventData::Scalar(scalar) => (
                &scalar.tag,
                "str",
                &*scalar.value,
                format!("{:?}", scalar.style),
                false,
            ),
            EventData::SequenceStart(start) => (&start.tag, "seq", "", format!("{:?}", start.style), false),
            EventData::MappingStart(start) => (&start.tag, "map", "", format!("{:?}", start.style), true),
            _ => unreachable!(),
        };
        let tag = match tag.as_deref() {
            Some(tag) if tag != "!" => tag.to_string(),
            _ => format!("tag:yaml.org,2002:{default}"),
        };
        nodes.push(Made {
            tag,
            text: text.into(),
            style,
            children: Vec::new(),
            place,
            is_mapping,
        });
        let id = nodes.len();
        put(&mut nodes, &open, id);
        if let Some(anchor) = event.anchor() {
            anchors.insert(anchor.to_string(), id);
        }
        if default != "str" {
            open.push(id);
        }
    }
    let end = events[events.len() - 1].end_mark;
    while let Some(id) = open.pop() {
        nodes[id - 1].place.1 = end;
        let waits = nodes[id - 1].is_mapping && nodes[id - 1].children.len() % 2 == 1;
        if waits && nodes.len() >= most {
            nodes[id - 1].children.pop();
        } else if waits {
            let (tag, style) = (
                "tag:yaml.org,2002:str".into(),
                format!("{:?}", ScalarStyle::PLAIN),
            );
            let (text, children, place, is_mapping) = (String::new(), Vec::new(), (end, end), false);
            nodes.push(Made {
                tag,
                text,
                style,
                children,
                place,
                is_mapping,
            });
            let value = nodes.len() as i32;
            nodes[id - 1].children.push(value);
        }
    }
    let line = |half: &Made| node_line(&half.tag, &half.text, &half.children, half.place, &half.style);
    Some(nodes.iter().map(line).collect())
}

/// The anchor of the event after these, at which a load fails, or the undefined handle of the TAG at the error.
fn name_of(bytes: &[u8], composed: &[Event]) -> Option<String> {
    let mut events = Parser::new(TokenList::from(tokens_of(bytes)));
    let error = match events.nth(composed.len())? {
        Ok(refused) => return refused.anchor().map(String::from),
        Err(error) => error,
    };
    let tokens = tokens_of(bytes);
    let bad = tokens.iter().find(|token| token.start_mark == error.mark())?;
    match &bad.content {
        TokenData::Tag(tag) if error.problem() == Some("found undefined tag handle") => {
            Some(tag.handle.to_string())
        }
        _ => None,
    }
}

/// How many of the composed events documents take within the bound, and whether a list is full there. At a
/// second node with an anchor the list of nodes is looked at first.
fn stopped_by(all: &[Event], composed: &[Event], most: usize) -> (usize, bool) {
    let (taken, nodes) = taken_within(composed, most);
    let next = all.get(taken).map(Event::type_);
    let is_last_node =
        taken == composed.len() && next.map_or(false, |kind| kind != EventType::YAML_ALIAS_EVENT);
    (taken, taken < composed.len() || is_last_node && nodes >= most)
}

/// The documents whose lists have at most `most` entries, and at the error the half of the open one. Returns
/// whether there is a half, and whether a list was full.
fn assert_half(
    bytes: &[u8],
    all: &[Event],
    composed: &Run<Event>,
    loaded: &Run<Document>,
    most: u32,
) -> (bool, bool) {
    let (taken, is_full) = stopped_by(all, &composed.0, most as usize);
    let events = &composed.0[..taken];
    let ends = events
        .iter()
        .filter(|event| event.type_() == EventType::YAML_DOCUMENT_END_EVENT);
    let source = TokenList::from(tokens_of(bytes));
    let mut documents = Documents::new(source).max_entries(NonZeroU32::new(most).unwrap());
    for whole in &loaded.0[..ends.count()] {
        assert_eq!(
            lines_of(&documents.next_or_half().unwrap().unwrap()),
            lines_of(whole)
        );
    }
    let last = documents.next_or_half();
    assert!(documents.next_or_half().is_none());
    let Some(failed) = last else {
        assert!(!is_full && loaded.1.is_none());
        return (false, false);
    };
    let Half {
        error,
        name,
        document,
    } = failed.err().unwrap();
    if is_full {
        assert_eq!((error.kind(), name), (ErrorKind::MEMORY, None));
    } else {
        assert_eq!(Some(error), loaded.1);
        assert_eq!(name, name_of(bytes, &composed.0));
    }
    assert_eq!(document.as_ref().map(lines_of), half_of(events, most as usize));
    let is_half = document.map_or(false, |half| {
        half.end_mark() == events[events.len() - 1].end_mark && half.end_implicit()
    });
    (is_half, is_full)
}

/// The children of a node, and where each stands.
fn child_at(document: &Document, place: &Place) -> Option<i32> {
    let parent = document.nodes().get(place.parent as usize - 1)?;
    match (&parent.content, place.role) {
        (NodeData::Sequence(sequence), Role::Item) => sequence.items.get(place.index as usize).copied(),
        (NodeData::Mapping(mapping), Role::Key) => {
            mapping.pairs.get(place.index as usize).map(|pair| pair.key)
        }
        (NodeData::Mapping(mapping), Role::Value) => {
            mapping.pairs.get(place.index as usize).map(|pair| pair.value)
        }
        _ => None,
    }
}

/// The places of a document's nodes and aliases, by a walk over its events that knows no composer.
#[derive(Default)]
struct Walk {
    open: Vec<(i32, bool, u32)>,
    anchors: HashMap<String, i32>,
    nodes: i32,
}

impl Walk {
    fn place_of(&mut self, event: &Event) -> Option<Place> {
        let opens = match &event.content {
            EventData::DocumentStart(_) => {
                *self = Walk::default();
                return None;
            }
            EventData::SequenceEnd | EventData::MappingEnd => {
                self.open.pop();
                return None;
            }
            EventData::Alias(alias) => return Some(self.child(self.anchors[&*alias.anchor])),
            EventData::Scalar(_) => None,
            EventData::SequenceStart(_) => Some(false),
            EventData::MappingStart(_) => Some(true),
            _ => return None,
        };
        self.nodes += 1;
        if let Some(anchor) = event.anchor() {
            self.anchors.insert(anchor.to_string(), self.nodes);
        }
        let place = self.child(self.nodes);
        self.open
            .extend(opens.map(|is_mapping| (self.nodes, is_mapping, 0)));
        Some(place)
    }

    fn child(&mut self, id: i32) -> Place {
        let depth = self.open.len();
        let Some((parent, is_mapping, children)) = self.open.last_mut() else {
            return Place {
                id,
                parent: 0,
                role: Role::Root,
                index: 0,
                depth,
            };
        };
        let (role, index) = match (*is_mapping, *children % 2) {
            (false, _) => (Role::Item, *children),
            (true, 0) => (Role::Key, *children / 2),
            (true, _) => (Role::Value, *children / 2),
        };
        *children += 1;
        Place {
            id,
            parent: *parent,
            role,
            index,
            depth,
        }
    }
}

/// Each event has the place that the walk and the document say, and what is kept beside the document is
/// what was written.
fn assert_placed(bytes: &[u8], composed: &Run<Event>, loaded: &Run<Document>) {
    let placed = run_of(PlacedEvents::new(TokenList::from(tokens_of(bytes))));
    assert_eq!(placed.1, composed.1);
    assert_eq!(placed.0.len(), composed.0.len());
    let (mut walk, mut written, mut documents) = (Walk::default(), Written::new(Global), loaded.0.iter());
    let (mut places, mut anchors, mut aliases) = (Vec::new(), Vec::new(), Vec::new());
    for ((event, place), same) in placed.0.iter().zip(&composed.0) {
        assert_eq!(event, same);
        assert_eq!(*place, walk.place_of(event));
        written.take(event, *place).unwrap();
        let tag = match &event.content {
            EventData::DocumentStart(_) => {
                (places, anchors, aliases) = (Vec::new(), Vec::new(), Vec::new());
                continue;
            }
            EventData::DocumentEnd(_) => {
                let document = documents.next().unwrap();
                let is_there =
                    |place: &Place| place.parent == 0 || child_at(document, place) == Some(place.id);
                assert!(places.iter().all(is_there));
                assert_eq!(anchors.len(), document.nodes().len());
                continue;
            }
            EventData::Alias(_) => {
                places.extend(*place);
                aliases.extend(*place);
                assert!(*written.aliases == aliases);
                continue;
            }
            EventData::Scalar(scalar) => &scalar.tag,
            EventData::SequenceStart(start) => &start.tag,
            EventData::MappingStart(start) => &start.tag,
            _ => continue,
        };
        places.extend(*place);
        anchors.push((event.anchor(), tag.is_some()));
        let kept = written
            .nodes
            .iter()
            .map(|node| (node.anchor.as_deref(), node.is_tag_given));
        assert!(kept.eq(anchors.iter().copied()));
    }
}

/// Starts and ends fit, documents don't overlap, and no event ends before it begins.
fn assert_nested(events: &[Event], is_whole: bool) {
    let mut open = Vec::new();
    for event in events {
        assert!(event.start_mark.index <= event.end_mark.index);
        match &event.content {
            EventData::StreamStart(_) => open.push(EventType::YAML_STREAM_END_EVENT),
            EventData::DocumentStart(_) => open.push(EventType::YAML_DOCUMENT_END_EVENT),
            EventData::SequenceStart(_) => open.push(EventType::YAML_SEQUENCE_END_EVENT),
            EventData::MappingStart(_) => open.push(EventType::YAML_MAPPING_END_EVENT),
            EventData::Alias(_) | EventData::Scalar(_) => assert!(open.len() >= 2),
            _ => assert_eq!(open.pop(), Some(event.type_())),
        }
    }
    assert_eq!(open.is_empty(), is_whole || events.is_empty());
}

/// A bound on depth keeps a part of the events from the start, and a depth beyond all lets all through.
fn assert_limited(bytes: &[u8], all: &Run<Event>) {
    for max_depth in [2, usize::MAX] {
        let source = limited(TokenList::from(tokens_of(bytes)), max_depth);
        let (events, error) = run_of(Parser::new(source));
        assert!(all.0.starts_with(&events));
        assert!(max_depth != usize::MAX || (events.len(), error) == (all.0.len(), all.1));
    }
}

/// Asks everything of tokens that are made of these bytes, and panics where two calls say different things.
pub fn drive(bytes: &[u8]) -> Seen {
    let all = run_of(Parser::new(TokenList::from(tokens_of(bytes))));
    assert_nested(&all.0, all.1.is_none());
    assert_eq!(events_in_place(bytes), (all.0.len(), all.1));
    assert_eq!(pushed(bytes), all);
    assert_completed(bytes, &all.0);
    assert_limited(bytes, &all);
    let composed = run_of(ComposedEvents::new(TokenList::from(tokens_of(bytes))));
    let loaded = run_of(Documents::new(TokenList::from(tokens_of(bytes))));
    assert!(all.0.starts_with(&composed.0));
    assert_eq!(composed.1, loaded.1);
    let ends = composed
        .0
        .iter()
        .filter(|event| event.type_() == EventType::YAML_DOCUMENT_END_EVENT);
    assert_eq!(loaded.0.len(), ends.count());
    assert_placed(bytes, &composed, &loaded);
    let mut seen = Seen {
        events: all.0.len(),
        documents: loaded.0.len(),
        ended: all.1.is_none(),
        refused: all.1 != loaded.1,
        half: assert_half(bytes, &all.0, &composed, &loaded, u32::MAX).0,
        ..Seen::default()
    };
    for most in [1, 2, 4] {
        seen.full |= assert_half(bytes, &all.0, &composed, &loaded, most) == (true, true);
    }
    for document in &loaded.0 {
        let nodes = document.nodes().len() as u64;
        seen.repeated |= document.duplicate_key().unwrap().is_some();
        match document.expanded_size(u64::from(u32::MAX)) {
            Ok(size) => assert!(size >= nodes),
            Err(error) => {
                seen.endless |= error.problem() == Some("found an alias within the node that it names")
            }
        }
        assert_eq!(document.at(&[]), document.root());
    }
    seen
}
