//! The Rust crate's parser by three wrappers that return each event by value, and rounds of them.
//!
//! - `Moved` has libyaml's event, and deletes it when it is dropped: the least that such a wrapper can do.
//! - `Copied` is a copy of the event in Rust's own types; libyaml's is deleted.
//! - `serde` converts events as serde_yaml 0.9.34 does for its loader: texts are copied, what it doesn't need is left
//!   out, and a start mark is returned beside. Of an input that isn't borrowed it keeps no part.
use crate::*;
use std::borrow::Cow;
use std::ffi::CStr;
use std::marker::PhantomData;

/// A parser with a place of its own, which is deleted when it is dropped.
struct Parser(Box<MaybeUninit<yaml_parser_t>>);

impl Parser {
    fn new() -> Parser {
        let mut parser = Box::new(MaybeUninit::uninit());
        unsafe {
            AT = 0;
            check(yaml_parser_initialize(parser.as_mut_ptr()));
        }
        Parser(parser)
    }

    fn get(&self) -> &yaml_parser_t {
        unsafe { self.0.assume_init_ref() }
    }

    /// Parses the next event.
    fn parse(&mut self) -> Result<yaml_event_t, Fault> {
        let mut event = MaybeUninit::uninit();
        unsafe {
            if yaml_parser_parse(self.0.as_mut_ptr(), event.as_mut_ptr()).fail {
                return Err(Fault::of(self.get()));
            }
            Ok(event.assume_init())
        }
    }
}

impl Drop for Parser {
    fn drop(&mut self) {
        unsafe { yaml_parser_delete(self.0.as_mut_ptr()) }
    }
}

/// What a parser says of its error.
struct Fault {
    kind: yaml_error_type_t,
    problem: Option<String>,
    problem_mark: yaml_mark_t,
    context: Option<String>,
    context_mark: yaml_mark_t,
}

impl Fault {
    #[cold]
    fn of(parser: &yaml_parser_t) -> Fault {
        let words = |said: *const i8| unsafe { (!said.is_null()).then(|| CStr::from_ptr(said).to_string_lossy().into_owned()) };
        Fault {
            kind: parser.error,
            problem: words(parser.problem),
            problem_mark: parser.problem_mark,
            context: words(parser.context),
            context_mark: parser.context_mark,
        }
    }
}

/// An event of a wrapper: what it makes of libyaml's, and what is seen of it.
pub trait Event: Sized {
    fn of(event: yaml_event_t) -> Self;
    fn number(&self) -> u64;
    fn start(&self) -> &yaml_mark_t;
    fn end(&self) -> &yaml_mark_t;
}

/// A parser as an iterator over events by value.
struct Events<E> {
    parser: Parser,
    is_over: bool,
    of: PhantomData<E>,
}

impl<E: Event> Iterator for Events<E> {
    type Item = Result<E, Fault>;

    #[inline]
    fn next(&mut self) -> Option<Self::Item> {
        if self.is_over {
            return None;
        }
        let event = self.parser.parse();
        self.is_over = !matches!(&event, Ok(event) if event.type_ != YAML_STREAM_END_EVENT);
        Some(event.map(E::of))
    }
}

/// A round over an iterator. It isn't one function with `parse`: then the compiler copies each event once more.
fn round<E: Event>(events: impl Iterator<Item = Result<E, Fault>>, seen: &mut Seen, looks: bool) {
    for event in events {
        let Ok(event) = event else { stop() };
        seen.items += 1;
        if looks {
            seen.look(event.number(), event.start(), event.end());
        }
    }
}

#[inline(never)]
pub unsafe fn parse<E: Event>(seen: &mut Seen, looks: bool) {
    round(Events::<E> { parser: Parser::new(), is_over: false, of: PhantomData }, seen, looks);
}

/// A text of libyaml, which ends before its first zero byte.
unsafe fn bytes_of<'a>(text: *const u8) -> Option<&'a [u8]> {
    (!text.is_null()).then(|| std::slice::from_raw_parts(text, externs::strlen(text as *const i8) as usize))
}

/// libyaml's event.
pub struct Moved(yaml_event_t);

impl Drop for Moved {
    fn drop(&mut self) {
        unsafe { yaml_event_delete(&mut self.0) }
    }
}

impl Event for Moved {
    #[inline]
    fn of(event: yaml_event_t) -> Moved {
        Moved(event)
    }
    fn number(&self) -> u64 {
        self.0.type_ as u64
    }
    fn start(&self) -> &yaml_mark_t {
        &self.0.start_mark
    }
    fn end(&self) -> &yaml_mark_t {
        &self.0.end_mark
    }
}

mod copied {
    use super::*;

    /// What an event holds.
    enum Content {
        StreamStart { encoding: yaml_encoding_t },
        StreamEnd,
        DocumentStart { version: Option<(i32, i32)>, tags: Vec<(String, String)>, implicit: bool },
        DocumentEnd { implicit: bool },
        Alias { anchor: String },
        Scalar(Scalar),
        SequenceStart { node: Properties, style: yaml_sequence_style_t },
        SequenceEnd,
        MappingStart { node: Properties, style: yaml_mapping_style_t },
        MappingEnd,
    }

    struct Properties {
        anchor: Option<String>,
        tag: Option<String>,
        implicit: bool,
    }

    struct Scalar {
        anchor: Option<String>,
        tag: Option<String>,
        value: String,
        plain_implicit: bool,
        quoted_implicit: bool,
        style: yaml_scalar_style_t,
    }

    pub struct Copied {
        content: Content,
        start: yaml_mark_t,
        end: yaml_mark_t,
    }

    impl super::Event for Copied {
        #[inline]
        fn of(mut event: yaml_event_t) -> Copied {
            unsafe {
                let copied = Copied { content: content(&event), start: event.start_mark, end: event.end_mark };
                yaml_event_delete(&mut event);
                copied
            }
        }
        fn number(&self) -> u64 {
            match self.content {
                Content::StreamStart { .. } => 1,
                Content::StreamEnd => 2,
                Content::DocumentStart { .. } => 3,
                Content::DocumentEnd { .. } => 4,
                Content::Alias { .. } => 5,
                Content::Scalar(_) => 6,
                Content::SequenceStart { .. } => 7,
                Content::SequenceEnd => 8,
                Content::MappingStart { .. } => 9,
                Content::MappingEnd => 10,
            }
        }
        fn start(&self) -> &yaml_mark_t {
            &self.start
        }
        fn end(&self) -> &yaml_mark_t {
            &self.end
        }
    }

    /// A copy of a text, which is UTF-8 as the parser gives it.
    unsafe fn copy(text: *const u8) -> Option<String> {
        bytes_of(text).map(|bytes| String::from_utf8_unchecked(bytes.to_vec()))
    }

    unsafe fn properties(anchor: *const u8, tag: *const u8, implicit: bool) -> Properties {
        Properties { anchor: copy(anchor), tag: copy(tag), implicit }
    }

    unsafe fn document_start(event: &yaml_event_t) -> Content {
        let data = &event.data.document_start;
        let version = (!data.version_directive.is_null()).then(|| ((*data.version_directive).major, (*data.version_directive).minor));
        let mut tags = Vec::new();
        let mut tag = data.tag_directives.start;
        while tag != data.tag_directives.end {
            tags.push((copy((*tag).handle).unwrap(), copy((*tag).prefix).unwrap()));
            tag = tag.add(1);
        }
        Content::DocumentStart { version, tags, implicit: data.implicit }
    }

    unsafe fn scalar(event: &yaml_event_t) -> Content {
        let data = &event.data.scalar;
        let value = std::slice::from_raw_parts(data.value, data.length as usize).to_vec();
        Content::Scalar(Scalar {
            anchor: copy(data.anchor),
            tag: copy(data.tag),
            value: String::from_utf8_unchecked(value),
            plain_implicit: data.plain_implicit,
            quoted_implicit: data.quoted_implicit,
            style: data.style,
        })
    }

    unsafe fn content(event: &yaml_event_t) -> Content {
        match event.type_ {
            YAML_STREAM_START_EVENT => Content::StreamStart { encoding: event.data.stream_start.encoding },
            YAML_STREAM_END_EVENT => Content::StreamEnd,
            YAML_DOCUMENT_START_EVENT => document_start(event),
            YAML_DOCUMENT_END_EVENT => Content::DocumentEnd { implicit: event.data.document_end.implicit },
            YAML_ALIAS_EVENT => Content::Alias { anchor: copy(event.data.alias.anchor).unwrap() },
            YAML_SCALAR_EVENT => scalar(event),
            YAML_SEQUENCE_START_EVENT => {
                let data = &event.data.sequence_start;
                Content::SequenceStart { node: properties(data.anchor, data.tag, data.implicit), style: data.style }
            }
            YAML_SEQUENCE_END_EVENT => Content::SequenceEnd,
            YAML_MAPPING_START_EVENT => {
                let data = &event.data.mapping_start;
                Content::MappingStart { node: properties(data.anchor, data.tag, data.implicit), style: data.style }
            }
            YAML_MAPPING_END_EVENT => Content::MappingEnd,
            _ => unreachable!(),
        }
    }
}

mod serde {
    use super::*;

    enum Event<'input> {
        StreamStart,
        StreamEnd,
        DocumentStart,
        DocumentEnd,
        Alias(Anchor),
        Scalar(Scalar<'input>),
        SequenceStart(Node),
        SequenceEnd,
        MappingStart(Node),
        MappingEnd,
    }

    struct Anchor(Box<[u8]>);
    struct Tag(Box<[u8]>);

    struct Node {
        anchor: Option<Anchor>,
        tag: Option<Tag>,
    }

    struct Scalar<'input> {
        anchor: Option<Anchor>,
        tag: Option<Tag>,
        value: Box<[u8]>,
        style: Style,
        written: Option<&'input [u8]>,
    }

    enum Style {
        Plain,
        SingleQuoted,
        DoubleQuoted,
        Literal,
        Folded,
    }

    fn number(event: &Event<'_>) -> u64 {
        match event {
            Event::StreamStart => 1,
            Event::StreamEnd => 2,
            Event::DocumentStart => 3,
            Event::DocumentEnd => 4,
            Event::Alias(_) => 5,
            Event::Scalar(_) => 6,
            Event::SequenceStart(_) => 7,
            Event::SequenceEnd => 8,
            Event::MappingStart(_) => 9,
            Event::MappingEnd => 10,
        }
    }

    unsafe fn anchor(text: *const u8) -> Option<Anchor> {
        bytes_of(text).map(|bytes| Anchor(Box::from(bytes)))
    }

    unsafe fn tag(text: *const u8) -> Option<Tag> {
        bytes_of(text).map(|bytes| Tag(Box::from(bytes)))
    }

    unsafe fn scalar<'input>(event: &yaml_event_t, input: &Cow<'input, [u8]>) -> Event<'input> {
        let data = &event.data.scalar;
        Event::Scalar(Scalar {
            anchor: anchor(data.anchor),
            tag: tag(data.tag),
            value: Box::from(std::slice::from_raw_parts(data.value, data.length as usize)),
            style: match data.style {
                YAML_PLAIN_SCALAR_STYLE => Style::Plain,
                YAML_SINGLE_QUOTED_SCALAR_STYLE => Style::SingleQuoted,
                YAML_DOUBLE_QUOTED_SCALAR_STYLE => Style::DoubleQuoted,
                YAML_LITERAL_SCALAR_STYLE => Style::Literal,
                YAML_FOLDED_SCALAR_STYLE => Style::Folded,
                _ => unreachable!(),
            },
            written: match input {
                Cow::Borrowed(input) => Some(&input[event.start_mark.index as usize..event.end_mark.index as usize]),
                Cow::Owned(_) => None,
            },
        })
    }

    unsafe fn converted<'input>(event: &yaml_event_t, input: &Cow<'input, [u8]>) -> Event<'input> {
        match event.type_ {
            YAML_STREAM_START_EVENT => Event::StreamStart,
            YAML_STREAM_END_EVENT => Event::StreamEnd,
            YAML_DOCUMENT_START_EVENT => Event::DocumentStart,
            YAML_DOCUMENT_END_EVENT => Event::DocumentEnd,
            YAML_ALIAS_EVENT => Event::Alias(anchor(event.data.alias.anchor).unwrap()),
            YAML_SCALAR_EVENT => scalar(event, input),
            YAML_SEQUENCE_START_EVENT => {
                let data = &event.data.sequence_start;
                Event::SequenceStart(Node { anchor: anchor(data.anchor), tag: tag(data.tag) })
            }
            YAML_SEQUENCE_END_EVENT => Event::SequenceEnd,
            YAML_MAPPING_START_EVENT => {
                let data = &event.data.mapping_start;
                Event::MappingStart(Node { anchor: anchor(data.anchor), tag: tag(data.tag) })
            }
            YAML_MAPPING_END_EVENT => Event::MappingEnd,
            _ => unreachable!(),
        }
    }

    /// The parser and its input, and the end of the last event, which is kept in a round that looks at it.
    struct Events<'input> {
        parser: Parser,
        input: Cow<'input, [u8]>,
        end: yaml_mark_t,
    }

    impl<'input> Events<'input> {
        /// The next event, and where it begins.
        fn next<const LOOKS: bool>(&mut self) -> Result<(Event<'input>, yaml_mark_t), Fault> {
            if self.parser.get().error != YAML_NO_ERROR {
                return Err(Fault::of(self.parser.get()));
            }
            let mut event = MaybeUninit::<yaml_event_t>::uninit();
            unsafe {
                let event = event.as_mut_ptr();
                if yaml_parser_parse(self.parser.0.as_mut_ptr(), event).fail {
                    return Err(Fault::of(self.parser.get()));
                }
                let converted = converted(&*event, &self.input);
                let start = (*event).start_mark;
                if LOOKS {
                    self.end = (*event).end_mark;
                }
                yaml_event_delete(event);
                Ok((converted, start))
            }
        }
    }

    #[inline(never)]
    fn events<const LOOKS: bool>(seen: &mut Seen) {
        let none = yaml_mark_t { index: 0, line: 0, column: 0 };
        let mut events = Events { parser: Parser::new(), input: Cow::Owned(Vec::new()), end: none };
        loop {
            let Ok((event, start)) = events.next::<LOOKS>() else { stop() };
            seen.items += 1;
            if LOOKS {
                seen.look(number(&event), &start, &events.end);
            }
            if matches!(event, Event::StreamEnd) {
                break;
            }
        }
    }

    pub unsafe fn parse(seen: &mut Seen, looks: bool) {
        if looks {
            events::<true>(seen);
        } else {
            events::<false>(seen);
        }
    }
}

pub use copied::Copied;
pub use serde::parse as parse_as_serde;
