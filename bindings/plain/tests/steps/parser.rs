//! A parser over the steps, which writes the lines of events and of the error.

use crate::documents::Documents;
use crate::expected::assert_expected;
use crate::fields::{field_of, mark_of, mark_text, text_of};
use pokhvizi::libyaml_types::{yaml_mark_t, ZERO_MARK};
use pokhvizi::token_steps::{directive_fact, handle_t, step_event_t, step_fault_t, step_span_t, steps_t};
use pokhvizi::token_steps::{tag, text_t, token_kind, version_fact};
use std::fmt::Write;

/// The names of tokens, by libyaml's numbers.
const TOKENS: [&str; 22] = [
    "NO-TOKEN",
    "STREAM-START",
    "STREAM-END",
    "VERSION-DIRECTIVE",
    "TAG-DIRECTIVE",
    "DOCUMENT-START",
    "DOCUMENT-END",
    "BLOCK-SEQUENCE-START",
    "BLOCK-MAPPING-START",
    "BLOCK-END",
    "FLOW-SEQUENCE-START",
    "FLOW-SEQUENCE-END",
    "FLOW-MAPPING-START",
    "FLOW-MAPPING-END",
    "BLOCK-ENTRY",
    "FLOW-ENTRY",
    "KEY",
    "VALUE",
    "ALIAS",
    "ANCHOR",
    "TAG",
    "SCALAR",
];

const EVENTS: [&str; 11] = [
    "NO-EVENT",
    "STREAM-START",
    "STREAM-END",
    "DOCUMENT-START",
    "DOCUMENT-END",
    "ALIAS",
    "SCALAR",
    "SEQUENCE-START",
    "SEQUENCE-END",
    "MAPPING-START",
    "MAPPING-END",
];

/// A token takes fewer steps than this, and less room in a stack.
pub const STEPS: usize = 16;

/// A token of a line: its number, its marks, and its fields as they stand there.
pub struct Token<'a> {
    kind: u8,
    at: step_span_t,
    fields: Vec<&'a str>,
}

pub fn token_of(line: &str) -> Token<'_> {
    let fields: Vec<&str> = line.split(' ').collect();
    let kind = TOKENS.iter().position(|&name| name == fields[0]).unwrap() as u8;
    let at = step_span_t { start_mark: mark_of(fields[1]), end_mark: mark_of(fields[2]) };
    Token { kind, at, fields: fields[3..].to_vec() }
}

/// A buffer of texts, of which others have ranges.
#[derive(Default)]
pub struct Texts(pub Vec<u8>);

impl Texts {
    pub fn put(&mut self, text: &[u8]) -> text_t {
        let place = self.0.len() as u64;
        self.0.extend_from_slice(text);
        text_t { place, length: text.len() as u64 }
    }

    fn at(&self, range: &text_t) -> &[u8] {
        &self.0[range.place as usize..][..range.length as usize]
    }
}

/// The parser over tokens. Its stacks have no room at first, and take one entry more where they are full.
pub struct Parser {
    steps: steps_t,
    is_exact: bool,
    /// Whether libyaml does something else with a token.
    pub differs: bool,
    states: Vec<u8>,
    marks: Vec<yaml_mark_t>,
    handles: Vec<handle_t>,
    texts: Texts,
    anchor: Option<Vec<u8>>,
    tag: Vec<u8>,
    version: Option<String>,
    /// How many collections are open, and how many were at once.
    open: usize,
    deepest: usize,
    pub lines: String,
    pub documents: Documents,
}

impl Parser {
    /// A document may have `max` nodes with its aliases written out.
    pub fn new(is_exact: bool, max: u64) -> Parser {
        Parser {
            steps: steps_t::new(),
            is_exact,
            differs: false,
            states: Vec::new(),
            marks: Vec::new(),
            handles: Vec::new(),
            texts: Texts::default(),
            anchor: None,
            tag: Vec::new(),
            version: None,
            open: 0,
            deepest: 0,
            lines: String::new(),
            documents: Documents::new(max),
        }
    }

    /// Takes tokens, up to a fault.
    pub fn take_all(mut self, tokens: &[Token<'_>]) -> Parser {
        for token in tokens {
            assert_expected(&self.steps, &self.states, &self.marks);
            let taken = (0..STEPS).map(|_| self.step(token)).find(|did| [0, 1, 5].contains(did));
            if taken.expect("a token is never taken") == 5 {
                break;
            }
        }
        self
    }

    /// Steps a copy of the record over so much of the stacks, and returns what that did.
    fn step_within(&self, token: &Token<'_>, fact: u8, states: usize, marks: usize) -> u32 {
        let (mut states, mut marks) = (self.states[..states].to_vec(), self.marks[..marks].to_vec());
        step_over(self.is_exact, &mut self.steps.clone(), (&mut states, &mut marks), token, fact).0
    }

    /// A step over stacks of an entry fewer than the record counts does nothing, and says so.
    fn assert_short_stacks_are_bad(&self, token: &Token<'_>, fact: u8) {
        let (states, marks) = (self.steps.machine.states_count, self.steps.machine.marks_count);
        let too_short = "stacks that are too short are taken";
        assert!(states == 0 || self.step_within(token, fact, states - 1, marks) == 6, "{too_short}");
        assert!(marks == 0 || self.step_within(token, fact, states, marks - 1) == 6, "{too_short}");
    }

    fn step(&mut self, token: &Token<'_>) -> u32 {
        let fact = self.fact(token);
        self.assert_short_stacks_are_bad(token, fact);
        let differs = self.steps.differs(token_kind(token.kind)).number();
        let stacks = (&mut self.states[..], &mut self.marks[..]);
        let (did, event, fault) = step_over(self.is_exact, &mut self.steps, stacks, token, fact);
        if differs != 0 && did != 3 && did != 4 {
            self.note_difference(differs, token);
        }
        match did {
            0 => self.hold(token),
            1 => self.write(&event, Some(token)),
            2 => self.write(&event, None),
            3 => self.states.push(0),
            4 => self.marks.push(ZERO_MARK),
            5 => {
                let (at, within) = (mark_text(&fault.problem_mark), mark_text(&fault.context_mark));
                self.lines += &format!("FAULT {} {at} {within}\n", fault.problem);
            }
            _ => panic!("the stacks are too small"),
        }
        did
    }

    /// Writes the line of a token with which libyaml does something else: the place's number, its start.
    fn note_difference(&mut self, number: u8, token: &Token<'_>) {
        self.differs = true;
        if !self.is_exact {
            self.lines += &format!("DIFFERS {number} {}\n", mark_text(&token.at.start_mark));
        }
    }

    /// Returns the fact of a token, and makes a tag in full.
    fn fact(&mut self, token: &Token<'_>) -> u8 {
        match token.kind {
            3 => {
                let (major, minor) = token.fields[0].split_once('.').unwrap();
                version_fact(major.parse().unwrap(), minor.parse().unwrap())
            }
            4 => directive_fact(&self.handles, &self.texts.0, &text_of(token.fields[0])),
            20 => {
                let (handle, suffix, mut size) = (text_of(token.fields[0]), text_of(token.fields[1]), 0);
                let fact = tag(&self.handles, &self.texts.0, &handle, &suffix, &mut [], &mut size);
                if size != usize::MAX {
                    self.tag = vec![0; size];
                    tag(&self.handles, &self.texts.0, &handle, &suffix, &mut self.tag, &mut size);
                }
                fact
            }
            21 => u8::from(token.fields[1] == "plain"),
            _ => 0,
        }
    }

    /// Holds what a token has for a later event.
    fn hold(&mut self, token: &Token<'_>) {
        match token.kind {
            3 => self.version = Some(token.fields[0].to_string()),
            4 => {
                let [handle, prefix] = [0, 1].map(|place| self.texts.put(&text_of(token.fields[place])));
                self.handles.push(handle_t { handle, prefix });
            }
            19 => self.anchor = Some(text_of(token.fields[0])),
            _ => {}
        }
    }

    /// Writes the line of an event, of the token that ends with it if there is one, and composes it.
    fn write(&mut self, event: &step_event_t, token: Option<&Token<'_>>) {
        // Other tokens than STREAM-START, ALIAS and SCALAR give a scalar without a text.
        let token = token.filter(|token| [1, 18, 21].contains(&token.kind));
        let field = |place: usize| token.map(|token| token.fields[place]);
        let anchor = match event.kind {
            5 => field(0).map(text_of),
            _ if event.has_anchor == 1 => self.anchor.clone(),
            _ => None,
        };
        let tag = (event.has_tag == 1).then_some(&self.tag[..]);
        let optional = |text: Option<&[u8]>| text.map_or("-".to_string(), field_of);
        let properties = format!("{} {}", optional(anchor.as_deref()), optional(tag));
        let (name, implicit) = (EVENTS[event.kind as usize], event.implicit);
        let collection = if event.is_flow == 1 { "flow" } else { "block" };
        assert_flags(event);
        let (start, end) = (mark_text(&event.start_mark), mark_text(&event.end_mark));
        write!(self.lines, "{name} {start} {end}").unwrap();
        match event.kind {
            1 => write!(self.lines, " {}", field(0).unwrap()).unwrap(),
            3 => {
                let version = self.version.as_deref().unwrap_or("-");
                write!(self.lines, " {implicit} {version} {}", self.handles.len()).unwrap();
                for made in &self.handles {
                    let [handle, prefix] =
                        [&made.handle, &made.prefix].map(|range| field_of(self.texts.at(range)));
                    write!(self.lines, " {handle} {prefix}").unwrap();
                }
            }
            4 => write!(self.lines, " {implicit}").unwrap(),
            5 => write!(self.lines, " {}", optional(anchor.as_deref())).unwrap(),
            6 => {
                let (value, style) = (field(0).unwrap_or("="), field(1).unwrap_or("plain"));
                let quoted = event.quoted_implicit;
                write!(self.lines, " {properties} {value} {implicit} {quoted} {style}").unwrap();
            }
            7 | 9 => write!(self.lines, " {properties} {implicit} {collection}").unwrap(),
            _ => {}
        }
        self.lines.push('\n');
        match event.kind {
            7 | 9 => self.open += 1,
            8 | 10 => self.open -= 1,
            _ => {}
        }
        self.deepest = self.deepest.max(self.open);
        let are_needed = self.states.len() <= self.deepest + 1 && self.marks.len() <= self.deepest;
        assert!(are_needed, "stacks that are larger than the open collections need");
        self.documents.take(event.kind, anchor.as_deref());
        (self.anchor, self.version) = (None, None);
        if event.kind == 4 {
            self.handles.clear();
        }
    }
}

/// Steps over these stacks, and returns the number of what that did, and the event and the error that it put.
fn step_over(
    is_exact: bool,
    steps: &mut steps_t,
    (states, marks): (&mut [u8], &mut [yaml_mark_t]),
    token: &Token<'_>,
    fact: u8,
) -> (u32, step_event_t, step_fault_t) {
    let (mut event, mut fault, kind) = (no_event(), no_fault(), token_kind(token.kind));
    let did = match is_exact {
        true => steps.step_exact(states, marks, kind, fact, &token.at, &mut event, &mut fault),
        false => steps.step(states, marks, kind, fact, &token.at, &mut event, &mut fault),
    };
    (did.number(), event, fault)
}

/// An event's flags are 1 or 0, and 0 where its kind has none.
fn assert_flags(event: &step_event_t) {
    let most = match event.kind {
        3 | 4 => [0, 0, 1, 0, 0],
        6 => [1, 1, 1, 1, 0],
        7 | 9 => [1, 1, 1, 0, 1],
        _ => [0, 0, 0, 0, 0],
    };
    let flags = [event.has_anchor, event.has_tag, event.implicit, event.quoted_implicit, event.is_flow];
    assert!(flags.iter().zip(most).all(|(flag, most)| *flag <= most), "an event {}: {flags:?}", event.kind);
}

pub fn no_event() -> step_event_t {
    step_event_t {
        kind: 0,
        has_anchor: 0,
        has_tag: 0,
        implicit: 0,
        quoted_implicit: 0,
        is_flow: 0,
        start_mark: ZERO_MARK,
        end_mark: ZERO_MARK,
    }
}

pub fn no_fault() -> step_fault_t {
    step_fault_t { problem: 0, context_mark: ZERO_MARK, problem_mark: ZERO_MARK }
}
