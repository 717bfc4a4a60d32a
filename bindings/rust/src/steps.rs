//! The steps of `pokhvizi/steps.h`: a token in, at most one event out.

use crate::bounds;
use crate::door::{self, handle_t, step_event_t, step_fault_t, step_span_t, steps_t, text_t, Mark, ZERO_MARK};
use crate::errors::Expected;
use crate::events::Held;
use crate::fault::Fault;
use crate::memory::{self, bytes, Text};
use crate::tokens::Token;
use original::*;
use std::collections::HashMap;
use std::hint::unreachable_unchecked;
use std::mem::{size_of, MaybeUninit};
use std::{iter, ptr, slice};

pub type Shape = step_event_t;
pub type Problem = step_fault_t;

// What a step returns, and the number of a problem that none has.
pub const WANTS: u32 = 0;
pub const GAVE: u32 = 1;
pub const STAYS: u32 = 2;
const FULL_STATES: u32 = 3;
const FULL_MARKS: u32 = 4;
const FAULT: u32 = 5;
pub const TOO_DEEP: usize = 13;

// The problems of what stands in a directive or a tag: no token's kind is wrong.
const INCOMPATIBLE: u8 = 4;
const DUPLICATE_HANDLE: u8 = 5;
const UNDECLARED_HANDLE: u8 = 8;

/// Where exact steps refuse a document, as `pokhvizi_differs` says it.
const BARE_DOCUMENT: u8 = 3;
const VALUE_BIT: u32 = 1 << YAML_VALUE_TOKEN as u32;

const NO_PROBLEM: Problem = step_fault_t {
    problem: 0,
    context_mark: ZERO_MARK,
    problem_mark: ZERO_MARK,
};

/// An event of no kind.
pub const BLANK: Shape = step_event_t {
    kind: 0,
    has_anchor: 0,
    has_tag: 0,
    implicit: 0,
    quoted_implicit: 0,
    is_flow: 0,
    start_mark: ZERO_MARK,
    end_mark: ZERO_MARK,
};

/// The tag directives of a document.
#[derive(Default)]
pub struct TagDirectives {
    handles: Vec<handle_t>,
    texts: Vec<u8>,
    /// Where each stands among the handles: the calls below look at each that they are shown, so they are shown one.
    places: HashMap<Vec<u8>, usize>,
}

impl TagDirectives {
    /// Appends a directive.
    pub fn declare(&mut self, handle: &[u8], prefix: &[u8]) {
        let made = handle_t {
            handle: self.put(handle),
            prefix: self.put(prefix),
        };
        self.places.insert(handle.to_vec(), self.handles.len());
        self.handles.push(made);
    }

    pub fn forget(&mut self) {
        if !self.handles.is_empty() {
            *self = TagDirectives::default();
        }
    }

    /// Returns the handle of a text alone where the document has declared it.
    fn find(&self, handle: &[u8]) -> &[handle_t] {
        match self.places.get(handle) {
            Some(&place) => &self.handles[place..=place],
            None => &[],
        }
    }

    /// Returns a copy for an event or a document to own.
    pub unsafe fn copy(&self) -> (*mut yaml_tag_directive_t, *mut yaml_tag_directive_t) {
        if self.handles.is_empty() {
            return (ptr::null_mut(), ptr::null_mut());
        }
        let count = self.handles.len();
        let start: *mut yaml_tag_directive_t = memory::make(count * size_of::<yaml_tag_directive_t>()).cast();
        for (place, made) in self.handles.iter().enumerate() {
            let own = |range| Text::copy(self.text(range)).into_raw();
            ptr::addr_of_mut!((*start.add(place)).handle).write(own(made.handle));
            ptr::addr_of_mut!((*start.add(place)).prefix).write(own(made.prefix));
        }
        (start, start.add(count))
    }

    fn put(&mut self, text: &[u8]) -> text_t {
        let place = self.texts.len() as u64;
        self.texts.extend_from_slice(text);
        text_t {
            place,
            length: text.len() as u64,
        }
    }

    fn text(&self, range: text_t) -> &[u8] {
        &self.texts[range.place as usize..][..range.length as usize]
    }

    /// Returns the fact of a tag and its length in full; puts it there if there is room.
    fn put_tag(&self, handle: &[u8], suffix: &[u8], out: &mut [u8]) -> (u8, usize) {
        let mut length = 0;
        let fact = door::tag(self.find(handle), &self.texts, handle, suffix, out, &mut length);
        (fact, length)
    }

    /// Returns the fact of a TAG-DIRECTIVE.
    fn fact(&self, handle: &[u8]) -> u8 {
        door::directive_fact(self.find(handle), &self.texts, handle)
    }
}

/// What a record's next tokens go by: its bytes before the marks.
struct Before([MaybeUninit<u8>; Before::MOST]);

impl Before {
    const MOST: usize = 32;

    fn new() -> Before {
        Before([MaybeUninit::uninit(); Before::MOST])
    }

    /// Returns how many bytes these are.
    #[inline]
    fn length(record: &steps_t) -> usize {
        ptr::addr_of!(record.read.mark) as usize - ptr::addr_of!(*record) as usize
    }

    /// Keeps what a record has.
    #[inline]
    fn keep(&mut self, record: &steps_t) {
        let bytes: *const steps_t = record;
        let kept = &mut self.0[..Before::length(record)];
        // SAFETY: the record has as many bytes, and is another place.
        unsafe { ptr::copy_nonoverlapping(bytes.cast(), kept.as_mut_ptr(), kept.len()) }
    }

    /// Returns a record with what was kept of one.
    fn record(&self) -> steps_t {
        let mut record = door::steps_new();
        let kept = &self.0[..Before::length(&record)];
        let bytes: *mut steps_t = &mut record;
        // SAFETY: as above, and these bytes are of a record.
        unsafe { ptr::copy_nonoverlapping(kept.as_ptr(), bytes.cast(), kept.len()) };
        record
    }
}

/// The parser's states, its stacks, and the tag directives of its document.
#[repr(C)]
pub struct Steps {
    states: Vec<u8>,
    marks: Vec<Mark>,
    /// What the record was before the token in hand.
    before: Before,
    record: steps_t,
    /// Where a step puts why it fails.
    problem: Problem,
    /// How long the stack of marks may get.
    max_depth: usize,
    /// The tag of the last TAG token in full, if it is short, and its length.
    tag: [u8; Steps::SHORT],
    tag_length: usize,
    pub directives: TagDirectives,
}

/// Doubles the room of a stack.
#[cold]
fn grow<T: Clone>(stack: &mut Vec<T>, blank: T) -> Result<(), Fault> {
    let room = stack.len();
    stack.try_reserve_exact(room).map_err(|_| Fault::memory())?;
    stack.extend(iter::repeat(blank).take(room));
    Ok(())
}

impl Steps {
    const ROOM: usize = 32;
    /// How long a tag is that is put in full as its fact is asked for.
    const SHORT: usize = 64;

    pub fn new() -> Steps {
        let max_depth = bounds::max_depth();
        let (record, mut before) = (door::steps_new(), Before::new());
        before.keep(&record);
        Steps {
            before,
            record,
            states: vec![0; Steps::ROOM],
            marks: vec![ZERO_MARK; Steps::ROOM.min(max_depth)],
            problem: NO_PROBLEM,
            max_depth,
            tag: [0; Steps::SHORT],
            tag_length: 0,
            directives: TagDirectives::default(),
        }
    }

    /// Begins with a token that wasn't in hand before.
    #[inline(always)]
    pub fn begin(&mut self) {
        self.before.keep(&self.record);
    }

    /// Steps with a token and its fact, and writes the shape of the event that it gives. Returns what the step returned.
    #[inline(always)]
    pub fn step(&mut self, token: &Token, fact: u8, shape: &mut Shape) -> u32 {
        let step = if cfg!(feature = "fixes") { door::step } else { door::step_exact };
        let (states, marks) = (&mut self.states, &mut self.marks);
        let counted = &self.record.machine;
        if counted.states_count > states.len() || counted.marks_count > marks.len() {
            // SAFETY: no step counts more than its stacks have room for (`within` of pokhvizi_step), and they only grow.
            unsafe { unreachable_unchecked() }
        }
        step(&mut self.record, states, marks, token.type_, fact, token.span(), shape, &mut self.problem)
    }

    /// Makes room if a step asked for it.
    ///
    /// # Errors
    ///
    /// The step's problem; no memory.
    #[cold]
    pub fn follow(&mut self, did: u32, at: Mark) -> Result<(), Fault> {
        match did {
            FAULT => {
                let expected = self.expected();
                Err(Fault::of_problem(&self.problem, expected))
            }
            FULL_STATES => grow(&mut self.states, 0),
            FULL_MARKS if self.marks.len() == self.max_depth => Err(Fault::too_deep(at)),
            FULL_MARKS => {
                grow(&mut self.marks, ZERO_MARK)?;
                self.marks.truncate(self.max_depth);
                Ok(())
            }
            _ => unreachable!("the stacks are as long as they are said to be"),
        }
    }

    /// Returns the handle that the last step's problem is about, which is of the token in hand or of the tag that is held.
    #[cold]
    pub unsafe fn handle_at_fault(&self, token: &mut Token, held: &mut Held) -> Option<Text> {
        match self.problem.problem {
            DUPLICATE_HANDLE => token.take_handle(),
            UNDECLARED_HANDLE => held.take_handle(),
            _ => None,
        }
    }

    /// Returns what could have stood in the place of the token in hand, if that was refused for its kind.
    fn expected(&mut self) -> Expected {
        let before = self.before.record();
        match self.problem.problem {
            INCOMPATIBLE | DUPLICATE_HANDLE | UNDECLARED_HANDLE => Expected::default(),
            _ if cfg!(feature = "fixes") => Expected::of_bits(door::expected(&before, &self.states)),
            _ => Expected::of_bits(self.exactly_expected(before)),
        }
    }

    /// Returns what may come next by exact steps, as pokhvizi_expected_exact of steps.h.
    fn exactly_expected(&mut self, before: steps_t) -> u32 {
        let all = door::expected(&before, &self.states);
        let is_bare = |kind: &u8| all >> kind & 1 == 1 && door::differs(&before, *kind) == BARE_DOCUMENT;
        let bare = (1..22).filter(is_bare).fold(0, |bits, kind| bits | 1 << kind);
        let left = all & !bare;
        match left & VALUE_BIT != 0 && !self.takes_value(before) {
            true => left & !VALUE_BIT,
            false => left,
        }
    }

    /// Returns whether exact steps go on with a VALUE from a record; of their stacks nothing changes.
    fn takes_value(&mut self, mut record: steps_t) -> bool {
        record.tag = 3; // its handle is taken as declared
        let at = step_span_t {
            start_mark: ZERO_MARK,
            end_mark: ZERO_MARK,
        };
        let (mut shape, mut problem, mut did) = (BLANK, NO_PROBLEM, STAYS);
        while did == STAYS {
            let (states, marks) = (&mut self.states, &mut self.marks);
            did = door::step_exact(&mut record, states, marks, YAML_VALUE_TOKEN, 0, &at, &mut shape, &mut problem);
        }
        did != FAULT
    }

    /// Returns the fact of a token.
    #[inline]
    pub unsafe fn fact(&mut self, token: &Token) -> u8 {
        match token.type_ {
            YAML_SCALAR_TOKEN => u8::from(token.data.scalar.style == YAML_PLAIN_SCALAR_STYLE),
            _ => self.fact_of_texts(token),
        }
    }

    #[cold]
    unsafe fn fact_of_texts(&mut self, token: &yaml_token_t) -> u8 {
        let data = &token.data;
        match token.type_ {
            YAML_VERSION_DIRECTIVE_TOKEN => {
                door::version_fact(data.version_directive.major, data.version_directive.minor)
            }
            YAML_TAG_DIRECTIVE_TOKEN => self.directives.fact(bytes(data.tag_directive.handle)),
            YAML_TAG_TOKEN => {
                let (handle, suffix) = (bytes(data.tag.handle), bytes(data.tag.suffix));
                let (fact, length) = self.directives.put_tag(handle, suffix, &mut self.tag);
                self.tag_length = length;
                fact
            }
            _ => 0,
        }
    }

    /// Returns the tag in full of the handle and suffix whose fact was asked for last; none if the handle isn't declared.
    pub unsafe fn tag_in_full(&self, handle: &[u8], suffix: &[u8]) -> Option<Text> {
        let length = self.tag_length;
        match self.tag.get(..length) {
            Some(tag) => Some(Text::copy(tag)),
            None if length == usize::MAX => None,
            None => Some(Text::of_length(length, |made| {
                made.write_bytes(0, length);
                let out = slice::from_raw_parts_mut(made, length);
                self.directives.put_tag(handle, suffix, out);
            })),
        }
    }
}
