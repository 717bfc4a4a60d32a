//! The proved calls of `pokhvizi/steps.h` and `pokhvizi/compose.h`, by a build as build.rs says: those of the
//! crate `pokhvizi`, which is their source text without contracts, or those of the archive that the prover's
//! compiler made of that text.

use original::yaml_mark_t;

pub use pokhvizi::document_sizes::sizes_t;
pub use pokhvizi::libyaml_composer::{composer_t, open_t, place_t};
pub use pokhvizi::libyaml_types::{yaml_mark_t as Mark, ZERO_MARK};
pub use pokhvizi::token_steps::{handle_t, step_event_t, step_fault_t, step_span_t, steps_t, text_t};

#[cfg(not(proved_archive))]
#[allow(clippy::too_many_arguments)]
mod plain {
    use super::{composer_t, sizes_t, step_event_t, step_fault_t, step_span_t, steps_t, Mark};
    use original::yaml_token_type_t;
    use pokhvizi::libyaml_types::yaml_token_type_t as Kind;
    use std::mem::transmute;

    pub use pokhvizi::pokhvizi_c::compose::{pokhvizi_compose as compose, pokhvizi_count as count};
    pub use pokhvizi::pokhvizi_c::steps::{pokhvizi_differs as differs, pokhvizi_expected as expected};
    pub use pokhvizi::pokhvizi_c::tags::{pokhvizi_directive_fact as directive_fact, pokhvizi_tag as tag};
    pub use pokhvizi::pokhvizi_c::tags::pokhvizi_version_fact as version_fact;

    pub fn steps_new() -> steps_t {
        steps_t::new()
    }

    /// Each type has the same number there and here, as a byte.
    const _: () = {
        use yaml_token_type_t::*;
        let kinds: [(yaml_token_type_t, Kind); 22] = [
            (YAML_NO_TOKEN, Kind::YAML_NO_TOKEN),
            (YAML_STREAM_START_TOKEN, Kind::YAML_STREAM_START_TOKEN),
            (YAML_STREAM_END_TOKEN, Kind::YAML_STREAM_END_TOKEN),
            (YAML_VERSION_DIRECTIVE_TOKEN, Kind::YAML_VERSION_DIRECTIVE_TOKEN),
            (YAML_TAG_DIRECTIVE_TOKEN, Kind::YAML_TAG_DIRECTIVE_TOKEN),
            (YAML_DOCUMENT_START_TOKEN, Kind::YAML_DOCUMENT_START_TOKEN),
            (YAML_DOCUMENT_END_TOKEN, Kind::YAML_DOCUMENT_END_TOKEN),
            (YAML_BLOCK_SEQUENCE_START_TOKEN, Kind::YAML_BLOCK_SEQUENCE_START_TOKEN),
            (YAML_BLOCK_MAPPING_START_TOKEN, Kind::YAML_BLOCK_MAPPING_START_TOKEN),
            (YAML_BLOCK_END_TOKEN, Kind::YAML_BLOCK_END_TOKEN),
            (YAML_FLOW_SEQUENCE_START_TOKEN, Kind::YAML_FLOW_SEQUENCE_START_TOKEN),
            (YAML_FLOW_SEQUENCE_END_TOKEN, Kind::YAML_FLOW_SEQUENCE_END_TOKEN),
            (YAML_FLOW_MAPPING_START_TOKEN, Kind::YAML_FLOW_MAPPING_START_TOKEN),
            (YAML_FLOW_MAPPING_END_TOKEN, Kind::YAML_FLOW_MAPPING_END_TOKEN),
            (YAML_BLOCK_ENTRY_TOKEN, Kind::YAML_BLOCK_ENTRY_TOKEN),
            (YAML_FLOW_ENTRY_TOKEN, Kind::YAML_FLOW_ENTRY_TOKEN),
            (YAML_KEY_TOKEN, Kind::YAML_KEY_TOKEN),
            (YAML_VALUE_TOKEN, Kind::YAML_VALUE_TOKEN),
            (YAML_ALIAS_TOKEN, Kind::YAML_ALIAS_TOKEN),
            (YAML_ANCHOR_TOKEN, Kind::YAML_ANCHOR_TOKEN),
            (YAML_TAG_TOKEN, Kind::YAML_TAG_TOKEN),
            (YAML_SCALAR_TOKEN, Kind::YAML_SCALAR_TOKEN),
        ];
        let mut place = 0;
        while place < kinds.len() {
            // SAFETY: a type without fields, of one byte.
            let number = unsafe { transmute::<Kind, u8>(kinds[place].1) };
            assert!(kinds[place].0 as usize == place && number as usize == place);
            place += 1;
        }
    };

    /// Returns a token's type as the steps have it.
    #[inline(always)]
    fn kind_of(kind: yaml_token_type_t) -> Kind {
        // SAFETY: these are all types that the original has, and each has its number here.
        unsafe { transmute(kind as u8) }
    }

    // These two are inlined, as the calls of the same names aren't.

    #[inline(always)]
    pub fn step(
        steps: &mut steps_t,
        states: &mut [u8],
        marks: &mut [Mark],
        kind: yaml_token_type_t,
        fact: u8,
        at: &step_span_t,
        event: &mut step_event_t,
        fault: &mut step_fault_t,
    ) -> u32 {
        steps.step(states, marks, kind_of(kind), fact, at, event, fault).number()
    }

    #[inline(always)]
    pub fn step_exact(
        steps: &mut steps_t,
        states: &mut [u8],
        marks: &mut [Mark],
        kind: yaml_token_type_t,
        fact: u8,
        at: &step_span_t,
        event: &mut step_event_t,
        fault: &mut step_fault_t,
    ) -> u32 {
        steps.step_exact(states, marks, kind_of(kind), fact, at, event, fault).number()
    }

    pub fn composer_new(max_entries: u32) -> composer_t {
        composer_t::new(max_entries)
    }

    pub fn size_new(max: u64) -> sizes_t {
        sizes_t::new(max)
    }
}

#[cfg(proved_archive)]
#[allow(clippy::too_many_arguments)]
mod archive {
    use super::*;
    use original::yaml_token_type_t;
    use std::mem::MaybeUninit;

    extern "C" {
        fn pokhvizi_steps_new(steps: *mut steps_t);

        fn pokhvizi_step(
            steps: *mut steps_t,
            states: *mut u8,
            states_room: usize,
            marks: *mut Mark,
            marks_room: usize,
            kind: u8,
            fact: u8,
            at: *const step_span_t,
            event: *mut step_event_t,
            fault: *mut step_fault_t,
        ) -> u32;

        fn pokhvizi_step_exact(
            steps: *mut steps_t,
            states: *mut u8,
            states_room: usize,
            marks: *mut Mark,
            marks_room: usize,
            kind: u8,
            fact: u8,
            at: *const step_span_t,
            event: *mut step_event_t,
            fault: *mut step_fault_t,
        ) -> u32;

        fn pokhvizi_differs(steps: *const steps_t, kind: u8) -> u8;

        fn pokhvizi_expected(steps: *const steps_t, states: *const u8, states_room: usize) -> u32;

        fn pokhvizi_version_fact(major: i32, minor: i32) -> u8;

        fn pokhvizi_directive_fact(
            handles: *const handle_t,
            count: usize,
            texts: *const u8,
            length: usize,
            handle: *const u8,
            handle_length: usize,
        ) -> u8;

        fn pokhvizi_tag(
            handles: *const handle_t,
            count: usize,
            texts: *const u8,
            length: usize,
            handle: *const u8,
            handle_length: usize,
            suffix: *const u8,
            suffix_length: usize,
            out: *mut u8,
            room: usize,
            size: *mut usize,
        ) -> u8;

        fn pokhvizi_composer_new(composer: *mut composer_t, max_entries: u32);

        fn pokhvizi_compose(
            composer: *mut composer_t,
            stack: *mut open_t,
            stack_room: usize,
            kind: u8,
            fact: i32,
            place: *mut place_t,
        ) -> u32;

        fn pokhvizi_size_new(size: *mut sizes_t, max: u64);

        fn pokhvizi_count(
            size: *mut sizes_t,
            sizes: *mut u64,
            room: usize,
            deed: u32,
            kind: u8,
            place: *const place_t,
        ) -> u32;
    }

    /// Returns what a call writes, all of it.
    fn written<T>(write: impl FnOnce(*mut T)) -> T {
        let mut made = MaybeUninit::uninit();
        write(made.as_mut_ptr());
        // SAFETY: the call wrote it.
        unsafe { made.assume_init() }
    }

    // SAFETY, of each call below: the structs are laid out as C lays them out, each pointer is to as many
    // entries as are said, and no two of those that are written overlap.

    pub fn steps_new() -> steps_t {
        written(|steps| unsafe { pokhvizi_steps_new(steps) })
    }

    #[inline]
    pub fn step(
        steps: &mut steps_t,
        states: &mut [u8],
        marks: &mut [Mark],
        kind: yaml_token_type_t,
        fact: u8,
        at: &step_span_t,
        event: &mut step_event_t,
        fault: &mut step_fault_t,
    ) -> u32 {
        let (states, states_room) = (states.as_mut_ptr(), states.len());
        let (marks, marks_room) = (marks.as_mut_ptr(), marks.len());
        unsafe {
            pokhvizi_step(
                steps,
                states,
                states_room,
                marks,
                marks_room,
                kind as u8,
                fact,
                at,
                event,
                fault,
            )
        }
    }

    #[inline]
    pub fn step_exact(
        steps: &mut steps_t,
        states: &mut [u8],
        marks: &mut [Mark],
        kind: yaml_token_type_t,
        fact: u8,
        at: &step_span_t,
        event: &mut step_event_t,
        fault: &mut step_fault_t,
    ) -> u32 {
        let (states, states_room) = (states.as_mut_ptr(), states.len());
        let (marks, marks_room) = (marks.as_mut_ptr(), marks.len());
        unsafe { pokhvizi_step_exact(steps, states, states_room, marks, marks_room, kind as u8, fact, at, event, fault) }
    }

    pub fn differs(steps: &steps_t, kind: u8) -> u8 {
        unsafe { pokhvizi_differs(steps, kind) }
    }

    pub fn expected(steps: &steps_t, states: &[u8]) -> u32 {
        unsafe { pokhvizi_expected(steps, states.as_ptr(), states.len()) }
    }

    pub fn version_fact(major: i32, minor: i32) -> u8 {
        unsafe { pokhvizi_version_fact(major, minor) }
    }

    pub fn directive_fact(handles: &[handle_t], texts: &[u8], handle: &[u8]) -> u8 {
        let (handles, count) = (handles.as_ptr(), handles.len());
        unsafe {
            pokhvizi_directive_fact(
                handles,
                count,
                texts.as_ptr(),
                texts.len(),
                handle.as_ptr(),
                handle.len(),
            )
        }
    }

    pub fn tag(
        handles: &[handle_t],
        texts: &[u8],
        handle: &[u8],
        suffix: &[u8],
        out: &mut [u8],
        size: &mut usize,
    ) -> u8 {
        unsafe {
            pokhvizi_tag(
                handles.as_ptr(),
                handles.len(),
                texts.as_ptr(),
                texts.len(),
                handle.as_ptr(),
                handle.len(),
                suffix.as_ptr(),
                suffix.len(),
                out.as_mut_ptr(),
                out.len(),
                size,
            )
        }
    }

    pub fn composer_new(max_entries: u32) -> composer_t {
        written(|composer| unsafe { pokhvizi_composer_new(composer, max_entries) })
    }

    #[inline]
    pub fn compose(composer: &mut composer_t, stack: &mut [open_t], kind: u8, fact: i32, place: &mut place_t) -> u32 {
        unsafe { pokhvizi_compose(composer, stack.as_mut_ptr(), stack.len(), kind, fact, place) }
    }

    pub fn size_new(max: u64) -> sizes_t {
        written(|size| unsafe { pokhvizi_size_new(size, max) })
    }

    pub fn count(size: &mut sizes_t, sizes: &mut [u64], deed: u32, kind: u8, place: &place_t) -> u32 {
        unsafe { pokhvizi_count(size, sizes.as_mut_ptr(), sizes.len(), deed, kind, place) }
    }
}

#[cfg(proved_archive)]
pub use archive::*;
#[cfg(not(proved_archive))]
pub use plain::*;

/// Returns a mark as the original has it.
#[inline]
pub fn mark(of: Mark) -> yaml_mark_t {
    // SAFETY: both are the same three numbers, laid out as C lays them out.
    unsafe { std::mem::transmute(of) }
}
