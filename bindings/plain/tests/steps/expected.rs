//! The types of token that steps expect, beside those that they take, tried one by one.

use crate::parser::{no_event, no_fault, STEPS};
use pokhvizi::libyaml_types::{yaml_mark_t, ZERO_MARK};
use pokhvizi::token_steps::{step_span_t, steps_t, token_kind};

/// Wants that steps over these stacks expect exactly the types of token that they take.
pub fn assert_expected(steps: &steps_t, states: &[u8], marks: &[yaml_mark_t]) {
    let expected = steps.expected(states);
    for number in 0..22 {
        let is_expected = expected.contains(token_kind(number));
        assert_eq!(is_taken(*steps, states, marks, number), is_expected, "a token of number {number}");
    }
}

/// Whether a copy of the steps takes a token of this number. Its text is right, and so was that of a tag.
fn is_taken(mut steps: steps_t, states: &[u8], marks: &[yaml_mark_t], number: u8) -> bool {
    steps.tag = 3;
    let (mut states, mut marks) = ([states, &[0; STEPS]].concat(), [marks, &[ZERO_MARK; STEPS]].concat());
    let fact = match number {
        3 | 21 => 1,
        20 => 3,
        _ => 0,
    };
    let at = step_span_t { start_mark: ZERO_MARK, end_mark: ZERO_MARK };
    let (mut event, mut fault, kind) = (no_event(), no_fault(), token_kind(number));
    let mut step = || steps.step(&mut states, &mut marks, kind, fact, &at, &mut event, &mut fault).number();
    let did = (0..STEPS).map(|_| step()).find(|did| *did != 2);
    [0, 1].contains(&did.expect("a token is never taken"))
}
