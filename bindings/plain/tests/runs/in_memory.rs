//! Runs over memory: the outcome, how many bytes there are, and all that the buffer has room for.

use crate::{first_line, runs, Run};
use pokhvizi::kit::Global;
use pokhvizi::token_lines::memory::{events_in_memory, memory_outcome_t, memory_run_t, nodes_in_memory};
use pokhvizi::token_lines::{Outcome, MAX_TOKENS};

/// More than any run writes except those of long lines.
pub const ROOM: usize = 1024;

/// How a run ends that ends so over a reader.
fn wanted_outcome(outcome: Outcome) -> memory_outcome_t {
    match outcome {
        Outcome::Ended => memory_outcome_t::Ended,
        Outcome::Faulted => memory_outcome_t::Faulted,
        Outcome::OutputFailed => memory_outcome_t::OutOfMemory,
    }
}

impl Run {
    pub fn in_memory(&self, out: &mut [u8], max_tokens: u64) -> memory_run_t {
        match self.of {
            crate::Of::Events => events_in_memory(Global, &self.tokens, out, max_tokens),
            crate::Of::Documents => nodes_in_memory(Global, &self.tokens, out, max_tokens),
        }
    }

    /// The run in memory is whole.
    pub fn assert_in_memory(&self) {
        let mut buffer = [0; ROOM];
        let ran = self.in_memory(&mut buffer, MAX_TOKENS);
        assert!(is_whole(ran, &buffer, &self.lines, self.outcome), "{} in memory: {ran:?}", self.name);
    }

    /// The run ends at each bound on its tokens, up to the number of its lines.
    fn assert_bounded(&self) {
        let (mut bytes, mut max_tokens) = (0, 0);
        loop {
            let (lines, outcome) = self.front(bytes, "too many tokens\n");
            let mut buffer = [0; ROOM];
            let ran = self.in_memory(&mut buffer, max_tokens);
            assert!(is_whole(ran, &buffer, &lines, outcome), "{} within {max_tokens}: {ran:?}", self.name);
            if bytes == self.tokens.len() {
                return;
            }
            bytes += first_line(&self.tokens[bytes..]);
            max_tokens += 1;
        }
    }
}

/// Whether a run that did this put these lines into a buffer, as many as that has room for, and says so.
pub fn is_whole(ran: memory_run_t, buffer: &[u8], lines: &[u8], outcome: Outcome) -> bool {
    let written = lines.len().min(ROOM);
    let wanted = memory_run_t { outcome: wanted_outcome(outcome), written, wanted: lines.len() };
    ran == wanted && buffer[..written] == lines[..written]
}

#[test]
fn runs_in_memory_are_whole() {
    runs().iter().for_each(Run::assert_in_memory);
}

#[test]
fn runs_in_memory_end_at_each_bound() {
    runs().iter().for_each(Run::assert_bounded);
}
