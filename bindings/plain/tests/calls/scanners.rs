//! Calls of a source over a scanner that counts its own calls. A row has the number of the scanner's
//! tokens, the bound, and the number of calls; and how many tokens come, the end of the last, how often
//! the scanner was asked, and the fault of the last call.

use crate::lines::data::Row;
use pokhvizi::libyaml_types::unnamed_yaml_token_t_data::FlowEntry;
use pokhvizi::unsafe_libyaml::*;

/// As many tokens as asked for, each a column wide, and then faults, each at the column of its call.
struct Counted {
    tokens: u64,
    calls: u64,
    waits: bool,
}

fn mark(column: u64) -> yaml_mark_t {
    yaml_mark_t { index: column, line: 0, column }
}

impl yaml_scanner_t for Counted {
    fn scan(&mut self) -> Result<yaml_token_t, yaml_source_fault_t> {
        let start = mark(self.calls);
        self.calls += 1;
        if self.calls > self.tokens {
            return Err(yaml_source_fault_t::scanner_error("no token", start));
        }
        Ok(yaml_token_t::new(FlowEntry, start, mark(self.calls)))
    }

    fn may_wait(&self) -> bool {
        self.waits
    }
}

/// What the calls of a source gave.
#[derive(Clone, Copy, PartialEq, Debug)]
struct Noted {
    tokens: u64,
    end: yaml_mark_t,
    asked: u64,
    fault: yaml_parser_t_prefix,
}

/// What the calls give: the source may wait if the scanner may.
fn noted(row: &Row, waits: bool) -> Noted {
    let scanner = Counted { tokens: row.number(0), calls: 0, waits };
    let mut source = yaml_scanner_source_t::new(scanner, row.number(1));
    let mut noted = Noted { tokens: 0, end: ZERO_MARK, asked: 0, fault: NO_FAULT };
    for _ in 0..row.number::<u64>(2) {
        match source.next_token() {
            Ok(token) => {
                noted = Noted { tokens: noted.tokens + 1, end: token.end_mark, fault: NO_FAULT, ..noted }
            }
            Err(fault) => noted.fault = fault.prefix(),
        }
    }
    assert_eq!(source.may_wait(), waits);
    Noted { asked: source.into_scanner().calls, ..noted }
}

#[test]
fn a_source_asks_its_scanner_once_for_each_token() {
    crate::table("scanners", 6, |row| {
        assert_eq!(noted(row, true), noted(row, false));
        format!("{:?}", noted(row, false))
    });
}
