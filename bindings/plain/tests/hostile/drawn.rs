//! Lists of drawn tokens, each kept if the list can go on after it.
//!
//! A list begins as STREAM-START. Let x be its number. Two hundred times, a token whose type has the number
//! 3 + (x / 65536) mod 19 and whose texts have x mod 70 bytes joins the list, if parsing the list with it
//! after ends in the source's error; then x becomes (1103515245 x + 12345) mod 2147483648.

use crate::lines::growing::filled;
use crate::lines::pieces::{PieceReader, EVERY_CALL};
use crate::{each_row, lines, read};
use pokhvizi::kit::Global;
use pokhvizi::token_lines::{run_events, run_nodes, write_events, write_nodes, Outcome};
use pokhvizi::unsafe_libyaml::yaml_parser_initialize;

/// How many tokens are drawn for a list.
const DRAWN: u32 = 200;

/// The number that is drawn after x.
fn next_number(x: u64) -> u64 {
    (1_103_515_245 * x + 12345) % 2_147_483_648
}

/// Whether the last fault of these lines begins so.
fn ends_by(lines: &str, fault: &str) -> bool {
    lines.lines().rfind(|line| line.starts_with("FAULT ")).is_some_and(|line| line.starts_with(fault))
}

/// Whether parsing these lines ends in their source's error.
fn goes_on(lines: &str) -> bool {
    let mut written = Vec::new();
    run_events(Global, lines.as_bytes(), &mut written);
    ends_by(&String::from_utf8(written).unwrap(), "FAULT reader ")
}

/// The lines of the list of this number of these kinds of tokens, in the order of their types' numbers from 3:
/// each is a line with `#` for its marks and `@` for each text.
fn list_of(kinds: &[&str], number: u64) -> String {
    let mut lines = filled("STREAM-START # utf8\n", 0, "");
    let (mut x, mut tokens) = (number, 1);
    for _ in 0..DRAWN {
        let before = lines.len();
        let text = "a".repeat((x % 70) as usize);
        lines += &filled(kinds[(x / 65536) as usize % 19], tokens, &text);
        lines.push('\n');
        match goes_on(&lines) {
            true => tokens += 1,
            false => lines.truncate(before),
        }
        x = next_number(x);
    }
    lines
}

/// A run over these lines, read three bytes at a time, ends by an error, and writes what a list of their tokens
/// does; of documents it ends by their source or by the composer.
fn assert_same_by_list(name: &str, tokens: &str) {
    let reader = || PieceReader::new(tokens.as_bytes(), 3, EVERY_CALL);
    let list = || yaml_parser_initialize(Global, lines::tokens::source_of(tokens));
    let mut written = [(); 4].map(|()| Vec::new());
    let [events, nodes, events_of_list, nodes_of_list] = &mut written;
    let ended = [run_events(Global, reader(), events), run_nodes(Global, reader(), nodes)];
    assert_eq!(ended, [Outcome::Faulted; 2], "{name}");
    write_events(&mut list(), events_of_list);
    write_nodes(&mut list(), nodes_of_list);
    assert!(events == events_of_list && nodes == nodes_of_list, "{name}");
    let [events, nodes, ..] = written.map(|lines| String::from_utf8(lines).unwrap());
    assert!(ends_by(&events, "FAULT reader "), "{name}");
    assert!(ends_by(&nodes, "FAULT reader ") || ends_by(&nodes, "FAULT composer "), "{name}");
}

#[test]
fn drawn_lists_are_the_same_by_a_list() {
    let kinds = read("kinds");
    let kinds: Vec<&str> = kinds.lines().collect();
    each_row("drawn lists", 500, |row| {
        let number = row.name.strip_prefix("list ").unwrap().parse().unwrap();
        let tokens = list_of(&kinds, number);
        assert_eq!(tokens.lines().count().to_string(), row.wanted, "{}", row.name);
        assert_same_by_list(row.name, &tokens);
    });
}
