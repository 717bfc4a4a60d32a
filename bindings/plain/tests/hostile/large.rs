//! Whole runs and loads of large lists: over a scanner that computes the tokens, and over a list of the same
//! tokens, which has to give the same. Of documents the value of each node is compared too.

use crate::each_row;
use crate::lines::growing::{growing, listed, Computed};
use crate::shapes::assert_shaped;
use pokhvizi::kit::Global;
use pokhvizi::unsafe_libyaml::*;

/// How large and deep the lists are.
pub const N: u64 = 100_000;

/// A source that computes the tokens of a list.
fn computed(parts: &str) -> impl yaml_token_source_t + '_ {
    yaml_scanner_source_t::new(Computed(growing(parts, N)), u64::MAX)
}

/// The text of a fault: its problem, and where that lies.
fn fault_text(fault: &Option<yaml_parser_t_prefix>) -> String {
    let text = |fault: &yaml_parser_t_prefix| {
        format!(", {} at {}", fault.problem.unwrap_or(""), fault.problem_mark.index)
    };
    fault.as_ref().map_or(String::new(), text)
}

#[test]
fn large_lists_are_parsed() {
    each_row("large lists, parsed", 6, |row| {
        let run = yaml_parser_parse_all(Global, computed(row.fields[0])).unwrap();
        let told = format!("{} events{}", run.events.len(), fault_text(&run.fault));
        assert_eq!(told, row.wanted, "{}", row.name);
        let by_list = yaml_parser_parse_all(Global, listed(row.fields[0], N)).unwrap();
        assert!(run.events == by_list.events && run.fault == by_list.fault, "{}", row.name);
    });
}

/// Each document has as many nodes as the first, and these are those of the list's name.
#[test]
fn large_lists_are_loaded() {
    each_row("large lists, loaded", 6, |row| {
        let all = yaml_parser_load_all(Global, computed(row.fields[0])).unwrap();
        let nodes = all.documents.first().map_or(0, |first| first.nodes().len());
        let fault = fault_text(&all.fault);
        let told = format!("{} documents of {nodes} nodes{fault}", all.documents.len());
        assert_eq!(told, row.wanted, "{}", row.name);
        for document in all.documents.iter() {
            assert_eq!(document.nodes().len(), nodes, "{}", row.name);
            assert_shaped(row.name, document.nodes());
        }
        let by_list = yaml_parser_load_all(Global, listed(row.fields[0], N)).unwrap();
        assert!(all.documents == by_list.documents && all.fault == by_list.fault, "{}", row.name);
    });
}
