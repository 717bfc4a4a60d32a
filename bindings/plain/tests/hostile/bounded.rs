//! Events within bounds on nodes: how many come, and which error ends them. A test vector has the name of a file
//! of token lines after `bounded_`, the bounds on nodes and on the expanded size, `-` for none, and what comes.

use crate::lines::tokens::source_of;
use crate::yaml_bounds::{yaml_node_bounds_t, yaml_parser_bounded_events};
use crate::{each_row, read};
use pokhvizi::kit::Global;
use pokhvizi::unsafe_libyaml::yaml_parser_initialize;

#[test]
fn events_end_at_a_bound() {
    each_row("events within bounds", 25, |row| {
        let lines = read(&format!("bounded_{}.tokens", row.fields[0]));
        let mut parser = yaml_parser_initialize(Global, source_of(&lines));
        let (max_nodes, max_expanded) = (row.fields[1].parse().ok(), row.fields[2].parse().ok());
        let bounds = yaml_node_bounds_t { max_nodes, max_expanded };
        let (mut count, mut told) = (0, String::new());
        for item in yaml_parser_bounded_events(&mut parser, bounds) {
            match item {
                Ok(_) => count += 1,
                Err(fault) => told = format!(", {fault}"),
            }
        }
        assert_eq!(format!("{count} events{told}"), row.wanted, "{}", row.name);
    });
}
