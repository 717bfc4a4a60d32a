//! Where the events of a list belong, beside the documents that its loads give.

use crate::lines::growing::listed;
use pokhvizi::kit::Global;
use pokhvizi::unsafe_libyaml::*;

/// The places of a source's events, each with how many documents end before it.
fn places_of(source: yaml_list_source_t) -> Vec<(usize, yaml_place_t)> {
    let (mut places, mut ended) = (Vec::new(), 0);
    for item in yaml_parser_placed_events(&mut yaml_parser_initialize(Global, source)) {
        let (event, place) = item.unwrap();
        places.extend(place.map(|place| (ended, place)));
        ended += usize::from(event.type_() == YAML_DOCUMENT_END_EVENT);
    }
    places
}

/// Whether the document has the id there.
fn has(document: &yaml_document_t, place: &yaml_place_t) -> bool {
    let Some(parent) = yaml_document_get_node(document, place.parent) else {
        return place.role == yaml_role_t::Root && place.parent == 0 && place.id == 1;
    };
    let index = place.index as usize;
    let there = match place.role {
        yaml_role_t::Root => None,
        yaml_role_t::Item => parent.items().get(index).copied(),
        yaml_role_t::Key => parent.pairs().get(index).map(|pair| pair.key),
        yaml_role_t::Value => parent.pairs().get(index).map(|pair| pair.value),
    };
    there == Some(place.id)
}

/// A row has the parts of a list; and for each place its id, role, parent, index and depth, and whether
/// all documents have them.
#[test]
fn each_event_has_the_place_of_its_node() {
    crate::table("places", 4, |row| {
        let places = places_of(listed(row.fields[0], 1));
        let all = yaml_parser_load_all(Global, listed(row.fields[0], 1)).unwrap();
        let mut text = String::new();
        for (_, yaml_place_t { id, parent, role, index, depth }) in &places {
            text += &format!("{id} {role:?} {parent} {index} {depth};");
        }
        let mut are_there = places.iter().map(|(number, place)| has(&all.documents[*number], place));
        format!("{text}{}", are_there.all(|is_there| is_there))
    });
}
