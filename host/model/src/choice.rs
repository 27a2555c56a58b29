//! When an action fires and which place it chooses, for the cell and for the plain tree alike.

use crate::cell::{Action, Kind, Places};
use std::collections::BTreeMap;

/// The places that an enter or open of an agent with this home can choose under p: "Enter n fires if another place linked to p is
/// named n." "Open n fires if a place linked to p is named n and nothing is on its way to it." Named n is read with document 02, W6: "An
/// action's number is compared with the key of its kind on the place entered, left or opened".
pub fn qualifying(places: &Places, home: u8, p: u8, action: Action) -> Vec<u8> {
    let mut found = Vec::new();
    for (&number, place) in places {
        if place.linked_to() != Some(p) || !place.keys.fit(action) {
            continue;
        }
        let qualifies = match action.kind {
            Kind::Enter => number != home,
            Kind::Open => places.values().all(|other| other.on_its_way_to() != Some(number)),
            Kind::Exit | Kind::Release => false,
        };
        if qualifies {
            found.push(number);
        }
    }
    found
}

/// "Enter and open choose the wished place if it qualifies .. Other wishes are passed over." Document 02, W5: "Where no fitting wish is
/// given, enter and open choose the qualifying place that has been under this parent longest." `under` are the places under p, the one
/// first that has been there longest.
pub fn choose(places: &Places, under: &[u8], home: u8, p: u8, action: Action, wish: u8) -> Option<u8> {
    let found = qualifying(places, home, p, action);
    if found.contains(&wish) {
        Some(wish)
    } else {
        under.iter().copied().find(|place| found.contains(place))
    }
}

/// "Exit n fires if p is named n and p is linked", where named n is read with p's key for exiting (document 02, W6).
pub fn can_exit(places: &Places, p: u8, action: Action) -> bool {
    places[&p].keys.fit(action) && places[&p].linked_to().is_some()
}

/// Document 02, W11: a release puts its place "under the smallest unused number", of the numbers 1 to 63 (the floor is always in use); there is
/// none "With all numbers in use".
pub fn smallest_unused<T>(places: &BTreeMap<u8, T>) -> Option<u8> {
    (1..=63).find(|number| !places.contains_key(number))
}
