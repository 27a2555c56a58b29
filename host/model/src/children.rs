//! Who has been under a parent longest: document 02, W5, "First in, first served."

use std::collections::BTreeMap;

/// For each place that others are linked to, those places; first the one that "has been under this parent longest". In such a list "this
/// order is strict". A place on its way stands in no list.
#[derive(Clone, PartialEq, Eq, Debug, Default)]
pub struct Children {
    of: BTreeMap<u8, Vec<u8>>,
}

impl Children {
    /// The places linked to this parent, first the one that has been there longest.
    pub fn under(&self, parent: u8) -> &[u8] {
        self.of.get(&parent).map_or(&[], Vec::as_slice)
    }

    /// Each place that others are linked to, with those.
    pub fn lists(&self) -> impl Iterator<Item = (u8, &[u8])> {
        self.of.iter().map(|(&parent, list)| (parent, list.as_slice()))
    }

    /// "A place that comes is the latest"; and "Loaded places count in file order", so a loaded one is the latest too.
    pub fn comes(&mut self, place: u8, parent: u8) {
        self.of.entry(parent).or_default().push(place);
    }

    /// The place is no longer linked to this parent.
    pub fn leaves(&mut self, place: u8, parent: u8) {
        let list = self.of.entry(parent).or_default();
        list.retain(|&other| other != place);
        if list.is_empty() {
            self.of.remove(&parent);
        }
    }

    /// The place, which is linked to this parent, is opened: "children freed by an opening become the latest and keep their order among
    /// themselves."
    pub fn opened(&mut self, place: u8, parent: u8) {
        self.leaves(place, parent);
        for freed in self.of.remove(&place).unwrap_or_default() {
            self.comes(freed, parent);
        }
    }
}
