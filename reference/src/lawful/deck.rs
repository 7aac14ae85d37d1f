//! The faces of a zone as its cells use them.

use std::collections::BTreeSet;

use crate::random::Random;

/// References to faces: each face once with either sign while these last, then any.
#[derive(Clone, Debug)]
pub struct Deck {
    faces: Vec<i64>,
    unused: Vec<i64>,
}

impl Deck {
    /// The references to these faces; any from the start on where they are not to be spared.
    pub fn new(random: &mut Random, faces: Vec<i64>, sparing: bool) -> Deck {
        let mut unused: Vec<i64> = faces.iter().flat_map(|&face| [face, -face]).collect();
        random.shuffle(&mut unused);
        unused.truncate(if sparing { unused.len() } else { 0 });
        Deck { faces, unused }
    }

    /// The same with the references that come first naming each face once, so that none is left out while these last.
    pub fn covering(self) -> Deck {
        let mut named = BTreeSet::new();
        let (first, again): (Vec<i64>, Vec<i64>) = self.unused.into_iter().partition(|face| named.insert(face.abs()));
        Deck { unused: [first, again].concat(), ..self }
    }

    /// How many references are unused.
    pub fn unused(&self) -> usize {
        self.unused.len()
    }

    /// So many references: unused ones if these are enough, else any. There is a face.
    pub fn take(&mut self, random: &mut Random, count: usize) -> Vec<i64> {
        if count <= self.unused.len() {
            return self.unused.drain(..count).collect();
        }
        (0..count).map(|_| *random.pick(&self.faces) * *random.pick(&[1, -1])).collect()
    }
}
