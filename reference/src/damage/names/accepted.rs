//! Cases whose name bytes are counted: names that part early or late, in every place, and alike where they may be.

use super::site::{Place, Site, FOREIGN};
use super::texts::{self, changed, Names};
use super::Answer;
use crate::build::Node;
use crate::damage::pick::{labelled, some_node};
use crate::lawful::SizeClass;
use crate::text::Text;

/// A short family with names of a kind, anywhere.
fn short_family(site: &mut Site, names: Names) -> Option<Answer> {
    let count = site.few()?;
    let place = site.any_place()?;
    let names = names(site.random, count);
    site.accepted(&place, &names)
}

/// Names that differ in the first byte.
pub fn first_byte(site: &mut Site) -> Option<Answer> {
    short_family(site, texts::first_byte)
}

/// Names that differ in the last byte.
pub fn last_byte(site: &mut Site) -> Option<Answer> {
    short_family(site, texts::last_byte)
}

/// Names that part anywhere.
pub fn branching(site: &mut Site) -> Option<Answer> {
    short_family(site, texts::branching)
}

/// Names with blanks in them.
pub fn blanks(site: &mut Site) -> Option<Answer> {
    short_family(site, texts::blanks)
}

/// Names that differ in each of the 32 bytes.
pub fn every_byte(site: &mut Site) -> Option<Answer> {
    let names = texts::ladder(site.random, 33);
    long_family(site, &names)
}

/// Names of each length from 1 to 32, all with the same bytes.
pub fn prefixes(site: &mut Site) -> Option<Answer> {
    let names = texts::prefixes(site.random, 32);
    long_family(site, &names)
}

/// Many names of any kind.
pub fn many_siblings(site: &mut Site) -> Option<Answer> {
    let count = site.many();
    let names = site.any_names(count);
    long_family(site, &names)
}

/// A family with these names, anywhere; the image is made to have room for it.
fn long_family(site: &mut Site, names: &[Text]) -> Option<Answer> {
    site.make_room(names.len() + 1);
    let place = site.any_place()?;
    site.accepted(&place, names)
}

/// Zones of a base, with a type each.
pub fn zones(site: &mut Site) -> Option<Answer> {
    let (least, most) = match site.class {
        SizeClass::Small => (3, 11),
        SizeClass::Medium => (20, 150),
        SizeClass::Large => (200, 1_500),
    };
    let count = site.random.between(least, most) as usize;
    site.make_room(2 * count);
    let base = labelled(site.image, site.random, "CGNSBase_t")?;
    let names = texts::numbered(site.random, count);
    let nodes = site.members(&Place { parent: base, labels: vec!["Zone_t"] }, &names)?;
    for zone in site.add(base, nodes) {
        site.image.add(zone, Node::text("ZoneType", "ZoneType_t", "Unstructured"));
    }
    Some(Answer::Accepted)
}

/// A family of skipped nodes.
pub fn skipped(site: &mut Site) -> Option<Answer> {
    let count = site.few()?;
    let place = site.skipped_place()?;
    let names = site.any_names(count);
    site.accepted(&place, &names)
}

/// A family of validated and skipped nodes.
pub fn known_and_unknown(site: &mut Site) -> Option<Answer> {
    let count = site.few()?;
    let mut place = site.validated_place()?;
    place.labels.extend(FOREIGN);
    let names = site.any_names(count);
    site.accepted(&place, &names)
}

/// The same names under two parents.
pub fn cousins(site: &mut Site) -> Option<Answer> {
    let count = (site.few()? / 2).max(2);
    let names = site.any_names(count);
    let mut places = [site.foreign_place(), site.validated_place()?];
    // nodes up to the lower parent keep their numbers
    places.sort_by_key(|place| std::cmp::Reverse(place.parent));
    if places[0].parent == places[1].parent {
        return None;
    }
    for place in places {
        let mut mixed = names.clone();
        site.random.shuffle(&mut mixed);
        site.accepted(&place, &mixed)?;
    }
    Some(Answer::Accepted)
}

/// Children with the names of the nodes above them and of those beside these.
pub fn names_from_above(site: &mut Site) -> Option<Answer> {
    let place = site.foreign_place();
    let (image, parent) = (&site.image, place.parent);
    let above = image.parent(parent).unwrap_or(0);
    let mut names: Vec<Text> =
        [parent, above, 0].into_iter().chain(image.children(above)).map(|n| image.nodes[n].name).collect();
    names.sort_unstable();
    names.dedup();
    site.random.shuffle(&mut names);
    names.truncate(site.few()?);
    site.accepted(&place, &names)
}

/// Siblings of a node that have its name but for one byte, mostly the last.
pub fn nearly_alike(site: &mut Site) -> Option<Answer> {
    if site.class.room(site.image) < 2 {
        return None;
    }
    let node = some_node(site.image, site.random, |_, n| n > 0)?;
    let (parent, name) = (site.image.parent(node)?, site.image.nodes[node].name);
    let mut names = vec![changed(site.random, name, 31)];
    while names.len() < 2 {
        let place = *site.random.pick(&[31, 31, 30, 16, 8, 0]);
        let other = changed(site.random, name, place);
        names.extend((other != names[0]).then_some(other));
    }
    site.accepted(&Place { parent, labels: FOREIGN.to_vec() }, &names)
}
