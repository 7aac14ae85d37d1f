//! Cases that are refused: by rule 11 at the later of two siblings, by the rules beside it where these come first, and by
//! rules that name bytes do not ask for.

use super::site::{Place, Site, FOREIGN};
use super::Answer;
use crate::build::{Image, Node};
use crate::damage::pick::{labelled, some_node};

/// Adds a family in which the later of each pair of members takes the name of the earlier; answers its numbers.
fn with_twins(site: &mut Site, place: &Place, mut nodes: Vec<Node>, pairs: &[[usize; 2]]) -> Vec<usize> {
    for &[earlier, later] in pairs {
        nodes[later].name = nodes[earlier].name;
    }
    site.add(place.parent, nodes)
}

/// The members of a short family, so many at least, and its place.
fn short_family(site: &mut Site, least: usize) -> Option<(Place, Vec<Node>)> {
    let count = site.few()?;
    let place = site.any_place()?;
    let names = site.any_names(count);
    let nodes = site.members(&place, &names)?;
    (nodes.len() >= least).then_some((place, nodes))
}

/// Different places of a list, ascending.
fn places<const N: usize>(site: &mut Site, count: usize) -> [usize; N] {
    let mut all: Vec<usize> = (0..count).collect();
    site.random.shuffle(&mut all);
    all[..N].sort_unstable();
    std::array::from_fn(|k| all[k])
}

/// 11 at a node with the name of an earlier sibling.
pub fn twin(site: &mut Site) -> Option<Answer> {
    let (place, nodes) = short_family(site, 2)?;
    let pair = places(site, nodes.len());
    let numbers = with_twins(site, &place, nodes, &[pair]);
    Some(Answer::at_node(11, numbers[pair[1]]))
}

/// 11 at the last of many siblings, which has the name of the first.
pub fn far_twin(site: &mut Site) -> Option<Answer> {
    let count = site.many();
    site.make_room(count + 1);
    let place = site.any_place()?;
    let names = site.any_names(count);
    let nodes = site.members(&place, &names)?;
    let last = nodes.len() - 1;
    let numbers = with_twins(site, &place, nodes, &[[0, last]]);
    Some(Answer::at_node(11, numbers[last]))
}

/// 11 at the second of three siblings of one name.
pub fn three_alike(site: &mut Site) -> Option<Answer> {
    let (place, nodes) = short_family(site, 3)?;
    let [first, second, third] = places(site, nodes.len());
    let numbers = with_twins(site, &place, nodes, &[[first, second], [first, third]]);
    Some(Answer::at_node(11, numbers[second]))
}

/// 11 at the earlier of two nodes that have names of earlier siblings.
pub fn two_pairs(site: &mut Site) -> Option<Answer> {
    let (place, nodes) = short_family(site, 4)?;
    let [a, b, c, d] = places(site, nodes.len());
    let (pairs, lower) = match site.random.below(3) {
        0 => ([[a, d], [b, c]], c),
        1 => ([[a, c], [b, d]], c),
        _ => ([[a, b], [c, d]], b),
    };
    let numbers = with_twins(site, &place, nodes, &pairs);
    Some(Answer::at_node(11, numbers[lower]))
}

/// 11 among skipped nodes.
pub fn skipped_twin(site: &mut Site) -> Option<Answer> {
    let count = site.few()?;
    let place = site.skipped_place()?;
    let names = site.any_names(count);
    let nodes = site.members(&place, &names)?;
    let pair = places(site, nodes.len());
    let numbers = with_twins(site, &place, nodes, &[pair]);
    Some(Answer::at_node(11, numbers[pair[1]]))
}

/// 11 at the later of a node of the image and a new sibling, which has its name and another label, type and data.
pub fn twin_of_another_label(site: &mut Site) -> Option<Answer> {
    let node = some_node(site.image, site.random, |_, n| n > 0)?;
    let (parent, name) = (site.image.parent(node)?, site.image.nodes[node].name);
    let label = *site.random.pick(FOREIGN);
    let new = Node { name, ..Node::text("", label, "text") };
    site.add(parent, vec![new]);
    let later = site.image.children(parent).into_iter().rfind(|&n| site.image.nodes[n].name == name)?;
    Some(Answer::at_node(11, later))
}

/// A node with the name of an earlier sibling, and a rule that is broken there, before it or behind it.
pub fn twin_beside_another_rule(site: &mut Site) -> Option<Answer> {
    let (place, nodes) = short_family(site, 3)?;
    let [first, second, third] = places(site, nodes.len());
    let numbers = with_twins(site, &place, nodes, &[[first, second]]);
    let kind = site.random.below(7);
    let image: &mut Image = site.image;
    let [first, second, third] = [first, second, third].map(|k| numbers[k]);
    let (rule, node) = match kind {
        0 => {
            image.nodes[second].parent = second as u32;
            (7, second)
        }
        1 => {
            image.nodes[second].label[0] = b' ';
            (10, second)
        }
        2 => {
            image.nodes[second].data_type = *b"LK";
            (11, second)
        }
        3 => {
            image.nodes[first].data_type = *b"LK";
            (12, first)
        }
        4 => {
            image.nodes[first].name[31] = b'/';
            image.nodes[second].name[31] = b'/';
            (9, first)
        }
        5 => {
            image.nodes[third].name[0] = b' ';
            (11, second)
        }
        _ => {
            image.trailing_data = vec![0; 3];
            (11, second)
        }
    };
    Some(Answer::at_node(rule, node))
}

/// 20 at the first of a family of labels that a base does not hold, or 23 at the first of zones without a type.
pub fn counted_all_the_same(site: &mut Site) -> Option<Answer> {
    let count = site.few()?;
    let parent = labelled(site.image, site.random, "CGNSBase_t")?;
    let (rule, labels) =
        if site.random.one_in(2) { (20, vec!["DataArray_t", "Rind_t", "Elements_t"]) } else { (23, vec!["Zone_t"]) };
    let names = site.any_names(count);
    let nodes = site.members(&Place { parent, labels }, &names)?;
    let numbers = site.add(parent, nodes);
    Some(Answer::at_node(rule, numbers[0]))
}
