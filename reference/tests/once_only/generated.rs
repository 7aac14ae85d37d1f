//! Images of the generator, and lawful images with several children of labels allowed once.

use std::collections::{BTreeMap, BTreeSet};

use reference::build::Image;
use reference::damage::{damages_of, Damage};
use reference::generate::image;
use reference::lawful::{lawful, SizeClass};
use reference::random::Random;
use reference::text::{padded, trimmed};
use reference::validate;

use crate::{check_alike, insert, node_of, ONCE_ONLY};

#[test]
fn generated_images_are_answered_alike() {
    let runs = [
        (22, SizeClass::Small, 5_000, 15),
        (23, SizeClass::Small, 3_960, 6),
        (24, SizeClass::Medium, 660, 2),
        (25, SizeClass::Large, 132, 0),
    ];
    for (seed, class, count, least) in runs {
        let check = |index: &u64| check_alike(&image(seed, *index, class), &format!("{class:?} {seed} {index}"));
        let again = (0..count).filter(|index| check(index) > 0).count();
        assert!(again >= least, "{class:?} {seed}: {again}");
    }
}

/// Adds two to four nodes of labels allowed once below one node of an image, mostly of one label and under few names.
fn crowd(image: &mut Image, random: &mut Random) {
    let may_hold = ["Zone_t", "GridCoordinates_t", "FlowSolution_t", "Elements_t"];
    let holding = |n: &usize| *n == 0 || may_hold.iter().any(|label| image.nodes[*n].is_labelled(label));
    let parents: Vec<usize> = (0..image.nodes.len()).filter(holding).collect();
    let parent = if random.one_in(3) { random.index(image.nodes.len()) } else { *random.pick(&parents) };
    let mut once = *random.pick(&ONCE_ONLY);
    for _ in 0..2 + random.below(3) {
        let (_, label, fixed) = once;
        let name = if random.one_in(4) { fixed.to_string() } else { format!("{fixed}{}", random.below(9)) };
        let place = parent + 1 + random.index(image.nodes.len() - parent);
        insert(image, parent, place, node_of(label, padded(name.as_bytes()), 1));
        if random.one_in(4) {
            once = *random.pick(&ONCE_ONLY);
        }
    }
}

#[test]
fn crowded_images_are_answered_alike() {
    let mut answers: BTreeMap<u32, u64> = BTreeMap::new();
    let mut again = 0;
    for (class, count) in [(SizeClass::Small, 10_000), (SizeClass::Medium, 500)] {
        for index in 0..count {
            let mut random = Random::new(522, index);
            let mut image = lawful(&mut random, class);
            crowd(&mut image, &mut random);
            let bytes = image.to_bytes();
            again += u64::from(check_alike(&bytes, &format!("{class:?} {index}")) > 0);
            *answers.entry(validate(&bytes).map_or_else(|r| r.rule, |_| 0)).or_default() += 1;
        }
    }
    assert!([0, 11, 20, 21].iter().all(|rule| answers.get(rule).is_some_and(|&n| n > 500)), "{answers:?}");
    assert!(again > 3_000, "{again}");
}

/// The labels of the parent of a node and of the node itself, if that label is one allowed once and one sibling has it.
fn place_of_second(image: &Image, node: usize) -> Option<String> {
    let parent = image.parent(node)?;
    let label = image.nodes[node].label;
    let once = ONCE_ONLY.iter().any(|(_, once, _)| image.nodes[node].is_labelled(once));
    let alike = image.children(parent).into_iter().filter(|&n| image.nodes[n].label == label).count();
    let above = if parent == 0 { b"root" } else { trimmed(&image.nodes[parent].label) };
    (once && alike == 2).then(|| [above, trimmed(&label)].map(String::from_utf8_lossy).join("/"))
}

#[test]
fn second_children_are_generated_in_every_place() {
    for rule in [11, 21] {
        let mut met: BTreeSet<String> = BTreeSet::new();
        for index in 0..2_000 {
            let mut random = Random::new(u64::from(rule), index);
            let mut image = lawful(&mut random, SizeClass::Small);
            if let Damage::Nodes(change) = random.pick(damages_of(rule)) {
                change(&mut image, &mut random);
            }
            let refusal = validate(&image.to_bytes()).err().filter(|r| r.rule == rule);
            met.extend(refusal.and_then(|r| place_of_second(&image, r.node as usize)));
        }
        let places = [
            "Elements_t/Rind_t",
            "FlowSolution_t/GridLocation_t",
            "FlowSolution_t/Rind_t",
            "GridCoordinates_t/Rind_t",
            "Zone_t/ZoneType_t",
            "root/CGNSLibraryVersion_t",
        ];
        assert!(places.iter().all(|place| met.contains(*place)), "rule {rule}: {met:?}");
    }
}
