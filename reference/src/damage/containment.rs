//! Damage to containment, fixed names and required children (rules 20, 21 and 23).

use super::pick::{add_anywhere, is_validated, labelled, plain_node, points_node, some_node};
use super::values::break_type;
use crate::build::Image;
use crate::labels::LABELS;
use crate::random::Random;
use crate::sizes::MAX_NUMBER;
use crate::text::padded;

/// A known label under any validated node (rule 20, unless its place is lawful).
pub fn misplaced(image: &mut Image, random: &mut Random) {
    let Some(parent) = some_node(image, random, is_validated) else {
        return;
    };
    let label = random.pick(&LABELS).1;
    let fixed = label.trim_end_matches("_t");
    let name = if random.one_in(2) { fixed } else { "Misplaced" };
    let node = plain_node(random, name, label);
    add_anywhere(image, random, parent, node);
}

/// A section in a zone that is structured (rule 20).
pub fn section_in_structured_zone(image: &mut Image, random: &mut Random) {
    if let Some(section) = labelled(image, random, "Elements_t") {
        let zone = image.nodes[section].parent as usize;
        if let Some(zone_type) = image.child(zone, "ZoneType") {
            image.nodes[zone_type].set_text("Structured");
            let base = image.nodes[zone].parent as usize;
            image.nodes[base].set_numbers(&[1, 2]);
            image.nodes[zone].set_numbers(&[3, 2, 0]);
        }
    } else if let Some(zone) = labelled(image, random, "Zone_t") {
        let node = plain_node(random, "Section", "Elements_t");
        add_anywhere(image, random, zone, node);
    }
}

/// A fixed name not used (rule 21).
pub fn renamed(image: &mut Image, random: &mut Random) {
    let label = *random.pick(&["CGNSLibraryVersion_t", "Rind_t", "GridLocation_t", "points"]);
    let node = if label == "points" { points_node(image, random) } else { labelled(image, random, label) };
    if let Some(node) = node {
        let names = ["Renamed", "rind", "Rind1", "CGNSLibraryVersio", "GridLocation_t", "Pointrange", "PointLis"];
        image.nodes[node].name = padded(random.pick(&names).as_bytes());
    }
}

/// A child that its parent requires: ZoneType, ElementRange or ElementConnectivity.
fn required_child(image: &Image, random: &mut Random) -> Option<usize> {
    let (parent, name) =
        *random.pick(&[("Zone_t", "ZoneType"), ("Elements_t", "ElementRange"), ("Elements_t", "ElementConnectivity")]);
    let parent = labelled(image, random, parent)?;
    image.child(parent, name)
}

/// A required child removed, renamed or under another label (rule 23).
pub fn required_removed(image: &mut Image, random: &mut Random) {
    let Some(child) = required_child(image, random) else {
        return;
    };
    match random.below(3) {
        0 => image.remove(child),
        1 => image.nodes[child].name = padded(b"Other Name"),
        _ => {
            let node = &mut image.nodes[child];
            node.label = padded(b"UserDefinedData_t");
            node.data_type = *b"MT";
            node.dimensions.clear();
            node.data.clear();
        }
    }
}

/// A required child that does not conform (rule 23).
pub fn required_broken(image: &mut Image, random: &mut Random) {
    let Some(child) = required_child(image, random) else {
        return;
    };
    if random.one_in(2) {
        break_type(random, &mut image.nodes[child]);
        return;
    }
    let node = &mut image.nodes[child];
    if node.is_named("ZoneType") {
        let texts = ["structured", "Unstructured ", "UserDefined", "S", "Structure"];
        let text = *random.pick(&texts);
        node.set_text(text);
    } else if node.is_named("ElementRange") {
        let wide = node.width() == 8;
        let [first, last] = node.numbers()[..] else {
            return;
        };
        let beyond = if wide { MAX_NUMBER + 1 } else { i64::from(i32::MIN) };
        let (above, below) = (last.saturating_add(1), first.saturating_sub(1));
        let ranges = [[0, last], [-1, last], [above, last], [first, beyond], [first, below]];
        node.set_numbers(random.pick::<[i64; 2]>(&ranges));
    }
}

/// No base at all (rule 23).
pub fn no_base(image: &mut Image, random: &mut Random) {
    while let Some(base) = image.children(0).into_iter().find(|&n| image.nodes[n].is_labelled("CGNSBase_t")) {
        if random.one_in(2) {
            image.remove(base);
        } else {
            image.nodes[base].label = padded(b"CGNSBase");
        }
    }
}
