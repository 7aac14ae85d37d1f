//! Damage to data types, dimensions, values and array sizes (rules 24 to 26).

use super::pick::{add_anywhere, change, is_validated, labelled, points_node, section, some_node, validated_node};
use crate::build::{Image, Node};
use crate::lawful::STORING_TYPES;
use crate::random::Random;
use crate::sizes::MAX_NUMBER;

/// Gives a node a data type or dimensions that are not its label's, lawful by rules 1 to 18.
pub fn break_type(random: &mut Random, node: &mut Node) {
    let width = node.width();
    if width == 0 {
        node.data_type = random.pick(&STORING_TYPES).as_bytes().try_into().unwrap();
        node.reshape(&[1 + random.below(2)]);
        return;
    }
    let dimensions = node.dimensions.clone();
    match random.below(5) {
        0 => {
            let same_width: &[&[u8; 2]] = match width {
                1 => &[b"B1"],
                4 => &[b"U4", b"I4", b"R4"],
                8 => &[b"U8", b"X4", b"R8", b"I8"],
                _ => &[b"X8"],
            };
            node.data_type = **random.pick(same_width);
        }
        1 => {
            node.data_type = random.pick(&STORING_TYPES).as_bytes().try_into().unwrap();
            node.reshape(&dimensions);
        }
        2 => {
            node.data_type = *b"MT";
            node.dimensions.clear();
            node.data.clear();
        }
        3 => node.dimensions.insert(random.index(dimensions.len() + 1), 1),
        _ => {
            let mut other = dimensions;
            other[0] += 1;
            node.reshape(&other);
        }
    }
}

/// A data type or dimensions that are not the label's, at any validated node (rule 24).
pub fn other_type(image: &mut Image, random: &mut Random) {
    if let Some(node) = validated_node(image, random) {
        break_type(random, &mut image.nodes[node]);
    }
}

/// The same at a node of a chosen label, or at a range or list of points (rule 24).
pub fn other_shape(image: &mut Image, random: &mut Random) {
    let label = *random.pick(&[
        "CGNSBase_t",
        "Zone_t",
        "Rind_t",
        "Elements_t",
        "DataArray_t",
        "GridLocation_t",
        "Descriptor_t",
        "CGNSLibraryVersion_t",
        "UserDefinedData_t",
        "FlowSolution_t",
        "GridCoordinates_t",
        "points",
    ]);
    let node = if label == "points" { points_node(image, random) } else { labelled(image, random, label) };
    if let Some(node) = node {
        break_type(random, &mut image.nodes[node]);
    }
}

/// An array of a section with a type that it may not have: ElementStartOffset where none is needed, or another one
/// (rule 24).
pub fn section_array_type(image: &mut Image, random: &mut Random) {
    let Some(section) = section(image, random) else {
        return;
    };
    let offsets = image.child(section, "ElementStartOffset").is_none() && !random.one_in(3);
    let node = if offsets {
        let mut node = Node::list("ElementStartOffset", *random.pick(&[4, 8]), &[0, 3]);
        break_type(random, &mut node);
        node
    } else {
        Node::empty("Volume", "DataArray_t")
    };
    add_anywhere(image, random, section, node);
}

/// A Rind or GridLocation that does not conform, its arrays given the default size.
pub fn rind_to_default(image: &mut Image, random: &mut Random) {
    let label = *random.pick(&["Rind_t", "GridLocation_t"]);
    let Some(node) = labelled(image, random, label) else {
        return;
    };
    if random.one_in(2) {
        break_type(random, &mut image.nodes[node]);
    } else if label == "Rind_t" {
        negative_rind(&mut image.nodes[node]);
    } else {
        image.nodes[node].set_text("FaceCenter");
    }
    let parent = image.nodes[node].parent as usize;
    let zone = image.nodes[parent].parent as usize;
    let sizes = image.nodes[zone].numbers();
    let vertices: Vec<u64> = sizes[..sizes.len() / 3].iter().map(|&n| n as u64).collect();
    let values = vertices.iter().try_fold(1u64, |p, &n| p.checked_mul(n));
    if values.is_none_or(|values| values > 1 << 16) || !image.nodes[zone].is_labelled("Zone_t") {
        return;
    }
    for child in image.children(parent) {
        if image.nodes[child].is_labelled("DataArray_t") {
            image.nodes[child].reshape(&vertices);
        }
    }
}

/// Makes a rind number negative.
fn negative_rind(node: &mut Node) {
    let mut numbers = node.numbers();
    if let Some(last) = numbers.last_mut() {
        *last = -1;
    }
    node.set_numbers(&numbers);
}

/// A value that is not permitted (rule 25).
pub fn other_values(image: &mut Image, random: &mut Random) {
    let label = *random.pick(&["CGNSBase_t", "Zone_t", "Rind_t", "GridLocation_t", "Elements_t", "points"]);
    let number = if label == "points" { points_node(image, random) } else { labelled(image, random, label) };
    let Some(number) = number else {
        return;
    };
    let node = &mut image.nodes[number];
    let numbers = node.numbers();
    match label {
        "CGNSBase_t" => {
            let values = [[0, 3], [4, 4], [-1, 2], [3, 2], [2, 1], [1, 4], [i64::from(i32::MIN), 1]];
            node.set_numbers(random.pick::<[i64; 2]>(&values));
        }
        "GridLocation_t" => {
            let texts = ["vertex", "Vertex ", "CellCente", "FaceCenter", "CellCenterCellCenter"];
            let text = *random.pick(&texts);
            node.set_text(text);
        }
        "Elements_t" => {
            change(image, number, 1, *random.pick(&[-1, i64::from(i32::MIN)]));
        }
        "Rind_t" => {
            let place = random.index(numbers.len());
            change(image, number, place, *random.pick(&[-1, i64::from(i32::MIN)]));
        }
        "points" => {
            let place = random.index(numbers.len());
            let beyond = if node.width() == 8 { MAX_NUMBER + 1 } else { i64::from(i32::MIN) };
            let values = [MAX_NUMBER, -MAX_NUMBER, beyond, i64::from(i32::MIN), i64::MIN];
            change(image, number, place, *random.pick(&values));
        }
        _ if numbers.len() < 3 => (),
        _ => {
            let place = random.index(numbers.len());
            let vertices = numbers[place % (numbers.len() / 3)];
            let beyond = if node.width() == 8 { MAX_NUMBER + 1 } else { -1 };
            let far = if node.width() == 8 { i64::MAX } else { -5 };
            let (more, other) = (vertices.saturating_add(1), numbers[place].saturating_add(1));
            let values = [-1, 0, 1, more, beyond, other, far, i64::MIN];
            change(image, number, place, *random.pick(&values));
        }
    }
}

/// One of the validated arrays under coordinates or flow.
fn sized_array(image: &Image, random: &mut Random) -> Option<usize> {
    some_node(image, random, |image, n| {
        let Some(parent) = image.parent(n) else {
            return false;
        };
        let above = &image.nodes[parent];
        image.nodes[n].is_labelled("DataArray_t")
            && (above.is_labelled("GridCoordinates_t") || above.is_labelled("FlowSolution_t"))
            && is_validated(image, n)
    })
}

/// Other dimensions of a coordinate or flow array (rule 26).
pub fn other_array_size(image: &mut Image, random: &mut Random) {
    let Some(number) = sized_array(image, random) else {
        return;
    };
    let node = &mut image.nodes[number];
    let mut dimensions = node.dimensions.clone();
    let place = random.index(dimensions.len());
    match random.below(6) {
        0 => dimensions[place] += 1,
        1 if dimensions[place] > 1 => dimensions[place] -= 1,
        2 => dimensions.push(1),
        3 => dimensions.insert(0, 1),
        4 if dimensions.len() > 1 => dimensions.swap(0, 1),
        5 if dimensions.len() > 1 => {
            let last = dimensions.pop().unwrap_or(1);
            dimensions[0] *= last;
        }
        _ => dimensions[place] *= 2,
    }
    node.reshape(&dimensions);
}

/// Other rind numbers (rule 26).
pub fn other_rind(image: &mut Image, random: &mut Random) {
    let Some(number) = labelled(image, random, "Rind_t") else {
        return;
    };
    let node = &mut image.nodes[number];
    let mut numbers = node.numbers();
    let place = random.index(numbers.len());
    if numbers.is_empty() {
        return;
    }
    if random.one_in(3) {
        numbers.rotate_right(1);
    } else {
        numbers[place] = *random.pick(&[0, 1, 2, 3, MAX_NUMBER]);
    }
    node.set_numbers(&numbers);
}

/// Another grid location (rule 26).
pub fn other_location(image: &mut Image, random: &mut Random) {
    if let Some(node) = labelled(image, random, "GridLocation_t") {
        let cells = image.nodes[node].data == b"CellCenter";
        image.nodes[node].set_text(if cells { "Vertex" } else { "CellCenter" });
    } else if let Some(flow) = labelled(image, random, "FlowSolution_t") {
        let location = Node::text("GridLocation", "GridLocation_t", "CellCenter");
        add_anywhere(image, random, flow, location);
    }
}

/// A range or list of points removed, or of another count (rule 26).
pub fn other_points(image: &mut Image, random: &mut Random) {
    let Some(number) = points_node(image, random) else {
        return;
    };
    let node = &mut image.nodes[number];
    let mut numbers = node.numbers();
    match (&node.dimensions[..], random.below(3)) {
        (_, 0) | ([], _) => image.remove(number),
        (&[directions, count], _) if node.is_labelled("IndexArray_t") => {
            node.reshape(&[directions, if count > 1 && random.one_in(2) { count - 1 } else { count + 1 }])
        }
        _ => {
            let place = random.index(numbers.len());
            numbers[place] = numbers[place].saturating_add(*random.pick(&[1, -1]));
            node.set_numbers(&numbers);
        }
    }
}

/// A Rind or GridLocation that does not conform, so that its arrays are measured by the default.
pub fn rind_broken(image: &mut Image, random: &mut Random) {
    if let Some(node) = labelled(image, random, "Rind_t") {
        if random.one_in(2) {
            negative_rind(&mut image.nodes[node]);
        } else {
            break_type(random, &mut image.nodes[node]);
        }
    } else if let Some(node) = labelled(image, random, "GridLocation_t") {
        image.nodes[node].set_text("Nowhere");
    }
}
