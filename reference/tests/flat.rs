//! Flat faces and cells (document 02, §2): rule 33 and the rules beside it.

use reference::build::{Image, Node};
use reference::cases::tetrahedron;
use reference::validate;

/// The pairs of CellDimension and PhysicalDimension that a base may have.
const DIMENSIONS: [[i64; 2]; 6] = [[1, 1], [1, 2], [1, 3], [2, 2], [2, 3], [3, 3]];

/// The rule and node of the refusal; (0, 0) for none.
fn refusal(image: &Image) -> (u32, u64) {
    validate(&image.to_bytes()).map_or_else(|r| (r.rule, r.node), |_| (0, 0))
}

/// Adds a section of elements of these sizes, all of whose references are 1; its range, start offsets and connectivity
/// come behind it.
fn add_section(image: &mut Image, zone: usize, element_type: i64, first: i64, sizes: &[i64], width: usize) -> usize {
    let own = Node::integers(&format!("Section{first}"), "Elements_t", 4, &[2], &[element_type, 0]);
    let section = image.add(zone, own);
    let range = [first, first + sizes.len() as i64 - 1];
    image.add(section, Node::integers("ElementRange", "IndexRange_t", 4, &[2], &range));
    image.add(section, Node::start_offsets(width, sizes));
    image.add(section, Node::list("ElementConnectivity", 4, &vec![1; sizes.iter().sum::<i64>() as usize]));
    section
}

/// Adds a base of these dimensions with a zone of one vertex; answers the zone.
fn add_zone(image: &mut Image, dimensions: [i64; 2]) -> usize {
    let name = format!("Base{}", image.nodes.len());
    let base = image.add(0, Node::integers(&name, "CGNSBase_t", 4, &[2], &dimensions));
    let zone = image.add(base, Node::integers("Zone", "Zone_t", 4, &[1, 3], &[1, 0, 0]));
    image.add(zone, Node::text("ZoneType", "ZoneType_t", "Unstructured"));
    zone
}

/// 1 base, 2 zone, 3 its type, 4 faces (5 range, 6 offsets, 7 nodes), 8 cells (9, 10, 11).
fn mesh(dimensions: [i64; 2], faces: &[i64], cells: &[i64], width: usize) -> Image {
    let mut image = Image::with_root("r", "r");
    let zone = add_zone(&mut image, dimensions);
    add_section(&mut image, zone, 22, 1, faces, width);
    add_section(&mut image, zone, 23, 101, cells, width);
    image
}

/// All pairs of sizes from 1 to `most`.
fn pairs(most: i64) -> impl Iterator<Item = [i64; 2]> {
    (1..=most).flat_map(move |a| (1..=most).map(move |b| [a, b]))
}

#[test]
fn every_size_in_every_base() {
    for dimensions in DIMENSIONS {
        for (faces, cells) in pairs(4).flat_map(|faces| pairs(5).map(move |cells| (faces, cells))) {
            let expected = match dimensions {
                [3, 3] if faces.iter().any(|&size| size < 3) => (33, 4),
                [3, 3] if cells.iter().any(|&size| size < 4) => (33, 8),
                _ => (0, 0),
            };
            for width in [4, 8] {
                let image = mesh(dimensions, &faces, &cells, width);
                assert_eq!(refusal(&image), expected, "{dimensions:?} {faces:?} {cells:?} {width}");
            }
        }
    }
}

#[test]
fn a_flat_element_anywhere() {
    for place in 0..40 {
        let (mut faces, mut cells) = ([9; 40], [9; 40]);
        faces[place] = 2;
        assert_eq!(refusal(&mesh([3, 3], &faces, &[4], 4)), (33, 4));
        cells[place] = 3;
        let mut image = Image::with_root("r", "r");
        let zone = add_zone(&mut image, [3, 3]);
        add_section(&mut image, zone, 22, 1, &[3], 4);
        add_section(&mut image, zone, 23, 2, &cells, 8);
        assert_eq!(refusal(&image), (33, 8));
    }
}

#[test]
fn the_sizes_come_before_the_references() {
    for (faces, node) in [([2, 3, 3], 33), ([3, 3, 2], 33), ([3, 3, 3], 34)] {
        for (place, number) in [(0, 0), (0, 2), (4, -1), (7, i64::from(i32::MIN))] {
            let mut image = mesh([3, 3], &faces, &[4], 4);
            let mut nodes = image.nodes[7].numbers();
            nodes[place] = number;
            image.nodes[7].set_numbers(&nodes);
            assert_eq!(refusal(&image), (node, 4));
        }
    }
    for (cells, flat) in [([3, 4, 4], true), ([4, 4, 3], true), ([4, 4, 4], false)] {
        for (place, number, face) in [(0, 0, 35), (0, 2, 36), (5, 101, 37), (10, i64::from(i32::MIN), 36)] {
            let mut image = mesh([3, 3], &[3], &cells, 4);
            let mut references = image.nodes[11].numbers();
            references[place] = number;
            image.nodes[11].set_numbers(&references);
            assert_eq!(refusal(&image), (if flat { 33 } else { face }, 8));
        }
    }
}

#[test]
fn the_sizes_come_behind_the_offsets() {
    let with = |change: fn(&mut Image)| {
        let mut image = mesh([3, 3], &[1, 2, 3], &[1], 4);
        change(&mut image);
        refusal(&image)
    };
    assert_eq!(with(|_| ()), (33, 4));
    assert_eq!(with(|i| i.nodes[4].set_numbers(&[24, 0])), (27, 4));
    assert_eq!(with(|i| i.nodes[5].set_numbers(&[1, 4])), (29, 4));
    assert_eq!(with(|i| i.nodes[6].set_numbers(&[-1, 1, 3, 6])), (30, 4));
    assert_eq!(with(|i| i.nodes[6].set_numbers(&[0, 1, 1, 6])), (31, 4));
    assert_eq!(with(|i| i.nodes[6].set_numbers(&[0, 1, -1, 6])), (31, 4));
    assert_eq!(with(|i| i.nodes[6].set_numbers(&[0, 1, 3, 5])), (32, 4));
    assert_eq!(with(|i| i.nodes[6].set_numbers(&[0, 3, 6, 9])), (32, 4));
    assert_eq!(with(|i| i.nodes[9].set_numbers(&[3, 3])), (33, 4));
}

#[test]
fn the_lower_section_comes_first() {
    let mut image = Image::with_root("r", "r");
    let zone = add_zone(&mut image, [3, 3]);
    let cells = add_section(&mut image, zone, 23, 11, &[4], 4);
    let faces = add_section(&mut image, zone, 22, 1, &[2], 4);
    assert_eq!(refusal(&image), (33, faces as u64));
    image.nodes[cells + 3].set_numbers(&[1, 1, 1, 2]);
    assert_eq!(refusal(&image), (36, cells as u64));
    image.nodes[cells + 1].set_numbers(&[1, 1]);
    assert_eq!(refusal(&image), (36, cells as u64));
    image.nodes[cells + 3].set_numbers(&[1, 1, 1, 1]);
    assert_eq!(refusal(&image), (28, faces as u64));
}

#[test]
fn a_zone_asks_its_own_base() {
    for first in DIMENSIONS {
        for second in DIMENSIONS {
            let mut image = Image::with_root("r", "r");
            let sections = [first, second].map(|dimensions| {
                let zone = add_zone(&mut image, dimensions);
                add_section(&mut image, zone, 22, 1, &[3, 2], 8)
            });
            let volume = [first, second].into_iter().position(|dimensions| dimensions == [3, 3]);
            let expected = volume.map_or((0, 0), |place| (33, sections[place] as u64));
            assert_eq!(refusal(&image), expected, "{first:?} {second:?}");
        }
    }
}

#[test]
fn fixed_types_have_no_least_size() {
    for (element_type, nodes) in [(2, 1), (3, 2)] {
        let mut image = Image::with_root("r", "r");
        let zone = add_zone(&mut image, [3, 3]);
        add_section(&mut image, zone, element_type, 1, &[nodes; 3], 4);
        assert_eq!(refusal(&image), (0, 0));
    }
}

#[test]
fn skipped_sections_are_not_looked_at() {
    for label in ["Family_t", "UserDefinedData_t"] {
        let mut image = tetrahedron();
        let above = image.add(3, Node::empty("Above", label));
        let section = add_section(&mut image, above, 22, 1, &[1, 2], 4);
        assert_eq!(refusal(&image), (0, 0));
        image.nodes[section].parent = 3;
        image.nodes[section + 1].set_numbers(&[6, 7]);
        assert_eq!(refusal(&image), (33, section as u64));
    }
}
