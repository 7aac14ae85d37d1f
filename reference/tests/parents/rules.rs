//! Rule 39, and which of it and others comes.

use super::*;

/// The small mesh with a number at a place of its parents, counted from 0, and a width.
fn with_number(place: usize, width: usize, number: i64) -> Image {
    let mut image = small();
    let array = &mut image.nodes[PARENTS];
    let mut numbers = array.numbers();
    numbers[place] = number;
    array.data_type = if width == 4 { *b"I4" } else { *b"I8" };
    array.set_numbers(&numbers);
    image
}

#[test]
fn every_number_at_every_place() {
    assert_eq!(refusal(&small()), (0, 0, 0));
    let near = (-15..=15).chain([LEAST, i64::from(i32::MAX)]);
    let far = [1 << 31, 1 << 32, (1 << 32) + 11, 11 - (1 << 32), LEAST_WIDE, LEAST_WIDE + 11, i64::MAX, LEAST - 1];
    let numbers = near.flat_map(|number| [(4, number), (8, number)]).chain(far.map(|number| (8, number)));
    for (width, number) in numbers {
        for place in 0..6 {
            let lawful = (11..=12).contains(&number) || number == 0 && place >= 3;
            let expected = if lawful { (0, 0, 0) } else { (39, FACES as u64, 0) };
            assert_eq!(refusal(&with_number(place, width, number)), expected, "{number} at {place}");
        }
    }
}

/// The small mesh with other parents.
fn with_array(data_type: &str, dimensions: &[u64]) -> Image {
    let mut image = small();
    let array = &mut image.nodes[PARENTS];
    array.data_type = data_type.as_bytes().try_into().unwrap();
    array.reshape(dimensions);
    image
}

#[test]
fn types_and_shapes() {
    for data_type in ["C1", "B1", "U4", "R4", "U8", "R8", "X4", "X8"] {
        assert_eq!(refusal(&with_array(data_type, &[3, 2])), (39, FACES as u64, 0), "{data_type}");
    }
    let mut empty = small();
    empty.nodes[PARENTS] = Node { parent: FACES as u32, ..Node::empty("ParentElements", "DataArray_t") };
    assert_eq!(refusal(&empty), (39, FACES as u64, 0));
    let shapes: [&[u64]; 12] =
        [&[2, 3], &[6], &[3], &[1, 6], &[6, 1], &[3, 2, 1], &[1, 3, 2], &[3, 1, 2], &[2, 2], &[4, 2], &[3, 1], &[3, 3]];
    for shape in shapes {
        assert_eq!(refusal(&with_array("I4", shape)), (39, FACES as u64, 0), "{shape:?}");
    }
    assert_eq!(refusal(&with_array("I4", &[3, 2])), (0, 0, 0));
    assert_eq!(refusal(&mesh(&[[11, 0], [12, 11]], &[&[1], &[2]])), (0, 0, 0));
}

#[test]
fn columns_follow_one_another() {
    let mut image = small();
    image.nodes[PARENTS].set_numbers(&[11, 12, 11, 0, 11, 0]);
    assert_eq!(refusal(&image), (0, 0, 0));
    image.nodes[PARENTS].set_numbers(&[11, 0, 12, 11, 11, 0]);
    assert_eq!(refusal(&image), (39, FACES as u64, 0));
}

#[test]
fn other_sections_have_ordinary_arrays() {
    for (element_type, elements) in [(23, vec![vec![1, 2], vec![3]]), (5, vec![vec![1, 2, 3]]), (20, vec![vec![2, 1]])]
    {
        let mut image = small();
        let section = add_section(&mut image, ZONE, element_type, 30, &elements);
        let array = image.add(section, Node::list("ParentElements", 4, &[-1, 0, 99]));
        assert_eq!(refusal(&image), (0, 0, 0), "{element_type}");
        image.nodes[array] = Node { parent: section as u32, ..Node::empty("ParentElements", "DataArray_t") };
        assert_eq!(refusal(&image), (24, array as u64, 0), "{element_type}");
    }
}

#[test]
fn an_absent_array_is_not_judged() {
    for label in ["UserDefinedData_t", "ParentElements_t", "DataArray", "dataArray_t"] {
        let mut image = small();
        let node = Node { parent: FACES as u32, ..Node::empty("ParentElements", label) };
        image.nodes[PARENTS] = node;
        assert_eq!((refusal(&image), agrees(&image)), ((0, 0, 0), Err(54)), "{label}");
    }
    for name in ["parentElements", "ParentElement", "ParentElements.", "Parentelements"] {
        let mut image = small();
        let node = Node::list(name, 4, &[-1, 0, 99]);
        image.nodes[PARENTS] = Node { parent: FACES as u32, ..node };
        assert_eq!((refusal(&image), agrees(&image)), ((0, 0, 0), Err(54)), "{name}");
    }
}

#[test]
fn cells_of_any_section_of_the_zone() {
    let mut image = zone_of(3);
    add_section(&mut image, ZONE, 23, 30, &[vec![1, 2, -1, -2]]);
    let faces = add_faces(&mut image, 1, 8, &[[30, 20], [20, 30]]);
    add_section(&mut image, ZONE, 23, 20, &[vec![1, 2, -1, -2]]);
    assert_eq!(refusal(&image), (0, 0, 0));
    for (element_type, element) in [(5, vec![1, 2, 3]), (20, vec![10, 1, 2, 3, 4]), (22, vec![1, 2, 3])] {
        let mut image = image.clone();
        add_section(&mut image, ZONE, element_type, 40, &[element]);
        assert_eq!(refusal(&image), (0, 0, 0));
        image.nodes[faces + 4].set_numbers(&[30, 20, 40, 0]);
        assert_eq!(refusal(&image), (39, faces as u64, 0), "{element_type}");
    }
}

#[test]
fn cells_of_another_zone_are_none() {
    for base in [1, 0] {
        let mut image = small();
        let base = if base == 1 { 1 } else { image.add(0, Node::integers("B", "CGNSBase_t", 4, &[2], &[1, 1])) };
        let zone = image.add(base, Node::integers("Other", "Zone_t", 4, &[1, 3], &[4, 1, 0]));
        image.add(zone, Node::text("ZoneType", "ZoneType_t", "Unstructured"));
        add_section(&mut image, zone, 22, 1, &[vec![1]]);
        add_section(&mut image, zone, 23, 20, &[vec![1]]);
        assert_eq!(refusal(&image), (0, 0, 0));
        image.nodes[PARENTS].set_numbers(&[11, 20, 11, 0, 0, 0]);
        assert_eq!(refusal(&image), (39, FACES as u64, 0));
    }
}

#[test]
fn skipped_cells_are_none() {
    for label in ["Family_t", "UserDefinedData_t"] {
        let mut image = small();
        let above = image.add(ZONE, Node::empty("Above", label));
        add_section(&mut image, above, 23, 20, &[vec![1]]);
        assert_eq!(refusal(&image), (0, 0, 0));
        image.nodes[PARENTS].set_numbers(&[11, 20, 11, 0, 0, 0]);
        assert_eq!(refusal(&image), (39, FACES as u64, 0));
    }
}

/// The small mesh with a second section of one cell, 20, behind all nodes, which a parent names; its number.
fn with_later_cell() -> (Image, usize) {
    let mut image = small();
    let later = add_section(&mut image, ZONE, 23, 20, &[vec![1, 2]]);
    image.nodes[PARENTS].set_numbers(&[11, 11, 20, 0, 20, 0]);
    (image, later)
}

/// A change of an image at a section.
type Change = fn(&mut Image, usize);

#[test]
fn what_is_asked_of_a_later_section_of_cells() {
    let (image, later) = with_later_cell();
    assert_eq!(refusal(&image), (0, 0, 0));
    let uncounted: [Change; 6] = [
        |image, later| image.nodes[later].set_numbers(&[23, -1]),
        |image, later| image.nodes[later].data_type = *b"U4",
        |image, later| image.nodes[later].dimensions.push(1),
        |image, later| image.nodes[later + RANGE].set_numbers(&[20, 19]),
        |image, later| image.nodes[later + RANGE].data_type = *b"R4",
        |image, later| image.remove(later + RANGE),
    ];
    for change in uncounted {
        let mut image = image.clone();
        change(&mut image, later);
        assert_eq!(refusal(&image), (39, FACES as u64, 0));
    }
    let counted: [(Change, u32); 4] = [
        (|image, later| image.remove(later + CONNECTIVITY), 23),
        (|image, later| image.remove(later + OFFSETS), 29),
        (|image, later| image.nodes[later + OFFSETS].set_numbers(&[1, 2]), 30),
        (|image, later| image.nodes[later + CONNECTIVITY].set_numbers(&[1, 0]), 35),
    ];
    for (change, rule) in counted {
        let mut image = image.clone();
        change(&mut image, later);
        let told = refusal(&image);
        assert_eq!((told.0, told.1), (rule, later as u64));
    }
}

#[test]
fn where_ranges_meet_a_cell_is_a_cell() {
    let (mut image, later) = with_later_cell();
    image.nodes[later + RANGE].set_numbers(&[2, 2]);
    image.nodes[PARENTS].set_numbers(&[11, 11, 2, 0, 2, 0]);
    assert_eq!(refusal(&image), (28, later as u64, 0));
    image.nodes[PARENTS].set_numbers(&[11, 11, 1, 0, 0, 0]);
    assert_eq!(refusal(&image), (39, FACES as u64, 0));
    image.nodes[later + RANGE].set_numbers(&[12, 12]);
    image.nodes[PARENTS].set_numbers(&[11, 11, 12, 0, 0, 0]);
    assert_eq!(refusal(&image), (28, later as u64, 0));
}

#[test]
fn many_sections_of_cells() {
    let mut image = zone_of(1);
    add_faces(&mut image, 1, 4, &[[10, 0]]);
    for first in [50, 10, 30, 20, 40] {
        add_section(&mut image, ZONE, 23, first, &[vec![1], vec![-1], vec![1]]);
    }
    for number in 1..60 {
        image.nodes[PARENTS].set_numbers(&[number, number]);
        let lawful = number >= 10 && number % 10 < 3;
        assert_eq!(refusal(&image), if lawful { (0, 0, 0) } else { (39, FACES as u64, 0) }, "{number}");
    }
}

#[test]
fn other_rules_of_the_section_come_first() {
    let bad = with_number(0, 4, 0);
    assert_eq!(refusal(&bad), (39, FACES as u64, 0));
    let with = |change: fn(&mut Image)| {
        let mut image = bad.clone();
        change(&mut image);
        refusal(&image)
    };
    assert_eq!(with(|image| image.nodes[FACES + CONNECTIVITY].set_numbers(&[1, 2, 3, 1, 2, 3, 1, 2, 5])), (34, 4, 9));
    assert_eq!(with(|image| image.nodes[FACES + OFFSETS].set_numbers(&[1, 3, 6, 9])), (30, 4, 0));
    assert_eq!(with(|image| image.nodes[FACES + OFFSETS].set_numbers(&[0, 3, 3, 9])), (31, 4, 0));
    assert_eq!(with(|image| image.nodes[FACES + OFFSETS].set_numbers(&[0, 3, 6, 8])), (32, 4, 0));
    assert_eq!(with(|image| image.nodes[FACES + RANGE].set_numbers(&[1, 4])), (29, 4, 0));
    assert_eq!(with(|image| image.nodes[FACES].set_numbers(&[22, -1])), (25, 4, 0));
    let flat = |image: &mut Image| {
        image.nodes[1].set_numbers(&[3, 3]);
        image.nodes[FACES + OFFSETS].set_numbers(&[0, 2, 6, 9]);
    };
    assert_eq!(with(flat), (33, 4, 0));
    assert_eq!(with(|image| image.nodes[FACES].set_numbers(&[5, 0])), (37, 9, 1));
}

#[test]
fn between_sections_the_lower_node_decides() {
    let cells = FACES + 5;
    for (change, rule) in [(0, 35), (9, 36), (11, 37)] {
        let mut image = with_number(0, 4, 0);
        image.nodes[cells + CONNECTIVITY].set_numbers(&[1, 2, change, 3]);
        assert_eq!(refusal(&image), (39, FACES as u64, 0));
        let order: Vec<usize> = (0..4).chain(9..13).chain(4..9).collect();
        image.reorder(&order);
        assert_eq!(refusal(&image), (rule, 4, 3));
    }
    let mut later = with_number(0, 4, 0);
    let third = add_section(&mut later, ZONE, 24, 30, &[vec![1]]);
    assert_eq!(refusal(&later), (39, FACES as u64, 0));
    later.nodes[PARENTS].set_numbers(&[11, 11, 11, 0, 0, 0]);
    assert_eq!(refusal(&later), (27, third as u64, 0));
}
