//! Rules 27 to 38 at MIXED sections.

use super::*;
use reference::cases::tetrahedron;
use reference::face_usage;

#[test]
fn as_many_nodes_will_do() {
    for (own_type, nodes) in LIST {
        for (other, as_many) in LIST {
            let made = mesh([3, 3], 27, &[element(own_type, as_many)], [4, 4]);
            assert_eq!(refusal(&made), if nodes == as_many { (0, 0) } else { (38, 4) }, "{own_type} {other}");
        }
    }
}

#[test]
fn a_bad_type_anywhere_comes_before_a_bad_node_anywhere() {
    for of_type in 0..40 {
        for bad_type in [0, 22, 17, -5] {
            let mut elements = forty();
            elements[of_type][0] = bad_type;
            assert_eq!(refusal(&mesh([3, 3], 4, &elements, [4, 4])), (38, 4));
            for of_node in [0, of_type, 39] {
                let last = elements[of_node].len() - 1;
                elements[of_node][last] = 5;
                assert_eq!(refusal(&mesh([3, 3], 4, &elements, [8, 4])), (38, 4));
            }
        }
    }
}

#[test]
fn every_node_is_judged_and_no_type_is() {
    for widths in WIDTHS {
        let lawful = mesh([3, 3], 4, &forty(), widths);
        assert_eq!(refusal(&lawful), (0, 0));
        let starts = lawful.nodes[6].numbers();
        for place in 0..lawful.nodes[7].numbers().len() {
            for number in [0, -1, -4, 5, i64::from(i32::MIN), i64::from(i32::MAX)] {
                let mut numbers = lawful.nodes[7].numbers();
                numbers[place] = number;
                let mut image = lawful.clone();
                image.nodes[7].set_numbers(&numbers);
                let expected = match starts.contains(&(place as i64)) {
                    true if numbers == lawful.nodes[7].numbers() => (0, 0),
                    true => (38, 4),
                    false => (34, 4),
                };
                assert_eq!(refusal(&image), expected, "{place} {number}");
            }
        }
    }
}

#[test]
fn types_may_be_greater_than_the_number_of_vertices() {
    let ones: Vec<Vec<i64>> = LIST.map(|(own_type, nodes)| [vec![own_type], vec![1; nodes]].concat()).into();
    assert_eq!(refusal(&mesh([3, 3], 1, &ones, [4, 4])), (0, 0));
    let mut faces = mesh([2, 2], 1, &ones, [4, 4]);
    faces.nodes[4].set_numbers(&[22, 0]);
    assert_eq!(refusal(&faces), (34, 4));
    faces.nodes[2].set_numbers(&[21, 1, 0]);
    assert_eq!(refusal(&faces), (0, 0));
}

#[test]
fn offsets_are_judged_as_those_of_faces() {
    let elements = [element(5, 3), element(3, 2), element(10, 4)];
    for widths in WIDTHS {
        let with = |change: &dyn Fn(&mut Image)| {
            let mut image = mesh([3, 3], 4, &elements, widths);
            change(&mut image);
            refusal(&image)
        };
        assert_eq!(with(&|_| ()), (0, 0));
        assert_eq!(with(&|i| i.remove(6)), (29, 4));
        assert_eq!(with(&|i| i.nodes[6].data_type = if widths[0] == 4 { *b"U4" } else { *b"U8" }), (29, 4));
        assert_eq!(with(&|i| i.nodes[5].set_numbers(&[1, 4])), (29, 4));
        assert_eq!(with(&|i| i.nodes[5].set_numbers(&[1, 2])), (29, 4));
        assert_eq!(with(&|i| i.nodes[5].set_numbers(&[1, 2_147_483_647])), (29, 4));
        let offsets = |numbers: [i64; 4]| with(&|i| i.nodes[6].set_numbers(&numbers));
        assert_eq!(offsets([1, 4, 7, 12]), (30, 4));
        assert_eq!(offsets([-1, 4, 7, 12]), (30, 4));
        assert_eq!(offsets([0, 4, 4, 12]), (31, 4));
        assert_eq!(offsets([0, 4, 3, 12]), (31, 4));
        assert_eq!(offsets([0, -4, 7, 12]), (31, 4));
        assert_eq!(offsets([0, 4, 7, 11]), (32, 4));
        assert_eq!(offsets([0, 4, 7, 13]), (32, 4));
        assert_eq!(offsets([0, 3, 5, 9]), (32, 4));
        for shifted in [[0, 3, 7, 12], [0, 5, 7, 12], [0, 4, 6, 12], [0, 4, 8, 12], [0, 1, 2, 12]] {
            assert_eq!(offsets(shifted), (38, 4));
        }
        assert_eq!(with(&|i| i.nodes[7].set_list(&[5, 1, 2, 3, 3, 1, 2, 10, 1, 2, 3])), (32, 4));
    }
    let mut wide = mesh([3, 3], 4, &elements, [8, 4]);
    wide.nodes[6].set_numbers(&[0, 4, 7, 12 + (1 << 32)]);
    assert_eq!(refusal(&wide), (32, 4));
}

#[test]
fn the_offsets_come_before_the_types() {
    let with = |offsets: [i64; 4]| {
        let mut image = mesh([3, 3], 4, &[vec![0, 0, 9], vec![22, -1], vec![24, 9]], [4, 4]);
        image.nodes[6].set_numbers(&offsets);
        refusal(&image)
    };
    assert_eq!(with([0, 3, 5, 7]), (38, 4));
    assert_eq!(with([2, 3, 5, 7]), (30, 4));
    assert_eq!(with([0, 3, 3, 7]), (31, 4));
    assert_eq!(with([0, 3, 5, 6]), (32, 4));
}

#[test]
fn no_element_is_flat() {
    for dimensions in DIMENSIONS {
        let image = mesh(dimensions, 2, &[element(2, 1), element(3, 2), element(2, 1)], [4, 4]);
        assert_eq!(refusal(&image), (0, 0));
    }
}

#[test]
fn the_type_is_taken() {
    let with = |element_type| {
        let mut image = mesh([3, 3], 4, &[element(10, 4)], [4, 4]);
        image.nodes[4].set_numbers(&[element_type, 0]);
        refusal(&image)
    };
    assert_eq!(with(20), (0, 0));
    for element_type in [0, 1, 24, -20, 276, 65_556] {
        assert_eq!(with(element_type), (27, 4));
    }
    let mut negative = mesh([3, 3], 4, &[element(10, 4)], [4, 4]);
    negative.nodes[4].set_numbers(&[20, -1]);
    assert_eq!(refusal(&negative), (25, 4));
}

/// Case (a) with a MIXED section, node 17, behind its cell: elements 6 to 8.
fn beside_cell() -> Image {
    let mut image = tetrahedron();
    add_section(&mut image, 3, 20, 6, &[element(10, 4), element(5, 3), element(7, 4)], [8, 8]);
    image
}

#[test]
fn mixed_elements_are_no_faces() {
    let image = beside_cell();
    assert_eq!(refusal(&image), (0, 0));
    let mut usage = [9; 5];
    assert_eq!(face_usage(&image.to_bytes(), 3, &mut usage), Ok(4));
    assert_eq!(usage, [1, 1, 1, 1, 9]);
    for face in [6, -6, 7, -7, 8, -8] {
        let mut image = beside_cell();
        image.nodes[16].set_numbers(&[1, 2, 3, face]);
        assert_eq!(refusal(&image), (37, 13));
    }
    let mut mixed_faces = tetrahedron();
    mixed_faces.nodes[9].set_numbers(&[20, 0]);
    mixed_faces.nodes[12].set_list(&[3, 1, 2].repeat(4));
    assert_eq!(refusal(&mixed_faces), (37, 13));
}

#[test]
fn ranges_meet_as_ever() {
    for range in [[5, 7], [1, 3], [4, 6]] {
        let mut image = beside_cell();
        image.nodes[18].set_numbers(&range);
        assert_eq!(refusal(&image), (28, 17));
    }
    let mut image = mesh([3, 3], 4, &[element(10, 4), element(5, 3)], [4, 4]);
    add_section(&mut image, 2, 5, 2, &[vec![1, 2, 3]], [4, 4]);
    assert_eq!(refusal(&image), (28, 8));
}

#[test]
fn the_lower_section_comes_first() {
    let mut image = beside_cell();
    image.nodes[20].set_numbers(&[22, 1, 2, 3, 4, 5, 1, 2, 3, 7, 1, 2, 3, 4]);
    assert_eq!(refusal(&image), (38, 17));
    image.nodes[16].set_numbers(&[1, 2, 3, 6]);
    assert_eq!(refusal(&image), (37, 13));
    image.nodes[12].set_numbers(&[5; 12]);
    assert_eq!(refusal(&image), (34, 9));
}
