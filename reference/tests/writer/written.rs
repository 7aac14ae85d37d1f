//! What is written, and read back.

use reference::addition::{additions, built, stated, Addition};
use reference::cases::{case, cases, tetrahedron};
use reference::check_table;
use reference::generate::image;
use reference::lawful::SizeClass;
use reference::mesh::mesh;
use reference::text::{padded, trimmed};
use reference::writer::{add, finish, rewritten, start, State};

use super::{case_a, Begun, JUNK};

#[test]
fn case_a_as_the_builder_makes_it() {
    let begun = Begun::case_a(17);
    assert_eq!(begun.room, tetrahedron().to_bytes());
    assert_eq!(begun.state.numbers(), [17, 16, 256, 17, 16, 256]);
    assert_eq!(finish(&begun.state, &begun.room), Ok(1844));
    assert_eq!(finish(&begun.state, &begun.room), Ok(1844));
    assert_eq!(additions(&begun.room).unwrap(), case_a());
}

#[test]
fn a_start_writes_the_header_and_zeros() {
    let mut room = [JUNK; 300];
    let state = start(2, 3, 5, &mut room).unwrap();
    assert_eq!(state, State { node_count: 2, dimension_words: 3, data_length: 5, ..State::default() });
    let words = [1u32, 229, 2, 32, 200, 3, 224, 5];
    assert_eq!(room[..32], words.map(u32::to_le_bytes).concat());
    assert!(room[32..229].iter().all(|&byte| byte == 0));
    assert!(room[229..].iter().all(|&byte| byte == JUNK));
}

#[test]
fn an_addition_writes_its_record_words_and_data_alone() {
    let (numbers, nodes) = case_a();
    for (number, node) in nodes.iter().enumerate() {
        let mut begun = Begun::stated(numbers, 40, number);
        begun.room[32 + 84 * number..].fill(JUNK);
        let (before, state) = (begun.room.clone(), begun.state);
        begun.add_right(number);
        let (words, data) = (1460 + 8 * state.words as usize, 1588 + state.bytes as usize);
        let written = [
            32 + 84 * number..116 + 84 * number,
            words..words + 8 * node.dimensions.len(),
            data..data + node.data.len(),
        ];
        for at in (0..begun.room.len()).filter(|at| !written.iter().any(|part| part.contains(at))) {
            assert_eq!(begun.room[at], before[at]);
        }
        assert!(begun.room[written[2].clone()] == node.data);
    }
}

#[test]
fn texts_with_and_without_blanks() {
    let (_, mut nodes) = case_a();
    for (number, node) in nodes.iter_mut().enumerate() {
        for text in [&mut node.name, &mut node.label] {
            let whole = padded(text);
            let least = trimmed(&whole).len();
            *text = whole[..(least + number % 3).min(32)].to_vec();
        }
    }
    assert_eq!(written(&nodes), tetrahedron().to_bytes());
}

/// The image that nodes become, with their own counts stated.
fn written(nodes: &[Addition]) -> Vec<u8> {
    let [count, words, bytes] = stated(nodes);
    let mut room = vec![JUNK; built(nodes).len()];
    let mut state = start(count, words, bytes, &mut room).unwrap();
    for node in nodes {
        state = add(&state, node, &mut room).unwrap();
    }
    assert_eq!(finish(&state, &room), Ok(room.len() as u64));
    room
}

#[test]
fn every_data_type() {
    let types = [b"MT", b"C1", b"B1", b"I4", b"U4", b"R4", b"I8", b"U8", b"R8", b"X4", b"X8"];
    let widths = [0, 1, 1, 4, 4, 4, 8, 8, 8, 8, 16];
    let mut nodes = Vec::new();
    for (number, (data_type, width)) in types.into_iter().zip(widths).enumerate() {
        let dimensions = if width == 0 { Vec::new() } else { vec![1; number] };
        nodes.push(Addition {
            name: vec![b'a' + number as u8; 3 * number + 1],
            label: vec![b'/'; 32],
            data_type: data_type.to_vec(),
            dimensions,
            parent: (number as u64).checked_sub(1).unwrap_or(u64::from(u32::MAX)),
            data: vec![number as u8; width],
        });
    }
    let image = written(&nodes);
    assert_eq!(image, built(&nodes));
    let padded: Vec<Addition> = nodes.iter().map(Addition::padded).collect();
    assert_eq!(additions(&image).unwrap().1, padded);
}

#[test]
fn the_most_dimensions_and_a_root_alone() {
    let mut root = case_a().1.remove(0);
    (root.data_type, root.dimensions, root.data) = (b"C1".to_vec(), vec![1; 12], vec![9]);
    assert_eq!(written(&[root.clone()]), built(&[root]));
    assert_eq!(rewritten(&case("d")), Ok(case("d")));
}

#[test]
fn images_written_again() {
    let generated = (0..400).map(|index| image(8, index, SizeClass::Small));
    let meshes = [mesh("poly", 4, 4), mesh("zones", 60, 8)].map(Result::unwrap);
    let (mut passed, mut refused) = (0, 0);
    for image in cases().into_iter().map(|(_, image)| image).chain(generated).chain(meshes) {
        match check_table(&image) {
            Ok(_) => {
                assert!(rewritten(&image) == Ok(image));
                passed += 1;
            }
            Err(rejection) => {
                assert_eq!(rewritten(&image), Err(rejection));
                refused += 1;
            }
        }
    }
    assert!(passed > 400 && refused > 30, "{passed} {refused}");
}
