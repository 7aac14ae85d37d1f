//! Meshes and samples: they are lawful, their cells use faces as they should, and their limits are kept.

use reference::mesh::mesh;
use reference::samples::samples;
use reference::{array_value, corner, element_type, face_usage, section_entries, validate, Value, ENTRY_LENGTH};

#[test]
fn meshes_are_lawful() {
    for kind in ["poly", "parents", "hex", "mixed", "zones"] {
        for n in [1, 2, 5] {
            for width in [4, 8] {
                assert!(mesh(kind, n, width).is_ok(), "{kind} {n} {width}");
            }
        }
    }
}

#[test]
fn limits_are_kept() {
    assert!(mesh("poly", 52, 4).is_ok_and(|image| image.len() > 16_000_000));
    assert!(mesh("parents", 52, 4).is_ok_and(|image| image.len() == 15_977_124));
    assert!(mesh("parents", 53, 4).is_err());
    assert!(mesh("mixed", 61, 4).is_ok_and(|image| image.len() > 16_000_000));
    assert!(mesh("mixed", 52, 8).is_ok_and(|image| image.len() > 16_000_000));
    assert!(mesh("mixed", 62, 4).is_err());
    assert!(mesh("mixed", 53, 8).is_err());
    assert!(mesh("zones", 1_000, 4).is_ok());
    for (kind, n, width) in [("poly", 54, 4), ("zones", 1_100, 4), ("poly", 0, 4), ("hex", 3, 5), ("tree", 3, 4)] {
        assert!(mesh(kind, n, width).is_err(), "{kind} {n} {width}");
    }
}

#[test]
fn inner_faces_are_used_from_both_sides() {
    let image = mesh("poly", 3, 8).unwrap();
    let entries = section_entries(&image, 3).unwrap();
    let inner = (entries[0].last - entries[0].first + 1) as usize;
    let mut usage = vec![9; 108];
    assert_eq!(face_usage(&image, 3, &mut usage), Ok(108));
    assert_eq!(inner, 54);
    assert!(usage[..inner].iter().all(|&byte| byte == 3));
    assert!(usage[inner..].iter().all(|&byte| byte == 1 || byte == 2));
}

/// The corners of an element of the only section of a mesh as points; the coordinates are nodes 6 to 8.
fn points(image: &[u8], section: &[u64; ENTRY_LENGTH], element: u64) -> Vec<[f64; 3]> {
    let coordinate = |array, vertex| match array_value(image, array, vertex) {
        Ok(Value::Double(bits)) => f64::from_bits(bits),
        other => panic!("{other:?}"),
    };
    let vertices = (1..).map_while(|c| corner(image, section, element, c).ok());
    vertices.map(|vertex| [6, 7, 8].map(|array| coordinate(array, vertex as u64))).collect()
}

/// Six times the volume of a tetrahedron.
fn six_volumes(points: [[f64; 3]; 4]) -> f64 {
    let [a, b, c] = [1, 2, 3].map(|k| [0, 1, 2].map(|d| points[k][d] - points[0][d]));
    a[0] * (b[1] * c[2] - b[2] * c[1]) + a[1] * (b[2] * c[0] - b[0] * c[2]) + a[2] * (b[0] * c[1] - b[1] * c[0])
}

#[test]
fn hexahedra_and_prisms_fill_the_block() {
    for (n, layers) in [(1, 1), (2, 1), (3, 1), (8, 1), (16, 2)] {
        let image = mesh("mixed", n, 4).unwrap();
        let section = section_entries(&image, 3).unwrap()[0];
        let section_numbers = section.numbers();
        let split = (2 * layers).min(n) * n * n;
        assert_eq!(section.last, split + n * n * n);
        let types: Vec<u64> = (1..=section.last).map(|k| element_type(&image, &section_numbers, k).unwrap()).collect();
        let runs: Vec<(u64, usize)> = types.chunk_by(|a, b| a == b).map(|run| (run[0], run.len())).collect();
        let prisms = (2 * layers * n * n) as usize;
        let core = (n * n * n - split) as usize;
        match core {
            0 => assert_eq!(runs, [(14, types.len())]),
            _ => assert_eq!(runs, [(14, prisms), (17, core), (14, prisms)]),
        }
        if n > 3 {
            continue;
        }
        let mut whole = 0.0;
        for (k, own_type) in (1..).zip(types) {
            let p = points(&image, &section_numbers, k);
            let cuts: &[[usize; 4]] = match own_type {
                14 => &[[0, 1, 2, 3], [1, 2, 3, 4], [2, 3, 4, 5]],
                _ => &[[0, 1, 2, 5], [0, 2, 7, 5], [0, 2, 3, 7], [0, 5, 7, 4], [2, 7, 5, 6]],
            };
            for cut in cuts {
                whole += six_volumes(cut.map(|c| p[c])).abs();
            }
            assert!(six_volumes([p[0], p[1], p[2], p[p.len() / 2]]) > 0.0);
        }
        assert!((whole - 6.0).abs() < 1e-9, "{n} {whole}");
    }
}

#[test]
fn the_near_miss_of_38_is_one_number_off() {
    let samples = samples();
    let image = |name: &str| samples.iter().find(|(known, _)| *known == name).map(|(_, image)| image).unwrap();
    let (lawful, near) = (image("mixed"), image("near_38"));
    let other: Vec<usize> = (0..lawful.len()).filter(|&k| lawful[k] != near[k]).collect();
    assert_eq!(other, [lawful.len() - 4 * 7]);
    assert_eq!((lawful[other[0]], near[other[0]]), (14, 17));
}

#[test]
fn samples_are_small_and_named_by_their_rule() {
    for (name, image) in samples() {
        assert!(image.len() < 20_000, "{name}");
        let rule = validate(&image).map_or_else(|rejection| rejection.rule, |_| 0);
        let named = name.strip_prefix("near_").map_or(0, |rule| rule.parse().unwrap());
        assert_eq!(rule, named, "{name}");
    }
}

#[test]
fn samples_are_the_committed_ones() {
    let folder = std::path::Path::new(env!("CARGO_MANIFEST_DIR")).join("../examples");
    for (name, image) in samples() {
        assert!(std::fs::read(folder.join(format!("{name}.img"))).is_ok_and(|bytes| bytes == image), "{name}");
    }
}
