//! Images that every run begins with: document 01's cases, the samples, images at the limits of length, meshes, and names that differ
//! at every place; runs of medium images with names of one key too.

use reference::build::Node;
use reference::cases::{cases, tetrahedron};
use reference::header::MAX_IMAGE;
use reference::lawful::SizeClass;
use reference::mesh::mesh;
use reference::samples::samples;

use crate::one_key::one_key;

/// The images, in a fixed order.
pub fn fixed(class: SizeClass) -> Vec<Vec<u8>> {
    let mut images: Vec<Vec<u8>> = cases().into_iter().chain(samples()).map(|(_, image)| image).collect();
    images.extend([of_length(MAX_IMAGE), of_length(MAX_IMAGE + 1), Vec::new()]);
    let meshes = match class {
        SizeClass::Small => {
            [("poly", 3, 4), ("parents", 2, 4), ("hex", 2, 8), ("mixed", 3, 4), ("mixed", 2, 8), ("zones", 9, 4)]
        }
        SizeClass::Medium => {
            [("poly", 8, 8), ("parents", 7, 8), ("hex", 8, 4), ("mixed", 7, 4), ("mixed", 8, 8), ("zones", 60, 8)]
        }
        SizeClass::Large => [
            ("poly", 30, 4),
            ("parents", 52, 4),
            ("hex", 30, 8),
            ("mixed", 61, 4),
            ("mixed", 52, 8),
            ("zones", 1_000, 4),
        ],
    };
    images.extend(meshes.into_iter().filter_map(|(kind, n, width)| mesh(kind, n, width).ok()));
    images.push(long_names());
    if matches!(class, SizeClass::Medium) {
        images.extend(one_key());
    }
    images
}

/// Case (a) with texts named x, xx and so on up to 32 bytes, and behind them y, xy and so on: the first byte that differs is at
/// every place.
fn long_names() -> Vec<u8> {
    let mut image = tetrahedron();
    for last in ["x", "y"] {
        for length in 0..32 {
            image.add(2, Node::text(&("x".repeat(length) + last), "Descriptor_t", "text"));
        }
    }
    image.to_bytes()
}

/// Case (a) with a text that makes it as long as asked.
fn of_length(length: usize) -> Vec<u8> {
    let mut image = tetrahedron();
    let text = |length: usize| Node::new("Long", "Descriptor_t", "C1", &[length as u64], vec![b'x'; length]);
    let place = image.add(2, text(1));
    let rest = length - image.to_bytes().len() + 1;
    image.nodes[place] = Node { parent: 2, ..text(rest) };
    image.to_bytes()
}
