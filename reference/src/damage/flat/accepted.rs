//! Cases that are accepted: the least sizes, repeats, and small elements where no least size is asked for.

use super::site::{LEAST_CELL, LEAST_FACE};
use super::Answer;
use crate::build::Image;
use crate::damage::site::Site;
use crate::random::Random;

/// Faces of three nodes and cells of four faces, all of them.
pub fn least_faces_and_cells(image: &mut Image, random: &mut Random) -> Option<Answer> {
    let mut site = Site::new(image, random, 3);
    let faces = 2 + site.random.index(3);
    let cells = 1 + site.random.index(faces / 2);
    site.add_mesh(&vec![LEAST_FACE; faces], &vec![LEAST_CELL; cells]);
    Some(Answer::Accepted)
}

/// A face with one node alone, three times, and a cell with a face from both sides, or with one face alone.
pub fn repeats(image: &mut Image, random: &mut Random) -> Option<Answer> {
    let mut site = Site::new(image, random, 3);
    let mut faces = site.faces(&[1, LEAST_FACE, LEAST_FACE]);
    faces[0] = faces[0].repeat(LEAST_FACE as usize);
    site.random.shuffle(&mut faces);
    site.add_faces(&faces);
    let mut cell = site.cells(&[LEAST_CELL - 1]).concat();
    if site.random.one_in(2) {
        cell.push(-cell[0]);
    } else {
        cell = vec![cell[0]; LEAST_CELL as usize];
    }
    site.random.shuffle(&mut cell);
    site.add_cells(&[cell]);
    Some(Answer::Accepted)
}

/// Flat faces and cells in a base of two dimensions, in a plane or in space.
pub fn flat_on_surface(image: &mut Image, random: &mut Random) -> Option<Answer> {
    flat_mesh(image, random, 2)
}

/// The same in a base of one dimension.
pub fn flat_on_line(image: &mut Image, random: &mut Random) -> Option<Answer> {
    flat_mesh(image, random, 1)
}

/// Flat faces and cells in a base of fewer than three dimensions.
fn flat_mesh(image: &mut Image, random: &mut Random, cell_dimension: i64) -> Option<Answer> {
    let mut site = Site::new(image, random, cell_dimension);
    let (faces, cells) = (site.flat_sizes(LEAST_FACE), site.flat_sizes(LEAST_CELL));
    site.add_mesh(&faces, &cells);
    Some(Answer::Accepted)
}

/// Flat faces in a base of fewer than three dimensions.
pub fn add_flat_surface(image: &mut Image, random: &mut Random) {
    let dimension = random.between(1, 2);
    let mut site = Site::new(image, random, dimension);
    let sizes = site.flat_sizes(LEAST_FACE);
    site.add_faces_of(&sizes);
}

/// Lawful faces in a base of three dimensions, and flat ones in another base.
pub fn surface_beside_volume(image: &mut Image, random: &mut Random) -> Option<Answer> {
    let mut site = Site::new(image, random, 3);
    let sizes = site.sizes(LEAST_FACE);
    site.add_faces_of(&sizes);
    add_flat_surface(image, random);
    Some(Answer::Accepted)
}

/// Elements of one and two nodes of the fixed types, with start offsets that nobody needs.
pub fn fixed_types(image: &mut Image, random: &mut Random) -> Option<Answer> {
    let mut site = Site::new(image, random, 3);
    for (name, element_type, nodes) in [("Points", 2, 1), ("Bars", 3, 2)] {
        let count = site.random.index(3) + 1;
        let elements = site.faces(&vec![nodes; count]);
        site.add(name, element_type, &elements);
    }
    Some(Answer::Accepted)
}
