//! Cases that are refused: by rule 33, and by the rules beside it where these come first.

use super::accepted::add_flat_surface;
use super::site::{LEAST_CELL, LEAST_FACE};
use super::Answer;
use crate::build::Image;
use crate::damage::site::Site;
use crate::random::Random;

/// 33 at faces, one of them flat; now and then there are cells of them, which pass.
pub fn flat_face(image: &mut Image, random: &mut Random) -> Option<Answer> {
    let mut site = Site::new(image, random, 3);
    let (faces, cells) = (site.flat_sizes(LEAST_FACE), site.sizes(LEAST_CELL));
    if site.random.one_in(2) {
        site.add_mesh(&faces, &cells);
    } else {
        site.add_faces_of(&faces);
    }
    site.refused(33, "Faces")
}

/// 33 at cells, one of them flat.
pub fn flat_cell(image: &mut Image, random: &mut Random) -> Option<Answer> {
    let mut site = Site::new(image, random, 3);
    let (faces, cells) = (site.sizes(LEAST_FACE), site.flat_sizes(LEAST_CELL));
    site.add_mesh(&faces, &cells);
    site.refused(33, "Cells")
}

/// 33 at faces or cells, some of both flat.
pub fn flat_faces_and_cells(image: &mut Image, random: &mut Random) -> Option<Answer> {
    let mut site = Site::new(image, random, 3);
    let (faces, cells) = (site.flat_sizes(LEAST_FACE), site.flat_sizes(LEAST_CELL));
    site.add_mesh(&faces, &cells);
    site.refused_at_lower((33, "Faces", 0), (33, "Cells", 0))
}

/// 33 at a flat last face; the first has a node that is none.
pub fn flat_face_behind_bad_node(image: &mut Image, random: &mut Random) -> Option<Answer> {
    let mut site = Site::new(image, random, 3);
    let sizes = site.flat_last_sizes(LEAST_FACE);
    add_bad_faces(&mut site, &sizes);
    site.refused(33, "Faces")
}

/// 34 at faces of three nodes, one of which is none.
pub fn bad_node_in_least_face(image: &mut Image, random: &mut Random) -> Option<Answer> {
    let mut site = Site::new(image, random, 3);
    let entry = add_bad_faces(&mut site, &[LEAST_FACE; 2]);
    site.refused_at(34, "Faces", entry)
}

/// Adds faces of these sizes, the first with a node that is none; answers its entry.
fn add_bad_faces(site: &mut Site, sizes: &[i64]) -> u64 {
    let mut faces = site.faces(sizes);
    let place = site.random.index(faces[0].len());
    faces[0][place] = site.bad_node();
    site.add_faces(&faces);
    place as u64 + 1
}

/// 33 at a flat last cell; the first has a face that is none.
pub fn flat_cell_behind_bad_face(image: &mut Image, random: &mut Random) -> Option<Answer> {
    let mut site = Site::new(image, random, 3);
    let (faces, cells) = (site.sizes(LEAST_FACE), site.flat_last_sizes(LEAST_CELL));
    add_bad_cells(&mut site, &faces, &cells);
    site.refused(33, "Cells")
}

/// 35 to 37 at cells of four faces, one of which is none.
pub fn bad_face_in_least_cell(image: &mut Image, random: &mut Random) -> Option<Answer> {
    let mut site = Site::new(image, random, 3);
    let (rule, entry) = add_bad_cells(&mut site, &[LEAST_FACE; 2], &[LEAST_CELL; 2]);
    site.refused_at(rule, "Cells", entry)
}

/// 33 at faces, one of them flat, or 35 to 37 at a cell with a face that is none.
pub fn flat_faces_and_bad_cell(image: &mut Image, random: &mut Random) -> Option<Answer> {
    let mut site = Site::new(image, random, 3);
    let (faces, cells) = (site.flat_sizes(LEAST_FACE), site.sizes(LEAST_CELL));
    let (rule, entry) = add_bad_cells(&mut site, &faces, &cells);
    site.refused_at_lower((33, "Faces", 0), (rule, "Cells", entry))
}

/// Adds faces and cells of these sizes, the first cell with a face that is none; answers the rule that it breaks, and its
/// entry.
fn add_bad_cells(site: &mut Site, face_sizes: &[i64], cell_sizes: &[i64]) -> (u32, u64) {
    site.add_faces_of(face_sizes);
    let mut cells = site.cells(cell_sizes);
    let place = site.random.index(cells[0].len());
    let (number, rule) = site.bad_face();
    cells[0][place] = number;
    site.add_cells(&cells);
    (rule, place as u64 + 1)
}

/// 33 at faces of a base of three dimensions; another base of fewer has flat ones too, which pass.
pub fn flat_beside_surface(image: &mut Image, random: &mut Random) -> Option<Answer> {
    add_flat_surface(image, random);
    let mut site = Site::new(image, random, 3);
    let sizes = site.flat_sizes(LEAST_FACE);
    site.add_faces_of(&sizes);
    site.refused(33, "Faces")
}

/// 29 to 32 at faces, some of them flat.
pub fn flat_and_bad_offsets(image: &mut Image, random: &mut Random) -> Option<Answer> {
    let mut site = Site::new(image, random, 3);
    let sizes = site.flat_last_sizes(LEAST_FACE);
    site.add_faces_of(&sizes);
    let rule = site.break_offsets("Faces")?;
    site.refused(rule, "Faces")
}
