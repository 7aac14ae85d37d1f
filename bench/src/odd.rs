//! Images unlike meshes, each near a limit of the format: many sections, ranges that do not touch, elements of all types, children
//! far from their parents, many siblings. The times of meshes tell nothing of them. All are lawful but those that say which rule they break.

use reference::build::{Image, Node};
use reference::mesh::polyhedra;
use reference::random::Random;

use crate::parts::{
    add_bare_zone, add_faces, add_triangles, add_zone, add_zone_type, at_random, children_last, falling, in_turn,
    rising, with_base, with_zone, Section, APART, MAX_NODES, NFACE_N, NGON_N, TRI_3,
};
use crate::{mixed, parents, siblings};

/// Face references of an image with one cell section, and of each cell section where there are many.
const REFERENCES: usize = 3_000_000;
const FEW_REFERENCES: usize = 6_000;

/// An image, its name in the tables and that of its file.
pub struct Odd {
    pub name: &'static str,
    pub file: &'static str,
    pub image: Vec<u8>,
    /// Whether it is one zone that uses no face twice with one sign, and whether its faces have parents.
    pub usage: bool,
    pub parents: bool,
    /// The rule that it breaks; 0 where it is lawful.
    pub rule: u64,
    /// Whether nearly all its nodes are siblings.
    pub siblings: bool,
}

pub fn odd(name: &'static str, file: &'static str, image: Image) -> Odd {
    Odd { name, file, image: image.to_bytes(), usage: false, parents: false, rule: 0, siblings: false }
}

/// All odd images: many references to faces in many sections, then parents of faces, then MIXED sections, then many nodes with
/// few data, then many siblings.
pub fn images() -> Vec<Odd> {
    let mut images = of_faces();
    images.extend(parents::images());
    images.extend(mixed::images());
    images.extend(of_nodes());
    images.extend(siblings::images());
    images
}

fn of_faces() -> Vec<Odd> {
    let apart = rising(1_000, APART);
    let touching = rising(1_000, 1);
    let tenth: Vec<i64> = apart.iter().copied().step_by(10).collect();
    let few = &apart[..100];
    let mut close = rising(1_000, 3);
    close.push(1_000 * APART);
    let random = &mut Random::new(0, 0);
    vec![
        odd(
            "1,000 face sections apart, references jump between the last two",
            "apart_last_two",
            one_cell(&apart, &in_turn(REFERENCES, [apart[998], apart[999]])),
        ),
        odd(
            "1,000 face sections apart, references at random among all",
            "apart_random",
            one_cell(&apart, &at_random(random, REFERENCES, &apart)),
        ),
        odd(
            "1,000 face sections apart, references at random among 100",
            "apart_random_100",
            one_cell(&apart, &at_random(random, REFERENCES, &tenth)),
        ),
        odd(
            "100 face sections apart, references at random among all",
            "few_apart_random",
            one_cell(few, &at_random(random, REFERENCES, few)),
        ),
        odd(
            "1,000 face sections close together beside one far away, references at random among all",
            "close_far",
            one_cell(&close, &at_random(random, REFERENCES, &close)),
        ),
        odd(
            "1,000 face sections of 30 close together beside a great one, references at random among the 1,000",
            "close_great",
            beside_great(random, 1),
        ),
        odd(
            "1,000 face sections of 30 close together beside eight great ones, references at random among all",
            "close_eight_great",
            beside_great(random, 8),
        ),
        odd(
            "1,000 face sections that touch, references jump between the last two",
            "touching_last_two",
            one_cell(&touching, &in_turn(REFERENCES, [touching[998], touching[999]])),
        ),
        Odd {
            usage: true,
            ..odd(
                "1,000 face sections apart, each face used from both sides, in random order",
                "apart_both_sides",
                both_sides(random, &apart),
            )
        },
        odd(
            "500 face sections apart, 500 cell sections, references at random among all",
            "many_cells",
            many_cells(random, 500, FEW_REFERENCES),
        ),
        odd(
            "500 face sections apart, 500 cell sections of 1,000 references at random among all",
            "many_small_cells",
            many_cells(random, 500, 1_000),
        ),
        odd("two zones in turn, 256 face and 255 cell sections each, falling ranges", "two_zones", two_zones(random)),
        odd(
            "the same two zones, all children at the end of the table",
            "two_zones_children_last",
            children_last(two_zones(random)),
        ),
        Odd {
            rule: 33,
            ..odd(
                "polyhedra I4, 52 x 52 x 52, two nodes in the last face: rule 33",
                "flat_last_face",
                flat_last_face(52),
            )
        },
        Odd {
            rule: 37,
            ..odd(
                "polyhedra I4, 52 x 52 x 52, a cell for the last face of the last cell: rule 37",
                "cell_for_face",
                cell_for_face(52),
            )
        },
        Odd {
            rule: 36,
            ..odd(
                "1,000 face sections apart, references at random among all, the last to no element: rule 36",
                "last_no_element",
                one_cell(&apart, &last_no_element(random, &apart)),
            )
        },
    ]
}

fn of_nodes() -> Vec<Odd> {
    let up = rising(1_020, APART);
    let down = falling(1_020, APART);
    vec![
        odd(
            "1,020 face sections, all children at the end of the table",
            "children_last",
            children_last(triangles(NGON_N, &up)),
        ),
        odd("4,070 arrays of a flow solution", "flow_arrays", flow_arrays(4_070)),
        odd("4,070 arrays of a flow solution with a point range", "flow_arrays_range", flow_arrays_by_range(4_070)),
        odd("1,020 sections of a triangle, rising ranges", "triangles_rising", triangles(TRI_3, &up)),
        odd("1,020 sections of a triangle, falling ranges", "triangles_falling", triangles(TRI_3, &down)),
        Odd {
            rule: 23,
            ..odd(
                "2,040 sections of triangles with a range alone, falling: rule 23",
                "ranges_falling",
                ranges_alone(TRI_3, &falling(2_040, APART / 2)),
            )
        },
        Odd {
            rule: 23,
            ..odd(
                "2,040 face sections with a range alone, falling: rule 23",
                "face_ranges_falling",
                ranges_alone(NGON_N, &falling(2_040, APART / 2)),
            )
        },
        odd("2,046 zones, ZoneType at the end of the table", "zone_types_last", zone_types_last()),
        odd("1,020 sections of a triangle, Rind at the end of the table", "rinds_last", rinds_last(&up)),
    ]
}

/// A section of one face for each number, and one of a cell with these references.
fn one_cell(faces: &[i64], references: &[i64]) -> Image {
    let (mut image, zone) = with_zone();
    add_triangles(&mut image, zone, NGON_N, faces);
    Section::of_one(NFACE_N, faces[faces.len() - 1] + 1, references).add(&mut image, zone);
    image
}

/// A section of 600 faces from each number on, and cells that use each face once with either sign.
fn both_sides(random: &mut Random, firsts: &[i64]) -> Image {
    const FACES: usize = 600;
    let (mut image, zone) = with_zone();
    for &first in firsts {
        add_faces(&mut image, zone, first, FACES);
    }
    let faces = firsts.iter().flat_map(|&first| first..first + FACES as i64);
    let mut references: Vec<i64> = faces.flat_map(|face| [face, -face]).collect();
    random.shuffle(&mut references);
    let first = firsts[firsts.len() - 1] + FACES as i64;
    Section { element_type: NFACE_N, first, size: 6, references: &references }.add(&mut image, zone);
    image
}

/// Sections of 30 faces close together, behind them so many great ones, which share 200,000 faces, and a cell with references: to the first faces
/// where there is one great section, else to these and to those of the great ones in equal parts.
fn beside_great(random: &mut Random, great: usize) -> Image {
    const FACES: usize = 30;
    let size = 200_000 / great;
    let (mut image, zone) = with_zone();
    let firsts = rising(1_000, FACES as i64 + 2);
    for &first in &firsts {
        add_faces(&mut image, zone, first, FACES);
    }
    let mut faces: Vec<i64> = firsts.iter().flat_map(|&first| first..first + FACES as i64).collect();
    let mut next = firsts[firsts.len() - 1] + 2 * FACES as i64;
    for _ in 0..great {
        add_faces(&mut image, zone, next, size);
        if great > 1 {
            faces.extend((next..next + size as i64).step_by(10));
        }
        next += size as i64 + 2;
    }
    Section::of_one(NFACE_N, next, &at_random(random, REFERENCES, &faces)).add(&mut image, zone);
    image
}

/// So many face sections, and behind them as many cell sections with references.
fn many_cells(random: &mut Random, count: i64, references: usize) -> Image {
    let (mut image, zone) = with_zone();
    let numbers = rising(2 * count, APART);
    let (faces, cells) = numbers.split_at(count as usize);
    add_triangles(&mut image, zone, NGON_N, faces);
    for &cell in cells {
        Section::of_one(NFACE_N, cell, &at_random(random, references, faces)).add(&mut image, zone);
    }
    image
}

/// Two zones with as many sections as there may be, which stand in turn: a face section of either zone, then a cell section of
/// either. Those of faces have falling numbers, and those of cells too, all above those of faces.
fn two_zones(random: &mut Random) -> Image {
    let (mut image, base) = with_base();
    let zones = [add_zone(&mut image, base), add_zone(&mut image, base)];
    let numbers = falling(511, APART);
    let (cells, faces) = numbers.split_at(255);
    for (k, &face) in faces.iter().enumerate() {
        for zone in zones {
            Section::triangle(NGON_N, face).add(&mut image, zone);
        }
        let Some(&cell) = cells.get(k) else { break };
        for zone in zones {
            Section::of_one(NFACE_N, cell, &at_random(random, FEW_REFERENCES, faces)).add(&mut image, zone);
        }
    }
    image
}

/// A mesh of polyhedra with two nodes in the last face of its last section: nothing else is wrong with it.
fn flat_last_face(n: i64) -> Image {
    let mut image = polyhedra(n, 4);
    let [.., offsets, connectivity] = &mut image.nodes[..] else { panic!("the last section's children") };
    let (mut starts, mut nodes) = (offsets.numbers(), connectivity.numbers());
    nodes.truncate(nodes.len() - 2);
    starts.pop();
    starts.push(nodes.len() as i64);
    offsets.set_list(&starts);
    connectivity.set_list(&nodes);
    image
}

/// A mesh of polyhedra whose last cell refers to the first cell, last of all, in place of a face.
fn cell_for_face(n: i64) -> Image {
    let mut image = polyhedra(n, 4);
    let [.., range, _, connectivity, _, _, _, _] = &mut image.nodes[..] else { panic!("the cells' children") };
    let mut faces = connectivity.numbers();
    faces.pop();
    faces.push(range.numbers()[0]);
    connectivity.set_list(&faces);
    image
}

/// References at random among all faces, and last a number between two of them.
fn last_no_element(random: &mut Random, faces: &[i64]) -> Vec<i64> {
    let mut references = at_random(random, REFERENCES, faces);
    references.pop();
    references.push(faces[faces.len() - 1] - 1);
    references
}

/// A section of one triangle for each number.
fn triangles(element_type: i64, numbers: &[i64]) -> Image {
    let (mut image, zone) = with_zone();
    add_triangles(&mut image, zone, element_type, numbers);
    image
}

/// A section for each number, with its range alone: the first breaks rule 23.
fn ranges_alone(element_type: i64, numbers: &[i64]) -> Image {
    let (mut image, zone) = with_zone();
    for &number in numbers {
        let section = Section::triangle(element_type, number).add_bare(&mut image, zone);
        image.add(section, Node::integers("ElementRange", "IndexRange_t", 4, &[2], &[number, number]));
    }
    image
}

/// A flow solution of a structured zone with arrays at cell centres, and behind them what tells their size.
fn flow_arrays(count: usize) -> Image {
    let (mut image, base) = with_base();
    let zone = image.add(base, Node::integers("Zone", "Zone_t", 4, &[3, 3], &[2, 2, 2, 1, 1, 1, 0, 0, 0]));
    let flow = image.add(zone, Node::empty("FlowSolution", "FlowSolution_t"));
    for k in 0..count {
        let mut array = Node::new(&format!("Array{k}"), "DataArray_t", "R4", &[], Vec::new());
        array.reshape(&[1, 1, 2]);
        image.add(flow, array);
    }
    image.add(flow, Node::text("GridLocation", "GridLocation_t", "CellCenter"));
    image.add(flow, Node::integers("Rind", "Rind_t", 4, &[6], &[0, 0, 0, 0, 0, 1]));
    add_zone_type(&mut image, zone, "Structured");
    image
}

/// The same arrays, but sized by a range of points behind them.
fn flow_arrays_by_range(count: usize) -> Image {
    let mut image = flow_arrays(count);
    let arrays = image.nodes.iter_mut().filter(|node| node.is_labelled("DataArray_t"));
    arrays.for_each(|array| array.reshape(&[2]));
    let flow = image.nodes.iter().position(|node| node.is_labelled("FlowSolution_t")).expect("a flow solution");
    image.add(flow, Node::point_range(4, &[[1, 2], [1, 1], [1, 1]]));
    image
}

/// As many zones as there may be, and behind the last the ZoneType of each.
fn zone_types_last() -> Image {
    let (mut image, base) = with_base();
    let room = (MAX_NODES - image.nodes.len()) / 2;
    let zones: Vec<usize> = (0..room).map(|_| add_bare_zone(&mut image, base)).collect();
    for zone in zones {
        add_zone_type(&mut image, zone, "Unstructured");
    }
    image
}

/// A section of one triangle for each number, and behind the last the Rind of each.
fn rinds_last(numbers: &[i64]) -> Image {
    let (mut image, zone) = with_zone();
    for section in add_triangles(&mut image, zone, TRI_3, numbers) {
        image.add(section, Node::integers("Rind", "Rind_t", 4, &[2], &[0, 0]));
    }
    image
}
