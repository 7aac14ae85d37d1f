//! The sample images: small lawful meshes, flow data at points, and one near miss for each of rules 29 to 39.

use crate::build::{Image, Node};
use crate::cases::{beginning, case};
use crate::mesh::{hexahedra, mixed, polyhedra_and_parents, structured, HEXA_8};

/// All samples, each with its name.
pub fn samples() -> Vec<(&'static str, Vec<u8>)> {
    vec![
        ("tetrahedron", case("a")),
        ("structured_rind", structured(4, 4).to_bytes()),
        ("polyhedra", polyhedra_and_parents(2, 4).to_bytes()),
        ("hexahedra", hexahedra(3, 8).to_bytes()),
        ("mixed", mixed(3, 4).to_bytes()),
        ("wall", wall().to_bytes()),
        ("near_29", case("h")),
        ("near_30", case("e")),
        ("near_31", case("f")),
        ("near_32", case("g")),
        ("near_33", case("f2_face")),
        ("near_34", case("i")),
        ("near_35", case("j0")),
        ("near_36", case("r6_none")),
        ("near_37", case("j5")),
        ("near_38", prism_as_hexahedron().to_bytes()),
        ("near_39", case("q7_face")),
    ]
}

/// The sample of hexahedra and prisms with the last prism stored as a hexahedron.
fn prism_as_hexahedron() -> Image {
    let mut image = mixed(3, 4);
    let last = image.nodes.len() - 1;
    let mut connectivity = image.nodes[last].numbers();
    let of_last = connectivity.len() - 7;
    connectivity[of_last] = HEXA_8;
    image.nodes[last].set_numbers(&connectivity);
    image
}

/// A structured zone of 4×3×2 vertices with coordinates; pressure on the wall where the last direction begins, by a
/// range of 4 × 3 × 1 points, and temperature at five points of the other wall, by a list.
fn wall() -> Image {
    let mut image = beginning();
    let base = image.add(0, Node::integers("Base", "CGNSBase_t", 4, &[2], &[3, 3]));
    let sizes = [4, 3, 2, 3, 2, 1, 0, 0, 0];
    let zone = image.add(base, Node::integers("Channel", "Zone_t", 4, &[3, 3], &sizes));
    image.add(zone, Node::text("ZoneType", "ZoneType_t", "Structured"));
    let grid = image.add(zone, Node::empty("GridCoordinates", "GridCoordinates_t"));
    for (name, step, points) in [("CoordinateX", 1, 4), ("CoordinateY", 4, 3), ("CoordinateZ", 12, 2)] {
        let place = |v: u64| (v / step % points) as f64 / (points - 1) as f64;
        let data = (0..24).flat_map(|v| place(v).to_le_bytes()).collect();
        image.add(grid, Node::new(name, "DataArray_t", "R8", &[4, 3, 2], data));
    }
    let wall = image.add(zone, Node::empty("Wall", "FlowSolution_t"));
    image.add(wall, Node::point_range(4, &[[1, 4], [1, 3], [1, 1]]));
    let pressure = (0..12).flat_map(|k| (1.0 + k as f32 / 4.0).to_le_bytes()).collect();
    image.add(wall, Node::new("Pressure", "DataArray_t", "R4", &[12], pressure));
    let probes = image.add(zone, Node::empty("Probes", "FlowSolution_t"));
    image.add(probes, Node::point_list(8, 3, &[1, 1, 2, 2, 1, 2, 3, 2, 2, 4, 3, 2, 1, 3, 2]));
    let temperature = (0..5).flat_map(|k| (300.0 + 2.0 * f64::from(k)).to_le_bytes()).collect();
    image.add(probes, Node::new("Temperature", "DataArray_t", "R8", &[5], temperature));
    image
}
