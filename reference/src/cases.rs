//! The worked cases: of document 01, "One tetrahedron, and near misses", (a) to (m) as images; behind them those of
//! document 02.

use crate::build::{Image, Node};
use crate::flat_cases::flat_cases;
use crate::mixed_cases::mixed_cases;
use crate::name_cases::name_cases;
use crate::once_cases::once_cases;
use crate::parent_cases::parent_cases;
use crate::point_cases::point_cases;
use crate::reference_cases::reference_cases;

/// The nodes of a tetrahedron's four faces (001).
const FACE_NODES: [i64; 12] = [1, 3, 2, 1, 2, 4, 2, 3, 4, 3, 1, 4];

/// The root and the version node that all whole cases begin with.
pub fn beginning() -> Image {
    let mut image = Image::with_root("HDF5 MotherNode", "Root Node of HDF5 File");
    let version = 4.0f32.to_le_bytes().to_vec();
    image.add(0, Node::new("CGNSLibraryVersion", "CGNSLibraryVersion_t", "R4", &[1], version));
    image
}

/// Case (a) as nodes: a zone of one tetrahedron, its faces and its cell.
pub fn tetrahedron() -> Image {
    let mut image = beginning();
    let base = image.add(0, Node::integers("Base", "CGNSBase_t", 4, &[2], &[3, 3]));
    let zone = image.add(base, Node::integers("Zone1", "Zone_t", 4, &[1, 3], &[4, 1, 0]));
    image.add(zone, Node::text("ZoneType", "ZoneType_t", "Unstructured"));
    let grid = image.add(zone, Node::empty("GridCoordinates", "GridCoordinates_t"));
    let coordinates: [(&str, [f64; 4]); 3] = [
        ("CoordinateX", [0.0, 1.0, 0.0, 0.0]),
        ("CoordinateY", [0.0, 0.0, 1.0, 0.0]),
        ("CoordinateZ", [0.0, 0.0, 0.0, 1.0]),
    ];
    for (name, values) in coordinates {
        let data = values.iter().flat_map(|v| v.to_le_bytes()).collect();
        image.add(grid, Node::new(name, "DataArray_t", "R8", &[4], data));
    }
    add_section(&mut image, zone, "Faces", 22, [1, 4], &[0, 3, 6, 9, 12], &FACE_NODES);
    add_section(&mut image, zone, "Cells", 23, [5, 5], &[0, 4], &[1, 2, 3, 4]);
    image
}

/// Adds a section with its range, start offsets and connectivity, all I4.
pub fn add_section(
    image: &mut Image,
    zone: usize,
    name: &str,
    element_type: i64,
    range: [i64; 2],
    offsets: &[i64],
    connectivity: &[i64],
) {
    let own = Node::integers(name, "Elements_t", 4, &[2], &[element_type, 0]);
    let section = image.add(zone, own);
    image.add(section, Node::integers("ElementRange", "IndexRange_t", 4, &[2], &range));
    image.add(section, Node::list("ElementStartOffset", 4, offsets));
    image.add(section, Node::list("ElementConnectivity", 4, connectivity));
}

/// Case (a) with the numbers of one node replaced.
fn tetrahedron_with(node: usize, numbers: &[i64]) -> Vec<u8> {
    let mut image = tetrahedron();
    image.nodes[node].set_numbers(numbers);
    image.to_bytes()
}

/// Case (c): a header that says that there is no node.
fn no_node() -> Vec<u8> {
    [1u32, 32, 0, 32, 32, 0, 32, 0].iter().flat_map(|word| word.to_le_bytes()).collect()
}

/// Case (i): case (a) with node 5 as the last of the twelve.
fn node_five() -> Vec<u8> {
    let mut nodes = FACE_NODES;
    nodes[11] = 5;
    tetrahedron_with(12, &nodes)
}

/// Case (m): a structured zone of 17×33×9 vertices with one rind plane on either side of the last direction; the array
/// is node 7.
pub fn rind_planes() -> Vec<u8> {
    let mut image = beginning();
    let base = image.add(0, Node::integers("Base", "CGNSBase_t", 4, &[2], &[3, 3]));
    let sizes = [17, 33, 9, 16, 32, 8, 0, 0, 0];
    let zone = image.add(base, Node::integers("Zone1", "Zone_t", 4, &[3, 3], &sizes));
    image.add(zone, Node::text("ZoneType", "ZoneType_t", "Structured"));
    let grid = image.add(zone, Node::empty("GridCoordinates", "GridCoordinates_t"));
    image.add(grid, Node::integers("Rind", "Rind_t", 4, &[6], &[0, 0, 0, 0, 1, 1]));
    let mut radius = Node::new("CoordinateR", "DataArray_t", "R4", &[], Vec::new());
    radius.reshape(&[17, 33, 11]);
    image.add(grid, radius);
    image.to_bytes()
}

/// The node of the array of case (m).
pub const RIND_ARRAY: u64 = 7;

/// All cases, each with its name; (j) has three, those of points begin with `p1_`, those of flat faces and cells with
/// `f2_`, those of name bytes with `n3_`, those of MIXED sections with `m4_`, those of labels allowed once with `o5_`,
/// those of references with `r6_`, those of parents with `q7_`.
pub fn cases() -> Vec<(&'static str, Vec<u8>)> {
    let a = tetrahedron().to_bytes();
    let b = a[..31].to_vec();
    let d = Image::with_root("HDF5 MotherNode", "Root Node of HDF5 File").to_bytes();
    let mut cases = vec![
        ("a", a),
        ("b", b),
        ("c", no_node()),
        ("d", d),
        ("e", tetrahedron_with(11, &[1, 3, 6, 9, 12])),
        ("f", tetrahedron_with(11, &[0, 3, 6, 6, 12])),
        ("g", tetrahedron_with(11, &[0, 3, 6, 9, 11])),
        ("h", tetrahedron_with(10, &[1, 5])),
        ("i", node_five()),
        ("j0", tetrahedron_with(16, &[1, 2, 3, 0])),
        ("j5", tetrahedron_with(16, &[1, 2, 3, 5])),
        ("jmin", tetrahedron_with(16, &[1, 2, 3, -2147483648])),
        ("k", tetrahedron_with(16, &[1, 2, 3, -3])),
        ("l", tetrahedron_with(16, &[1, 2, 3, 3])),
        ("m", rind_planes()),
    ];
    cases.extend(point_cases());
    cases.extend(flat_cases());
    cases.extend(name_cases());
    cases.extend(mixed_cases());
    cases.extend(once_cases());
    cases.extend(reference_cases());
    cases.extend(parent_cases());
    cases
}

/// The image of one case.
pub fn case(name: &str) -> Vec<u8> {
    cases().into_iter().find(|(known, _)| *known == name).map(|(_, image)| image).unwrap_or_default()
}
