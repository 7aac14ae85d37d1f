//! Points of flow solutions (document 02, §1): PointRange and PointList, rules 20 to 26 and array sizes with them.

use reference::build::{Image, Node};
use reference::text::padded;
use reference::{data_size, validate};

/// The lengths of document 02's product: 2^64 + 4.
const BEYOND_64_BITS: [[i64; 2]; 3] = [[1, 769_546], [1, 494_770], [1, 48_448_661]];

/// A base of this CellDimension, node 1, a zone of 2, 3 and 4 vertices in its directions, node 2, its type, node 3, a flow
/// solution, node 4, and its children from node 5 on. A CellDimension of 0 stands for an unstructured zone of 6 vertices.
fn image(cell_dimension: i64, children: &[Node]) -> Image {
    let mut image = Image::with_root("r", "r");
    let base = image.add(0, Node::integers("B", "CGNSBase_t", 4, &[2], &[cell_dimension.max(1), 3]));
    let (sizes, zone_type) = match cell_dimension {
        0 => (vec![6, 2, 0], "Unstructured"),
        d => {
            let vertices = &[2, 3, 4][..d as usize];
            let cells: Vec<i64> = vertices.iter().map(|v| v - 1).collect();
            ([vertices, &cells, &[0; 3][..d as usize]].concat(), "Structured")
        }
    };
    let zone = image.add(base, Node::integers("Z", "Zone_t", 8, &[sizes.len() as u64 / 3, 3], &sizes));
    image.add(zone, Node::text("ZoneType", "ZoneType_t", zone_type));
    let flow = image.add(zone, Node::empty("Flow", "FlowSolution_t"));
    for child in children {
        image.add(flow, child.clone());
    }
    image
}

/// The rule and node of the refusal; (0, 0) for none.
fn refusal(image: &Image) -> (u32, u64) {
    validate(&image.to_bytes()).map_or_else(|r| (r.rule, r.node), |_| (0, 0))
}

/// The refusal of a flow solution with these children.
fn with(cell_dimension: i64, children: &[Node]) -> (u32, u64) {
    refusal(&image(cell_dimension, children))
}

/// A range of integers of 4 bytes.
fn range(directions: &[[i64; 2]]) -> Node {
    Node::point_range(4, directions)
}

/// A list of so many points.
fn list(directions: usize, count: usize) -> Node {
    Node::point_list(4, directions, &vec![1; directions * count])
}

/// A node under another name.
fn named(name: &str, node: Node) -> Node {
    Node { name: padded(name.as_bytes()), ..node }
}

/// A node with another data type of the same width, or with other dimensions for the same bytes.
fn typed(data_type: &[u8; 2], node: Node) -> Node {
    Node { data_type: *data_type, ..node }
}

fn shaped(dimensions: &[u64], mut node: Node) -> Node {
    node.reshape(dimensions);
    node
}

/// An array of R4 with these dimensions.
fn array(dimensions: &[u64]) -> Node {
    shaped(dimensions, Node::new("A", "DataArray_t", "R4", &[], Vec::new()))
}

fn rind(numbers: &[i64]) -> Node {
    Node::integers("Rind", "Rind_t", 4, &[numbers.len() as u64], numbers)
}

fn location(text: &str) -> Node {
    Node::text("GridLocation", "GridLocation_t", text)
}

#[test]
fn containment() {
    assert_eq!(with(2, &[range(&[[1, 2], [1, 1]])]), (0, 0));
    assert_eq!(with(2, &[list(2, 3)]), (0, 0));
    for parent in 0..4 {
        let mut image = image(2, &[]);
        image.add(parent, list(2, 3));
        assert_eq!(refusal(&image), (20, 5), "under {parent}");
    }
    let mut section = image(0, &[]);
    section.add(2, Node::integers("E", "Elements_t", 4, &[2], &[2, 0]));
    section.add(5, Node::integers("ElementRange", "IndexRange_t", 4, &[2], &[1, 1]));
    section.add(5, Node::list("ElementConnectivity", 4, &[6]));
    assert_eq!(refusal(&section), (0, 0));
    section.add(5, list(1, 1));
    assert_eq!(refusal(&section), (20, 8));
    for points in [range(&[[1, 2]]), list(1, 3)] {
        let mut grid = image(0, &[points, array(&[6])]);
        grid.nodes[4].label = padded(b"GridCoordinates_t");
        assert_eq!(refusal(&grid), (20, 5));
    }
}

#[test]
fn points_hold_no_children() {
    for points in [range(&[[1, 2]]), list(1, 2)] {
        for (label, answer) in [("Descriptor_t", (20, 6)), ("IndexArray_t", (20, 6)), ("Family_t", (0, 0))] {
            let mut image = image(0, std::slice::from_ref(&points));
            image.add(5, Node::text("D", label, "x"));
            assert_eq!(refusal(&image), answer, "{label}");
        }
    }
}

#[test]
fn points_below_user_data_and_unknown_labels_are_skipped() {
    for (label, validated) in [("UserDefinedData_t", 6), ("Family_t", 5)] {
        let mut image = image(0, &[Node::empty("U", label)]);
        image.add(5, range(&[[2, 1]]));
        image.add(5, list(1, 1));
        image.add(5, named("Other", list(3, 1)));
        let counts = validate(&image.to_bytes()).unwrap();
        assert_eq!((counts.validated, counts.skipped), (validated, 9 - validated));
    }
}

#[test]
fn names() {
    let points = || range(&[[1, 2]]);
    for name in ["PointList", "ElementRange", "pointRange", "PointRang"] {
        assert_eq!(with(0, &[named(name, points())]), (21, 5), "{name}");
    }
    for name in ["PointRange", "ElementRange", "PointLists"] {
        assert_eq!(with(0, &[named(name, list(1, 2))]), (21, 5), "{name}");
    }
    assert_eq!(with(0, &[points(), named("Second", points())]), (21, 6));
    let mut section = image(0, &[]);
    section.add(2, Node::integers("E", "Elements_t", 4, &[2], &[2, 0]));
    section.add(5, Node::integers("ElementRange", "IndexRange_t", 4, &[2], &[1, 1]));
    section.add(5, Node::list("ElementConnectivity", 4, &[6]));
    section.add(5, named("PointRange", Node::integers("", "IndexRange_t", 4, &[2], &[1, 1])));
    assert_eq!(refusal(&section), (21, 8));
    section.remove(6);
    assert_eq!(refusal(&section), (23, 5));
}

#[test]
fn types_of_ranges() {
    for (cell_dimension, directions) in [(0, 1), (1, 1), (2, 2), (3, 3)] {
        for width in [4, 8] {
            assert_eq!(with(cell_dimension, &[Node::point_range(width, &vec![[1, 2]; directions])]), (0, 0));
        }
        let points = || range(&vec![[1, 2]; directions]);
        let d = directions as u64;
        for bad in [vec![2 * d], vec![d, 2, 1], vec![1, d, 2], vec![d, 1], vec![d, 3], vec![d + 1, 2]] {
            assert_eq!(with(cell_dimension, &[shaped(&bad, points())]), (24, 5), "{bad:?}");
        }
        for data_type in [b"U4", b"R4"] {
            assert_eq!(with(cell_dimension, &[typed(data_type, points())]), (24, 5));
        }
        assert_eq!(with(cell_dimension, &[Node::empty("PointRange", "IndexRange_t")]), (24, 5));
    }
    assert_eq!(with(3, &[shaped(&[2, 3], range(&[[1, 2]; 3]))]), (24, 5));
}

#[test]
fn values_of_ranges() {
    const MAX: i64 = 2_147_483_647;
    for width in [4, 8] {
        let of = |direction| with(2, &[Node::point_range(width, &[[1, 1], direction])]);
        for direction in [[0, 0], [-MAX, MAX], [-MAX, -MAX], [MAX, MAX], [-3, 2], [5, 900]] {
            assert_eq!(of(direction), (0, 0), "{direction:?}");
        }
        for direction in [[1, 0], [2, 1], [0, -1], [MAX, -MAX], [-MAX - 1, 1], [-MAX - 1, -MAX - 1]] {
            assert_eq!(of(direction), (25, 5), "{direction:?}");
        }
    }
    let of = |direction| with(2, &[Node::point_range(8, &[direction, [1, 1]])]);
    for direction in [[1, MAX + 1], [-MAX - 2, 1], [i64::MIN, i64::MAX], [1 << 32, 1 << 32], [i64::MAX, i64::MIN]] {
        assert_eq!(of(direction), (25, 5), "{direction:?}");
    }
}

#[test]
fn begins_come_first() {
    let stored = |numbers: &[i64]| Node::integers("PointRange", "IndexRange_t", 4, &[2, 2], numbers);
    assert_eq!(with(2, &[stored(&[5, 1, 6, 4]), array(&[8])]), (0, 0));
    assert_eq!(with(2, &[stored(&[5, 6, 1, 4])]), (25, 5));
}

#[test]
fn types_of_lists() {
    for (cell_dimension, d) in [(0, 1), (1, 1), (2, 2), (3, 3)] {
        assert_eq!(with(cell_dimension, &[Node::point_list(8, d, &vec![i64::MIN; 5 * d])]), (0, 0));
        let points = || list(d, 5);
        let d = d as u64;
        for bad in [vec![5 * d], vec![5, d], vec![d, 5, 1], vec![1, d, 5], vec![d + 1, 5]] {
            assert_eq!(with(cell_dimension, &[shaped(&bad, points())]), (24, 5), "{bad:?}");
        }
        for data_type in [b"U4", b"R4"] {
            assert_eq!(with(cell_dimension, &[typed(data_type, points())]), (24, 5));
        }
    }
}

#[test]
fn a_range_beside_a_list() {
    let (good_range, bad_range) = (range(&[[1, 2]]), range(&[[2, 1]]));
    let (good_list, bad_list) = (list(1, 2), shaped(&[2], list(1, 2)));
    for range in [&good_range, &bad_range] {
        for list in [&good_list, &bad_list] {
            assert_eq!(with(0, &[range.clone(), array(&[2]), list.clone()]), (25, 4));
            assert_eq!(with(0, &[list.clone(), range.clone()]), (25, 4));
        }
    }
    let mut typed = image(0, &[good_range.clone(), good_list.clone()]);
    typed.nodes[4] = Node { parent: 2, ..Node::text("Flow", "FlowSolution_t", "x") };
    assert_eq!(refusal(&typed), (24, 4));
    assert_eq!(with(0, &[named("PointList", good_range.clone()), named("PointRange", good_list)]), (21, 5));
    for other in [named("PointList", array(&[2])), Node::empty("PointList", "UserDefinedData_t")] {
        assert_eq!(with(0, &[other, good_range.clone()]), (0, 0));
    }
    assert_eq!(with(0, &[named("PointList", array(&[6])), Node::empty("PointRange", "Family_t")]), (0, 0));
}

#[test]
fn arrays_of_a_range() {
    let wall = || range(&[[-1, 0], [5, 7], [1, 1]]);
    for nodes in [[wall(), array(&[6])], [array(&[6]), wall()]] {
        assert_eq!(with(3, &nodes), (0, 0));
    }
    for dimensions in [&[5][..], &[7], &[2, 3, 1], &[6, 1], &[1, 6], &[2, 3, 4]] {
        assert_eq!(with(3, &[wall(), array(dimensions)]), (26, 6), "{dimensions:?}");
        assert_eq!(with(3, &[array(dimensions), wall()]), (26, 5), "{dimensions:?}");
    }
    assert_eq!(with(0, &[range(&[[100, 103]]), array(&[4])]), (0, 0));
    assert_eq!(with(0, &[range(&[[100, 103]]), array(&[6])]), (26, 6));
}

#[test]
fn arrays_of_a_list() {
    assert_eq!(with(3, &[list(3, 5), array(&[5])]), (0, 0));
    assert_eq!(with(0, &[array(&[5]), list(1, 5)]), (0, 0));
    for dimensions in [&[15][..], &[3, 5], &[2, 3, 4], &[4]] {
        assert_eq!(with(3, &[list(3, 5), array(dimensions)]), (26, 6), "{dimensions:?}");
    }
    assert_eq!(with(0, &[array(&[6]), list(1, 5)]), (26, 5));
}

#[test]
fn rind_and_location_enter_no_size_of_points_but_are_judged() {
    for points in [range(&[[1, 2], [1, 2]]), list(2, 4)] {
        let beside = |node: Node| with(2, &[array(&[4]), points.clone(), node]);
        assert_eq!(beside(rind(&[1, 0, 0, 2])), (0, 0));
        assert_eq!(beside(location("CellCenter")), (0, 0));
        assert_eq!(beside(rind(&[1, 0, 0, -2])), (25, 7));
        assert_eq!(beside(rind(&[1, 0])), (24, 7));
        assert_eq!(beside(location("FaceCenter")), (25, 7));
        assert_eq!(with(2, &[array(&[7]), points.clone(), rind(&[1, 0, 0, 2])]), (26, 5));
    }
}

#[test]
fn what_does_not_conform_leaves_the_size_of_the_zone() {
    let above = || range(&[[1, 2], [3, 1]]);
    assert_eq!(with(2, &[array(&[2, 3]), above()]), (25, 6));
    assert_eq!(with(2, &[array(&[6]), above()]), (26, 5));
    assert_eq!(with(2, &[array(&[1, 2]), above(), location("CellCenter")]), (25, 6));
    assert_eq!(with(2, &[array(&[3, 3]), rind(&[0, 1, 0, 0]), above()]), (25, 7));
    let typed = || typed(b"U4", range(&[[1, 2], [1, 3]]));
    assert_eq!(with(2, &[array(&[2, 3]), typed()]), (24, 6));
    assert_eq!(with(2, &[array(&[6]), typed()]), (26, 5));
    assert_eq!(with(0, &[array(&[6]), shaped(&[5], list(1, 5))]), (24, 6));
    assert_eq!(with(0, &[array(&[5]), shaped(&[5], list(1, 5))]), (26, 5));
    assert_eq!(with(2, &[array(&[2, 3]), named("PointList", range(&[[1, 2], [1, 2]]))]), (21, 6));
    assert_eq!(with(2, &[array(&[4]), named("PointList", range(&[[1, 2], [1, 2]]))]), (26, 5));
}

#[test]
fn products_are_exact() {
    let product: u128 = BEYOND_64_BITS.iter().map(|[_, end]| *end as u128).product();
    assert_eq!(product, (1 << 64) + 4);
    assert_eq!(with(3, &[range(&BEYOND_64_BITS), array(&[4])]), (26, 6));
    assert_eq!(with(3, &[array(&[4]), range(&BEYOND_64_BITS)]), (26, 5));
    assert_eq!(with(3, &[range(&BEYOND_64_BITS)]), (0, 0));
    assert_eq!(with(3, &[range(&BEYOND_64_BITS), array(&[2, 3, 4])]), (26, 6));
    assert_eq!(with(2, &[range(&[[1, 100], [-42_949_672, 0]]), array(&[4])]), (26, 6));
    let whole = [[-2_147_483_647, 2_147_483_647]; 3];
    for directions in 1..=3 {
        assert_eq!(with(directions as i64, &[range(&whole[..directions])]), (0, 0));
        assert_eq!(with(directions as i64, &[range(&whole[..directions]), array(&[1])]), (26, 6));
    }
}

#[test]
fn sizes_call() {
    let sizes = |image: &Image, node| data_size(&image.to_bytes(), node).map(|size| size.dimensions().to_vec());
    let by_range = image(3, &[range(&[[1, 2], [1, 3], [2, 2]]), array(&[6])]);
    assert_eq!(sizes(&by_range, 6), Ok(vec![6]));
    let by_list = image(3, &[array(&[5]), list(3, 5)]);
    assert_eq!(sizes(&by_list, 5), Ok(vec![5]));
    for (image, node) in [(&by_range, 5), (&by_list, 6), (&by_list, 4)] {
        assert_eq!(sizes(image, node).unwrap_err().rule, 40);
    }
    assert_eq!(sizes(&image(3, &[range(&[[2, 1]; 3])]), 5).unwrap_err().rule, 25);
}
