//! Rules 20 to 26 on changes of case (a) and of a structured zone.

use reference::build::{Image, Node};
use reference::cases::tetrahedron;
use reference::text::padded;
use reference::validate;

/// The rule and node of the refusal; (0, 0) for none.
fn refusal(image: &Image) -> (u32, u64) {
    validate(&image.to_bytes()).map_or_else(|r| (r.rule, r.node), |_| (0, 0))
}

/// Case (a) with one change.
fn changed(change: impl Fn(&mut Image)) -> (u32, u64) {
    let mut image = tetrahedron();
    change(&mut image);
    refusal(&image)
}

/// Case (a) with one node added, as node 17.
fn added(parent: usize, node: Node) -> (u32, u64) {
    let mut image = tetrahedron();
    image.add(parent, node);
    refusal(&image)
}

/// A structured zone of 2×3 vertices: 1 base, 2 zone, 3 its type, 4 flow.
fn structured() -> Image {
    let mut image = Image::with_root("r", "r");
    let base = image.add(0, Node::integers("B", "CGNSBase_t", 4, &[2], &[2, 3]));
    let zone = image.add(base, Node::integers("Z", "Zone_t", 8, &[2, 3], &[2, 3, 1, 2, 0, 0]));
    image.add(zone, Node::text("ZoneType", "ZoneType_t", "Structured"));
    image.add(zone, Node::empty("Flow", "FlowSolution_t"));
    image
}

/// An array of R4 with these dimensions.
fn array(name: &str, dimensions: &[u64]) -> Node {
    let mut node = Node::new(name, "DataArray_t", "R4", &[], Vec::new());
    node.reshape(dimensions);
    node
}

#[test]
fn root() {
    assert_eq!(changed(|i| i.nodes[0].label = padded(b"Zone_t")), (0, 0));
    assert_eq!(changed(|i| i.nodes[0].label = padded(b"UserDefinedData_t")), (0, 0));
    assert_eq!(changed(|i| i.nodes[0] = Node::text("r", "r", "x")), (24, 0));
    assert_eq!(changed(|i| i.nodes[2].label = padded(b"Base_t")), (23, 0));
    let counts = |label: &[u8]| {
        let mut image = tetrahedron();
        image.nodes[0].label = padded(label);
        validate(&image.to_bytes()).unwrap()
    };
    assert_eq!(counts(b"Zone_t"), counts(b"UserDefinedData_t"));
    assert_eq!(counts(b"Zone_t").zones, 1);
}

#[test]
fn foreign_subtrees_and_user_data_are_skipped() {
    for label in ["Family_t", "UserDefinedData_t"] {
        let mut image = tetrahedron();
        let foreign = image.add(2, Node::empty("F", label));
        let zone = image.add(foreign, Node::empty("Z", "Zone_t"));
        image.add(zone, Node::empty("E", "Elements_t"));
        let counts = validate(&image.to_bytes()).unwrap();
        let validated = if label == "Family_t" { 17 } else { 18 };
        assert_eq!((counts.validated, counts.skipped), (validated, 20 - validated));
        assert_eq!((counts.zones, counts.sections), (1, 2));
    }
}

#[test]
fn containment() {
    assert_eq!(added(0, Node::empty("U", "UserDefinedData_t")), (20, 17));
    assert_eq!(added(1, Node::text("D", "Descriptor_t", "x")), (20, 17));
    assert_eq!(added(4, Node::text("D", "Descriptor_t", "x")), (20, 17));
    assert_eq!(added(6, Node::text("D", "Descriptor_t", "x")), (0, 0));
    assert_eq!(added(6, Node::empty("U", "UserDefinedData_t")), (20, 17));
    assert_eq!(added(5, Node::text("GridLocation", "GridLocation_t", "Vertex")), (20, 17));
    let mut image = structured();
    image.add(2, Node::integers("E", "Elements_t", 4, &[2], &[5, 0]));
    assert_eq!(refusal(&image), (20, 5));
}

#[test]
fn fixed_names_and_once_only() {
    assert_eq!(changed(|i| i.nodes[1].name = padded(b"Version")), (21, 1));
    assert_eq!(added(3, Node::text("Type2", "ZoneType_t", "Unstructured")), (21, 17));
    assert_eq!(added(9, Node::integers("R", "IndexRange_t", 4, &[2], &[1, 4])), (21, 17));
    assert_eq!(added(9, Node::integers("Rind", "Rind_t", 4, &[2], &[0, 0])), (0, 0));
    assert_eq!(added(3, Node::text("ZoneType", "ZoneType_t", "Unstructured")), (11, 17));
}

#[test]
fn required_children() {
    for text in ["unstructured", "Unstructured ", "UserDefined"] {
        assert_eq!(changed(|i| i.nodes[4].set_text(text)), (23, 3));
    }
    assert_eq!(changed(|i| i.nodes[4].name = padded(b"Zone Type")), (23, 3));
    assert_eq!(changed(|i| i.nodes[10].name = padded(b"Range")), (23, 9));
    assert_eq!(changed(|i| i.nodes[10].set_numbers(&[0, 4])), (23, 9));
    assert_eq!(changed(|i| i.nodes[10].set_numbers(&[4, 3])), (23, 9));
    assert_eq!(changed(|i| i.nodes[10].data_type = *b"U4"), (23, 9));
    assert_eq!(changed(|i| i.nodes[12].data_type = *b"R4"), (23, 9));
    assert_eq!(changed(|i| i.nodes[12].dimensions = vec![3, 4]), (23, 9));
    assert_eq!(changed(|i| i.nodes[16].label = padded(b"Data_t")), (23, 13));
}

#[test]
fn types() {
    assert_eq!(changed(|i| i.nodes[1].data_type = *b"I4"), (24, 1));
    assert_eq!(changed(|i| i.nodes[1].reshape(&[2])), (24, 1));
    assert_eq!(changed(|i| i.nodes[2].dimensions = vec![2, 1]), (24, 2));
    assert_eq!(changed(|i| i.nodes[3].dimensions = vec![3, 1]), (24, 3));
    assert_eq!(
        changed(|i| i.nodes[5] = {
            let mut n = Node::text("G", "GridCoordinates_t", "x");
            n.parent = 3;
            n
        }),
        (24, 5)
    );
    assert_eq!(changed(|i| i.nodes[6].data_type = *b"I8"), (24, 6));
    assert_eq!(changed(|i| i.nodes[9].data_type = *b"U4"), (24, 9));
    assert_eq!(changed(|i| i.nodes[11].data_type = *b"U4"), (29, 9));
    assert_eq!(added(9, Node::empty("Other", "DataArray_t")), (24, 17));
    assert_eq!(added(9, array("Other", &[1, 2, 3])), (0, 0));
    assert_eq!(added(9, Node::integers("Rind", "Rind_t", 4, &[4], &[0; 4])), (24, 17));
    assert_eq!(added(9, Node::integers("Rind", "Rind_t", 8, &[2], &[0; 2])), (24, 17));
    assert_eq!(added(2, Node::integers("D", "Descriptor_t", 4, &[1], &[0])), (24, 17));
}

#[test]
fn values() {
    for numbers in [[0, 3], [4, 4], [3, 2], [2, 4], [-1, 1]] {
        assert_eq!(changed(|i| i.nodes[2].set_numbers(&numbers)), (25, 2));
    }
    for numbers in [[0, 1, 0], [4, -1, 0], [4, 1, -1], [4, 1, 5]] {
        assert_eq!(changed(|i| i.nodes[3].set_numbers(&numbers)), (25, 3));
    }
    assert_eq!(changed(|i| i.nodes[3].set_numbers(&[4, 0, 4])), (0, 0));
    assert_eq!(changed(|i| i.nodes[9].set_numbers(&[22, -1])), (25, 9));
    assert_eq!(added(9, Node::integers("Rind", "Rind_t", 4, &[2], &[0, -1])), (25, 17));
}

#[test]
fn structured_sizes() {
    assert_eq!(refusal(&structured()), (0, 0));
    let with = |numbers: [i64; 6]| {
        let mut image = structured();
        image.nodes[2].set_numbers(&numbers);
        refusal(&image)
    };
    assert_eq!(with([2, 2_147_483_647, 1, 2_147_483_646, 0, 0]), (0, 0));
    assert_eq!(with([2, 2_147_483_648, 1, 2_147_483_647, 0, 0]), (25, 2));
    assert_eq!(with([2, 1, 1, 0, 0, 0]), (25, 2));
    assert_eq!(with([2, 3, 1, 3, 0, 0]), (25, 2));
    assert_eq!(with([2, 3, 2, 1, 0, 0]), (25, 2));
    assert_eq!(with([2, 3, 1, 2, 0, 1]), (25, 2));
    assert_eq!(with([i64::MIN, 3, i64::MAX, 2, 0, 0]), (25, 2));
}

#[test]
fn array_sizes() {
    let with = |nodes: &[Node]| {
        let mut image = structured();
        for node in nodes {
            image.add(4, node.clone());
        }
        refusal(&image)
    };
    let rind = |numbers: &[i64]| Node::integers("Rind", "Rind_t", 4, &[numbers.len() as u64], numbers);
    let location = |text| Node::text("GridLocation", "GridLocation_t", text);
    assert_eq!(with(&[array("A", &[2, 3])]), (0, 0));
    assert_eq!(with(&[array("A", &[3, 2])]), (26, 5));
    assert_eq!(with(&[array("A", &[6])]), (26, 5));
    assert_eq!(with(&[array("A", &[2, 3, 1])]), (26, 5));
    assert_eq!(with(&[array("A", &[1, 2]), location("CellCenter")]), (0, 0));
    assert_eq!(with(&[array("A", &[2, 5]), rind(&[0, 0, 2, 0])]), (0, 0));
    assert_eq!(with(&[array("A", &[2, 5]), rind(&[0, 2, 0, 0])]), (26, 5));
    assert_eq!(with(&[array("A", &[3, 6]), location("CellCenter"), rind(&[1, 1, 0, 4])]), (0, 0));
}

#[test]
fn what_does_not_conform_gives_the_default() {
    let with = |nodes: &[Node]| {
        let mut image = structured();
        for node in nodes {
            image.add(4, node.clone());
        }
        refusal(&image)
    };
    let rind = |numbers: &[i64]| Node::integers("Rind", "Rind_t", 4, &[numbers.len() as u64], numbers);
    let location = |text| Node::text("GridLocation", "GridLocation_t", text);
    assert_eq!(with(&[array("A", &[2, 3]), rind(&[0, 0, 3, -1])]), (25, 6));
    assert_eq!(with(&[array("A", &[2, 5]), rind(&[0, 0, 3, -1])]), (26, 5));
    assert_eq!(with(&[array("A", &[2, 3]), rind(&[0, 0])]), (24, 6));
    assert_eq!(with(&[array("A", &[2, 3]), location("CellCentre")]), (25, 6));
    assert_eq!(with(&[array("A", &[1, 2]), location("CellCentre")]), (26, 5));
    let mut misplaced = structured();
    misplaced.nodes[4] = Node::empty("Grid", "GridCoordinates_t");
    misplaced.nodes[4].parent = 2;
    misplaced.add(4, array("A", &[2, 3]));
    misplaced.add(4, location("CellCenter"));
    assert_eq!(refusal(&misplaced), (20, 6));
}
