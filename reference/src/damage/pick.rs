//! Nodes that a damage is done to, chosen at random, and small changes that several damages make.

use crate::build::{Image, Node};
use crate::labels::Label;
use crate::random::Random;

/// Any node.
pub fn any_node(image: &Image, random: &mut Random) -> usize {
    random.index(image.nodes.len())
}

/// One of the nodes that a test admits.
pub fn some_node(image: &Image, random: &mut Random, test: impl Fn(&Image, usize) -> bool) -> Option<usize> {
    let fitting: Vec<usize> = (0..image.nodes.len()).filter(|&n| test(image, n)).collect();
    (!fitting.is_empty()).then(|| *random.pick(&fitting))
}

/// One of the nodes that store something.
pub fn storing_node(image: &Image, random: &mut Random) -> Option<usize> {
    some_node(image, random, |image, n| !image.nodes[n].data.is_empty())
}

/// Whether a label is among the known ones.
pub fn is_known(image: &Image, node: usize) -> bool {
    Label::of(&image.nodes[node].label).is_some()
}

/// Whether a node is validated.
pub fn is_validated(image: &Image, node: usize) -> bool {
    let Some(parent) = image.parent(node) else {
        return node == 0;
    };
    is_validated(image, parent)
        && (parent == 0 || !image.nodes[parent].is_labelled("UserDefinedData_t"))
        && is_known(image, node)
}

/// One of the validated nodes of a label; never the root.
pub fn labelled(image: &Image, random: &mut Random, label: &str) -> Option<usize> {
    some_node(image, random, |image, n| n > 0 && image.nodes[n].is_labelled(label) && is_validated(image, n))
}

/// One of the validated nodes, the root too.
pub fn validated_node(image: &Image, random: &mut Random) -> Option<usize> {
    some_node(image, random, is_validated)
}

/// One of the validated sections.
pub fn section(image: &Image, random: &mut Random) -> Option<usize> {
    labelled(image, random, "Elements_t")
}

/// One of the validated sections whose type is one of these, and its child of a name.
pub fn section_child(image: &Image, random: &mut Random, types: &[i64], name: &str) -> Option<usize> {
    let section = some_node(image, random, |image, n| {
        n > 0
            && image.nodes[n].is_labelled("Elements_t")
            && is_validated(image, n)
            && types.contains(image.nodes[n].numbers().first().unwrap_or(&0))
    })?;
    image.child(section, name)
}

/// One of the validated ranges and lists of points: an IndexRange_t or IndexArray_t of a flow solution.
pub fn points_node(image: &Image, random: &mut Random) -> Option<usize> {
    some_node(image, random, |image, n| {
        let in_flow = image.parent(n).is_some_and(|parent| image.nodes[parent].is_labelled("FlowSolution_t"));
        let points = image.nodes[n].is_labelled("IndexRange_t") || image.nodes[n].is_labelled("IndexArray_t");
        in_flow && points && is_validated(image, n)
    })
}

/// Changes one number of a list.
pub fn change(image: &mut Image, node: usize, place: usize, number: i64) {
    let mut numbers = image.nodes[node].numbers();
    if let Some(old) = numbers.get_mut(place) {
        *old = number;
    }
    image.nodes[node].set_numbers(&numbers);
}

/// Adds a node, and gives it a place among the others now and then.
pub fn add_anywhere(image: &mut Image, random: &mut Random, parent: usize, node: Node) {
    let added = image.add(parent, node);
    if random.one_in(2) {
        let place = parent + 1 + random.index(added - parent);
        let mut order: Vec<usize> = (0..added).collect();
        order.insert(place, added);
        image.reorder(&order);
    }
}

/// Adds a node under a parent and the others under that node, in their order, each at any place behind the node
/// `after`, which is the parent or has a higher number; answers the first one's number. Nodes up to `after` keep theirs.
pub fn scatter(image: &mut Image, random: &mut Random, parent: usize, after: usize, nodes: Vec<Node>) -> usize {
    let (old, least) = (image.nodes.len(), after + 1);
    let mut places: Vec<usize> = nodes.iter().map(|_| least + random.index(old + 1 - least)).collect();
    places.sort_unstable();
    for (k, node) in nodes.into_iter().enumerate() {
        image.add(if k == 0 { parent } else { old }, node);
    }
    let mut order: Vec<usize> = (0..old).collect();
    for (k, &place) in places.iter().enumerate() {
        order.insert(place + k, old + k);
    }
    image.reorder(&order);
    places[0]
}

/// A node of a label with data that fit the label more or less.
pub fn plain_node(random: &mut Random, name: &str, label: &str) -> Node {
    match label {
        "CGNSLibraryVersion_t" => Node::new(name, label, "R4", &[1], vec![0; 4]),
        "CGNSBase_t" | "Elements_t" => Node::integers(name, label, 4, &[2], &[2, 3]),
        "Zone_t" => Node::integers(name, label, 4, &[1, 3], &[4, 1, 0]),
        "ZoneType_t" => Node::text(name, label, "Unstructured"),
        "GridLocation_t" => Node::text(name, label, "Vertex"),
        "Descriptor_t" => Node::text(name, label, "text"),
        "Rind_t" => Node::integers(name, label, 4, &[2], &[0, 0]),
        "IndexRange_t" => Node::integers(name, label, 4, &[2], &[1, 2]),
        "IndexArray_t" => Node::integers(name, label, *random.pick(&[4, 8]), &[1, 2], &[1, 2]),
        "DataArray_t" => Node::integers(name, label, *random.pick(&[4, 8]), &[1], &[1]),
        _ => Node::empty(name, label),
    }
}
