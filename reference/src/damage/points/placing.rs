//! Points in places where they may not stand (rule 20) and under names that are not theirs (rule 21).

use super::site::Site;
use super::Answer;
use crate::build::{Image, Node};
use crate::damage::pick::{is_validated, labelled, plain_node, some_node};
use crate::labels::LABELS;
use crate::text::padded;

/// 20 at an IndexArray_t in the zone.
pub fn list_in_zone(site: &mut Site) -> Option<Answer> {
    list_under(site, site.zone)
}

/// 20 at an IndexArray_t in a section.
pub fn list_in_section(site: &mut Site) -> Option<Answer> {
    let section = labelled(site.image, site.random, "Elements_t")?;
    list_under(site, section)
}

/// 20 at an IndexArray_t under any validated node but a flow solution.
pub fn list_elsewhere(site: &mut Site) -> Option<Answer> {
    let elsewhere = |image: &Image, n: usize| {
        let node = &image.nodes[n];
        let open = n == 0 || !node.is_labelled("UserDefinedData_t") && !node.is_labelled("FlowSolution_t");
        open && is_validated(image, n)
    };
    let parent = some_node(site.image, site.random, elsewhere)?;
    list_under(site, parent)
}

/// 20 at a list under a parent; now and then it has another name.
fn list_under(site: &mut Site, parent: usize) -> Option<Answer> {
    let mut list = site.list().0;
    if site.random.one_in(3) {
        list.name = padded(b"Points");
    }
    refused_below(site, 20, parent, list)
}

/// Adds a node under a parent, which is to be refused by a rule; nothing where a sibling has its name.
fn refused_below(site: &mut Site, rule: u32, parent: usize, node: Node) -> Option<Answer> {
    if site.image.children(parent).into_iter().any(|n| site.image.nodes[n].name == node.name) {
        return None;
    }
    Some(Answer::at_node(rule, site.scatter(parent, vec![node])))
}

/// A range or a list under a name that is not its own there, and that name.
pub fn crossed(site: &mut Site) -> (Node, u64, &'static str) {
    let (mut points, count) = site.points();
    let names = if points.is_named("PointRange") {
        ["PointList", "ElementRange", "Points"]
    } else {
        ["PointRange", "ElementList", "pointlist"]
    };
    let name = *site.random.pick(&names);
    points.name = padded(name.as_bytes());
    (points, count, name)
}

/// 21 at a range or a list under another name, behind an array of the zone's size, which passes; now and then the names
/// of both are crossed.
pub fn crossed_name(site: &mut Site) -> Option<Answer> {
    let beside = site.beside();
    let array = site.zone_array("Pressure", &beside)?;
    if site.random.one_in(3) {
        let (mut range, mut list) = (site.range().0, site.list().0);
        std::mem::swap(&mut range.name, &mut list.name);
        let flow = site.flow(vec![array, range, list], beside);
        return site.refused(21, flow, "PointList");
    }
    let (points, _, name) = crossed(site);
    let flow = site.flow(vec![array, points], beside);
    site.refused(21, flow, name)
}

/// 21 at a range named PointRange in a section.
pub fn range_in_section(site: &mut Site) -> Option<Answer> {
    let section = labelled(site.image, site.random, "Elements_t")?;
    let range = if site.random.one_in(2) {
        Node::point_range(4, &[[1, 2]])
    } else {
        Node::integers("PointRange", "IndexRange_t", 8, &[2], &[1, 2])
    };
    refused_below(site, 21, section, range)
}

/// 20 at a range or a list under coordinates, behind an array of the zone's size, which passes.
pub fn points_under_coordinates(site: &mut Site) -> Option<Answer> {
    let sizes = site.vertex_sizes();
    let points = site.points().0;
    let name = if points.is_named("PointRange") { "PointRange" } else { "PointList" };
    let array = site.coordinate(&sizes)?;
    let grid = site.add("GridCoordinates_t", vec![array, points], Vec::new());
    site.refused(20, grid, name)
}

/// 20 at a known label below a range or a list that conforms.
pub fn known_label_below(site: &mut Site) -> Option<Answer> {
    let (points, count) = site.points();
    let name = if points.is_named("PointRange") { "PointRange" } else { "PointList" };
    let mut nodes = vec![points, site.array("Pressure", &[count])];
    site.random.shuffle(&mut nodes);
    let flow = site.add("FlowSolution_t", nodes, Vec::new());
    let parent = site.image.child(flow, name)?;
    let any = site.random.pick(&LABELS).1;
    let label = *site.random.pick(&["Descriptor_t", "UserDefinedData_t", any]);
    let child = plain_node(site.random, "Below", label);
    refused_below(site, 20, parent, child)
}
