//! Cases that are accepted: arrays of the size that points give, and what does not count as points.

use super::site::Site;
use super::sizes::{great_lengths, BEYOND_32_BITS, BEYOND_64_BITS};
use super::Answer;
use crate::build::Node;
use crate::sizes::MAX_NUMBER;

/// Points and arrays of so many values in any order, now and then beside a rind and a location.
fn sized(site: &mut Site, (points, count): (Node, u64)) -> Option<Answer> {
    let mut nodes = vec![points, site.array("Pressure", &[count])];
    if site.random.one_in(3) {
        nodes.push(site.array("Density", &[count]));
    }
    site.random.shuffle(&mut nodes);
    let beside = site.beside();
    site.flow(nodes, beside);
    Some(Answer::Accepted)
}

/// A range with arrays of its product.
pub fn sized_by_range(site: &mut Site) -> Option<Answer> {
    let points = site.range();
    sized(site, points)
}

/// A list with arrays of its count.
pub fn sized_by_list(site: &mut Site) -> Option<Answer> {
    let points = site.list();
    sized(site, points)
}

/// A range of more points than any array has, where there is no array.
pub fn great_range_alone(site: &mut Site) -> Option<Answer> {
    let range = match site.directions {
        3 if site.random.one_in(2) => great_lengths(site, &BEYOND_64_BITS),
        2.. if site.random.one_in(2) => great_lengths(site, &BEYOND_32_BITS),
        directions => vec![2 * MAX_NUMBER + 1; directions],
    };
    let range = site.range_of_lengths(&range);
    let beside = site.beside();
    site.flow(vec![range], beside);
    Some(Answer::Accepted)
}

/// The names of points under labels that are not theirs: arrays beside them have the zone's size, or that of the one
/// child that has both name and label.
pub fn names_of_other_labels(site: &mut Site) -> Option<Answer> {
    let (points, count) = site.points();
    let other = if points.is_named("PointRange") { "PointList" } else { "PointRange" };
    let beside = site.beside();
    let mut nodes = if site.random.one_in(2) {
        vec![points, site.array(other, &[count])]
    } else {
        let (text, user, foreign) = ("Descriptor_t", "UserDefinedData_t", "IndexArray");
        let mut named = [Node::text(other, text, "x"), Node::empty(other, user), points.clone()];
        named[2].label = crate::text::padded(foreign.as_bytes());
        vec![site.random.pick(&named).clone(), site.zone_array("Pressure", &beside)?]
    };
    site.random.shuffle(&mut nodes);
    site.flow(nodes, beside);
    Some(Answer::Accepted)
}

/// A range and a list below user data or an unknown label: they are skipped.
pub fn points_in_user_data(site: &mut Site) -> Option<Answer> {
    let (range, list) = (site.range().0, site.list().0);
    let label = *site.random.pick(&["UserDefinedData_t", "Family_t"]);
    site.add(label, vec![range, list], Vec::new());
    Some(Answer::Accepted)
}

/// An unknown label below a range or a list, and a known one below that: both are skipped.
pub fn unknown_label_below(site: &mut Site) -> Option<Answer> {
    let (points, count) = site.points();
    let name = if points.is_named("PointRange") { "PointRange" } else { "PointList" };
    let array = site.array("Pressure", &[count]);
    let beside = site.beside();
    let flow = site.flow(vec![points, array], beside);
    let parent = site.image.child(flow, name)?;
    let below = vec![Node::empty("Below", "Family_t"), Node::empty("Zone", "Zone_t")];
    site.scatter(parent, below);
    Some(Answer::Accepted)
}
