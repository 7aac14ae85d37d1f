//! Cases of several bad references: the first entry decides, and between sections the lower node.

use super::site::Bad;
use super::Answer;
use crate::damage::flat::LEAST_CELL;
use crate::damage::site::Site;
use crate::elements::NFACE_N;

/// A number that breaks this one of rules 35, 36 and 37 in the cells.
fn breaking(site: &mut Site, rule: u32) -> Option<Bad> {
    let next = site.next_element;
    let number = match rule {
        35 => 0,
        36 => *site.random.pick(&[next, -next, i64::from(i32::MIN), i64::MIN, i64::MAX]),
        _ => site.reference_to("Cells")?,
    };
    Some((number, rule))
}

/// Cells with numbers that break these rules, in this order.
fn in_order(site: &mut Site, rules: &[u32]) -> Option<Answer> {
    site.add_some_mesh();
    let bad: Option<Vec<Bad>> = rules.iter().map(|&rule| breaking(site, rule)).collect();
    site.spoil("Cells", &bad?)
}

/// 35, zero before a number that breaks another rule.
pub fn zero_before_another(site: &mut Site) -> Option<Answer> {
    let other = *site.random.pick(&[36, 37]);
    in_order(site, &[35, other])
}

/// 37, a cell before zero.
pub fn cell_before_zero(site: &mut Site) -> Option<Answer> {
    in_order(site, &[37, 35])
}

/// 36, no element before zero.
pub fn no_element_before_zero(site: &mut Site) -> Option<Answer> {
    in_order(site, &[36, 35])
}

/// 36 or 37, each before the other.
pub fn cell_and_no_element(site: &mut Site) -> Option<Answer> {
    let rules = *site.random.pick(&[[36, 37], [37, 36]]);
    in_order(site, &rules)
}

/// Three numbers, each of which breaks any of the three rules.
pub fn three_bad_references(site: &mut Site) -> Option<Answer> {
    let rules = [(); 3].map(|()| *site.random.pick(&[35, 36, 37]));
    in_order(site, &rules)
}

/// The lower of two refused nodes.
fn lower(one: Answer, other: Answer) -> Answer {
    match (one, other) {
        (Answer::Refused(a), Answer::Refused(b)) if b.node < a.node => other,
        _ => one,
    }
}

/// Two sections of cells, each with a face that is none.
pub fn two_bad_sections(site: &mut Site) -> Option<Answer> {
    site.add_some_mesh();
    let cells = site.cells(&[LEAST_CELL, LEAST_CELL]);
    site.add("More", NFACE_N, &cells);
    let [one, other] = [(); 2].map(|()| *site.random.pick(&[35, 36, 37]));
    let [one, other] = [breaking(site, one)?, breaking(site, other)?];
    Some(lower(site.spoil("Cells", &[one])?, site.spoil("More", &[other])?))
}

/// A node that is none and a face that is none.
pub fn bad_node_and_bad_cell(site: &mut Site) -> Option<Answer> {
    site.add_some_mesh();
    let rule = *site.random.pick(&[35, 36, 37]);
    let (cell, node) = (breaking(site, rule)?, site.bad_node());
    Some(lower(site.spoil("Cells", &[cell])?, site.spoil("Faces", &[(node, 34)])?))
}
