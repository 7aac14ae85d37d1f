//! Damage to the parents of faces (rule 39).

use super::pick::{add_anywhere, section_child};
use crate::build::{Image, Node};
use crate::elements::NGON_N;
use crate::lawful::{CellUses, STORING_TYPES};
use crate::random::Random;
use crate::sizes::MAX_NUMBER;

/// The parents of a face section: those that it has, or new ones of any cells, or of none where there are no cells.
fn some_parents(image: &mut Image, random: &mut Random) -> Option<usize> {
    let range = section_child(image, random, &[NGON_N], "ElementRange")?;
    let section = image.nodes[range].parent as usize;
    if image.child(section, "ParentElements").is_none() {
        let range = image.nodes[range].numbers();
        let count = range.get(1)?.checked_sub(*range.first()?).filter(|count| (0..10_000).contains(count))? + 1;
        let uses = CellUses::of_zone(image, image.nodes[section].parent as usize);
        let pair = |_| if uses.has_cells() { [uses.any_cell(random), 0] } else { [1, 0] };
        let node = Node::parent_elements(4, &(0..count).map(pair).collect::<Vec<_>>());
        add_anywhere(image, random, section, node);
    }
    image.child(section, "ParentElements")
}

/// Puts a number into an array of parents, at a place of either column; it has 8 bytes for each where 4 are too few.
pub fn put_parent(array: &mut Node, place: usize, number: i64) {
    let mut numbers = array.numbers();
    if let Some(old) = numbers.get_mut(place) {
        *old = number;
    }
    if array.width() == 4 && i32::try_from(number).is_err() {
        array.data_type = *b"I8";
    }
    array.set_numbers(&numbers);
}

/// A number that may be no parent: 0, a face or another element, one of no element, or none that a range holds.
pub fn parent_number(image: &mut Image, random: &mut Random) {
    let Some(array) = some_parents(image, random) else {
        return;
    };
    let section = image.nodes[array].parent as usize;
    let of_sections: Vec<i64> = image
        .children(image.nodes[section].parent as usize)
        .into_iter()
        .filter_map(|n| image.child(n, "ElementRange"))
        .flat_map(|n| image.nodes[n].numbers())
        .collect();
    let near = if of_sections.is_empty() { 1 } else { *random.pick(&of_sections) };
    let (least, beyond) = (i64::from(i32::MIN), 1 << 32);
    let numbers = [
        0,
        near,
        near,
        near.saturating_add(1),
        near.saturating_sub(1),
        near.saturating_neg(),
        near.saturating_add(beyond),
        MAX_NUMBER,
        least,
        i64::MIN,
        i64::MAX,
    ];
    let number = *random.pick(&numbers);
    let length = image.nodes[array].numbers().len();
    let place = if random.one_in(3) { length.saturating_sub(1) } else { random.index(length) };
    put_parent(&mut image.nodes[array], place, number);
}

/// A data type that parents may not have, MT too.
pub fn parent_type(image: &mut Image, random: &mut Random) {
    if let Some(array) = some_parents(image, random) {
        spoil_type(&mut image.nodes[array], random);
    }
}

/// Gives an array a type that is not I4 or I8, and as many bytes as it then needs; MT once in four times.
pub fn spoil_type(array: &mut Node, random: &mut Random) {
    if random.one_in(4) {
        array.data_type = *b"MT";
        array.dimensions.clear();
        array.data.clear();
        return;
    }
    let other: Vec<&str> = STORING_TYPES.into_iter().filter(|name| !["I4", "I8"].contains(name)).collect();
    array.data_type = random.pick(&other).as_bytes().try_into().unwrap_or(*b"U4");
    let dimensions = array.dimensions.clone();
    array.reshape(&dimensions);
}

/// Dimensions that parents may not have.
pub fn parent_shape(image: &mut Image, random: &mut Random) {
    if let Some(array) = some_parents(image, random) {
        spoil_shape(&mut image.nodes[array], random);
    }
}

/// Gives an array of n × 2 numbers other dimensions, some of them of as many numbers.
pub fn spoil_shape(array: &mut Node, random: &mut Random) {
    let n = array.dimensions.first().map_or(1, |&n| n.clamp(1, 10_000));
    let turned = if n == 2 { vec![1, 4] } else { vec![2, n] };
    let shapes = [
        turned.clone(),
        turned,
        vec![n],
        vec![2 * n],
        vec![n, 2, 1],
        vec![1, n, 2],
        vec![n, 1, 2],
        vec![n + 1, 2],
        vec![2 * n, 2],
        vec![n, 1],
        vec![n, 3],
        vec![n, 4],
    ];
    let shape: &Vec<u64> = random.pick(&shapes);
    array.reshape(shape);
}
