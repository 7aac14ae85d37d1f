//! Tables of images with many siblings: rules 1 to 18 alone, and the bytes of names that are compared.

use reference::table::Table;

use crate::calls::{check_table, name_bytes, plain_name_bytes, sum};
use crate::measure::medians;
use crate::{megabytes, Subject};

/// Library and reference find rules 1 to 18 kept, or the same one broken at the same node.
fn assert_table(name: &str, image: &[u8]) {
    let answer = check_table(image);
    let (rule, node) = reference::check_table(image).map_or_else(|no| (u64::from(no.rule), no.node), |_| (0, 0));
    assert_eq!((answer.rule, answer.node), (rule, node), "{name}");
}

pub fn rules_table(subjects: &[&Subject], repetitions: usize) {
    println!("| rules 1 to 18 | MB | library | reference | sum of words | library / reference | library / sum |");
    println!("|---|---|---|---|---|---|---|");
    for Subject { name, image, .. } in subjects.iter().filter(|subject| subject.siblings) {
        assert_table(name, image);
        let [library, reference, words] = medians(
            repetitions,
            [&mut || check_table(image).rule, &mut || u64::from(reference::check_table(image).is_ok()), &mut || {
                u64::from(sum(image))
            }],
        );
        let (size, to_reference, to_sum) = (megabytes(image), library / reference, library / words);
        println!(
            "| {name} | {size:.1} | {library:.3} | {reference:.3} | {words:.3} | {to_reference:.2} | {to_sum:.2} |"
        );
    }
    println!();
}

/// How many pairs of siblings a lawful image has.
fn sibling_pairs(image: &[u8]) -> u64 {
    let nodes = Table::read(image).expect("a lawful image").nodes;
    let children = nodes.iter().map(|node| node.children.len() as u64);
    children.map(|count| count * count.saturating_sub(1) / 2).sum()
}

/// Library, reference and plain C count the same bytes; answers them.
fn assert_name_bytes(name: &str, image: &[u8]) -> u64 {
    let answer = name_bytes(image);
    assert_eq!((answer.rule, answer.node), (0, 0), "{name}");
    assert_eq!(Ok(answer.count), reference::name_bytes(image), "{name}");
    assert_eq!(answer.count, plain_name_bytes(image), "{name}");
    answer.count
}

pub fn name_bytes_table(subjects: &[&Subject], repetitions: usize) {
    println!("| name bytes | pairs of siblings | bytes | library | reference, which sorts | plain C | library / C | library / reference | library, ns a pair |");
    println!("|---|---|---|---|---|---|---|---|---|");
    for Subject { name, image, .. } in subjects.iter().filter(|subject| subject.siblings && subject.rule == 0) {
        let (pairs, bytes) = (sibling_pairs(image), assert_name_bytes(name, image));
        let [library, reference, plain] = medians(
            repetitions,
            [&mut || name_bytes(image).count, &mut || reference::name_bytes(image).unwrap_or(0), &mut || {
                plain_name_bytes(image)
            }],
        );
        let (to_plain, to_reference, a_pair) = (library / plain, library / reference, library * 1e6 / pairs as f64);
        println!(
            "| {name} | {pairs} | {bytes} | {library:.3} | {reference:.3} | {plain:.3} | {to_plain:.2} | {to_reference:.2} | {a_pair:.2} |"
        );
    }
    println!();
}
