//! The parents of faces: odd images that have them, and tables of validation with them, of reading them and of agreement.

use reference::build::{Image, Node};
use reference::mesh::{parents_alone, polyhedra};
use reference::random::Random;
use reference::Section as Entry;

use crate::calls::{entries, face_usage, parents, parents_agree, parents_in_place, sections, sum, validate};
use crate::measure::medians;
use crate::odd::{odd, Odd};
use crate::parts::{rising, with_zone, Section, APART, NFACE_N, NGON_N};
use crate::{assert_verdict, megabytes, Subject, ZONE};

pub fn images() -> Vec<Odd> {
    let random = &mut Random::new(0, 3);
    vec![
        Odd {
            usage: true,
            parents: true,
            ..odd(
                "400 face sections apart with parents, 400 cell sections apart, each face used from both sides, in random order",
                "apart_parents",
                apart(random),
            )
        },
        Odd {
            rule: 39,
            ..odd(
                "polyhedra with parents I4, 52 x 52 x 52, no coordinates, a face for the last second parent: rule 39",
                "face_for_parent",
                face_for_parent(52),
            )
        },
    ]
}

/// Sections of faces and, behind them, of cells, all apart. Cells use each face once with either sign, in random order, and
/// the parents of a face are the cells that use it.
fn apart(random: &mut Random) -> Image {
    const SECTIONS: usize = 400;
    const FACES: usize = 1_150;
    const SIZE: usize = 5;
    let numbers = rising(2 * SECTIONS as i64, APART);
    let (of_faces, of_cells) = numbers.split_at(SECTIONS);
    let mut uses: Vec<usize> = (0..2 * SECTIONS * FACES).collect();
    random.shuffle(&mut uses);
    let mut pairs = vec![[0; 2]; SECTIONS * FACES];
    for (place, &used) in uses.iter().enumerate() {
        let cell = place / SIZE;
        pairs[used / 2][used % 2] = of_cells[cell / (2 * FACES / SIZE)] + (cell % (2 * FACES / SIZE)) as i64;
    }
    let reference = |used: &usize| {
        let face = of_faces[used / 2 / FACES] + (used / 2 % FACES) as i64;
        if used % 2 == 0 {
            face
        } else {
            -face
        }
    };
    let references: Vec<i64> = uses.iter().map(reference).collect();
    let (mut image, zone) = with_zone();
    let nodes = [1, 2, 3].repeat(FACES);
    for (&first, pairs) in of_faces.iter().zip(pairs.chunks_exact(FACES)) {
        let section = Section { element_type: NGON_N, first, size: 3, references: &nodes }.add(&mut image, zone);
        image.add(section, Node::parent_elements(4, pairs));
    }
    for (&first, references) in of_cells.iter().zip(references.chunks_exact(2 * FACES)) {
        Section { element_type: NFACE_N, first, size: SIZE, references }.add(&mut image, zone);
    }
    image
}

/// A mesh of polyhedra with parents whose last face has itself as second parent.
fn face_for_parent(n: i64) -> Image {
    let mut image = parents_alone(n, 4);
    let [.., range, _, _, parents] = &mut image.nodes[..] else { panic!("the last section's children") };
    let mut numbers = parents.numbers();
    numbers.pop();
    numbers.push(range.numbers()[1]);
    parents.set_numbers(&numbers);
    image
}

/// The same mesh without the parents of its faces.
fn without_parents(mut image: Image) -> Image {
    while let Some(parents) = image.nodes.iter().position(|node| node.is_named("ParentElements")) {
        image.remove(parents);
    }
    image
}

/// Validation of a mesh with parents, of the same without them, and of one with coordinates in their place.
pub fn with_parents_table(repetitions: usize) {
    println!("| validation by the byte, polyhedra I4, 52 x 52 x 52 | MB | library | ns a byte | ns a byte, of the sum of words | to the mesh with coordinates, by the byte |");
    println!("|---|---|---|---|---|---|");
    let plain = polyhedra(52, 4).to_bytes();
    let with = parents_alone(52, 4).to_bytes();
    let without = without_parents(parents_alone(52, 4)).to_bytes();
    let names = ["with coordinates", "with parents", "with neither"];
    let images = [&plain, &with, &without];
    for (name, image) in names.iter().zip(images) {
        assert_verdict(name, image, 0);
    }
    let [a, b, c, d, e, f] = medians(
        repetitions,
        [
            &mut || validate(&plain).rule,
            &mut || validate(&with).rule,
            &mut || validate(&without).rule,
            &mut || u64::from(sum(&plain)),
            &mut || u64::from(sum(&with)),
            &mut || u64::from(sum(&without)),
        ],
    );
    let by_byte = |time: f64, image: &[u8]| time / megabytes(image);
    for (((name, image), library), words) in names.iter().zip(images).zip([a, b, c]).zip([d, e, f]) {
        let (size, own, of_words) = (megabytes(image), by_byte(library, image), by_byte(words, image));
        let ratio = own / by_byte(a, &plain);
        println!("| {name} | {size:.1} | {library:.3} | {own:.3} | {of_words:.3} | {ratio:.2} |");
    }
    println!();
}

/// The parents of a face of a section, read in place.
fn in_place(image: &[u8], entry: &Entry, face: u64) -> [u64; 2] {
    let count = entry.last - entry.first + 1;
    [0, count].map(|column| {
        let at = (entry.parents_at + entry.parents_width * (column + face - entry.first)) as usize;
        let bytes = &image[at..at + entry.parents_width as usize];
        bytes.iter().rev().fold(0, |number, &byte| number << 8 | u64::from(byte))
    })
}

/// C reads the same numbers in place, and the call answers those of the first, the last and a middle face of some sections.
fn assert_parents(name: &str, image: &[u8], numbers: &[u64]) {
    let stored: Vec<Entry> = entries(numbers).filter(|entry| entry.parents_width > 0).collect();
    let faces =
        stored.iter().flat_map(|entry| (entry.first..=entry.last).map(move |face| in_place(image, entry, face)));
    let sum = faces.fold(0u64, |sum, [first, second]| sum.wrapping_add(first + 3 * second));
    assert_eq!(sum, parents_in_place(image, numbers), "{name}");
    for entry in stored.iter().take(2) {
        for face in [entry.first, (entry.first + entry.last) / 2, entry.last] {
            let answer = parents(image, ZONE, face);
            assert_eq!((answer.rule, answer.pair), (0, in_place(image, entry, face)), "{name}");
            assert_eq!(reference::parents(image, ZONE, face), Ok(answer.pair), "{name}");
        }
    }
}

pub fn reading_table(subjects: &[&Subject], repetitions: usize) {
    println!("| parents of faces | faces with parents | all in place, by the entries | in place, ns a face | a call, of one face | validation | call / validation |");
    println!("|---|---|---|---|---|---|---|");
    for Subject { name, image, .. } in subjects.iter().filter(|subject| subject.parents) {
        let numbers = sections(image, ZONE);
        assert_parents(name, image, &numbers);
        let stored: Vec<Entry> = entries(&numbers).filter(|entry| entry.parents_width > 0).collect();
        let faces: u64 = stored.iter().map(|entry| entry.last - entry.first + 1).sum();
        let middle = stored.get(stored.len() / 2).map_or(1, |entry| (entry.first + entry.last) / 2);
        let [all, call, validation] = medians(
            repetitions,
            [&mut || parents_in_place(image, &numbers), &mut || parents(image, ZONE, middle).pair[0], &mut || {
                validate(image).rule
            }],
        );
        let (a_face, ratio) = (all * 1e6 / faces as f64, call / validation);
        println!("| {name} | {faces} | {all:.3} | {a_face:.2} | {call:.3} | {validation:.3} | {ratio:.2} |");
    }
    println!();
}

pub fn agreement_table(subjects: &[&Subject], repetitions: usize) {
    println!("| agreement, validation included | faces | agreement | face usage | reference, agreement | agreement / face usage | library / reference |");
    println!("|---|---|---|---|---|---|---|");
    for Subject { name, image, .. } in subjects.iter().filter(|subject| subject.parents) {
        let faces = crate::element_count(&sections(image, ZONE), NGON_N);
        let (mut first, mut second, mut third) = (vec![9; faces], vec![9; faces], vec![9; faces]);
        let answer = parents_agree(image, ZONE, &mut first);
        assert_eq!((answer.rule, answer.agrees), (0, 1), "{name}");
        assert_eq!(face_usage(image, ZONE, &mut second).rule, 0, "{name}");
        assert_eq!(reference::parents_agree(image, ZONE, &mut third), Ok(true), "{name}");
        assert!(first == second && first == third, "{name}");
        let [library, usage, reference] = medians(
            repetitions,
            [
                &mut || parents_agree(image, ZONE, &mut first).agrees,
                &mut || face_usage(image, ZONE, &mut second).count,
                &mut || reference::parents_agree(image, ZONE, &mut third).map_or(0, u64::from),
            ],
        );
        let (to_usage, to_reference) = (library / usage, library / reference);
        println!(
            "| {name} | {faces} | {library:.3} | {usage:.3} | {reference:.3} | {to_usage:.2} | {to_reference:.2} |"
        );
    }
    println!();
}
