//! `bench [REPETITIONS]`: prints tables of times and ratios, all from one run: validation against the reference and against
//! one pass over the bytes, rules 1 to 18 alone against the same, name bytes against the reference and plain C, the walk and the types of
//! MIXED elements against C with no check and with the same checks, face usage against the reference, the parents of faces in place
//! and by calls, agreement against face usage, the writer against zeros and memcpy and on many siblings, peak memory.
//!
//! `bench images FOLDER`: writes the odd images of the tables as files.

mod calls;
mod measure;
mod mixed;
mod names;
mod odd;
mod parents;
mod parts;
mod siblings;
mod writes;

use std::path::Path;
use std::process::Command;
use std::{env, fs};

use calls::{element_count, face_usage, parents_agree, sections, sum, types, types_checked, types_plain, validate};
use calls::{walk_checked, walk_corners, walk_elements, walk_plain};
use measure::{medians, peak_growth, processor, TURN};
use names::{name_bytes_table, rules_table};
use odd::Odd;
use parents::{agreement_table, reading_table, with_parents_table};
use reference::elements::{MIXED, NGON_N};
use reference::mesh::mesh;
use reference::{Counts, Rejection};
use writes::{many_siblings_table, writing_table};

/// The number of the zone's node in a mesh of one zone.
const ZONE: u64 = 3;

/// An image to be measured.
struct Subject {
    name: &'static str,
    image: Vec<u8>,
    /// Whether it is one zone, whose cells are walked, and whether they are made of faces.
    walked: bool,
    faces: bool,
    /// Whether the faces have parents.
    parents: bool,
    /// The rule that it breaks; 0 where it is lawful.
    rule: u64,
    /// Whether it has many siblings, whose names are compared.
    siblings: bool,
}

/// The meshes, each near the largest that there may be.
fn meshes() -> Vec<Subject> {
    let subject = |name, kind, n, width| {
        let image = mesh(kind, n, width).expect("a lawful mesh");
        let (zones, parents) = (kind == "zones", kind == "parents");
        Subject {
            name,
            image,
            walked: !zones && !parents,
            faces: kind == "poly" || parents,
            parents,
            rule: 0,
            siblings: zones,
        }
    };
    vec![
        subject("polyhedra I4, 52 x 52 x 52", "poly", 52, 4),
        subject("polyhedra I8, 43 x 43 x 43", "poly", 43, 8),
        subject("polyhedra with parents I4, 52 x 52 x 52, no coordinates", "parents", 52, 4),
        subject("polyhedra with parents I8, 41 x 41 x 41, no coordinates", "parents", 41, 8),
        subject("hexahedra I4, 60 x 60 x 60", "hex", 60, 4),
        subject("hexahedra between layers of prisms I4, 61 x 61 x 61", "mixed", 61, 4),
        subject("hexahedra between layers of prisms I8, 52 x 52 x 52", "mixed", 52, 8),
        subject("1,000 zones", "zones", 1_000, 4),
    ]
}

/// The odd images.
fn odd_images() -> Vec<Subject> {
    let subject = |odd| {
        let Odd { name, image, usage: faces, parents, rule, siblings, .. } = odd;
        Subject { name, image, walked: false, faces, parents, rule, siblings }
    };
    odd::images().into_iter().map(subject).collect()
}

fn main() {
    let words: Vec<String> = env::args().skip(1).collect();
    let words: Vec<&str> = words.iter().map(String::as_str).collect();
    match words[..] {
        ["memory", what, call, file] => println!("{}", memory_of(what, call, file)),
        ["images", folder] => write_images(Path::new(folder)),
        [] => tables(15),
        [repetitions] => tables(repetitions.parse().expect("a number of repetitions")),
        _ => panic!("bench [REPETITIONS], or bench images FOLDER"),
    }
}

/// Writes the odd images into a folder.
fn write_images(folder: &Path) {
    fs::create_dir_all(folder).expect("a folder");
    for Odd { name, file, image, rule, .. } in odd::images() {
        assert_verdict(name, &image, rule);
        fs::write(folder.join(file).with_extension("img"), image).expect("a file in the folder");
    }
}

fn tables(repetitions: usize) {
    let (meshes, odd_images) = (meshes(), odd_images());
    let all: Vec<&Subject> = meshes.iter().chain(&odd_images).collect();
    println!("Processor: {}. C is compiled with -O2.", processor());
    println!("Times are processor time in milliseconds, medians of {repetitions} turns; a turn repeats what takes under {TURN} ms. A ratio is the quotient of two medians in its row.\n");
    validation_table(&all, repetitions);
    rules_table(&all, repetitions);
    name_bytes_table(&all, repetitions);
    walk_table(&meshes, repetitions);
    types_table(&meshes, repetitions);
    usage_table(&all, repetitions);
    with_parents_table(repetitions);
    reading_table(&all, repetitions);
    agreement_table(&all, repetitions);
    writing_table(&meshes, repetitions);
    many_siblings_table(&all, repetitions);
    memory_table(&meshes);
}

fn megabytes(image: &[u8]) -> f64 {
    image.len() as f64 / 1e6
}

/// Library and reference accept the image with the same counts, or reject it by this rule at the same node and entry.
fn assert_verdict(name: &str, image: &[u8], rule: u64) {
    let verdict = validate(image);
    assert_eq!(verdict.rule, rule, "{name}");
    match reference::validate(image) {
        Ok(Counts { validated, skipped, zones, sections }) => {
            assert_eq!((rule, verdict.counts), (0, [validated, skipped, zones, sections]), "{name}")
        }
        Err(Rejection { rule: broken, node, entry, .. }) => {
            assert_eq!((rule, verdict.node, verdict.entry), (broken.into(), node, entry), "{name}")
        }
    }
}

fn validation_table(subjects: &[&Subject], repetitions: usize) {
    println!("| validation | MB | library | reference | sum of words | library / reference | library / sum |");
    println!("|---|---|---|---|---|---|---|");
    for Subject { name, image, rule, .. } in subjects {
        assert_verdict(name, image, *rule);
        let [library, reference, words] = medians(
            repetitions,
            [&mut || validate(image).rule, &mut || u64::from(reference::validate(image).is_ok()), &mut || {
                u64::from(sum(image))
            }],
        );
        let (size, to_reference, to_sum) = (megabytes(image), library / reference, library / words);
        println!(
            "| {name} | {size:.1} | {library:.3} | {reference:.3} | {words:.3} | {to_reference:.2} | {to_sum:.2} |"
        );
    }
    println!();
}

fn walk_table(subjects: &[Subject], repetitions: usize) {
    println!("| walk, cell to face to node, of MIXED cells the type too | corners read | by elements | by corners | checked C | unchecked C | elements / unchecked | corners / unchecked | elements / checked | by corners, ns a corner |");
    println!("|---|---|---|---|---|---|---|---|---|---|");
    for Subject { name, image, .. } in subjects.iter().filter(|subject| subject.walked) {
        let sections = sections(image, ZONE);
        let walked = walk_plain(image, &sections);
        for walk in [walk_elements, walk_checked, walk_corners] {
            assert_eq!(walked, walk(image, &sections), "{name}");
        }
        let [plain, elements, corners, checked] = medians(
            repetitions,
            [
                &mut || walk_plain(image, &sections).sum,
                &mut || walk_elements(image, &sections).sum,
                &mut || walk_corners(image, &sections).sum,
                &mut || walk_checked(image, &sections).sum,
            ],
        );
        let (by_elements, by_corners, to_checked) = (elements / plain, corners / plain, elements / checked);
        let (read, a_corner) = (walked.corners, corners * 1e6 / walked.corners as f64);
        println!(
            "| {name} | {read} | {elements:.3} | {corners:.3} | {checked:.3} | {plain:.3} | {by_elements:.2} | {by_corners:.2} | {to_checked:.2} | {a_corner:.1} |"
        );
    }
    println!();
}

fn types_table(subjects: &[Subject], repetitions: usize) {
    println!("| types of MIXED elements | elements | library | checked C | unchecked C | library / unchecked | library / checked | library, ns an element |");
    println!("|---|---|---|---|---|---|---|---|");
    for Subject { name, image, .. } in subjects.iter().filter(|subject| subject.walked) {
        let sections = sections(image, ZONE);
        let elements = element_count(&sections, MIXED);
        if elements == 0 {
            continue;
        }
        let of_all = types_plain(image, &sections);
        assert_eq!([of_all; 2], [types(image, &sections), types_checked(image, &sections)], "{name}");
        let [library, checked, plain] = medians(
            repetitions,
            [&mut || types(image, &sections), &mut || types_checked(image, &sections), &mut || {
                types_plain(image, &sections)
            }],
        );
        let (to_plain, to_checked, an_element) = (library / plain, library / checked, library * 1e6 / elements as f64);
        println!(
            "| {name} | {elements} | {library:.3} | {checked:.3} | {plain:.3} | {to_plain:.2} | {to_checked:.2} | {an_element:.1} |"
        );
    }
    println!();
}

fn usage_table(subjects: &[&Subject], repetitions: usize) {
    println!("| face usage, validation included | faces | library | reference | library / reference |");
    println!("|---|---|---|---|---|");
    for Subject { name, image, .. } in subjects.iter().filter(|subject| subject.faces) {
        let faces = element_count(&sections(image, ZONE), NGON_N);
        let (mut first, mut second) = (vec![9; faces], vec![9; faces]);
        assert_eq!(face_usage(image, ZONE, &mut first).rule, 0, "{name}");
        assert_eq!(reference::face_usage(image, ZONE, &mut second), Ok(faces), "{name}");
        assert!(first == second, "{name}");
        let [library, reference] = medians(
            repetitions,
            [&mut || face_usage(image, ZONE, &mut first).count, &mut || {
                reference::face_usage(image, ZONE, &mut second).map_or(0, |count| count as u64)
            }],
        );
        let ratio = library / reference;
        println!("| {name} | {faces} | {library:.3} | {reference:.3} | {ratio:.2} |");
    }
    println!();
}

/// Peak memory above the image, the lent buffers and the stack, each call in a process of its own.
fn memory_table(subjects: &[Subject]) {
    println!("| peak memory above image, buffers and stack, kB | library | reference |");
    println!("|---|---|---|");
    let file = env::temp_dir().join(format!("bench-{}.img", std::process::id()));
    for Subject { name, image, faces, parents, .. } in subjects {
        fs::write(&file, image).expect("a temporary file");
        let asked = |call: &&str| match *call {
            "face usage" => *faces,
            "agreement" => *parents,
            _ => true,
        };
        for call in ["validation", "face usage", "agreement"].into_iter().filter(asked) {
            let of = |what| child(what, call, &file);
            println!("| {call}, {name} | {} | {} |", of("library"), of("reference"));
        }
    }
    let _ = fs::remove_file(&file);
}

/// The line that this program prints when asked for the memory of a call.
fn child(what: &str, call: &str, file: &Path) -> String {
    let program = env::current_exe().expect("this program");
    let output = Command::new(program).args(["memory", what, call]).arg(file).output().expect("this program runs");
    String::from_utf8_lossy(&output.stdout).trim().to_string()
}

/// Peak growth in kilobytes while a call runs on an image, after a run on a small one that brings code and stack into memory.
fn memory_of(what: &str, call: &str, file: &str) -> u64 {
    let image = fs::read(file).expect("the image");
    let small = mesh("parents", 2, 4).expect("a lawful mesh");
    let mut usage = vec![9; 1_000_000];
    let mut run = |image: &[u8]| match (what, call) {
        ("library", "validation") => validate(image).rule,
        ("library", "agreement") => parents_agree(image, ZONE, &mut usage).agrees,
        ("library", _) => face_usage(image, ZONE, &mut usage).count,
        (_, "validation") => u64::from(reference::validate(image).is_ok()),
        (_, "agreement") => u64::from(reference::parents_agree(image, ZONE, &mut usage).is_ok()),
        _ => u64::from(reference::face_usage(image, ZONE, &mut usage).is_ok()),
    };
    run(&small);
    peak_growth(|| run(&image))
}
