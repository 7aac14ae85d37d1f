//! `compare SEED COUNT [small|medium|large]`: every call of the library held against the reference on generated images.
//! Prints a summary; exit status 1 on any difference, and where a run has not met what every run should.

mod changed;
mod comparison;
mod expected;
mod fixed;
mod guarded;
mod library;
mod one_key;
mod questions;
mod tally;
mod writing;

use std::process::ExitCode;

use reference::generate::image;
use reference::lawful::SizeClass;
use reference::random::Random;
use reference::writer_runs;

use changed::{changed, changed_parent, changed_reference, Changed};
use comparison::Comparison;
use fixed::fixed;
use guarded::Arena;
use questions::{ask, ask_changed, ask_parents, ask_part, ask_reference};
use tally::{Place, Tally};
use writing::Desk;

const USAGE: &str = "compare SEED COUNT [small|medium|large]";

/// More than the longest image, which rule 1 is broken by.
const LONGEST: usize = 16_777_216 + 64;

/// How often a number of a MIXED section is changed, how often a reference of any section, and how often a parent of a face.
const CHANGES: usize = 6;
const REFERENCES: usize = 2;
const PARENTS: usize = 4;

fn main() -> ExitCode {
    let arguments: Vec<String> = std::env::args().skip(1).collect();
    let words: Vec<&str> = arguments.iter().map(String::as_str).collect();
    let (seed, count, class) = match words[..] {
        [seed, count] => (seed, count, "small"),
        [seed, count, class] => (seed, count, class),
        _ => return usage(),
    };
    let (Ok(seed), Ok(count), Some(class)) = (seed.parse(), count.parse(), SizeClass::named(class)) else {
        return usage();
    };
    let tally = run(seed, count, class);
    tally.print();
    ExitCode::from(u8::from(tally.differences > 0 || !tally.unmet().is_empty()))
}

fn usage() -> ExitCode {
    eprintln!("{USAGE}");
    ExitCode::from(2)
}

/// Compares the images of a run: the fixed ones, then the generated ones.
fn run(seed: u64, count: u64, class: SizeClass) -> Tally {
    library::report_faults();
    let mut arenas = Arenas { images: Arena::new(LONGEST), sections: Arena::new(4096) };
    let mut desk = Desk::new(LONGEST);
    let mut tally = Tally::of_run(seed);
    for (number, bytes) in fixed(class).iter().enumerate() {
        let number = number as u64;
        tally.now_comparing(Place::Fixed(number));
        compare(bytes, &mut Random::new(seed, number), class, &mut arenas, &mut tally);
        write(bytes, &mut Random::new(seed ^ 0x3717e, number), number, &mut desk, &mut tally);
    }
    let mut random = Random::new(seed, 0);
    for run in writer_runs::limit_runs(&mut random) {
        desk.compare(&run, &mut random, &mut tally);
    }
    for index in 0..count {
        tally.now_comparing(Place::Generated(index));
        let bytes = image(seed, index, class);
        compare(&bytes, &mut Random::new(seed ^ 0x5eed, index), class, &mut arenas, &mut tally);
        write(&bytes, &mut Random::new(seed ^ 0x3717e5eed, index), index + index / 100, &mut desk, &mut tally);
    }
    tally
}

/// Compares the run of the writer of this number, with the nodes of an image.
fn write(bytes: &[u8], random: &mut Random, number: u64, desk: &mut Desk, tally: &mut Tally) {
    let run = writer_runs::run(random, bytes, number);
    desk.compare(&run, random, tally);
}

/// Where images and sections are put that the library reads.
struct Arenas {
    images: Arena,
    sections: Arena,
}

/// Compares all calls on an image, some of them on the image with a number of a MIXED section, a reference or a parent changed
/// and, now and then, on a part of it.
fn compare(bytes: &[u8], random: &mut Random, class: SizeClass, arenas: &mut Arenas, tally: &mut Tally) {
    let Arenas { images, sections } = arenas;
    tally.image(bytes.len(), expected::validation(bytes).0);
    let lent = place(images, bytes, random.one_in(2));
    let entries = ask(&mut Comparison { image: bytes, lent, sections, tally }, random, class);
    for _ in 0..CHANGES {
        let Some(Changed { image, section, element }) = changed(bytes, &entries, random) else { break };
        let lent = place(images, &image, random.one_in(2));
        ask_changed(&mut Comparison { image: &image, lent, sections, tally }, random, &section, element);
    }
    for _ in 0..REFERENCES {
        let Some(image) = changed_reference(bytes, &entries, random) else { break };
        let lent = place(images, &image, random.one_in(2));
        ask_reference(&mut Comparison { image: &image, lent, sections, tally }, random);
    }
    for _ in 0..PARENTS {
        let Some((image, section)) = changed_parent(bytes, &entries, random) else { break };
        let lent = place(images, &image, random.one_in(2));
        ask_parents(&mut Comparison { image: &image, lent, sections, tally }, random, &section);
    }
    if random.one_in(4) {
        let part = &bytes[..random.index(bytes.len() + 1)];
        let lent = place(images, part, true);
        ask_part(&mut Comparison { image: part, lent, sections, tally }, random, &entries);
    }
}

/// Puts bytes beside a page that cannot be touched; no bytes are nowhere.
fn place(images: &mut Arena, bytes: &[u8], at_end: bool) -> *const u8 {
    if bytes.is_empty() {
        std::ptr::null()
    } else {
        images.place_read_only(bytes, at_end)
    }
}
