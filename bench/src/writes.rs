//! Tables of the writer: images written again node by node, against the same bytes made zero and copied; and images of many
//! siblings.

use reference::addition::{additions, Addition};
use reference::build::{Image, Node};
use reference::writer;

use crate::calls::{copy, writer_add, writer_finish, writer_start, zero};
use crate::measure::medians;
use crate::parts::MAX_NODES;
use crate::{megabytes, Subject};

/// Writes an image again in the room by the library, and answers its length.
fn write(image: &[u8], room: &mut [u8]) -> u64 {
    let (_, mut state) = writer_start(image, room);
    writer_add(image, &mut state, room);
    writer_finish(&state, room).count
}

/// The same by the reference, of nodes that are read already; 0 where a call is refused.
fn write_by_reference([nodes, words, bytes]: [u64; 3], additions: &[Addition], room: &mut [u8]) -> u64 {
    let added = writer::start(nodes, words, bytes, room)
        .and_then(|state| additions.iter().try_fold(state, |state, addition| writer::add(&state, addition, room)));
    added.and_then(|state| writer::finish(&state, room)).unwrap_or(0)
}

/// Library and reference write the image's own bytes.
fn assert_written(name: &str, image: &[u8]) {
    let mut room = vec![9; image.len()];
    assert_eq!(write(image, &mut room), image.len() as u64, "{name}");
    assert!(room == image, "{name}");
    assert!(writer::rewritten(image).is_ok_and(|written| written == image), "{name}");
}

pub fn writing_table(subjects: &[Subject], repetitions: usize) {
    println!("| writing node by node | MB | nodes | library | reference | zeros, then memcpy | memcpy | library / zeros and memcpy | library / memcpy | library / reference |");
    println!("|---|---|---|---|---|---|---|---|---|---|");
    for Subject { name, image, .. } in subjects.iter().filter(|subject| !subject.siblings) {
        assert_written(name, image);
        let (stated, nodes) = additions(image).expect("a lawful image");
        let [mut first, mut second, mut third, mut fourth] = [(); 4].map(|()| vec![9; image.len()]);
        let [library, reference, both, copied] = medians(
            repetitions,
            [
                &mut || write(image, &mut first),
                &mut || write_by_reference(stated, &nodes, &mut second),
                &mut || zero(&mut third) + copy(&mut third, image),
                &mut || copy(&mut fourth, image),
            ],
        );
        let (size, count) = (megabytes(image), nodes.len());
        let (to_both, to_copy, to_reference) = (library / both, library / copied, library / reference);
        println!(
            "| {name} | {size:.1} | {count} | {library:.3} | {reference:.3} | {both:.3} | {copied:.3} | {to_both:.2} | {to_copy:.2} | {to_reference:.2} |"
        );
    }
    println!();
}

/// As many nodes as there may be, all but the root below it.
fn below_root() -> Vec<u8> {
    let mut image = Image::with_root("Root", "Root");
    for k in 1..MAX_NODES {
        image.add(0, Node::empty(&format!("{k:04}"), "Unknown_t"));
    }
    image.to_bytes()
}

pub fn many_siblings_table(subjects: &[&Subject], repetitions: usize) {
    println!("| writing many siblings | nodes | start | all additions | finish | reference, all three | library / reference | additions, ns a record before the node |");
    println!("|---|---|---|---|---|---|---|---|");
    let flat = below_root();
    let lawful = subjects.iter().filter(|subject| subject.siblings && subject.rule == 0);
    let images = lawful.map(|subject| (subject.name, &subject.image[..]));
    for (name, image) in images.chain([("4,095 nodes below the root", &flat[..])]) {
        assert_written(name, image);
        let (stated, nodes) = additions(image).expect("a lawful image");
        let [mut first, mut second, mut third] = [(); 3].map(|()| image.to_vec());
        let (_, started) = writer_start(image, &mut second);
        let mut ended = started;
        writer_add(image, &mut ended, &mut second);
        let full = second.clone();
        let [start, added, finish, reference] = medians(
            repetitions,
            [
                &mut || writer_start(image, &mut first).0.rule,
                &mut || {
                    let mut state = started;
                    writer_add(image, &mut state, &mut second).rule
                },
                &mut || writer_finish(&ended, &full).count,
                &mut || write_by_reference(stated, &nodes, &mut third),
            ],
        );
        let count = nodes.len();
        let (to_reference, before) = ((start + added + finish) / reference, count * (count - 1) / 2);
        let a_record = added * 1e6 / before as f64;
        println!(
            "| {name} | {count} | {start:.3} | {added:.3} | {finish:.3} | {reference:.3} | {to_reference:.2} | {a_record:.2} |"
        );
    }
    println!();
}
