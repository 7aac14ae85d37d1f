//! The functions of walks.c, names.c and writes.c.

use reference::{Section, ENTRY_LENGTH};

/// The answer of validation: rule, node, entry, validated, skipped, zones, sections.
#[repr(C)]
pub struct Validation {
    pub rule: u64,
    pub node: u64,
    pub entry: u64,
    pub counts: [u64; 4],
}

/// The answer of the calls that count: rule, node, entry, count.
#[repr(C)]
pub struct Count {
    pub rule: u64,
    pub node: u64,
    pub entry: u64,
    pub count: u64,
}

/// The answer of face usage: rule, node, entry, element, count.
#[repr(C)]
pub struct Usage {
    pub rule: u64,
    pub node: u64,
    pub entry: u64,
    pub element: u64,
    pub count: u64,
}

/// The answer of the parents of a face: rule, node, entry, first, second.
#[repr(C)]
pub struct Parents {
    pub rule: u64,
    pub node: u64,
    pub entry: u64,
    pub pair: [u64; 2],
}

/// The answer of agreement: rule, node, entry, element, agrees.
#[repr(C)]
pub struct Agreement {
    pub rule: u64,
    pub node: u64,
    pub entry: u64,
    pub element: u64,
    pub agrees: u64,
}

/// The answer of a start or an addition of the writer: rule, node, entry.
#[repr(C)]
pub struct Writing {
    pub rule: u64,
    pub node: u64,
    pub entry: u64,
}

/// A writer's state: nodes, words and bytes as stated, then as added.
#[repr(C)]
#[derive(Clone, Copy)]
pub struct Writer {
    pub stated: [u32; 3],
    pub added: [u32; 3],
}

/// What a walk has read.
#[repr(C)]
#[derive(Clone, Copy, Debug, PartialEq, Eq)]
pub struct Walked {
    pub corners: u64,
    pub sum: u64,
}

type Walk<T> = unsafe extern "C" fn(*const u8, usize, *const u64, usize) -> T;

extern "C" {
    fn bench_sum(bytes: *const u8, length: usize) -> u32;
    fn bench_validate(image: *const u8, length: usize) -> Validation;
    fn bench_sections(image: *const u8, length: usize, zone: u64, out: *mut u64, room: usize) -> Count;
    fn bench_face_usage(image: *const u8, length: usize, zone: u64, out: *mut u8, room: usize) -> Usage;
    fn bench_parents(image: *const u8, length: usize, zone: u64, face: u64) -> Parents;
    fn bench_parents_agree(image: *const u8, length: usize, zone: u64, out: *mut u8, room: usize) -> Agreement;
    fn bench_table(image: *const u8, length: usize) -> Count;
    fn bench_name_bytes(image: *const u8, length: usize) -> Count;
    fn bench_plain_name_bytes(image: *const u8) -> u64;
    fn bench_walk_elements(image: *const u8, length: usize, sections: *const u64, count: usize) -> Walked;
    fn bench_walk_checked(image: *const u8, length: usize, sections: *const u64, count: usize) -> Walked;
    fn bench_walk_corners(image: *const u8, length: usize, sections: *const u64, count: usize) -> Walked;
    fn bench_walk_plain(image: *const u8, length: usize, sections: *const u64, count: usize) -> Walked;
    fn bench_types(image: *const u8, length: usize, sections: *const u64, count: usize) -> u64;
    fn bench_types_checked(image: *const u8, length: usize, sections: *const u64, count: usize) -> u64;
    fn bench_types_plain(image: *const u8, length: usize, sections: *const u64, count: usize) -> u64;
    fn bench_parents_in_place(image: *const u8, length: usize, sections: *const u64, count: usize) -> u64;
    fn bench_writer_start(image: *const u8, writer: *mut Writer, room: *mut u8, length: usize) -> Writing;
    fn bench_writer_add(image: *const u8, writer: *mut Writer, room: *mut u8, length: usize) -> Writing;
    fn bench_writer_finish(writer: *const Writer, room: *const u8, length: usize) -> Count;
    fn bench_zero(room: *mut u8, length: usize);
    fn bench_copy(room: *mut u8, image: *const u8, length: usize);
}

/// The image's bytes as 32-bit words, summed.
pub fn sum(image: &[u8]) -> u32 {
    // SAFETY: reads the image alone.
    unsafe { bench_sum(image.as_ptr(), image.len()) }
}

/// The library's verdict.
pub fn validate(image: &[u8]) -> Validation {
    // SAFETY: reads the image alone.
    unsafe { bench_validate(image.as_ptr(), image.len()) }
}

/// The library's sections of a zone, eleven numbers each.
pub fn sections(image: &[u8], zone: u64) -> Vec<u64> {
    const ROOM: usize = 4_096;
    let mut out = vec![0; ENTRY_LENGTH * ROOM];
    // SAFETY: writes up to the room lent.
    let answer = unsafe { bench_sections(image.as_ptr(), image.len(), zone, out.as_mut_ptr(), ROOM) };
    assert_eq!(answer.rule, 0, "sections");
    out.truncate(ENTRY_LENGTH * answer.count as usize);
    out
}

/// The library's face usage of a zone.
pub fn face_usage(image: &[u8], zone: u64, out: &mut [u8]) -> Usage {
    // SAFETY: writes up to the room lent.
    unsafe { bench_face_usage(image.as_ptr(), image.len(), zone, out.as_mut_ptr(), out.len()) }
}

/// The library's parents of a face of a zone.
pub fn parents(image: &[u8], zone: u64, face: u64) -> Parents {
    // SAFETY: reads the image alone.
    unsafe { bench_parents(image.as_ptr(), image.len(), zone, face) }
}

/// Whether the parents of a zone agree with its cells, by the library.
pub fn parents_agree(image: &[u8], zone: u64, out: &mut [u8]) -> Agreement {
    // SAFETY: writes up to the room lent.
    unsafe { bench_parents_agree(image.as_ptr(), image.len(), zone, out.as_mut_ptr(), out.len()) }
}

/// The library's answer of rules 1 to 18 alone.
pub fn check_table(image: &[u8]) -> Count {
    // SAFETY: reads the image alone.
    unsafe { bench_table(image.as_ptr(), image.len()) }
}

/// The library's count of name bytes.
pub fn name_bytes(image: &[u8]) -> Count {
    // SAFETY: reads the image alone.
    unsafe { bench_name_bytes(image.as_ptr(), image.len()) }
}

/// The same count with no check.
pub fn plain_name_bytes(image: &[u8]) -> u64 {
    // SAFETY: an image that meets rules 1 to 18; nothing is written.
    unsafe { bench_plain_name_bytes(image.as_ptr()) }
}

/// Starts an image that is to be written again, by the library; the answer and the state.
pub fn writer_start(image: &[u8], room: &mut [u8]) -> (Writing, Writer) {
    let mut writer = Writer { stated: [0; 3], added: [0; 3] };
    // SAFETY: an image that meets rules 1 to 18; writes the state, and up to the room lent.
    let answer = unsafe { bench_writer_start(image.as_ptr(), &mut writer, room.as_mut_ptr(), room.len()) };
    (answer, writer)
}

/// Adds the image's nodes from the state's on, by the library.
pub fn writer_add(image: &[u8], writer: &mut Writer, room: &mut [u8]) -> Writing {
    // SAFETY: the image that the state was started with; writes the state, and up to the room lent.
    unsafe { bench_writer_add(image.as_ptr(), writer, room.as_mut_ptr(), room.len()) }
}

/// Finishes an image by the library.
pub fn writer_finish(writer: &Writer, room: &[u8]) -> Count {
    // SAFETY: reads the state and the room alone.
    unsafe { bench_writer_finish(writer, room.as_ptr(), room.len()) }
}

/// Makes a room zero; answers its last byte.
pub fn zero(room: &mut [u8]) -> u64 {
    // SAFETY: writes the room.
    unsafe { bench_zero(room.as_mut_ptr(), room.len()) };
    room.last().map_or(0, |&byte| u64::from(byte))
}

/// Copies an image into a room of its length; answers its last byte.
pub fn copy(room: &mut [u8], image: &[u8]) -> u64 {
    assert_eq!(room.len(), image.len());
    // SAFETY: both have this length.
    unsafe { bench_copy(room.as_mut_ptr(), image.as_ptr(), image.len()) };
    room.last().map_or(0, |&byte| u64::from(byte))
}

fn walk<T>(walk: Walk<T>, image: &[u8], sections: &[u64]) -> T {
    // SAFETY: an accepted image and its sections; nothing is written.
    unsafe { walk(image.as_ptr(), image.len(), sections.as_ptr(), sections.len() / ENTRY_LENGTH) }
}

/// The walk by the library, an element a call.
pub fn walk_elements(image: &[u8], sections: &[u64]) -> Walked {
    walk(bench_walk_elements, image, sections)
}

/// The walk by hand-written C with the library's checks, an element a call.
pub fn walk_checked(image: &[u8], sections: &[u64]) -> Walked {
    walk(bench_walk_checked, image, sections)
}

/// The walk by the library, a corner a call.
pub fn walk_corners(image: &[u8], sections: &[u64]) -> Walked {
    walk(bench_walk_corners, image, sections)
}

/// The same walk with no check.
pub fn walk_plain(image: &[u8], sections: &[u64]) -> Walked {
    walk(bench_walk_plain, image, sections)
}

/// The types of all elements of MIXED sections, summed, by the library.
pub fn types(image: &[u8], sections: &[u64]) -> u64 {
    walk(bench_types, image, sections)
}

/// The same sum by hand-written C with the library's checks.
pub fn types_checked(image: &[u8], sections: &[u64]) -> u64 {
    walk(bench_types_checked, image, sections)
}

/// The same sum with no check.
pub fn types_plain(image: &[u8], sections: &[u64]) -> u64 {
    walk(bench_types_plain, image, sections)
}

/// The parents of all faces, summed, read in place by the places and widths of the sections.
pub fn parents_in_place(image: &[u8], sections: &[u64]) -> u64 {
    walk(bench_parents_in_place, image, sections)
}

/// The sections that such numbers are.
pub fn entries(sections: &[u64]) -> impl Iterator<Item = Section> + '_ {
    let all = sections.chunks_exact(ENTRY_LENGTH);
    all.filter_map(|numbers| <&[u64; ENTRY_LENGTH]>::try_from(numbers).ok()).map(Section::of_numbers)
}

/// How many elements the sections of a type have.
pub fn element_count(sections: &[u64], element_type: i64) -> usize {
    let asked = entries(sections).filter(|section| section.element_type == element_type as u64);
    asked.map(|section| (section.last - section.first + 1) as usize).sum()
}
