//! The archive's exports, and a fault handler that says which call touched memory that it was not lent.

use std::io::Write;
use std::sync::atomic::{AtomicBool, AtomicU64, AtomicUsize, Ordering::Relaxed};

use crate::tally::Place;

extern "C" {
    pub fn gongaurora_export_validate(image: *const u8, length: usize, answer: *mut u8, room: usize) -> u64;
    pub fn gongaurora_export_sections(
        image: *const u8,
        length: usize,
        zone: u64,
        out: *mut u64,
        numbers: usize,
        answer: *mut u8,
        room: usize,
    ) -> u64;
    pub fn gongaurora_export_read_corner(
        image: *const u8,
        length: usize,
        section: *const u8,
        bytes: usize,
        element: u64,
        corner: u64,
        number: *mut u8,
        room: usize,
    ) -> u64;
    pub fn gongaurora_export_read_element(
        image: *const u8,
        length: usize,
        section: *const u64,
        eleven: usize,
        element: u64,
        out: *mut i64,
        numbers: usize,
        answer: *mut u8,
        room: usize,
    ) -> u64;
    pub fn gongaurora_export_element_type(
        image: *const u8,
        length: usize,
        section: *const u64,
        eleven: usize,
        element: u64,
        answer: *mut u8,
        room: usize,
    ) -> u64;
    pub fn gongaurora_export_face_usage(
        image: *const u8,
        length: usize,
        zone: u64,
        out: *mut u8,
        bytes: usize,
        answer: *mut u8,
        room: usize,
    ) -> u64;
    pub fn gongaurora_export_parents(
        image: *const u8,
        length: usize,
        zone: u64,
        face: u64,
        answer: *mut u8,
        room: usize,
    ) -> u64;
    pub fn gongaurora_export_parents_agree(
        image: *const u8,
        length: usize,
        zone: u64,
        out: *mut u8,
        bytes: usize,
        answer: *mut u8,
        room: usize,
    ) -> u64;
    pub fn gongaurora_export_path(
        image: *const u8,
        length: usize,
        node: u64,
        out: *mut u8,
        bytes: usize,
        answer: *mut u8,
        room: usize,
    ) -> u64;
    pub fn gongaurora_export_name_bytes(image: *const u8, length: usize, answer: *mut u8, room: usize) -> u64;
    pub fn gongaurora_export_data_size(image: *const u8, length: usize, node: u64, answer: *mut u8, room: usize)
        -> u64;
    pub fn gongaurora_export_array_value(
        image: *const u8,
        length: usize,
        node: u64,
        k: u64,
        answer: *mut u8,
        room: usize,
    ) -> u64;
    pub fn gongaurora_export_writer_start(
        nodes: u64,
        words: u64,
        bytes: u64,
        out: *mut u8,
        length: usize,
        state: *mut u32,
        numbers: usize,
        answer: *mut u8,
        room: usize,
    ) -> u64;
    pub fn gongaurora_export_writer_add(
        name: *const u8,
        name_length: usize,
        label: *const u8,
        label_length: usize,
        data_type: *const u8,
        type_length: usize,
        dimensions: *const u64,
        rank: usize,
        parent: u64,
        data: *const u8,
        data_length: usize,
        out: *mut u8,
        length: usize,
        state: *mut u32,
        numbers: usize,
        answer: *mut u8,
        room: usize,
    ) -> u64;
    pub fn gongaurora_export_writer_finish(
        out: *const u8,
        length: usize,
        state: *const u32,
        numbers: usize,
        answer: *mut u8,
        room: usize,
    ) -> u64;

    fn signal(number: i32, handler: extern "C" fn(i32)) -> usize;
    fn write(file: i32, bytes: *const u8, length: usize) -> isize;
    fn _exit(status: i32) -> !;
}

/// The calls.
#[derive(Clone, Copy)]
pub enum Call {
    Validate,
    Sections,
    ReadCorner,
    ReadElement,
    ElementType,
    FaceUsage,
    Parents,
    ParentsAgree,
    Path,
    NameBytes,
    DataSize,
    ArrayValue,
    WriterStart,
    WriterAdd,
    WriterFinish,
}

/// Their names, in the same order.
pub const CALLS: [&str; 15] = [
    "validate",
    "sections",
    "read_corner",
    "read_element",
    "element_type",
    "face_usage",
    "parents",
    "parents_agree",
    "path",
    "name_bytes",
    "data_size",
    "array_value",
    "writer_start",
    "writer_add",
    "writer_finish",
];

static SEED: AtomicU64 = AtomicU64::new(0);
static FIXED: AtomicBool = AtomicBool::new(false);
static INDEX: AtomicU64 = AtomicU64::new(0);
static CALL: AtomicUsize = AtomicUsize::new(0);

/// Notes which image is compared.
pub fn now_comparing(seed: u64, place: Place) {
    let (fixed, index) = match place {
        Place::Fixed(number) => (true, number),
        Place::Generated(index) => (false, index),
    };
    SEED.store(seed, Relaxed);
    FIXED.store(fixed, Relaxed);
    INDEX.store(index, Relaxed);
}

/// Notes which call is made.
pub fn now_calling(call: Call) {
    CALL.store(call as usize, Relaxed);
}

/// Says where a fault came and ends the program with status 1.
extern "C" fn on_fault(_: i32) {
    let mut line = [b' '; 160];
    let mut rest = &mut line[..];
    let call = CALLS[CALL.load(Relaxed)];
    let (seed, index) = (SEED.load(Relaxed), INDEX.load(Relaxed));
    let place = if FIXED.load(Relaxed) { Place::Fixed(index) } else { Place::Generated(index) };
    let _ = writeln!(rest, "difference: seed {seed} {place:?} {call}: touches memory that it was not lent");
    let length = 160 - rest.len();
    // SAFETY: plain system calls on this function's own memory.
    unsafe {
        write(2, line.as_ptr(), length);
        _exit(1)
    }
}

/// Has faults reported.
pub fn report_faults() {
    const BUS: i32 = 7;
    const SEGMENT: i32 = 11;
    // SAFETY: the handler makes system calls only.
    unsafe {
        signal(SEGMENT, on_fault);
        signal(BUS, on_fault);
    }
}
