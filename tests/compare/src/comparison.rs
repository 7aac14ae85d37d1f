//! One call of the library held against the reference: the rule, and all memory that was lent.

use std::fmt::Arguments;

use reference::ENTRY_LENGTH;

use crate::expected::{self, Told};
use crate::guarded::{Arena, Guarded, Item};
use crate::library::*;
use crate::tally::Tally;

/// The bytes of a section's numbers.
pub const SECTION: usize = 8 * ENTRY_LENGTH;

/// An image that both are asked about.
pub struct Comparison<'a> {
    /// What the reference reads.
    pub image: &'a [u8],
    /// The copy that the library reads, between pages that cannot be touched.
    pub lent: *const u8,
    /// Where sections are put that the library reads.
    pub sections: &'a mut Arena,
    pub tally: &'a mut Tally,
}

/// Writes an answer's words where there is room for them and answers the rule; 46 where there is not.
fn tell<const N: usize>(answer: &mut [u8], told: impl FnOnce() -> Told<N>) -> u64 {
    let Some(front) = answer.get_mut(..8 * N) else {
        return 46;
    };
    let (rule, words) = told();
    front.copy_from_slice(&words.map(u64::to_le_bytes).concat());
    rule
}

/// The numbers in front of a section's bytes, if there are as many as it has.
fn numbers_of(section: &[u8]) -> Option<[u64; ENTRY_LENGTH]> {
    let word = |k: usize| Some(u64::from_le_bytes(section.get(8 * k..8 * k + 8)?.try_into().ok()?));
    let words: Option<Vec<u64>> = (0..ENTRY_LENGTH).map(word).collect();
    words?.try_into().ok()
}

impl Comparison<'_> {
    /// Makes a call with `out_room` items and `room` bytes of answer lent, and compares the rule and both buffers. `make` is
    /// given both pointers; `expect` writes what is to be in the buffers and answers the rule. Bytes are lent at addresses of
    /// every kind, odd ones too.
    fn hold<T: Item>(
        &mut self,
        call: Call,
        arguments: Arguments,
        (out_room, room): (usize, usize),
        make: impl FnOnce(*mut T, *mut u8) -> u64,
        expect: impl FnOnce(&mut [T], &mut [u8]) -> u64,
    ) {
        let shift = self.tally.calls() as usize % 7;
        let mut out = Guarded::<T>::new(out_room, shift);
        let mut answer = Guarded::<u8>::new(room, shift);
        let (mut out_after, mut answer_after) = (out.items().to_vec(), answer.items().to_vec());
        let rule = expect(&mut out_after, &mut answer_after);
        now_calling(call);
        let told = make(out.pointer(), answer.pointer());
        self.tally.call(call, rule);
        let mut differs = |what: String| {
            self.tally.difference(call, &format!("({arguments}; room {out_room}, {room}): {what}"));
        };
        if told != rule {
            differs(format!("rule {told} not {rule}"));
        }
        if !answer.guards_intact() || !out.guards_intact() {
            differs("writes beside the memory it was lent".to_string());
        }
        if answer.items() != answer_after {
            differs(format!("answer {:?} not {answer_after:?}", answer.items()));
        }
        if let Some(k) = (0..out_room).find(|&k| out.items()[k] != out_after[k]) {
            differs(format!("item {k} is {:?} not {:?}", out.items()[k], out_after[k]));
        }
    }

    pub fn validate(&mut self, room: usize) {
        let (image, lent) = (self.image, self.lent);
        self.hold::<u8>(
            Call::Validate,
            format_args!(""),
            (0, room),
            |_, answer| unsafe { gongaurora_export_validate(lent, image.len(), answer, room) },
            |_, answer| tell(answer, || expected::validation(image)),
        );
    }

    pub fn sections(&mut self, zone: u64, numbers: usize, room: usize) {
        let (image, lent) = (self.image, self.lent);
        self.hold(
            Call::Sections,
            format_args!("zone {zone}"),
            (numbers, room),
            |out, answer| unsafe { gongaurora_export_sections(lent, image.len(), zone, out, numbers, answer, room) },
            |out, answer| tell(answer, || expected::sections(image, zone, out)),
        );
    }

    pub fn face_usage(&mut self, zone: u64, bytes: usize, room: usize) {
        let (image, lent) = (self.image, self.lent);
        self.hold(
            Call::FaceUsage,
            format_args!("zone {zone}"),
            (bytes, room),
            |out, answer| unsafe { gongaurora_export_face_usage(lent, image.len(), zone, out, bytes, answer, room) },
            |out, answer| tell(answer, || expected::usage(image, zone, out)),
        );
    }

    pub fn parents(&mut self, zone: u64, face: u64, room: usize) {
        let (image, lent) = (self.image, self.lent);
        self.hold::<u8>(
            Call::Parents,
            format_args!("zone {zone}, face {face}"),
            (0, room),
            |_, answer| unsafe { gongaurora_export_parents(lent, image.len(), zone, face, answer, room) },
            |_, answer| tell(answer, || expected::parents(image, zone, face)),
        );
    }

    pub fn parents_agree(&mut self, zone: u64, bytes: usize, room: usize) {
        let (image, lent) = (self.image, self.lent);
        let mut agrees = None;
        self.hold(
            Call::ParentsAgree,
            format_args!("zone {zone}"),
            (bytes, room),
            |out, answer| unsafe { gongaurora_export_parents_agree(lent, image.len(), zone, out, bytes, answer, room) },
            |out, answer| {
                tell(answer, || {
                    let told = expected::agreement(image, zone, out);
                    agrees = (told.0 == 0).then_some(told.1[3] == 1);
                    told
                })
            },
        );
        agrees.into_iter().for_each(|agrees| self.tally.agreement(agrees));
    }

    pub fn path(&mut self, node: u64, bytes: usize, room: usize) {
        let (image, lent) = (self.image, self.lent);
        self.hold(
            Call::Path,
            format_args!("node {node}"),
            (bytes, room),
            |out, answer| unsafe { gongaurora_export_path(lent, image.len(), node, out, bytes, answer, room) },
            |out, answer| tell(answer, || expected::path(image, node, out)),
        );
    }

    pub fn name_bytes(&mut self, room: usize) {
        let (image, lent) = (self.image, self.lent);
        self.hold::<u8>(
            Call::NameBytes,
            format_args!(""),
            (0, room),
            |_, answer| unsafe { gongaurora_export_name_bytes(lent, image.len(), answer, room) },
            |_, answer| tell(answer, || expected::name_bytes(image)),
        );
    }

    pub fn data_size(&mut self, node: u64, room: usize) {
        let (image, lent) = (self.image, self.lent);
        self.hold::<u8>(
            Call::DataSize,
            format_args!("node {node}"),
            (0, room),
            |_, answer| unsafe { gongaurora_export_data_size(lent, image.len(), node, answer, room) },
            |_, answer| tell(answer, || expected::sizes(image, node)),
        );
    }

    pub fn array_value(&mut self, node: u64, k: u64, room: usize) {
        let (image, lent) = (self.image, self.lent);
        self.hold::<u8>(
            Call::ArrayValue,
            format_args!("node {node}, k {k}"),
            (0, room),
            |_, answer| unsafe { gongaurora_export_array_value(lent, image.len(), node, k, answer, room) },
            |_, answer| tell(answer, || expected::value(image, node, k)),
        );
    }

    /// One corner by a section's bytes, with `room` bytes lent for the number, which a refusal leaves as they were.
    pub fn read_corner(&mut self, section: &[u8], element: u64, corner: u64, room: usize) {
        let (image, lent) = (self.image, self.lent);
        let (at, bytes) = (self.place_section(section), section.len());
        self.hold::<u8>(
            Call::ReadCorner,
            format_args!("{:?} of {bytes} bytes, element {element}, corner {corner}", numbers_of(section)),
            (0, room),
            |_, number| unsafe {
                gongaurora_export_read_corner(lent, image.len(), at, bytes, element, corner, number, room)
            },
            |_, number| {
                let (Some(section), Some(front)) = (numbers_of(section), number.get_mut(..8)) else {
                    return 46;
                };
                match expected::corner(image, &section, element, corner) {
                    Ok(number) => {
                        front.copy_from_slice(&number.to_le_bytes());
                        0
                    }
                    Err(rule) => rule,
                }
            },
        );
        self.hold_section(Call::ReadCorner, section, at);
    }

    /// All corners of an element by a section's numbers, with `numbers` numbers lent for them.
    pub fn read_element(&mut self, section: &[u64], element: u64, numbers: usize, room: usize) {
        let (image, lent) = (self.image, self.lent);
        let (bytes, at) = self.place_numbers(section);
        let count = section.len();
        self.hold(
            Call::ReadElement,
            format_args!("{section:?}, element {element}"),
            (numbers, room),
            |out, answer| unsafe {
                gongaurora_export_read_element(lent, image.len(), at.cast(), count, element, out, numbers, answer, room)
            },
            |out, answer| match numbers_of(&bytes) {
                Some(section) => tell(answer, || expected::element(image, &section, element, out)),
                None => 46,
            },
        );
        self.hold_section(Call::ReadElement, &bytes, at);
    }

    /// The type of an element by a section's numbers.
    pub fn element_type(&mut self, section: &[u64], element: u64, room: usize) {
        let (image, lent) = (self.image, self.lent);
        let (bytes, at) = self.place_numbers(section);
        let count = section.len();
        self.hold::<u8>(
            Call::ElementType,
            format_args!("{section:?}, element {element}"),
            (0, room),
            |_, answer| unsafe {
                gongaurora_export_element_type(lent, image.len(), at.cast(), count, element, answer, room)
            },
            |_, answer| match numbers_of(&bytes) {
                Some(section) => tell(answer, || expected::element_type(image, &section, element)),
                None => 46,
            },
        );
        self.hold_section(Call::ElementType, &bytes, at);
    }

    /// Puts a section's bytes at the end of their pages, or so near it that they begin at an odd address.
    fn place_section(&mut self, section: &[u8]) -> *const u8 {
        let gap = [0, 1, 0, 3, 0, 5, 0, 7, 4][self.tally.calls() as usize % 9];
        self.sections.place_before_end(section, gap)
    }

    /// Puts a section's numbers at the end of their pages; answers them as bytes, and where they are.
    fn place_numbers(&mut self, section: &[u64]) -> (Vec<u8>, *const u8) {
        let bytes: Vec<u8> = section.iter().flat_map(|number| number.to_le_bytes()).collect();
        let at = self.sections.place_before_end(&bytes, 0);
        (bytes, at)
    }

    /// Whether a call left the section as it was.
    fn hold_section(&mut self, call: Call, section: &[u8], at: *const u8) {
        // SAFETY: the bytes were put there before the call.
        if unsafe { std::slice::from_raw_parts(at, section.len()) } != section {
            self.tally.difference(call, "writes the section");
        }
    }
}
