//! The answers of the calls as lines of text, one for each call.

use crate::faces::{face_count, face_usage};
use crate::name_bytes::name_bytes;
use crate::parents::{parents, parents_agree};
use crate::path::{path, path_into};
use crate::reader::{array_value, corner, corner_reads_into, data_size, element_corners, element_type};
use crate::reader::{section_entries, section_entries_into, Section, Value, ENTRY_LENGTH};
use crate::rejection::Rejection;
use crate::table::check_table;
use crate::validation::{validate, Counts};
use crate::writer::{add, finish, start, State};
use crate::writer_calls::{AddCall, Room};

/// The byte that memory lent by the `into` queries is filled with.
pub const FILLING: u8 = 170;

/// The line of an answer, or of the rejection.
fn line<T>(answer: Result<T, Rejection>, show: impl Fn(T) -> String) -> String {
    match answer {
        Ok(answer) => show(answer),
        Err(rejection) => rejection.to_string(),
    }
}

/// Numbers, each after a blank.
pub fn numbers<T: ToString>(items: impl IntoIterator<Item = T>) -> String {
    let mut text = String::new();
    for item in items {
        text.push(' ');
        text.push_str(&item.to_string());
    }
    text
}

/// `accept J P Z S`.
fn accepted(counts: Counts) -> String {
    format!("accept {} {} {} {}", counts.validated, counts.skipped, counts.zones, counts.sections)
}

/// `accept J P Z S`.
pub fn validate_line(image: &[u8]) -> String {
    line(validate(image), accepted)
}

/// The line that the program writes (document 01): `accept J P Z S`, or `refuse RULE NODE` without an entry.
pub fn program_line(image: &[u8]) -> String {
    validate(image).map_or_else(|rejection| format!("refuse {} {}", rejection.rule, rejection.node), accepted)
}

/// `accept N`.
pub fn table_line(image: &[u8]) -> String {
    line(check_table(image), |count| format!("accept {count}"))
}

/// `bytes COUNT`.
pub fn name_bytes_line(image: &[u8]) -> String {
    line(name_bytes(image), |count| format!("bytes {count}"))
}

/// The path.
pub fn path_line(image: &[u8], node: u64) -> String {
    line(path(image, node), |path| String::from_utf8_lossy(&path).into_owned())
}

/// `sizes D s1 .. sD`.
pub fn sizes_line(image: &[u8], node: u64) -> String {
    line(data_size(image, node), |size| format!("sizes {}{}", size.directions, numbers(size.dimensions())))
}

/// `entries COUNT` and eleven numbers for each.
pub fn entries_line(image: &[u8], zone: u64) -> String {
    line(section_entries(image, zone), |entries| {
        let all = entries.iter().flat_map(Section::numbers);
        format!("entries {}{}", entries.len(), numbers(all))
    })
}

/// `corner NUMBER`.
pub fn corner_line(image: &[u8], entry: &[u64; ENTRY_LENGTH], element: u64, number: u64) -> String {
    line(corner(image, entry, element, number), |answer| format!("corner {answer}"))
}

/// `type NUMBER`.
pub fn element_type_line(image: &[u8], entry: &[u64; ENTRY_LENGTH], element: u64) -> String {
    line(element_type(image, entry, element), |answer| format!("type {answer}"))
}

/// `whole N`, `single BITS` or `double BITS`.
pub fn value_line(image: &[u8], node: u64, k: u64) -> String {
    line(array_value(image, node, k), |value| match value {
        Value::Whole(number) => format!("whole {number}"),
        Value::Single(bits) => format!("single {bits}"),
        Value::Double(bits) => format!("double {bits}"),
    })
}

/// `usage F b1 .. bF`, with memory enough.
pub fn usage_line(image: &[u8], zone: u64) -> String {
    let room = face_count(image, zone).unwrap_or(0) as usize;
    let mut out = vec![FILLING; room];
    line(face_usage(image, zone, &mut out), |count| format!("usage {count}{}", numbers(&out)))
}

/// `parents FIRST SECOND`.
pub fn parents_line(image: &[u8], zone: u64, face: u64) -> String {
    line(parents(image, zone, face), |pair| format!("parents{}", numbers(pair)))
}

/// `agrees 1` or `agrees 0`.
fn agreement(agrees: bool) -> String {
    format!("agrees {}", u8::from(agrees))
}

/// `agrees 1` or `agrees 0`, with memory enough.
pub fn agree_line(image: &[u8], zone: u64) -> String {
    let room = face_count(image, zone).unwrap_or(0) as usize;
    line(parents_agree(image, zone, &mut vec![FILLING; room]), agreement)
}

/// `agrees A room b1 .. bR` or the rejection and `room b1 .. bR`: whether parents agree, with memory of `room` bytes.
pub fn agree_into_line(image: &[u8], zone: u64, room: usize) -> String {
    let mut out = vec![FILLING; room];
    let answer = parents_agree(image, zone, &mut out);
    let answered = line(answer, agreement);
    format!("{answered} room{}", numbers(&out))
}

/// `length L room b1 .. bR` or the rejection and `room b1 .. bR`: the path into memory of `room` bytes.
pub fn path_into_line(image: &[u8], node: u64, room: usize) -> String {
    let mut out = vec![FILLING; room];
    let answer = path_into(image, node, &mut out);
    let answered = line(answer, |length| format!("length {length}"));
    format!("{answered} room{}", numbers(&out))
}

/// `usage F room b1 .. bR` or the rejection and `room b1 .. bR`: the face usage into memory of `room` bytes.
pub fn usage_into_line(image: &[u8], zone: u64, room: usize) -> String {
    let mut out = vec![FILLING; room];
    let answer = face_usage(image, zone, &mut out);
    let answered = line(answer, |count| format!("usage {count}"));
    format!("{answered} room{}", numbers(&out))
}

/// How many entries the list has that `reads` reads with.
pub const ENTRIES_READ: usize = 16;

/// `reads N room n1 .. nR rules r1 .. rR` or the rejection and the same: three corner reads into two lists of `room` places. They read with a
/// list of 16 entries, each of whose numbers was 170 before the zone's entries were asked for.
pub fn reads_line(image: &[u8], zone: u64, room: usize, reads: &[[u64; 3]; 3]) -> String {
    let mut entries = [Section::of_numbers(&[u64::from(FILLING); ENTRY_LENGTH]); ENTRIES_READ];
    // a refusal leaves the list as it was, and it is read with all the same
    let _ = section_entries_into(image, zone, &mut entries);
    let entries = entries.map(|entry| entry.numbers());
    let (mut stored, mut rules) = (vec![i64::from(FILLING); room], vec![u64::from(FILLING); room]);
    let answer = corner_reads_into(image, &entries, reads, &mut stored, &mut rules);
    let answered = line(answer, |count| format!("reads {count}"));
    format!("{answered} room{} rules{}", numbers(stored), numbers(rules))
}

/// `corners N room n1 .. nR` or the rejection and `room n1 .. nR`: all corners of an element into memory of `room` numbers.
pub fn element_into_line(image: &[u8], entry: &[u64; ENTRY_LENGTH], element: u64, room: usize) -> String {
    let mut out = vec![i64::from(FILLING); room];
    let answer = element_corners(image, entry, element, &mut out);
    let answered = line(answer, |count| format!("corners {count}"));
    format!("{answered} room{}", numbers(&out))
}

/// `entries C room n1 .. n11R` or the rejection and `room n1 .. n11R`: the entries into memory of `room` entries, each of
/// whose numbers was 170.
pub fn entries_into_line(image: &[u8], zone: u64, room: usize) -> String {
    let filling = Section::of_numbers(&[u64::from(FILLING); ENTRY_LENGTH]);
    let mut out = vec![filling; room];
    let answer = section_entries_into(image, zone, &mut out);
    let answered = line(answer, |count| format!("entries {count}"));
    let all = out.iter().flat_map(Section::numbers);
    format!("{answered} room{}", numbers(all))
}

/// `state S1 .. S6`.
fn state(state: State) -> String {
    format!("state{}", numbers(state.numbers()))
}

/// `state S1 .. S6 room b1 .. bR` or the rejection and `room b1 .. bR`: a start in a room of `length` bytes.
pub fn start_line([nodes, words, bytes]: [u64; 3], length: usize) -> String {
    let mut room = vec![FILLING; length];
    let answered = line(start(nodes, words, bytes, &mut room), state);
    format!("{answered} room{}", numbers(&room))
}

/// `state S1 .. S6 room at P b1 ..` or the rejection and `room at P b1 ..`: an addition, and the bytes of the room that it
/// changed.
pub fn add_line(image: &[u8], call: &AddCall) -> String {
    let before = call.room.bytes(image);
    let mut room = before.clone();
    let answered = line(add(&call.state, &call.node.addition(image), &mut room), state);
    format!("{answered} room{}", changes(&before, &room))
}

/// The bytes that changed: of each run of them ` at`, the place of the first, and the bytes.
fn changes(before: &[u8], after: &[u8]) -> String {
    let mut text = String::new();
    let mut running = false;
    for (place, (old, new)) in before.iter().zip(after).enumerate() {
        if old != new {
            let at = if running { String::new() } else { format!(" at {place}") };
            text += &format!("{at} {new}");
        }
        running = old != new;
    }
    text
}

/// `length L`: a finish.
pub fn finish_line(image: &[u8], state: &State, room: &Room) -> String {
    line(finish(state, &room.bytes(image)), |length| format!("length {length}"))
}
