//! The command line of the reference program: one line of answer for each call.

use std::fs;
use std::io::{self, Write};
use std::path::{Path, PathBuf};
use std::process::ExitCode;

use reference::answers::*;
use reference::cases::cases;
use reference::generate::{image, Summary};
use reference::lawful::SizeClass;
use reference::mesh::mesh;
use reference::queries::queries;
use reference::samples::samples;
use reference::writer::{rewritten, State};
use reference::writer_calls::{AddCall, Places, Room};
use reference::ENTRY_LENGTH;

const USAGE: &str = "\
reference validate FILE
reference table FILE
reference name-bytes FILE
reference path FILE NODE
reference sizes FILE NODE
reference entries FILE ZONE
reference corner FILE E1 .. E11 ELEMENT CORNER
reference element-type FILE E1 .. E11 ELEMENT
reference value FILE NODE K
reference usage FILE ZONE
reference parents FILE ZONE FACE
reference agree FILE ZONE
reference path-into FILE NODE ROOM
reference entries-into FILE ZONE ROOM
reference usage-into FILE ZONE ROOM
reference agree-into FILE ZONE ROOM
reference list-into FILE ZONE ROOM
reference reads FILE ZONE ROOM W1 E1 C1 W2 E2 C2 W3 E3 C3
reference element-into FILE E1 .. E11 ELEMENT ROOM
reference start N D X ROOM
reference add FILE S1 .. S6 KEPT ROOM TEXTS NAME LABEL TYPE WORDS RANK PARENT DATA LENGTH
reference finish FILE S1 .. S6 KEPT ROOM
reference rewrite FILE OUT
reference generate SEED COUNT DIR [small|medium|large]
reference cases DIR
reference samples DIR
reference mesh poly|parents|hex|mixed|zones N 4|8 FILE
reference answers DIR
reference queries SEED FILE";

fn main() -> ExitCode {
    let arguments: Vec<String> = std::env::args().skip(1).collect();
    match run(&arguments) {
        Ok(text) => match io::stdout().write_all(text.as_bytes()) {
            Ok(()) => ExitCode::SUCCESS,
            Err(_) => ExitCode::FAILURE,
        },
        Err(problem) => {
            eprintln!("{problem}");
            ExitCode::from(2)
        }
    }
}

/// The text that a command prints, or what is wrong with it.
fn run(arguments: &[String]) -> Result<String, String> {
    let words: Vec<&str> = arguments.iter().map(String::as_str).collect();
    match words[..] {
        ["generate", seed, count, folder] => generate(seed, count, folder, "small"),
        ["generate", seed, count, folder, class] => generate(seed, count, folder, class),
        ["start", nodes, words, bytes, room] => {
            let stated = [number(nodes)?, number(words)?, number(bytes)?];
            Ok(start_line(stated, length(number(room)?)?) + "\n")
        }
        ["rewrite", file, out] => rewrite(file, out),
        ["cases", folder] => write_all("cases", folder, &cases()),
        ["samples", folder] => write_all("samples", folder, &samples()),
        ["mesh", kind, n, width, file] => write_mesh(kind, number(n)?, number(width)?, file),
        ["answers", folder] => answers(folder),
        ["queries", seed, file] => Ok(lines(&queries(number(seed)?, &read(file)?))),
        [call, file, ref rest @ ..] => {
            let numbers: Result<Vec<u64>, String> = rest.iter().map(|word| number(word)).collect();
            answer(call, file, &numbers?).map(|line| line + "\n")
        }
        _ => Err(USAGE.to_string()),
    }
}

/// The answer of a call on a file.
fn answer(call: &str, file: &str, numbers: &[u64]) -> Result<String, String> {
    let image = || read(file);
    Ok(match (call, numbers) {
        ("validate", []) => program_line(&image()?),
        ("table", []) => table_line(&image()?),
        ("name-bytes", []) => name_bytes_line(&image()?),
        ("path", [node]) => path_line(&image()?, *node),
        ("sizes", [node]) => sizes_line(&image()?, *node),
        ("entries", [zone]) => entries_line(&image()?, *zone),
        ("value", [node, k]) => value_line(&image()?, *node, *k),
        ("usage", [zone]) => usage_line(&image()?, *zone),
        ("parents", [zone, face]) => parents_line(&image()?, *zone, *face),
        ("agree", [zone]) => agree_line(&image()?, *zone),
        ("path-into", [node, room]) => path_into_line(&image()?, *node, length(*room)?),
        ("entries-into", [zone, room]) => entries_into_line(&image()?, *zone, length(*room)?),
        ("usage-into", [zone, room]) => usage_into_line(&image()?, *zone, length(*room)?),
        ("agree-into", [zone, room]) => agree_into_line(&image()?, *zone, length(*room)?),
        ("list-into", [zone, room]) => entries_into_line(&image()?, *zone, length(*room)?),
        ("reads", &[zone, room, w1, e1, c1, w2, e2, c2, w3, e3, c3]) => {
            let reads = [[w1, e1, c1], [w2, e2, c2], [w3, e3, c3]];
            reads_line(&image()?, zone, length(room)?, &reads)
        }
        ("element-into", [entry @ .., element, room]) => {
            element_into_line(&image()?, &entry_of(entry)?, *element, length(*room)?)
        }
        ("corner", [entry @ .., element, corner]) => corner_line(&image()?, &entry_of(entry)?, *element, *corner),
        ("element-type", [entry @ .., element]) => element_type_line(&image()?, &entry_of(entry)?, *element),
        ("add", numbers) => add_line(&image()?, &add_call(numbers)?),
        ("finish", [state @ .., kept, room]) => finish_line(&image()?, &state_of(state)?, &room_of(*kept, *room)?),
        _ => return Err(USAGE.to_string()),
    })
}

/// Lines of text, each with its end.
fn lines(lines: &[String]) -> String {
    lines.iter().map(|line| format!("{line}\n")).collect()
}

/// The number that a word spells.
fn number(word: &str) -> Result<u64, String> {
    word.parse().map_err(|_| format!("{word}: not a number of 64 bits"))
}

/// The numbers of a section entry.
fn entry_of(entry: &[u64]) -> Result<[u64; ENTRY_LENGTH], String> {
    entry.try_into().map_err(|_| USAGE.to_string())
}

/// A state of the writer.
fn state_of(numbers: &[u64]) -> Result<State, String> {
    let fields: Result<Vec<u32>, _> = numbers.iter().map(|&number| u32::try_from(number)).collect();
    fields.ok().and_then(|fields| fields.try_into().ok()).map(State::of).ok_or(USAGE.to_string())
}

/// A room of the writer.
fn room_of(kept: u64, room: u64) -> Result<Room, String> {
    Ok(Room { kept: length(kept)?, length: length(room)? })
}

/// An addition.
fn add_call(numbers: &[u64]) -> Result<AddCall, String> {
    let Some((state, &[kept, room, ref node @ ..])) = numbers.split_at_checked(State::LENGTH) else {
        return Err(USAGE.to_string());
    };
    let node = node.try_into().map_err(|_| USAGE.to_string())?;
    Ok(AddCall { state: state_of(state)?, room: room_of(kept, room)?, node: Places::of(node) })
}

/// A length of memory, of at most 16 MiB of places.
fn length(room: u64) -> Result<usize, String> {
    usize::try_from(room).ok().filter(|&room| room <= 1 << 24).ok_or(format!("{room}: too much memory"))
}

/// The bytes of a file.
fn read(file: impl AsRef<Path>) -> Result<Vec<u8>, String> {
    fs::read(&file).map_err(|problem| format!("{}: {problem}", file.as_ref().display()))
}

/// Writes an image into a folder.
fn write(folder: &str, name: &str, image: &[u8]) -> Result<(), String> {
    let place = Path::new(folder).join(format!("{name}.img"));
    fs::create_dir_all(folder)
        .and_then(|()| fs::write(&place, image))
        .map_err(|problem| format!("{}: {problem}", place.display()))
}

/// Writes the images of a run; one line says what they break.
fn generate(seed: &str, count: &str, folder: &str, class: &str) -> Result<String, String> {
    let class = SizeClass::named(class).ok_or(USAGE)?;
    let (seed, count) = (number(seed)?, number(count)?);
    let mut summary = Summary::default();
    for index in 0..count {
        let bytes = image(seed, index, class);
        summary.count(&bytes);
        write(folder, &format!("{index:06}"), &bytes)?;
    }
    Ok(summary.line() + "\n")
}

/// Writes images by their names; one line says how many.
fn write_all(what: &str, folder: &str, all: &[(&str, Vec<u8>)]) -> Result<String, String> {
    for (name, image) in all {
        write(folder, name, image)?;
    }
    Ok(format!("{what} {}\n", all.len()))
}

/// Writes an image again, node by node; one line says its length, or the refusal, on which nothing is written.
fn rewrite(file: &str, out: &str) -> Result<String, String> {
    match rewritten(&read(file)?) {
        Ok(image) => {
            fs::write(out, &image).map_err(|problem| format!("{out}: {problem}"))?;
            Ok(format!("rewritten {}\n", image.len()))
        }
        Err(rejection) => Ok(format!("{rejection}\n")),
    }
}

/// Writes a mesh; one line says its length and its verdict.
fn write_mesh(kind: &str, n: u64, width: u64, file: &str) -> Result<String, String> {
    let image = mesh(kind, n, width)?;
    fs::write(file, &image).map_err(|problem| format!("{file}: {problem}"))?;
    Ok(format!("{} bytes, {}\n", image.len(), validate_line(&image)))
}

/// A line `NAME verdict` for every image of a folder, sorted by name; verdicts as the program writes them.
fn answers(folder: &str) -> Result<String, String> {
    let entries = fs::read_dir(folder).map_err(|problem| format!("{folder}: {problem}"))?;
    let mut files: Vec<PathBuf> = entries
        .filter_map(|entry| entry.ok().map(|e| e.path()))
        .filter(|path| path.extension().is_some_and(|e| e == "img"))
        .collect();
    files.sort();
    let mut text = String::new();
    for file in files {
        let name = file.file_name().unwrap_or_default().to_string_lossy();
        text += &format!("{name} {}\n", program_line(&read(&file)?));
    }
    Ok(text)
}
