//! The command line: one line of answer for each call, images written into a folder.

use std::fs;
use std::path::PathBuf;
use std::process::Command;

/// What a command prints.
fn run(arguments: &[&str]) -> String {
    let output = Command::new(env!("CARGO_BIN_EXE_reference")).args(arguments).output().unwrap();
    String::from_utf8(output.stdout).unwrap()
}

/// A new folder of this name.
fn folder(name: &str) -> PathBuf {
    let place = PathBuf::from(env!("CARGO_TARGET_TMPDIR")).join(name);
    let _ = fs::remove_dir_all(&place);
    place
}

#[test]
fn calls() {
    let place = folder("cases");
    assert_eq!(run(&["cases", place.to_str().unwrap()]), "cases 244\n");
    let file = |name: &str| place.join(format!("{name}.img")).to_str().unwrap().to_string();
    let (a, l) = (file("a"), file("l"));
    assert_eq!(run(&["validate", &a]), "accept 17 0 1 2\n");
    assert_eq!(run(&["table", &file("i")]), "accept 17\n");
    assert_eq!(run(&["name-bytes", &file("i")]), "bytes 88\n");
    assert_eq!(run(&["name-bytes", &file("c")]), "refuse 4 0\n");
    assert_eq!(run(&["path", &a, "10"]), "/Base/Zone1/Faces/ElementRange\n");
    assert_eq!(run(&["sizes", &file("m"), "7"]), "sizes 3 17 33 11\n");
    assert_eq!(run(&["sizes", &file("p1_wall"), "7"]), "sizes 1 12\n");
    let entries = "entries 2 9 22 1 4 1736 4 1756 4 12 0 0 13 23 5 5 1820 4 1828 4 4 0 0\n";
    assert_eq!(run(&["entries", &a, "3"]), entries);
    let corner = ["corner", &a, "9", "22", "1", "4", "1736", "4", "1756", "4", "12", "0", "0", "4", "1"];
    assert_eq!(run(&corner), "corner 3\n");
    let element_type = ["element-type", &a, "9", "22", "1", "4", "1736", "4", "1756", "4", "12", "0", "0", "4"];
    assert_eq!(run(&element_type), "type 22\n");
    let mixed = ["element-type", &file("m4_three"), "5", "20", "1", "3", "912", "4", "928", "4", "21", "0", "0", "2"];
    assert_eq!(run(&mixed), "type 14\n");
    assert_eq!(run(&["element-type", &a, "1"]), "");
    assert_eq!(run(&["value", &a, "2", "1"]), "whole 3\n");
    assert_eq!(run(&["usage", &file("k"), "3"]), "usage 4 1 1 3 0\n");
    assert_eq!(run(&["usage", &l, "3"]), "refuse 45 13 5\n");
    assert_eq!(run(&["usage-into", &l, "3", "5"]), "refuse 45 13 5 room 0 0 0 0 170\n");
    let (agrees, repeat) = (file("q7_agrees"), file("q7_repeat"));
    assert_eq!(run(&["parents", &agrees, "3", "4"]), "parents 5 0\n");
    assert_eq!(run(&["parents", &agrees, "3", "5"]), "refuse 41 0\n");
    assert_eq!(run(&["parents", &a, "3", "4"]), "refuse 54 0\n");
    assert_eq!(run(&["agree", &agrees, "3"]), "agrees 1\n");
    assert_eq!(run(&["agree", &file("q7_second"), "3"]), "agrees 0\n");
    assert_eq!(run(&["agree", &repeat, "3"]), "refuse 45 13 5\n");
    assert_eq!(run(&["agree", &file("q7_face"), "3"]), "refuse 39 9\n");
    assert_eq!(run(&["agree-into", &agrees, "3", "5"]), "agrees 1 room 1 1 1 1 170\n");
    assert_eq!(run(&["agree-into", &agrees, "3", "3"]), "refuse 44 0 room 170 170 170\n");
    assert_eq!(run(&["agree-into", &repeat, "3", "5"]), "refuse 45 13 5 room 0 0 0 0 170\n");
    assert_eq!(run(&["agree-into", &a, "3", "2"]), "refuse 54 0 room 170 170\n");
    assert_eq!(run(&["path-into", &a, "0", "2"]), "length 1 room 47 170\n");
    assert_eq!(run(&["entries-into", &a, "3", "0"]), "refuse 46 0 room\n");
    assert_eq!(run(&["list-into", &a, "3", "2"]), entries.replace("entries 2", "entries 2 room"));
    let reads = ["reads", &a, "3", "4", "0", "1", "2", "1", "5", "9", "16", "5", "1"];
    assert_eq!(run(&reads), "reads 3 room 3 0 0 170 rules 0 42 40 170\n");
    let element = ["element-into", &a, "9", "22", "1", "4", "1736", "4", "1756", "4", "12", "0", "0", "4", "4"];
    assert_eq!(run(&element), "corners 3 room 3 1 4 170\n");
    assert!(run(&["answers", place.to_str().unwrap()]).starts_with("a.img accept 17 0 1 2\nb.img refuse 1 0\n"));
    let first = "validate = accept 17 0 1 2\ntable = accept 17\nname-bytes = bytes 88\npath 0 = /\n";
    assert!(run(&["queries", "1", &a]).starts_with(first));
    assert_eq!(run(&["corner", &a]), "");
}

#[test]
fn the_entry_of_a_refusal() {
    let place = folder("entries");
    run(&["cases", place.to_str().unwrap()]);
    let file = |name: &str| place.join(format!("{name}.img")).to_str().unwrap().to_string();
    for (name, line, entry) in [
        ("i", "refuse 34 9", " entry 12"),
        ("j0", "refuse 35 13", " entry 4"),
        ("jmin", "refuse 36 13", " entry 4"),
        ("j5", "refuse 37 13", " entry 4"),
        ("m4_node_zero", "refuse 34 5", " entry 11"),
        ("f2_cell", "refuse 33 13", ""),
        ("m4_faces", "refuse 38 5", ""),
        ("b", "refuse 1 0", ""),
    ] {
        let image = file(name);
        assert_eq!(run(&["validate", &image]), format!("{line}\n"));
        let answers = run(&["answers", place.to_str().unwrap()]);
        assert!(answers.lines().any(|answer| answer == format!("{name}.img {line}")), "{name}");
        let whole = format!("{line}{entry}");
        for call in ["sizes", "entries", "usage"] {
            assert_eq!(run(&[call, &image, "3"]), format!("{whole}\n"), "{name} {call}");
        }
        assert_eq!(run(&["usage-into", &image, "3", "1"]), format!("{whole} room 170\n"));
        assert_eq!(run(&["list-into", &image, "3", "0"]), format!("{whole} room\n"));
        let queries = run(&["queries", "1", &image]);
        assert!(queries.starts_with(&format!("validate = {whole}\n")), "{name}");
        assert!(queries.lines().any(|query| query == format!("usage 0 = {whole}")), "{name}");
    }
    assert_eq!(run(&["table", &file("j0")]), "accept 17\n");
    assert_eq!(run(&["path", &file("j0"), "99"]), "refuse 40 0\n");
    assert_eq!(run(&["value", &file("j0"), "16", "4"]), "whole 0\n");
    assert_eq!(run(&["usage", &file("l"), "3"]), "refuse 45 13 5\n");
}

#[test]
fn generated_images() {
    let place = folder("generated");
    let line = run(&["generate", "1", "60", place.to_str().unwrap()]);
    assert!(line.starts_with("accepted "));
    let answers = run(&["answers", place.to_str().unwrap()]);
    assert_eq!(answers.lines().count(), 60);
    assert!(answers.starts_with("000000.img accept"));
}

#[test]
fn written_again() {
    let place = folder("rewritten");
    run(&["cases", place.to_str().unwrap()]);
    let file = |name: &str| place.join(format!("{name}.img")).to_str().unwrap().to_string();
    let out = file("out");
    assert_eq!(run(&["rewrite", &file("c"), &out]), "refuse 4 0\n");
    assert!(!PathBuf::from(&out).exists());
    for (name, length) in [("a", 1844), ("i", 1844), ("d", 116)] {
        assert_eq!(run(&["rewrite", &file(name), &out]), format!("rewritten {length}\n"));
        assert!(fs::read(&out).unwrap() == fs::read(file(name)).unwrap());
    }
}

#[test]
fn calls_of_the_writer() {
    let place = folder("writer");
    run(&["cases", place.to_str().unwrap()]);
    let image = place.join("a.img");
    let asked = |call: &str, numbers: &str| {
        let words: Vec<&str> = [call, image.to_str().unwrap()].into_iter().chain(numbers.split(' ')).collect();
        run(&words)
    };
    let header = "1 0 0 0 116 0 0 0 1 0 0 0 32 0 0 0 116 0 0 0 0 0 0 0 116 0 0 0 0 0 0 0";
    let blank = format!("state 1 0 0 0 0 0 room {header}{} 170 170\n", " 0".repeat(84));
    assert_eq!(run(&["start", "1", "0", "0", "118"]), blank);
    assert_eq!(run(&["start", "0", "0", "0", "2"]), "refuse 4 0 room 170 170\n");
    assert_eq!(run(&["start", "1", "0", "0"]), "");
    // the base, in its place behind two nodes
    let added = asked("add", "17 16 256 2 1 4 200 1844 200 4 10 2 1468 1 0 1592 8");
    assert!(added.starts_with("state 17 16 256 3 2 12 room at 200 66 97 115 101 32 32 "), "{added}");
    assert!(added.ends_with(" at 1468 2 0 0 0 0 0 0 0 at 1592 3 0 0 0 3 0 0 0\n"), "{added}");
    let kept = asked("add", "17 16 256 2 1 4 1844 1844 200 32 32 2 1468 1 0 1592 8");
    assert_eq!(kept, "state 17 16 256 3 2 12 room\n");
    let other_byte = asked("add", "17 16 256 2 1 4 1844 1844 200 4 10 2 1468 1 1 1592 8");
    assert_eq!(other_byte, "state 17 16 256 3 2 12 room at 272 1\n");
    assert_eq!(asked("add", "17 16 256 2 1 4 200 1844 200 33 10 2 1468 1 0 1592 8"), "refuse 9 2 room\n");
    assert_eq!(asked("add", "17 16 256 2 1 4 200 1843 200 4 10 2 1468 1 0 1592 8"), "refuse 46 0 room\n");
    assert_eq!(asked("add", "17 16 256 2 1 4 200 1844 200 4 10 2 1468 1 0 1592"), "");
    assert_eq!(asked("finish", "17 16 256 17 0 0 1844 1850"), "length 1844\n");
    assert_eq!(asked("finish", "17 16 256 16 16 256 1844 1844"), "refuse 51 0\n");
    assert_eq!(asked("finish", "17 16 256 17 16 256 3 1844"), "refuse 2 0\n");
    assert_eq!(asked("finish", "17 16 256 17 16 4294967296 1844 1844"), "");
}
