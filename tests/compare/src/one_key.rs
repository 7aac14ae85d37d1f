//! Images whose names have one key of rule 11 under each parent: so many nodes are searched for that the library puts names in order.

use reference::build::Node;
use reference::cases::tetrahedron;
use reference::random::Random;

/// Keys are remainders by this number, and those of a name's four words enter them.
const KEYS: u64 = 4_100_011;

/// Children of each of two parents.
const CHILDREN: usize = 400;

/// Images with names in random order that differ in the first, second, third or last word; in two of three some nodes have the name of an
/// earlier sibling.
pub fn one_key() -> Vec<Vec<u8>> {
    (0..24).map(|number| image(&mut Random::new(1, number), number as usize)).collect()
}

fn image(random: &mut Random, number: usize) -> Vec<u8> {
    let mut image = tetrahedron();
    let own = image.add(2, Node::empty("Own", "UserDefinedData_t"));
    let mut words = words(CHILDREN);
    random.shuffle(&mut words);
    let first = image.nodes.len();
    for (place, word) in words.iter().enumerate() {
        let name = "x".repeat(8 * (number % 4)) + word;
        let parents = if place % 2 == 0 { [2, own] } else { [own, 2] };
        for parent in parents {
            image.add(parent, Node::empty(&name, "UserDefinedData_t"));
        }
    }
    for _ in 0..number % 3 {
        let one = first + random.index(image.nodes.len() - first);
        let other = first + random.index(image.nodes.len() - first);
        image.nodes[one].name = image.nodes[other].name;
    }
    image.to_bytes()
}

/// Words of eight printable bytes without a slash that leave one remainder.
fn words(count: usize) -> Vec<String> {
    let lawful = |word: &String| word.bytes().all(|byte| byte.is_ascii_graphic() && byte != b'/');
    let all = (u64::from_le_bytes(*b"AAAAAAAA")..).step_by(KEYS as usize);
    let texts = all.filter_map(|word| String::from_utf8(word.to_le_bytes().to_vec()).ok());
    texts.filter(lawful).take(count).collect()
}
