//! Images with as many siblings as there may be: names that differ early or late, and names of one key, which rule 11's marks
//! cannot tell apart.

use reference::build::{Image, Node};

use crate::odd::{odd, Odd};
use crate::parts::{with_zone, Section, MAX_NODES, TRI_3};

/// Keys of rule 11: of a name they take the remainders of its four words.
const KEYS: u64 = 4_100_011;

/// Arrays beside the nodes that they need.
const ARRAYS: usize = MAX_NODES - 8;

/// The images, all of arrays of one section.
pub fn images() -> Vec<Odd> {
    let words = words_of_one_key(ARRAYS);
    let mut falling = words.clone();
    falling.sort_by(|a, b| b.cmp(a));
    let images = [
        odd("4,088 arrays of a section, named 0000 to 4087", "named_0", named(|k| format!("{k:04}"))),
        odd("4,088 arrays of a section, named ElementX..", "named_7", named(|k| format!("ElementX{k:04}"))),
        odd(
            "4,088 arrays of a section, names that share 28 bytes with ElementConnectivity",
            "named_28",
            named(|k| format!("{:<28}{k:04}", "ElementConnectivity")),
        ),
        odd("4,088 arrays of a section, names of one key", "one_key", named(|k| words[k].clone())),
        odd("the same names, the greatest first", "one_key_falling", named(|k| falling[k].clone())),
        odd(
            "4,088 arrays of a section, names of one key that share 24 bytes",
            "one_key_24",
            named(|k| format!("{:<24}{}", "ElementConnectivity", words[k])),
        ),
        Odd {
            rule: 11,
            ..odd(
                "4,088 arrays of a section, names of one key, the last node named as the first of them: rule 11",
                "one_key_again",
                last_as_first(named(|k| words[k].clone())),
            )
        },
    ];
    images.into_iter().map(|image| Odd { siblings: true, ..image }).collect()
}

/// Words of eight printable bytes without a slash that leave one remainder by the number of keys.
fn words_of_one_key(count: usize) -> Vec<String> {
    let lawful = |word: &String| word.bytes().all(|byte| byte.is_ascii_graphic() && byte != b'/');
    let all = (u64::from_le_bytes(*b"AAAAAAAA")..).step_by(KEYS as usize);
    let texts = all.filter_map(|word| String::from_utf8(word.to_le_bytes().to_vec()).ok());
    texts.filter(lawful).take(count).collect()
}

/// A section with as many arrays as there may be, and behind them those that it needs.
fn named(name: impl Fn(usize) -> String) -> Image {
    let (mut image, zone) = with_zone();
    let own = Section::triangle(TRI_3, 1);
    let section = own.add_bare(&mut image, zone);
    for k in 0..ARRAYS {
        image.add(section, Node::list(&name(k), 4, &[0]));
    }
    own.add_children(&mut image, section);
    image
}

/// The same image with the name of the first sibling of the last node at the last node.
fn last_as_first(mut image: Image) -> Image {
    let last = image.nodes.len() - 1;
    let first = image.nodes.iter().position(|node| node.parent == image.nodes[last].parent).expect("a sibling");
    image.nodes[last].name = image.nodes[first].name;
    image
}
