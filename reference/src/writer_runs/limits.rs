//! Runs at the limit of length and of counts.

use crate::addition::{built, stated, Addition};
use crate::header::{Header, MAX_IMAGE, MAX_NODES, MAX_WORDS};
use crate::random::Random;
use crate::records::Record;
use crate::writer::State;

use super::maker::Maker;
use super::{Run, Step};

/// The longest image, and the most nodes and words.
pub fn limit_runs(random: &mut Random) -> Vec<Run> {
    vec![longest(random), most(random)]
}

/// A root and a node whose data fill the longest image; then a room of one byte more.
fn longest(random: &mut Random) -> Run {
    let root = Addition {
        name: b"root".to_vec(),
        label: b"Root".to_vec(),
        data_type: b"MT".to_vec(),
        parent: u64::from(Record::NO_PARENT),
        ..Addition::default()
    };
    let rest = MAX_IMAGE - Header::length(2, 1, 0) as usize;
    let mut all = Addition { name: b"all".to_vec(), parent: 0, data: vec![0xa5; rest], ..root.clone() };
    (all.data_type, all.dimensions) = (b"B1".to_vec(), vec![rest as u64]);
    let source = vec![root, all];
    let numbers = stated(&source);
    let mut maker = Maker::new(random, source, MAX_IMAGE + 1);
    maker.step(Step::Start([2, 1, rest as u64 + 1]));
    maker.step(Step::Start(numbers));
    maker.add(0);
    maker.add(1);
    let state = maker.caller.state;
    maker.state(State { data_length: state.data_length + 1, ..state });
    maker.step(Step::Finish);
    maker.state(state);
    maker.step(Step::Finish);
    let image = built(&maker.source);
    maker.run(Some(image))
}

/// A start with as many nodes and words as may be, in a room that is enough and in one that is not.
fn most(random: &mut Random) -> Run {
    let (nodes, words) = (u64::from(MAX_NODES), u64::from(MAX_WORDS));
    let source = super::trees::tree(random);
    let length = Header::length(nodes, words, 5) as usize;
    let mut maker = Maker::new(random, source, length);
    for numbers in [[nodes + 1, words, 5], [nodes, words + 1, 5], [nodes, words, 6], [nodes, words, 5]] {
        maker.step(Step::Start(numbers));
    }
    for number in 0..maker.source.len().min(4) {
        maker.add(number);
    }
    maker.step(Step::Finish);
    maker.run(None)
}
