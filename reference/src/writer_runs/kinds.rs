//! The kinds of runs, which go round by the run's number, each with its own list that goes round in turn.

use crate::addition::{additions, built, stated, Addition};
use crate::header::Header;
use crate::random::Random;
use crate::records::Record;
use crate::writer::State;

use super::alter::ALTERED;
use super::maker::Maker;
use super::trees::{chain, family, tree};
use super::{Run, Step};

/// The longest room of a run in which the caller does more than the right calls and a few refused ones.
const SHORT: usize = 1 << 20;

/// The run of this number, of the nodes of an image where it passes rules 1 to 18, else of a small tree.
pub fn run(random: &mut Random, image: &[u8], number: u64) -> Run {
    let (round, place) = (number / 12, number % 12);
    let taken = if (round + place) % 4 == 3 { None } else { additions(image).ok() };
    let (source, image) = match taken {
        Some((_, nodes)) => (nodes, image.to_vec()),
        None => {
            let nodes = tree(random);
            let image = built(&nodes);
            (nodes, image)
        }
    };
    let long = image.len() > SHORT;
    match place {
        5 | 6 if !long => wrongly_stated(random, source, 2 * round + place - 5),
        7 if !long => altered_between(random, source),
        8 | 9 if !long => altered_at_the_end(random, source, 2 * round + place - 8),
        10 if !long => made_up(random, source, round),
        11 if round.is_multiple_of(2) => deep_chain(random),
        11 => deep_room(random),
        _ => right(random, source, image),
    }
}

/// The room that a start needs.
fn needed([nodes, words, bytes]: [u64; 3]) -> usize {
    Header::length(nodes, words, bytes) as usize
}

/// Nothing, or a few bytes.
fn beyond(random: &mut Random) -> usize {
    if random.one_in(2) {
        0
    } else {
        1 + random.index(120)
    }
}

/// All nodes of the source, rightly stated, with refused calls between; they make this image.
fn right(random: &mut Random, source: Vec<Addition>, image: Vec<u8>) -> Run {
    let numbers = stated(&source);
    let room = needed(numbers) + beyond(random);
    let mut maker = Maker::new(random, source, room);
    maker.refused_starts();
    if maker.random.one_in(8) {
        maker.step(Step::Start([1, 0, 0]));
    }
    maker.step(Step::Start(numbers));
    for number in 0..maker.source.len() {
        refused_calls(&mut maker, number);
        maker.add(number);
    }
    ending(&mut maker);
    maker.run(Some(image))
}

/// Calls that are refused before the addition of this number.
fn refused_calls(maker: &mut Maker, number: usize) {
    let count = maker.source.len() as u64;
    for _ in 0..4 {
        if maker.random.below(count) < 12 {
            maker.damaged(number);
        }
    }
    match maker.random.below(20 + count) {
        0 => drop(maker.step(Step::Finish)),
        1 | 2 => maker.short_room(number),
        _ => (),
    }
}

/// Additions after N nodes, and finishes, the last of them in the whole room.
fn ending(maker: &mut Maker) {
    let number = maker.random.index(maker.source.len());
    match maker.random.below(6) {
        0 => drop(maker.add(number)),
        1 => maker.damaged(number),
        2 => maker.short_room(number),
        3 => {
            maker.step(Step::Finish);
            maker.add(number);
        }
        _ => (),
    }
    maker.step(Step::Finish);
}

/// All nodes of the source, with one of N, D and the data length stated as more or less than it is.
fn wrongly_stated(random: &mut Random, source: Vec<Addition>, kind: u64) -> Run {
    let mut numbers = stated(&source);
    let place = (kind % 3) as usize;
    let by = 1 + random.below(4);
    numbers[place] = if (kind / 3).is_multiple_of(2) { numbers[place] + by } else { numbers[place].saturating_sub(by) };
    let room = needed(numbers) + beyond(random);
    let mut maker = Maker::new(random, source, room);
    maker.step(Step::Start(numbers));
    for number in 0..maker.source.len() {
        refused_calls(&mut maker, number);
        maker.add(number);
    }
    ending(&mut maker);
    maker.run(None)
}

/// All nodes of the source in a room that the caller alters between the calls.
fn altered_between(random: &mut Random, source: Vec<Addition>) -> Run {
    let numbers = stated(&source);
    let room = needed(numbers) + beyond(random);
    let mut maker = Maker::new(random, source, room);
    maker.step(Step::Start(numbers));
    for number in 0..maker.source.len() {
        alter_between(&mut maker, number);
        refused_calls(&mut maker, number);
        maker.add(number);
    }
    ending(&mut maker);
    maker.run(None)
}

/// All nodes of the source in a room that the caller then alters in four ways, each to break a rule, one after another.
fn altered_at_the_end(random: &mut Random, source: Vec<Addition>, turn: u64) -> Run {
    let numbers = stated(&source);
    let room = needed(numbers) + beyond(random);
    let mut maker = Maker::new(random, source, room);
    maker.step(Step::Start(numbers));
    for number in 0..maker.source.len() {
        maker.add(number);
    }
    maker.step(Step::Finish);
    let finished = maker.caller.room.clone();
    for k in 0..4 {
        maker.break_room(ALTERED[(4 * turn as usize + k) % ALTERED.len()]);
        ending(&mut maker);
        maker.alter(0, &finished);
    }
    maker.step(Step::Finish);
    maker.run(None)
}

/// Alters the room now and then, and now and then makes it again as it was.
fn alter_between(maker: &mut Maker, number: usize) {
    let before = maker.caller.room.clone();
    match maker.random.below(12) {
        0 => maker.break_room(7),
        1 => maker.name_next(number),
        2 => maker.alter_any(),
        3 => {
            let rule = *maker.random.pick(&ALTERED);
            maker.break_room(rule);
        }
        4 => {
            let rule = 2 + maker.random.below(5) as u32;
            maker.break_room(rule);
        }
        _ => return,
    }
    if maker.random.one_in(3) {
        maker.damaged(number);
        maker.add(number);
        maker.alter(0, &before);
    }
}

/// Made-up states between the calls, and one before the start.
fn made_up(random: &mut Random, source: Vec<Addition>, round: u64) -> Run {
    let numbers = stated(&source);
    let many = random.one_in(8);
    let room = needed(numbers) + if many { 84 * 4200 } else { beyond(random) };
    let mut maker = Maker::new(random, source, room);
    let any = maker.made_up(round % Maker::MADE_UP);
    maker.state(any);
    maker.add(0);
    maker.step(Step::Start(numbers));
    if many {
        past_the_limit(&mut maker);
    }
    for number in 0..maker.source.len() {
        if maker.random.one_in(4) {
            maker.add(number);
            let kind = maker.random.below(Maker::MADE_UP);
            let (right, odd) = (maker.caller.state, maker.made_up(kind));
            maker.state(odd);
            maker.damaged(number);
            maker.add_empty();
            maker.add(number);
            maker.step(Step::Finish);
            if maker.random.one_in(2) {
                maker.state(right);
            }
        }
        maker.add(number);
    }
    ending(&mut maker);
    maker.run(None)
}

/// A state of more than 4096 nodes, whose room has the header that it asks for.
fn past_the_limit(maker: &mut Maker) {
    let node_count = 4097 + maker.random.below(99) as u32;
    let state = State { node_count, ..maker.caller.state };
    maker.state(state);
    if let Some(header) = Header::of(node_count, state.dimension_words, state.data_length) {
        maker.alter(0, &header.to_bytes());
    }
    for number in 0..maker.source.len().min(3) {
        maker.add(number);
    }
    maker.state(State { nodes: node_count, ..state });
    maker.step(Step::Finish);
    maker.state(State { nodes: node_count - 1, ..state });
    maker.add(0);
    maker.damaged(0);
}

/// A chain that is as deep as may be, and additions below it.
fn deep_chain(random: &mut Random) -> Run {
    let mut nodes = chain(random, u64::from(Record::MAX_DEPTH));
    let mut last = nodes[0].clone();
    (last.name, last.parent) = (b"last".to_vec(), 31 - random.below(3));
    nodes.push(last);
    let image = built(&nodes);
    right(random, nodes, image)
}

/// A family whose records the caller makes a chain of 30 to 40, and additions below it, with the way up broken and not.
fn deep_room(random: &mut Random) -> Run {
    let count = 30 + random.below(16);
    let source = family(random, count + 2);
    let numbers = stated(&source);
    let room = needed(numbers) + beyond(random);
    let mut maker = Maker::new(random, source, room);
    maker.step(Step::Start(numbers));
    let chained = count as usize + 1;
    for number in 0..chained {
        maker.add(number);
    }
    for number in 1..chained {
        maker.alter(Record::at(number) + 72, &(number as u32 - 1).to_le_bytes());
    }
    let (low, any) = (maker.random.index(6), maker.random.index(chained));
    let broken = *maker.random.pick(&[0, low, any]);
    for parent in [Record::NO_PARENT - 1, broken as u32, broken.saturating_sub(1) as u32, Record::NO_PARENT] {
        maker.source[chained].parent = maker.random.below(count / 4) + 3 * count / 4;
        maker.alter(Record::at(broken) + 72, &parent.to_le_bytes());
        maker.add(chained);
    }
    let right = if broken == 0 { Record::NO_PARENT } else { broken as u32 - 1 };
    maker.alter(Record::at(broken) + 72, &right.to_le_bytes());
    for _ in 0..3 {
        maker.source[chained].parent = 29 + maker.random.below(count - 28);
        maker.add(chained);
    }
    maker.add(chained + 1);
    ending(&mut maker);
    maker.run(None)
}
