//! The seeded generator: each index of a run has a target, a lawful image, a rule to be broken or a case of document 02,
//! so that a run of a few hundred images meets every rule that can occur and every case.

use std::collections::BTreeMap;

use crate::build::Image;
use crate::damage::{damages_of, flips, Answer, Damage, DAMAGES};
use crate::damage::{flat_case, mixed_case, name_case, parent_case, point_case, reference_case};
use crate::lawful::{chain, lawful, SizeClass};
use crate::random::Random;
use crate::validation::validate;

/// What an index is to show.
#[derive(Clone, Copy, Debug, PartialEq, Eq)]
enum Target {
    Lawful,
    Rule(u32),
    /// A lawful image with a few bytes changed.
    Flips,
    /// Several damages at once.
    Several,
    /// A lawful image that is as deep as may be.
    Deep,
    /// A case of points (document 02, §1) of this number.
    Points(usize),
    /// A case of flat faces and cells (document 02, §2) of this number.
    Flat(usize),
    /// A case of name bytes (document 02, §3) of this number.
    Names(usize),
    /// A case of MIXED sections (document 02, §4) of this number.
    Mixed(usize),
    /// A case of references (document 02, §6) of this number.
    References(usize),
    /// A case of parents (document 02, §7) of this number.
    Parents(usize),
}

/// How many indices make a round: each rule once, a lawful image before every second one, four others; twelve cases of each
/// of the six kinds, which go round their lists.
const ROUND: u64 = 37 + 19 + 4 + 6 * CASES;
const CASES: u64 = 12;

/// The target of an index: of every eleven the last six are cases, each case in its turn.
fn target(index: u64) -> Target {
    let (round, place) = (index / ROUND, index % ROUND);
    let (eleven, within) = (place / 11, place % 11);
    let case = (round * CASES + eleven) as usize;
    match within {
        5 => return Target::Points(case),
        6 => return Target::Flat(case),
        7 => return Target::Names(case),
        8 => return Target::Mixed(case),
        9 => return Target::References(case),
        10 => return Target::Parents(case),
        _ => (),
    }
    let place = (5 * eleven + within) as usize;
    match place {
        0..56 if place.is_multiple_of(3) => Target::Lawful,
        0..56 => Target::Rule(DAMAGES[place - place / 3 - 1].0),
        56..58 => Target::Flips,
        58 => Target::Several,
        _ if round.is_multiple_of(4) => Target::Deep,
        _ => Target::Several,
    }
}

/// How often another image is tried before the target is given up.
const TRIES: u32 = 300;

/// The image of an index.
pub fn image(seed: u64, index: u64, class: SizeClass) -> Vec<u8> {
    let mut random = Random::new(seed, index);
    match target(index) {
        Target::Lawful => lawful(&mut random, class).to_bytes(),
        Target::Deep => chain(&mut random, 32).to_bytes(),
        Target::Rule(rule) => breaking(&mut random, class, rule),
        Target::Flips => {
            let mut bytes = lawful(&mut random, class).to_bytes();
            flips(&mut bytes, &mut random);
            bytes
        }
        Target::Several => several(&mut random, class),
        Target::Points(number) => {
            with_case(&mut random, class, SizeClass::holds, |image, random| point_case(image, random, number))
        }
        Target::Flat(number) => {
            with_case(&mut random, class, SizeClass::holds, |image, random| flat_case(image, random, number))
        }
        Target::Names(number) => with_case(&mut random, class, SizeClass::holds_family, |image, random| {
            name_case(image, random, class, number)
        }),
        Target::Mixed(number) => {
            with_case(&mut random, class, SizeClass::holds, |image, random| mixed_case(image, random, number))
        }
        Target::References(number) => with_case(&mut random, class, SizeClass::holds, |image, random| {
            reference_case(image, random, class, number)
        }),
        Target::Parents(number) => {
            with_case(&mut random, class, SizeClass::holds, |image, random| parent_case(image, random, class, number))
        }
    }
}

/// An image that breaks the rule first.
fn breaking(random: &mut Random, class: SizeClass, rule: u32) -> Vec<u8> {
    let mut bytes = Vec::new();
    for _ in 0..TRIES {
        let mut image = lawful(random, class);
        let damage = *random.pick(damages_of(rule));
        bytes = damaged(&mut image, random, damage);
        if validate(&bytes).is_err_and(|rejection| rejection.rule == rule) {
            break;
        }
    }
    bytes
}

/// An image with a case that keeps within these bounds of the class; a lawful one where none was found.
fn with_case(
    random: &mut Random,
    class: SizeClass,
    holds: fn(SizeClass, &Image) -> bool,
    case: impl Fn(&mut Image, &mut Random) -> Option<Answer>,
) -> Vec<u8> {
    for _ in 0..TRIES {
        let mut image = lawful(random, class);
        if case(&mut image, random).is_some() && holds(class, &image) {
            return image.to_bytes();
        }
    }
    lawful(random, class).to_bytes()
}

/// The bytes of an image after a damage.
fn damaged(image: &mut Image, random: &mut Random, damage: Damage) -> Vec<u8> {
    match damage {
        Damage::Nodes(change) => {
            change(image, random);
            image.to_bytes()
        }
        Damage::Words(change) => {
            let mut bytes = image.to_bytes();
            change(&mut bytes, random);
            bytes
        }
        Damage::Length(change) => {
            let mut bytes = image.to_bytes();
            change(&mut bytes, random);
            bytes
        }
    }
}

/// An image with two or three damages of records and meaning.
fn several(random: &mut Random, class: SizeClass) -> Vec<u8> {
    let mut image = lawful(random, class);
    for _ in 0..2 + random.below(2) {
        let (rule, damages) = random.pick(&DAMAGES);
        if let (20.., Damage::Nodes(change)) = (*rule, random.pick(damages)) {
            change(&mut image, random);
        }
    }
    image.to_bytes()
}

/// How many images of a run were accepted, and how many broke each rule.
#[derive(Clone, Debug, Default, PartialEq, Eq)]
pub struct Summary {
    pub accepted: u64,
    pub by_rule: BTreeMap<u32, u64>,
}

impl Summary {
    /// Counts one image.
    pub fn count(&mut self, image: &[u8]) {
        match validate(image) {
            Ok(_) => self.accepted += 1,
            Err(rejection) => *self.by_rule.entry(rejection.rule).or_default() += 1,
        }
    }

    /// `accepted A` and `rule:count` for each rule, in one line.
    pub fn line(&self) -> String {
        let rules: Vec<String> = self.by_rule.iter().map(|(rule, count)| format!("{rule}:{count}")).collect();
        format!("accepted {} rejected {}", self.accepted, rules.join(" "))
    }
}
