//! What a run has met: images, calls, rules, differences.

use std::collections::BTreeMap;

use crate::library::{self, Call, CALLS};

/// How many differences are shown; all are counted.
const SHOWN: u64 = 20;

/// Which image of a run is compared.
#[derive(Clone, Copy, Debug)]
pub enum Place {
    /// One of those that every run begins with.
    Fixed(u64),
    /// A generated one.
    Generated(u64),
}

/// The counts of a run.
#[derive(Default)]
pub struct Tally {
    pub differences: u64,
    seed: u64,
    place: Option<Place>,
    images: u64,
    bytes: u64,
    calls: [u64; CALLS.len()],
    /// Images by the rule of their verdict, calls by the rule of their answer; 0 is none.
    verdicts: BTreeMap<u64, u64>,
    answers: BTreeMap<u64, u64>,
    /// Calls that answered that parents do not agree with the cells, and that they do.
    agreements: [u64; 2],
    /// Calls of the writer that were lent a whole state and answer, by the rule of their answer; 0 is none.
    writer: [BTreeMap<u64, u64>; 3],
    /// Runs of the writer, and how many of them ended with the image of the nodes added.
    runs: [u64; 2],
}

/// The calls of the writer.
const WRITER: [Call; 3] = [Call::WriterStart, Call::WriterAdd, Call::WriterFinish];

/// The rules that each of them answers in every run, 0 for none.
const WRITER_RULES: [&[u64]; 3] = [
    &[0, 1, 4, 5, 46],
    &[0, 7, 8, 9, 10, 11, 12, 13, 14, 15, 16, 17, 46, 50],
    &[0, 1, 2, 3, 4, 5, 6, 7, 8, 9, 10, 11, 12, 13, 14, 15, 16, 17, 18, 46, 51],
];

/// The rules that calls of every run answer: the last one of validation, and those of the calls alone.
const ANSWERED: [u64; 10] = [39, 40, 41, 42, 43, 44, 45, 46, 47, 54];

impl Tally {
    /// Nothing met yet.
    pub fn of_run(seed: u64) -> Tally {
        Tally { seed, ..Tally::default() }
    }

    /// Notes which image is compared.
    pub fn now_comparing(&mut self, place: Place) {
        self.place = Some(place);
        library::now_comparing(self.seed, place);
    }

    /// Counts an image by its verdict.
    pub fn image(&mut self, length: usize, rule: u64) {
        self.images += 1;
        self.bytes += length as u64;
        *self.verdicts.entry(rule).or_default() += 1;
    }

    /// Counts a call by the rule of its answer.
    pub fn call(&mut self, call: Call, rule: u64) {
        self.calls[call as usize] += 1;
        *self.answers.entry(rule).or_default() += 1;
    }

    /// Counts a call of the writer that was lent a whole state and answer, by the rule of its answer.
    pub fn writer_call(&mut self, call: Call, rule: u64) {
        let place = call as usize - Call::WriterStart as usize;
        *self.writer[place].entry(rule).or_default() += 1;
    }

    /// Counts a run of the writer.
    pub fn run(&mut self, ended: bool) {
        self.runs[0] += 1;
        self.runs[1] += u64::from(ended);
    }

    /// Counts an answer of whether parents agree with the cells.
    pub fn agreement(&mut self, agrees: bool) {
        self.agreements[usize::from(agrees)] += 1;
    }

    /// What the run should have met and has not: rules, of the writer for each call, parents that agree and that do not, and
    /// a run of the writer that ends well.
    pub fn unmet(&self) -> Vec<String> {
        let rules = ANSWERED.iter().filter(|rule| !self.answers.contains_key(rule)).map(|rule| format!("rule {rule}"));
        let answers = ["parents that do not agree", "parents that agree"].into_iter().zip(self.agreements);
        let agreements = answers.filter(|(_, count)| *count == 0).map(|(what, _)| what.to_string());
        let writer = WRITER.iter().zip(WRITER_RULES).zip(&self.writer).flat_map(|((&call, rules), met)| {
            let unmet = rules.iter().filter(|rule| !met.contains_key(rule));
            unmet.map(move |rule| format!("rule {rule} of {}", CALLS[call as usize]))
        });
        let runs = (self.runs[1] == 0).then(|| "a run of the writer that ends with its image".to_string());
        rules.chain(agreements).chain(writer).chain(runs).collect()
    }

    /// How many calls were made.
    pub fn calls(&self) -> u64 {
        self.calls.iter().sum()
    }

    /// Counts a difference and shows it.
    pub fn difference(&mut self, call: Call, what: &str) {
        self.differences += 1;
        if self.differences <= SHOWN {
            let (seed, place) = (self.seed, self.place.unwrap_or(Place::Fixed(0)));
            println!("difference: seed {seed} {place:?} {} {what}", CALLS[call as usize]);
        }
    }

    /// The summary.
    pub fn print(&self) {
        let pairs = |map: &BTreeMap<u64, u64>| {
            let all: Vec<String> = map.iter().map(|(rule, count)| format!("{rule}:{count}")).collect();
            all.join(" ")
        };
        let calls: Vec<String> = CALLS.iter().zip(self.calls).map(|(name, count)| format!("{name} {count}")).collect();
        println!("images {} ({} bytes)", self.images, self.bytes);
        println!("images by rule {}", pairs(&self.verdicts));
        println!("calls {}: {}", self.calls(), calls.join(", "));
        println!("calls by rule {}", pairs(&self.answers));
        for (call, rules) in WRITER.iter().zip(&self.writer) {
            println!("{} by rule {}", CALLS[*call as usize], pairs(rules));
        }
        println!("runs of the writer {}, ended with their image {}", self.runs[0], self.runs[1]);
        println!("parents agree {}, do not {}", self.agreements[1], self.agreements[0]);
        for what in self.unmet() {
            println!("not met: {what}");
        }
        println!("differences {}", self.differences);
    }
}
