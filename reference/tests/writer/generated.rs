//! Runs made at random: a right one ends with its image, and every refusal occurs.

use std::collections::BTreeMap;

use reference::addition::{additions, Addition};
use reference::cases::cases;
use reference::generate::image;
use reference::lawful::SizeClass;
use reference::random::Random;
use reference::writer_runs::{limit_runs, run, Caller, Run, Step};

/// How often each call was answered with which rule, and how many runs ended with a known image.
#[derive(Default)]
struct Met {
    starts: BTreeMap<u32, u64>,
    additions: BTreeMap<u32, u64>,
    finishes: BTreeMap<u32, u64>,
    ended: u64,
}

impl Met {
    /// Takes the steps of a run; a refusal changes nothing, bytes beyond the needed room stay.
    fn take(&mut self, run: &Run) {
        let mut caller = Caller::of(&run.room);
        let (mut last, mut added) = (None, Vec::new());
        for step in &run.steps {
            let before = caller.clone();
            let Some(answer) = caller.step(step) else { continue };
            let rule = answer.map_or_else(|rejection| rejection.rule, |_| 0);
            let of_call = match step {
                Step::Start(_) => &mut self.starts,
                Step::Add(_) => &mut self.additions,
                _ => &mut self.finishes,
            };
            *of_call.entry(rule).or_default() += 1;
            if rule > 0 || matches!(step, Step::Finish) {
                assert!(caller.room == before.room && caller.state == before.state);
            }
            let needed = (caller.state.needed() as usize).min(caller.room.len());
            assert!(caller.room[needed..] == before.room[needed..]);
            match step {
                Step::Start(_) if rule == 0 => added.clear(),
                Step::Add(addition) if rule == 0 => added.push(addition.padded()),
                _ => last = Some(answer),
            }
        }
        if let Some(image) = &run.image {
            assert_eq!(last, Some(Ok(image.len() as u64)));
            assert!(caller.room[..image.len()] == image[..]);
            let nodes: Vec<Addition> = added;
            assert!(additions(image).unwrap().1 == nodes);
            self.ended += 1;
        }
    }
}

#[test]
fn runs() {
    let (mut met, mut given) = (Met::default(), 0);
    let images = cases().into_iter().map(|(_, image)| image).chain((0..1200).map(|k| image(5, k, SizeClass::Small)));
    for (number, image) in images.enumerate() {
        let run = run(&mut Random::new(5, number as u64), &image, number as u64);
        met.take(&run);
        given += u64::from(run.image == Some(image));
    }
    limit_runs(&mut Random::new(5, 0)).iter().for_each(|run| met.take(run));
    assert_eq!(met.starts.keys().copied().collect::<Vec<u32>>(), [0, 1, 4, 5, 46]);
    let additions: Vec<u32> = [0].into_iter().chain(7..=17).chain([46, 50]).collect();
    assert_eq!(met.additions.keys().copied().collect::<Vec<u32>>(), additions);
    let finishes: Vec<u32> = (0..=18).chain([46, 51]).collect();
    assert_eq!(met.finishes.keys().copied().collect::<Vec<u32>>(), finishes);
    assert!(given > 300 && met.ended > given + 100, "{given} {}", met.ended);
}
