//! Records of walks (code 23); oracle/README.md has their form. Two laws are run on each that can be asked: an answer is that of a preparation and a
//! solve with its alpha alone, and the sign law.

use crate::cases::{Case, Ending, Settings};
use crate::fits::{cannot_be_asked, case_of, ending_of, refusal_of};
use crate::lent::same;
use crate::problems::{listing, pair, room_of};
use crate::records::{judged, Verdict, Words};
use crate::signs::{Set, Tally};

/// The columns that are turned.
const EVERY_OTHER: Set = 0x5555_5555_5555_5555;

/// How many answers a preparation and a solve with the alpha alone give too, and how many they do not; and what became of the turned walks.
#[derive(Default)]
struct Laws {
    alone: [usize; 2],
    signs: Tally,
}

impl Laws {
    /// Of a walk that ended so, with this position where it answered.
    fn run(&mut self, case: &Case, alphas: &[f64], most: usize, (position, ending): &(Option<usize>, Ending)) {
        if let Some(position) = position {
            let alone = alphas.get(*position).and_then(|&alpha| pair_with(case, alpha));
            let agrees = alone.is_some_and(|alone| listing(&alone) == listing(ending));
            self.alone[usize::from(!agrees)] += 1;
        }
        self.signs.turn(case, EVERY_OTHER, |case| {
            let mut room = room_of(case);
            let (at, ending) = room.walk(case, alphas, most);
            (at == *position && room.left_as_promised()).then_some(ending)
        });
    }
}

fn pair_with(case: &Case, alpha: f64) -> Option<Ending> {
    let settings = Settings { alpha, ..case.settings.clone() };
    pair(&Case { settings, ..case.clone() })
}

/// The place in a count of how a walk ends: 0 with an answer, 1 with none usable, 2 with another refusal.
fn outcome(number: u32) -> Option<usize> {
    match number {
        0 => Some(0),
        11 => Some(1),
        1..=6 => Some(2),
        _ => None,
    }
}

fn verdict(words: &mut Words, outcomes: &mut [usize; 3], laws: &mut Laws) -> Option<Verdict> {
    let (case, mut room) = case_of(words)?;
    let (alphas, most) = (words.double_array()?, words.number()?);
    let refusal = refusal_of(words)?;
    let position = if refusal.0 == 0 { Some(words.number()?) } else { None };
    let (ending, left) = ending_of(words, refusal)?;
    let prepared = words.doubles(room.prepared().len())?;
    words.end()?;
    outcomes[outcome(refusal.0)?] += 1;
    if cannot_be_asked(&case) {
        return (refusal == (1, 0)).then_some(Verdict::Unasked);
    }
    let found = room.walk(&case, &alphas, most);
    laws.run(&case, &alphas, most, &found);
    let alike = found.0 == position && listing(&found.1) == listing(&ending);
    Some(Verdict::of(alike && room.holds(&left) && same(room.prepared(), &prepared) && room.left_as_promised()))
}

/// Whether there is a record, every one is answered as it says, and the laws hold.
pub fn replay(list: &[u8]) -> bool {
    let (mut outcomes, mut laws) = ([0; 3], Laws::default());
    let counts = judged(list, |words| match words.number::<u32>()? {
        0x23 => verdict(words, &mut outcomes, &mut laws),
        _ => None,
    });
    let ([answers, unusable, others], unasked) = (outcomes, counts.unasked);
    println!("{answers} answers, {unusable} refused with 11, {others} refused with 1 to 6; {unasked} not asked: a dense design with starts or rows");
    let Laws { alone: [agree, differ], signs } = laws;
    println!("as preparing and solving with the alpha alone: {agree} agree, {differ} differ");
    signs.print("");
    counts.hold() && differ == 0 && signs.hold()
}
