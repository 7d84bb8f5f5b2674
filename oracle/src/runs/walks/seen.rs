//! What the self check sees of walks: those built by hand end where they must, and the
//! words of drawn ones are those of the pairs with the alphas of the list.

use super::answers::{End, Walked};
use super::cases::{drawn, AIMS};
use super::corners::by_hand;
use super::WalkCase;
use crate::calls::{Designs, Runs};
use crate::random::Random;
use crate::record::{Answers, Case, Variant};
use crate::runs::Outcome;
use crate::words::Word;
use crate::{loops, published};

/// Of each aim.
const DRAWN: usize = 25;

fn that(holds: bool, what: &str, case: &WalkCase) -> Result<(), String> {
    let problem = || format!("check: not so: {what} in {case:?}");
    holds.then_some(()).ok_or_else(problem)
}

fn check_by_hand<V: Designs + Runs>() -> Result<(), String> {
    let mut sevens = 0;
    for (case, found) in by_hand() {
        that(case.refusal().is_none(), "a walk by hand walks", &case)?;
        let Walked { passed, end } = case.walked::<V>();
        let usable = matches!(end, End::Usable(_)).then_some(passed.len());
        that(usable == found, "a walk by hand ends there", &case)?;
        let seven = |outcome: &Outcome| matches!(outcome, Outcome::NotFinite(_));
        sevens += usize::from(usable.is_some() && passed.iter().any(seven));
    }
    match sevens {
        4 => Ok(()),
        other => Err(format!("check: {other} walks by hand pass 7 over, not 4")),
    }
}

/// The words of these names.
fn words(answers: &Answers, names: &[&str]) -> Vec<Word> {
    let named = answers.iter().filter(|(name, _)| names.contains(name));
    named.map(|&(_, word)| word).collect()
}

const REPORT: [&str; 5] = [
    "status",
    "violation",
    "iterations",
    "epochs",
    "extrapolations",
];
const LEFT: [&str; 4] = ["w", "fit", "indices", "scratch"];

/// "at most m nonzero weights with status 1", by the words of a pair's answer.
fn is_usable(answers: &Answers, most: u64) -> bool {
    let zeros = [Word::Double(0.0), Word::Double(-0.0)];
    let weights = words(answers, &["w"]);
    let nonzero = weights.iter().skip(1).filter(|word| !zeros.contains(word));
    words(answers, &["status"]) == [Word::Count(1)] && nonzero.count() as u64 <= most
}

fn check_words(case: &WalkCase, variant: Variant) -> Result<(), String> {
    let answers = case.answers(variant);
    if answers[0].1 == Word::Panicked {
        return Ok(());
    }
    let pairs = case.alphas.iter().map(|&alpha| case.pair(alpha));
    let mut pairs = pairs.map(|pair| pair.answers(variant)).enumerate();
    let first = pairs.find(|(_, pair)| is_usable(pair, case.most));
    let position = words(&answers, &["position"]);
    match first {
        None => that(
            answers[0].1 == Word::Count(11) && position.is_empty(),
            "no pair is usable, and the walk gives 11",
            case,
        )?,
        Some((at, pair)) => {
            let found = position == [Word::Count(at as u32)];
            that(found, "the walk finds the first usable pair", case)?;
            let names = [&REPORT[..], &LEFT].concat();
            let same = words(&answers, &names) == words(&pair, &names);
            that(same, "the walk answers as that pair", case)?;
        }
    }
    let mut other = case.clone();
    other.given.fit.settings.penalty.alpha = f64::NAN;
    let same = words(&other.answers(variant), &LEFT) == words(&answers, &LEFT);
    that(same, "the settings' alpha changes nothing", case)
}

pub fn check() -> Result<(), String> {
    check_by_hand::<loops::Rust>()?;
    check_by_hand::<published::Rust>()?;
    let mut random = Random::new(7);
    for aim in AIMS {
        for _ in 0..DRAWN {
            let case = drawn(aim, &mut random);
            check_words(&case, Variant::Loops)?;
            check_words(&case, Variant::Published)?;
        }
    }
    Ok(())
}
