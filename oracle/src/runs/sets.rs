//! Made cases of the working set.

use super::SetCase;
use crate::designs::{Place, Refusal, ANYWHERE};
use crate::random::Random;

/// Mostly up to 12 features. From 21 on the unstable sort shows.
fn features(random: &mut Random) -> usize {
    match random.below(20) {
        0..=1 => 1,
        2..=3 => 21 + random.below(20),
        _ => 1 + random.below(12),
    }
}

/// Nonzero in `share` of a hundred; a NaN is no zero.
fn weight(share: usize, random: &mut Random) -> f64 {
    match random.below(10) {
        _ if !random.chance(share) => random.signed(0.0),
        0 => f64::NAN,
        1 => random.pick(&[5e-324, -5e-324, f64::INFINITY, f64::NEG_INFINITY]),
        _ => random.moderate(),
    }
}

/// How violations are drawn: with many equal ones, with few, or with none.
#[derive(Clone, Copy)]
enum Make {
    Equal,
    Few,
    Moderate,
    Extreme,
}

/// At a zero weight; -0.0 is not negative.
fn violation(make: Make, random: &mut Random) -> f64 {
    match make {
        Make::Equal => random.pick(&[1.0, 1.0, 0.0, -0.0]),
        Make::Few => random.pick(&[0.0, -0.0, 0.5, 1.0, 2.0, 3.0]),
        Make::Moderate => random.moderate().abs(),
        Make::Extreme => {
            let one = random.moderate().abs();
            random.pick(&[5e-324, f64::MIN_POSITIVE, f64::MAX, 0.0, -0.0, one])
        }
    }
}

/// At a weight that isn't zero it may be anything.
fn violation_beside(weight: f64, make: Make, random: &mut Random) -> f64 {
    if weight == 0.0 || random.chance(50) {
        return violation(make, random);
    }
    random.pick(&[f64::NAN, f64::INFINITY, f64::NEG_INFINITY, -1.0, -5e-324])
}

fn start(features: usize, random: &mut Random) -> usize {
    match random.below(4) {
        0 => 1,
        1 => features,
        _ => 1 + random.below(features),
    }
}

/// Any number: what the buffer holds before makes no difference.
fn index(random: &mut Random) -> u32 {
    random.pick(&[0, 1, 7, 8_192, u32::MAX, 0xdead])
}

fn indices(count: usize, random: &mut Random) -> Vec<u32> {
    let longer = random.pick(&[0, 0, 0, 1, 2, 3]);
    (0..count + longer).map(|_| index(random)).collect()
}

pub fn sound(random: &mut Random) -> SetCase {
    let features = features(random);
    let share = random.pick(&[0, 10, 30, 30, 60, 100]);
    let make = random.pick(&[
        Make::Equal,
        Make::Few,
        Make::Few,
        Make::Moderate,
        Make::Extreme,
    ]);
    let weights: Vec<f64> = (0..features).map(|_| weight(share, random)).collect();
    let beside = |&weight: &f64| violation_beside(weight, make, random);
    let violations = weights.iter().map(beside).collect();
    let case = SetCase {
        weights,
        violations,
        start: start(features, random) as u32,
        indices: indices(features, random),
    };
    assert_eq!(case.refusal(), None, "{case:?}");
    case
}

/// The start is the third of the settings, and the place of a wrong one.
const START: usize = 2;

#[derive(Clone, Copy)]
pub enum Fault {
    NoFeatures,
    /// One violation less than there are weights, or one more.
    Fewer,
    More,
    NoStart,
    /// Above p by so much.
    LargeStart(u32),
    /// To nothing, to half of the room, or to one less than the room.
    Cut(Place),
    /// At a zero weight.
    Violation(Place, f64),
}

pub fn faults() -> Vec<Fault> {
    let mut faults = vec![Fault::NoFeatures, Fault::Fewer, Fault::More, Fault::NoStart];
    faults.extend([1, 2, 8_192, u32::MAX].map(Fault::LargeStart));
    faults.extend(ANYWHERE.map(Fault::Cut));
    for place in ANYWHERE {
        let bad = [f64::NAN, f64::INFINITY, f64::NEG_INFINITY, -5e-324, -1.0];
        faults.extend(bad.map(|violation| Fault::Violation(place, violation)));
    }
    faults
}

/// The features whose violations are looked at.
fn zeros(case: &SetCase) -> Vec<usize> {
    let features = 0..case.weights.len();
    features.filter(|&j| case.weights[j] == 0.0).collect()
}

impl Fault {
    fn number(&self) -> u32 {
        match self {
            Fault::NoFeatures | Fault::Fewer | Fault::More => 1,
            Fault::NoStart | Fault::LargeStart(_) => 2,
            Fault::Cut(_) => 3,
            Fault::Violation(..) => 8,
        }
    }

    /// The place at which it must be found; None where this case has none.
    fn spoil(&self, case: &mut SetCase) -> Option<usize> {
        let features = case.weights.len();
        match *self {
            Fault::NoFeatures => {
                case.weights.clear();
                case.violations.clear();
            }
            Fault::Fewer => drop(case.violations.pop()),
            Fault::More => case.violations.push(1.0),
            Fault::NoStart => {
                case.start = 0;
                return Some(START);
            }
            Fault::LargeStart(by) => {
                case.start = (features as u32).saturating_add(by);
                return Some(START);
            }
            Fault::Cut(place) => case.indices.truncate(place.of(features)?),
            Fault::Violation(place, violation) => {
                let feature = place.among(zeros(case))?;
                case.violations[feature] = violation;
                return Some(feature);
            }
        }
        Some(0)
    }
}

/// A case with these faults of falling or equal number.
fn try_spoiled(faults: &[Fault], random: &mut Random) -> Option<SetCase> {
    let mut case = sound(random);
    let mut expected = None;
    for fault in faults {
        let found = (fault.number(), fault.spoil(&mut case)? as u32);
        expected = Some(expected.map_or(found, |other: Refusal| other.min(found)));
    }
    assert_eq!(case.refusal(), expected, "{case:?}");
    Some(case)
}

pub fn spoiled(fault: Fault, random: &mut Random) -> SetCase {
    loop {
        if let Some(case) = try_spoiled(&[fault], random) {
            return case;
        }
    }
}

/// Two faults: of different numbers, or two violations, of which the first is
/// found.
pub fn twice_spoiled(faults: &[Fault], random: &mut Random) -> SetCase {
    loop {
        let mut pair = [random.pick(faults), random.pick(faults)];
        pair.sort_by_key(|fault| std::cmp::Reverse(fault.number()));
        if pair[0].number() == pair[1].number() && pair[0].number() < 8 {
            continue;
        }
        if let Some(case) = try_spoiled(&pair, random) {
            return case;
        }
    }
}
