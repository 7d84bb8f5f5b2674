//! Faults that are put into sound cases. Each knows where document 01 must find
//! it, so that what `rules` finds is seen to be right.

use super::cases::sound;
use super::{Call, Design, DesignCase, Input, Layout, Refusal};
use crate::random::Random;

/// Where in an array a fault lies, or how short a buffer is cut.
#[derive(Clone, Copy, Debug, PartialEq)]
pub enum Place {
    First,
    Middle,
    Last,
}

pub const ANYWHERE: [Place; 3] = [Place::First, Place::Middle, Place::Last];

impl Place {
    /// None where the array is too short for it.
    pub fn of(self, length: usize) -> Option<usize> {
        match self {
            Place::First => (length > 0).then_some(0),
            Place::Middle => (length > 2).then_some(length / 2),
            Place::Last => (length > 1).then(|| length - 1),
        }
    }

    pub fn among(self, candidates: Vec<usize>) -> Option<usize> {
        self.of(candidates.len()).map(|index| candidates[index])
    }
}

/// What there must be for a fault to lie in.
#[derive(Clone, Copy)]
enum Need {
    Size,
    Design,
    Dense,
    Csc,
    CscWithoutTargets,
    Targets,
    DesignAndTargets,
    Feature,
    Set,
    Lent(usize),
}

impl Need {
    fn met(self, call: Call, layout: Layout) -> bool {
        let design = call.takes(Input::Design);
        let targets = call.takes(Input::Targets);
        match self {
            Need::Size => true,
            Need::Design => design,
            Need::Dense => design && layout == Layout::Dense,
            Need::Csc => design && layout == Layout::Csc,
            Need::CscWithoutTargets => !targets && layout == Layout::Csc,
            Need::Targets => targets,
            Need::DesignAndTargets => design && targets,
            Need::Feature => call.takes(Input::Feature),
            Need::Set => call.takes(Input::Set),
            Need::Lent(index) => index < call.rooms().len(),
        }
    }
}

/// Puts the fault in and says where document 01 must find it; None where this
/// case has no place for it.
type Spoil = fn(&mut DesignCase, Place, &mut Random) -> Option<usize>;

struct Fault {
    number: u32,
    need: Need,
    places: &'static [Place],
    spoil: Spoil,
}

/// A fault that can only lie in one way.
const fn fixed(number: u32, need: Need, spoil: Spoil) -> Fault {
    Fault {
        number,
        need,
        places: &[Place::First],
        spoil,
    }
}

const fn anywhere(number: u32, need: Need, spoil: Spoil) -> Fault {
    Fault {
        number,
        need,
        places: &ANYWHERE,
        spoil,
    }
}

static FAULTS: [Fault; 34] = [
    fixed(1, Need::Size, no_samples),
    fixed(1, Need::Design, many_samples),
    fixed(1, Need::Design, no_features),
    fixed(1, Need::Design, many_features),
    fixed(1, Need::Dense, wrapped_values),
    fixed(1, Need::Csc, wrapped_starts),
    fixed(1, Need::Design, |case, _, _| fewer(&mut case.design.values)),
    fixed(1, Need::Design, |case, _, _| {
        more(&mut case.design.values, 1.0)
    }),
    fixed(1, Need::Csc, |case, _, _| fewer(&mut case.design.starts)),
    fixed(1, Need::Csc, another_start),
    fixed(1, Need::Csc, |case, _, _| fewer(&mut case.design.rows)),
    fixed(1, Need::Csc, |case, _, _| more(&mut case.design.rows, 0)),
    fixed(1, Need::Dense, |case, _, _| {
        more(&mut case.design.starts, 0)
    }),
    fixed(1, Need::Dense, |case, _, _| more(&mut case.design.rows, 0)),
    fixed(1, Need::Design, other_layout),
    fixed(1, Need::DesignAndTargets, |case, _, _| {
        fewer(&mut case.targets)
    }),
    fixed(1, Need::DesignAndTargets, |case, _, _| {
        more(&mut case.targets, 1.0)
    }),
    fixed(1, Need::Feature, feature_outside),
    anywhere(1, Need::Set, feature_outside),
    fixed(1, Need::Set, long_set),
    anywhere(3, Need::Lent(0), |case, place, _| cut(case, 0, place)),
    anywhere(3, Need::Lent(1), |case, place, _| cut(case, 1, place)),
    anywhere(3, Need::Lent(2), |case, place, _| cut(case, 2, place)),
    fixed(3, Need::CscWithoutTargets, most_samples),
    fixed(4, Need::Csc, nonzero_start),
    anywhere(4, Need::Csc, falling_start),
    anywhere(4, Need::Csc, exceeding_start),
    fixed(4, Need::Csc, low_last_start),
    fixed(4, Need::Csc, high_last_start),
    anywhere(5, Need::Csc, row_outside),
    anywhere(5, Need::Csc, repeated_row),
    anywhere(5, Need::Csc, falling_row),
    anywhere(6, Need::Targets, bad_target),
    anywhere(6, Need::Design, bad_value),
];

/// Nothing is stored any more, and the lengths still agree.
fn clear(case: &mut DesignCase) {
    case.design.starts.fill(0);
    case.design.rows.clear();
    case.design.values.clear();
}

fn no_samples(case: &mut DesignCase, _: Place, _: &mut Random) -> Option<usize> {
    clear(case);
    case.targets.clear();
    case.design.samples = 0;
    Some(0)
}

fn many_samples(case: &mut DesignCase, _: Place, random: &mut Random) -> Option<usize> {
    case.design.samples = random.pick(&[65_537, 1 << 31, u32::MAX]);
    Some(0)
}

fn no_features(case: &mut DesignCase, _: Place, _: &mut Random) -> Option<usize> {
    clear(case);
    case.design.starts.truncate(1);
    case.design.features = 0;
    Some(0)
}

fn many_features(case: &mut DesignCase, _: Place, random: &mut Random) -> Option<usize> {
    case.design.features = random.pick(&[8_193, 1 << 31, u32::MAX]);
    Some(0)
}

/// As many values as n·p has in 32 bits.
fn wrapped_values(case: &mut DesignCase, _: Place, _: &mut Random) -> Option<usize> {
    clear(case);
    (case.design.samples, case.design.features) = (1 << 16, 1 << 16);
    Some(0)
}

/// As many starts as p + 1 has in 32 bits.
fn wrapped_starts(case: &mut DesignCase, _: Place, _: &mut Random) -> Option<usize> {
    clear(case);
    case.design.starts.clear();
    case.design.features = u32::MAX;
    Some(0)
}

fn fewer<T>(array: &mut Vec<T>) -> Option<usize> {
    array.pop().map(|_| 0)
}

fn more<T>(array: &mut Vec<T>, entry: T) -> Option<usize> {
    array.push(entry);
    Some(0)
}

fn another_start(case: &mut DesignCase, _: Place, _: &mut Random) -> Option<usize> {
    let last = *case.design.starts.last()?;
    more(&mut case.design.starts, last)
}

/// A dense design with the arrays of a CSC design, or the other way round.
fn other_layout(case: &mut DesignCase, _: Place, random: &mut Random) -> Option<usize> {
    let layout = match case.design.layout {
        Layout::Dense => Layout::Csc,
        Layout::Csc => Layout::Dense,
    };
    let other = sound(case.call, layout, random).design;
    if other.samples != case.design.samples || other.features != case.design.features {
        return None;
    }
    case.design.starts = other.starts;
    case.design.rows = other.rows;
    case.design.values = other.values;
    Some(0)
}

/// One that is just outside, or far.
fn outside(border: u32, random: &mut Random) -> u32 {
    random.pick(&[border, border, border.saturating_add(1), u32::MAX])
}

fn feature_outside(case: &mut DesignCase, place: Place, random: &mut Random) -> Option<usize> {
    let index = place.of(case.features.len())?;
    case.features[index] = outside(case.design.features, random);
    Some(0)
}

fn long_set(case: &mut DesignCase, _: Place, random: &mut Random) -> Option<usize> {
    let features = case.design.features as usize;
    let any = |_| random.below(features) as u32;
    case.features = (0..=features).map(any).collect();
    Some(0)
}

/// To nothing, to half of the room, or to one less than the room.
fn cut(case: &mut DesignCase, index: usize, place: Place) -> Option<usize> {
    let room = case.call.rooms()[index];
    let length = place.of(case.length(room))?;
    case.lent[index].truncate(length);
    Some(0)
}

/// n is the largest that is allowed, so every fit is too short.
fn most_samples(case: &mut DesignCase, _: Place, _: &mut Random) -> Option<usize> {
    case.design.samples = 65_536;
    Some(0)
}

fn nonzero_start(case: &mut DesignCase, _: Place, random: &mut Random) -> Option<usize> {
    let stored = case.design.values.len() as u32;
    *case.design.starts.first_mut()? = random.pick(&[1, 1, stored.max(1), u32::MAX]);
    Some(0)
}

fn falling_start(case: &mut DesignCase, place: Place, random: &mut Random) -> Option<usize> {
    let starts = &mut case.design.starts;
    let can_fall = (1..starts.len()).filter(|&index| starts[index - 1] > 0);
    let index = place.among(can_fall.collect())?;
    let before = starts[index - 1];
    starts[index] = random.pick(&[before - 1, before - 1, 0]);
    Some(index)
}

/// Neither the first start nor the last, for which there are other faults.
fn exceeding_start(case: &mut DesignCase, place: Place, random: &mut Random) -> Option<usize> {
    let stored = case.design.values.len() as u32;
    let starts = &mut case.design.starts;
    let index = place.among((1..starts.len() - 1).collect())?;
    starts[index] = random.pick(&[stored + 1, stored + 1, 1 << 31, u32::MAX]);
    Some(index)
}

/// Not falling, so that its being low is the only fault.
fn low_last_start(case: &mut DesignCase, _: Place, _: &mut Random) -> Option<usize> {
    let low = case.design.values.len().checked_sub(1)? as u32;
    let starts = &mut case.design.starts;
    let last = starts.len() - 1;
    if low < starts[last - 1] {
        return None;
    }
    starts[last] = low;
    Some(last)
}

fn high_last_start(case: &mut DesignCase, _: Place, random: &mut Random) -> Option<usize> {
    let stored = case.design.values.len() as u32;
    let last = case.design.starts.len() - 1;
    case.design.starts[last] = random.pick(&[stored + 1, stored + 1, u32::MAX]);
    Some(last)
}

fn row_outside(case: &mut DesignCase, place: Place, random: &mut Random) -> Option<usize> {
    let position = place.of(case.design.rows.len())?;
    case.design.rows[position] = outside(case.design.samples, random);
    Some(position)
}

/// The positions that have a predecessor in their column.
fn followers(case: &DesignCase) -> Vec<usize> {
    let columns = case.design.starts.windows(2);
    columns
        .flat_map(|column| (column[0] as usize + 1)..column[1] as usize)
        .collect()
}

fn repeated_row(case: &mut DesignCase, place: Place, _: &mut Random) -> Option<usize> {
    let position = place.among(followers(case))?;
    case.design.rows[position] = case.design.rows[position - 1];
    Some(position)
}

fn falling_row(case: &mut DesignCase, place: Place, random: &mut Random) -> Option<usize> {
    let mut positions = followers(case);
    positions.retain(|&position| case.design.rows[position - 1] > 0);
    let position = place.among(positions)?;
    let before = case.design.rows[position - 1] as usize;
    case.design.rows[position] = random.below(before) as u32;
    Some(position)
}

fn not_finite(random: &mut Random) -> f64 {
    random.pick(&[f64::NAN, f64::INFINITY, f64::NEG_INFINITY])
}

fn bad_target(case: &mut DesignCase, place: Place, random: &mut Random) -> Option<usize> {
    let position = place.of(case.targets.len())?;
    case.targets[position] = not_finite(random);
    Some(position)
}

fn bad_value(case: &mut DesignCase, place: Place, random: &mut Random) -> Option<usize> {
    let position = place.of(case.design.values.len())?;
    case.design.values[position] = not_finite(random);
    Some(case.samples() + position)
}

/// One way of being refused.
#[derive(Clone, Copy)]
pub struct Plan {
    fault: &'static Fault,
    pub layout: Layout,
    place: Place,
}

impl Plan {
    pub fn number(&self) -> u32 {
        self.fault.number
    }
}

/// All ways in which a call can be refused, in both layouts. (The value's cases
/// have none and are planned once.)
pub fn plans(call: Call) -> Vec<Plan> {
    let layouts: &[Layout] = match call {
        Call::Value => &[Layout::Dense],
        _ => &[Layout::Dense, Layout::Csc],
    };
    let mut plans = Vec::new();
    for &layout in layouts {
        for fault in FAULTS.iter().filter(|fault| fault.need.met(call, layout)) {
            plans.extend(fault.places.iter().map(|&place| Plan {
                fault,
                layout,
                place,
            }));
        }
    }
    plans
}

/// All ways in which a design with its targets can be refused.
pub fn input_plans() -> Vec<Plan> {
    plans(Call::Check)
}

/// Puts a fault into a design or its targets, for a call of another layer, and
/// says what must be found; None where there is no place for it.
pub fn spoil_inputs(
    plan: Plan,
    design: &mut Design,
    targets: &mut Vec<f64>,
    random: &mut Random,
) -> Option<Refusal> {
    let mut case = DesignCase::empty(Call::Check);
    std::mem::swap(&mut case.design, design);
    std::mem::swap(&mut case.targets, targets);
    let place = (plan.fault.spoil)(&mut case, plan.place, random);
    std::mem::swap(&mut case.design, design);
    std::mem::swap(&mut case.targets, targets);
    place.map(|place| (plan.number(), place as u32))
}

/// Puts faults of falling or equal number into the case. The one of the lowest
/// number must be found, of several the one at the lowest place.
fn spoil(case: &mut DesignCase, plans: &[Plan], random: &mut Random) -> Option<(u32, u32)> {
    let mut expected = (u32::MAX, 0);
    for plan in plans {
        let place = (plan.fault.spoil)(case, plan.place, random)?;
        expected = expected.min((plan.fault.number, place as u32));
    }
    Some(expected)
}

/// A case with these faults, or None where the sound case drawn for it has no
/// place for them.
fn try_spoiled(call: Call, plans: &[Plan], random: &mut Random) -> Option<DesignCase> {
    let mut case = sound(call, plans[0].layout, random);
    let expected = spoil(&mut case, plans, random)?;
    assert_eq!(case.refusal(), Some(expected), "{case:?}");
    Some(case)
}

pub fn spoiled(call: Call, plan: Plan, random: &mut Random) -> DesignCase {
    loop {
        if let Some(case) = try_spoiled(call, &[plan], random) {
            return case;
        }
    }
}

/// A plan of any refusal number, each number being as likely as the others.
fn any_number(plans: &[Plan], random: &mut Random) -> Plan {
    let mut numbers: Vec<u32> = plans.iter().map(|plan| plan.fault.number).collect();
    numbers.sort();
    numbers.dedup();
    let number = random.pick(&numbers);
    let of_number = plans.iter().filter(|plan| plan.fault.number == number);
    random.pick(&of_number.copied().collect::<Vec<_>>())
}

/// Two faults at once: of different numbers, or of one whose place tells which
/// was found.
pub fn twice_spoiled(call: Call, plans: &[Plan], random: &mut Random) -> DesignCase {
    let layout = any_number(plans, random).layout;
    let mut plans = plans.to_vec();
    plans.retain(|plan| plan.layout == layout);
    loop {
        let mut pair = [any_number(&plans, random), any_number(&plans, random)];
        pair.sort_by_key(|plan| std::cmp::Reverse(plan.fault.number));
        if pair[0].fault.number == pair[1].fault.number && pair[0].fault.number < 4 {
            continue;
        }
        if let Some(case) = try_spoiled(call, &pair, random) {
            return case;
        }
    }
}
