//! Faults that are put into sound walks. Each knows what the documents must find.

use super::rules::LIST;
use super::{cases, WalkCase};
use crate::designs::{Place, Refusal, ANYWHERE};
use crate::random::Random;
use crate::runs::corners::LAYOUTS;
use crate::runs::faults::{go_together, Asked, Fault, Setting, Wanted, BUFFERS};

/// Ways in which the list of the alphas can be wrong.
#[derive(Clone, Copy)]
pub enum ListFault {
    /// So many alphas that fall: none, or more than there may be.
    Length(usize),
    /// A bad alpha.
    Number(f64, Place),
    /// Two neighbours that are equal, or that rise.
    Equal(Place),
    Rising(Place),
    /// The last two are zeros.
    Zeros(f64, f64),
}

#[derive(Clone, Copy)]
pub enum WalkFault {
    /// What a pair can have too, but for the alpha among the settings.
    Common(Fault),
    List(ListFault),
}

impl ListFault {
    fn spoil(self, alphas: &mut Vec<f64>) -> Option<()> {
        match self {
            ListFault::Length(count) => {
                *alphas = (0..count).map(|k| (count - k) as f64 / 16.0).collect();
            }
            ListFault::Number(number, place) => {
                let at = place.of(alphas.len())?;
                alphas[at] = number;
            }
            ListFault::Equal(place) => {
                let at = place.of(alphas.len() - 1)?;
                alphas[at + 1] = alphas[at];
            }
            ListFault::Rising(place) => {
                let at = place.of(alphas.len() - 1)?;
                alphas.swap(at, at + 1);
            }
            ListFault::Zeros(one, other) => {
                let at = alphas.len().checked_sub(2)?;
                alphas.splice(at.., [one, other]);
            }
        }
        Some(())
    }
}

pub fn list_faults() -> Vec<WalkFault> {
    let bad = [f64::NAN, f64::INFINITY, f64::NEG_INFINITY, -5e-324, -1.0];
    let zeros = [(0.0, -0.0), (-0.0, 0.0), (0.0, 0.0), (-0.0, -0.0)];
    let mut faults = [0, 65, 66, 128].map(ListFault::Length).to_vec();
    for place in ANYWHERE {
        faults.extend(bad.map(|number| ListFault::Number(number, place)));
        faults.extend([ListFault::Equal(place), ListFault::Rising(place)]);
    }
    faults.extend(zeros.map(|(one, other)| ListFault::Zeros(one, other)));
    faults.into_iter().map(WalkFault::List).collect()
}

/// What a pair can have too.
pub fn common_faults() -> Vec<Fault> {
    let mut faults = Asked::Pair.faults();
    faults.retain(|fault| !matches!(fault, Fault::Setting(Setting::Alpha(_))));
    faults
}

/// Each buffer is one place too short.
pub fn lacking_one() -> Vec<WalkFault> {
    let mut faults = BUFFERS
        .map(|buffer| Fault::Cut(buffer, Place::Last))
        .to_vec();
    faults.push(Fault::CutPrepared(Place::Last));
    faults.into_iter().map(WalkFault::Common).collect()
}

/// The settings' places that a walk tests.
pub const SETTINGS: [u32; 6] = [0, 1, 2, 3, 4, 6];

/// The other refusals of a pair's inputs.
pub const NUMBERS: [u32; 5] = [1, 3, 4, 5, 6];

impl WalkFault {
    fn number(&self) -> u32 {
        match self {
            WalkFault::Common(fault) => fault.number(),
            WalkFault::List(_) => 2,
        }
    }

    fn spoil(&self, case: &mut WalkCase, random: &mut Random) -> Option<Refusal> {
        match self {
            WalkFault::Common(fault) => fault.spoil(&mut case.given, random),
            WalkFault::List(fault) => fault.spoil(&mut case.alphas).map(|()| (2, LIST)),
        }
    }
}

/// A fault, or what is to be drawn for one.
#[derive(Clone, Copy)]
pub enum Wish {
    This(WalkFault),
    Common(Wanted),
    AnyList,
    Any,
}

impl Wish {
    fn drawn(self, random: &mut Random) -> WalkFault {
        let common = |wanted: Wanted, random: &mut Random| {
            WalkFault::Common(wanted.drawn(&common_faults(), random))
        };
        match self {
            Wish::This(fault) => fault,
            Wish::Common(wanted) => common(wanted, random),
            Wish::AnyList => random.pick(&list_faults()),
            Wish::Any => match random.below(8) {
                0..=1 => Wish::AnyList.drawn(random),
                2..=3 => {
                    let setting = random.pick(&SETTINGS);
                    common(Wanted::Setting(setting), random)
                }
                _ => {
                    let number = random.pick(&NUMBERS);
                    common(Wanted::Number(number), random)
                }
            },
        }
    }
}

fn common(fault: &WalkFault) -> Option<Fault> {
    match fault {
        WalkFault::Common(fault) => Some(*fault),
        WalkFault::List(_) => None,
    }
}

/// Whether all can be in one case, and which of them is found shows.
fn all_go_together(faults: &[WalkFault]) -> bool {
    let common: Vec<Fault> = faults.iter().filter_map(common).collect();
    let lists = faults.len() - common.len();
    let pairs = match common[..] {
        [one, other] => go_together(one, other),
        _ => true,
    };
    lists < 2 && pairs
}

/// A walk with these faults, or None where the walk drawn for them has no place for
/// one. The lowest number must be found, of several the one at the lowest place.
fn try_spoiled(faults: &[WalkFault], random: &mut Random) -> Option<WalkCase> {
    let layout = faults
        .iter()
        .filter_map(common)
        .find_map(|fault| fault.layout());
    let layout = layout.unwrap_or_else(|| random.pick(&LAYOUTS));
    let mut case = cases::any(layout, random);
    let mut expected = None;
    for fault in faults {
        let refusal = fault.spoil(&mut case, random)?;
        expected = Some(expected.map_or(refusal, |other: Refusal| other.min(refusal)));
    }
    assert_eq!(case.refusal(), expected, "{case:?}");
    Some(case)
}

/// A walk with one or two faults.
pub fn spoiled(wishes: &[Wish], random: &mut Random) -> WalkCase {
    loop {
        let mut faults: Vec<WalkFault> = wishes.iter().map(|wish| wish.drawn(random)).collect();
        faults.sort_by_key(|fault| std::cmp::Reverse(fault.number()));
        if !all_go_together(&faults) {
            continue;
        }
        if let Some(case) = try_spoiled(&faults, random) {
            return case;
        }
    }
}
