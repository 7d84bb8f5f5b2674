//! Files that keep to the layout and whose contents are refused with 1 to 6.

use super::fields::{bytes, fields, Field};
use super::layout::{self, MOST_FEATURES, MOST_SAMPLES};
use super::sound::{any, file, File};
use crate::designs::Layout;
use crate::random::Random;
use crate::runs::{self, Asked, FitCase};

/// Whether a file can say this, and the program's sizes allow it.
fn fits(case: &FitCase) -> bool {
    let design = &case.design;
    let empty = design.starts.is_empty() && design.rows.is_empty();
    design.samples <= MOST_SAMPLES
        && design.features <= MOST_FEATURES
        && (design.layout == Layout::Csc || empty)
}

pub fn refused_with(file: File, number: u32, place: u32) -> File {
    let case = layout::read(&file).expect("the layout is kept");
    assert_eq!(case.refusal(), Some((number, place)), "{case:?}");
    file
}

pub fn missing_field(random: &mut Random) -> File {
    loop {
        let mut fields = fields(&any(random));
        let index = 1 + random.below(fields.len() - 1);
        if !fields.remove(index).body.is_empty() {
            return refused_with(bytes(&fields), 1, 0);
        }
    }
}

/// n or p is 0, with the arrays that belong to it or without.
pub fn zero_sizes(random: &mut Random) -> File {
    let mut case = any(random);
    if random.chance(60) {
        case.design.samples = 0;
    }
    if case.design.samples > 0 || random.chance(20) {
        case.design.features = 0;
    }
    if random.chance(50) {
        (case.design.values, case.design.rows) = (Vec::new(), Vec::new());
        case.design
            .starts
            .truncate(case.design.features as usize + 1);
        case.design.starts.fill(0);
        case.targets.truncate(case.design.samples as usize);
    }
    refused_with(file(&case), 1, 0)
}

/// A fault of the contents that the program can be given.
fn spoiled(draw: impl Fn(&mut Random) -> FitCase, random: &mut Random) -> FitCase {
    loop {
        let mut case = draw(random);
        case.lent = layout::ENOUGH;
        if fits(&case) && case.refusal().is_some() {
            return case;
        }
    }
}

fn spoiled_file(case: FitCase) -> File {
    let (number, place) = case.refusal().expect("the case is spoiled");
    refused_with(file(&case), number, place)
}

/// One fault that is refused with this number.
pub fn fault(number: u32, random: &mut Random) -> File {
    let mut faults = runs::problem_faults();
    faults.retain(|fault| fault.number() == number);
    let draw = |random: &mut Random| {
        let fault = random.pick(&faults);
        Asked::Program.spoiled(fault, random).fit
    };
    let case = spoiled(draw, random);
    assert_eq!(case.refusal().map(|(found, _)| found), Some(number));
    spoiled_file(case)
}

pub fn two_faults(random: &mut Random) -> File {
    let faults = runs::problem_faults();
    let draw = |random: &mut Random| Asked::Program.twice_spoiled(&faults, random).fit;
    spoiled_file(spoiled(draw, random))
}

/// A fault of each of these kinds.
fn faults_as(wanted: &[[runs::Wanted; 2]], random: &mut Random) -> File {
    let faults = runs::problem_faults();
    let draw = |random: &mut Random| {
        let wanted = random.pick(wanted);
        Asked::Program.spoiled_as(wanted, &faults, random).fit
    };
    spoiled_file(spoiled(draw, random))
}

pub fn two_settings(random: &mut Random) -> File {
    faults_as(&runs::setting_pairs(), random)
}

/// A wrong setting beside another refusal. (Of 3 nothing is left in a file.)
pub fn setting_beside(random: &mut Random) -> File {
    faults_as(&runs::settings_beside(), random)
}

/// Fields of a file whose contents are refused.
pub fn spoiled_fields(layout: Layout, random: &mut Random) -> Vec<Field> {
    let faults = runs::problem_faults();
    loop {
        let draw = |random: &mut Random| {
            let fault = random.pick(&faults);
            Asked::Program.spoiled(fault, random).fit
        };
        let case = spoiled(draw, random);
        if case.design.layout == layout {
            return fields(&case);
        }
    }
}
