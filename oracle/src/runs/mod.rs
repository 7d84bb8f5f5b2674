//! Preparations and solves, which make up a run of the coordinate descent, and the
//! working set by itself. This file holds their cases as records have them; `rules`
//! holds the documents' refusals, `watch` what is seen of a run, `outcome` how a
//! run ends. `walks` are made of pairs.

mod answers;
mod cases;
mod corners;
mod extrapolated;
mod faults;
mod handed;
mod list;
mod made;
mod outcome;
mod pairs;
mod prepared;
mod problems;
mod rules;
mod sets;
mod solves;
mod walks;
mod watch;

pub use cases::{any, extrapolated_from, not_finite, with_settings};
pub use corners::{by_hand, handed_by_hand, named, LAYOUTS};
pub use corners::{equal_columns, erased_by_steps, one_column, two_columns};
pub use faults::{problem_faults, setting_pairs, settings_beside, Asked, Wanted};
pub use handed::any as any_handed;
pub use list::{EXTRAPOLATED, HANDED, LIST, PAIRS};
pub use outcome::{outcome, Outcome};
pub use prepared::{Numbers, Prepared};
pub use problems::{of_columns, repeated, targets, varied, Theme};
pub use walks::{check as check_walks, WalkCase, WALKS};
pub use watch::{NotFinite, Report, Watch};

use crate::designs::Design;
use crate::leaves::Penalty;
use crate::words::{counted, counted_indices, Reader, Word};

/// In or out of their ranges.
#[derive(Clone, Debug)]
pub struct Settings {
    pub penalty: Penalty,
    pub tolerance: f64,
    pub start: u32,
    pub iterations: u32,
    pub epochs: u32,
    pub extrapolate: bool,
    pub depth: u32,
}

/// The lengths of the lent buffers; what they hold makes no difference to a solve.
#[derive(Clone, Copy, Debug, Default)]
pub struct Lent {
    pub weights: u32,
    pub fit: u32,
    pub indices: u32,
    pub scratch: u32,
}

/// A problem with its settings and the room for its answer: what the program
/// fits.
#[derive(Clone, Debug)]
pub struct FitCase {
    pub design: Design,
    pub targets: Vec<f64>,
    pub settings: Settings,
    pub lent: Lent,
}

/// What a preparation and a solve are given together.
#[derive(Clone, Debug)]
pub struct Given {
    pub fit: FitCase,
    /// The lent buffer of the prepared numbers: as it is before a preparation, or
    /// as it is handed to a solve.
    pub prepared: Vec<f64>,
}

/// A preparation and then, if it answered, a solve with the numbers that it left.
#[derive(Clone, Debug)]
pub struct PairCase(pub Given);

/// A solve with numbers that are handed to it.
#[derive(Clone, Debug)]
pub struct SolveCase(pub Given);

/// The working set of given weights and violations.
#[derive(Clone, Debug)]
pub struct SetCase {
    pub weights: Vec<f64>,
    pub violations: Vec<f64>,
    pub start: u32,
    /// The lent buffer as it is before the call.
    pub indices: Vec<u32>,
}

impl Settings {
    fn words(&self) -> Vec<Word> {
        let mut words = self.penalty.words();
        words.push(Word::Double(self.tolerance));
        let extrapolate = u32::from(self.extrapolate);
        let counts = [self.start, self.iterations, self.epochs, extrapolate];
        words.extend(counts.map(Word::Count));
        words.push(Word::Count(self.depth));
        words
    }

    fn read(reader: &mut Reader) -> Result<Settings, String> {
        Ok(Settings {
            penalty: Penalty::read(reader)?,
            tolerance: reader.double()?,
            start: reader.count()?,
            iterations: reader.count()?,
            epochs: reader.count()?,
            extrapolate: match reader.count()? {
                0 => false,
                1 => true,
                other => return Err(format!("extrapolate is 0 or 1, not {other:x}")),
            },
            depth: reader.count()?,
        })
    }
}

impl Lent {
    fn words(&self) -> Vec<Word> {
        let lengths = [self.weights, self.fit, self.indices, self.scratch];
        lengths.map(Word::Count).to_vec()
    }

    fn read(reader: &mut Reader) -> Result<Lent, String> {
        Ok(Lent {
            weights: reader.count()?,
            fit: reader.count()?,
            indices: reader.count()?,
            scratch: reader.count()?,
        })
    }
}

impl FitCase {
    pub fn words(&self) -> Vec<Word> {
        [
            self.design.words(),
            counted(&self.targets),
            self.settings.words(),
            self.lent.words(),
        ]
        .concat()
    }

    fn read(reader: &mut Reader) -> Result<FitCase, String> {
        Ok(FitCase {
            design: Design::read(reader)?,
            targets: reader.counted()?,
            settings: Settings::read(reader)?,
            lent: Lent::read(reader)?,
        })
    }
}

impl Given {
    fn words(&self) -> Vec<Word> {
        [self.fit.words(), counted(&self.prepared)].concat()
    }

    fn read(reader: &mut Reader) -> Result<Given, String> {
        Ok(Given {
            fit: FitCase::read(reader)?,
            prepared: reader.counted()?,
        })
    }
}

/// What is said without request 3 of a case that the Rust has no answer to; it is
/// not read.
const NO_ANSWER: &str = "the Rust stops where a working set has fewer than K places";

impl PairCase {
    pub const CODE: u32 = 0x20;

    pub fn read(reader: &mut Reader) -> Result<PairCase, String> {
        let case = PairCase(Given::read(reader)?);
        let comparable = case.comparable().then_some(());
        comparable.map(|()| case).ok_or(NO_ANSWER.into())
    }
}

impl SolveCase {
    pub const CODE: u32 = 0x22;

    pub fn read(reader: &mut Reader) -> Result<SolveCase, String> {
        let case = SolveCase(Given::read(reader)?);
        let comparable = case.comparable().then_some(());
        comparable.map(|()| case).ok_or(NO_ANSWER.into())
    }
}

impl SetCase {
    pub const CODE: u32 = 0x21;

    fn input_words(&self) -> Vec<Word> {
        [
            counted(&self.weights),
            counted(&self.violations),
            vec![Word::Count(self.start)],
            counted_indices(&self.indices),
        ]
        .concat()
    }

    pub fn read(reader: &mut Reader) -> Result<SetCase, String> {
        Ok(SetCase {
            weights: reader.counted()?,
            violations: reader.counted()?,
            start: reader.count()?,
            indices: reader.counted_indices()?,
        })
    }
}
