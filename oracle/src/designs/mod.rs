//! Designs and the quadratic datafit. This file holds their cases as records
//! have them; `rules` holds document 01's refusals, `answers` the rest.

mod answers;
mod cases;
mod faults;
mod list;
mod rules;

pub use faults::{input_plans, spoil_inputs, Place, Plan, ANYWHERE};
pub use list::LIST;
pub use rules::{Refusal, FEATURES};

use crate::words::{counted, counted_indices, Reader, Word};

#[derive(Clone, Copy, Debug, Default, PartialEq)]
pub enum Layout {
    #[default]
    Dense,
    Csc,
}

/// A design, sound or not. A dense one has neither starts nor rows.
#[derive(Clone, Debug, Default)]
pub struct Design {
    pub layout: Layout,
    pub samples: u32,
    pub features: u32,
    pub starts: Vec<u32>,
    pub rows: Vec<u32>,
    pub values: Vec<f64>,
}

impl Design {
    pub fn dense(samples: u32, features: u32, values: Vec<f64>) -> Design {
        Design {
            layout: Layout::Dense,
            samples,
            features,
            values,
            ..Design::default()
        }
    }

    /// There is one start more than there are features.
    pub fn csc(samples: u32, starts: Vec<u32>, rows: Vec<u32>, values: Vec<f64>) -> Design {
        Design {
            layout: Layout::Csc,
            samples,
            features: starts.len() as u32 - 1,
            starts,
            rows,
            values,
        }
    }

    pub fn words(&self) -> Vec<Word> {
        let sizes = [self.layout as u32, self.samples, self.features];
        [
            sizes.map(Word::Count).to_vec(),
            counted_indices(&self.starts),
            counted_indices(&self.rows),
            counted(&self.values),
        ]
        .concat()
    }

    pub fn read(reader: &mut Reader) -> Result<Design, String> {
        let layout = match reader.count()? {
            0 => Layout::Dense,
            1 => Layout::Csc,
            other => return Err(format!("layout {other:x} is unknown")),
        };
        Ok(Design {
            layout,
            samples: reader.count()?,
            features: reader.count()?,
            starts: reader.counted_indices()?,
            rows: reader.counted_indices()?,
            values: reader.counted()?,
        })
    }
}

/// The calls; their numbers are the codes of the records.
#[derive(Clone, Copy, Debug, PartialEq)]
pub enum Call {
    Initialize = 0x10,
    Gradient = 0x11,
    FullGradient = 0x12,
    Value = 0x13,
    UpdateFit = 0x14,
    ExtrapolatedFit = 0x15,
    AlphaMax = 0x16,
    Check = 0x17,
}

const CALLS: [Call; 8] = [
    Call::Initialize,
    Call::Gradient,
    Call::FullGradient,
    Call::Value,
    Call::UpdateFit,
    Call::ExtrapolatedFit,
    Call::AlphaMax,
    Call::Check,
];

/// How much of a lent buffer a call needs.
#[derive(Clone, Copy, Debug, PartialEq)]
enum Room {
    Samples,
    Features,
    TwiceFeatures,
}

/// What a call takes.
#[derive(Clone, Copy, Debug, PartialEq)]
enum Input {
    Design,
    Targets,
    Lent(Room),
    Feature,
    Set,
    Difference,
}

impl Call {
    fn of(code: u32) -> Option<Call> {
        CALLS.into_iter().find(|&call| call as u32 == code)
    }

    /// In the order of the record.
    fn inputs(self) -> &'static [Input] {
        use Input::{Design, Difference, Feature, Lent, Set, Targets};
        use Room::{Features, Samples, TwiceFeatures};
        match self {
            Call::Initialize => &[Design, Targets, Lent(TwiceFeatures)],
            Call::Gradient => &[Design, Lent(TwiceFeatures), Lent(Samples), Feature],
            Call::FullGradient => &[Design, Lent(TwiceFeatures), Lent(Samples), Lent(Features)],
            Call::Value => &[Targets, Lent(Samples)],
            Call::UpdateFit => &[Design, Lent(Samples), Difference, Feature],
            Call::ExtrapolatedFit => &[Design, Set, Lent(Features), Lent(Samples)],
            Call::AlphaMax => &[Design, Targets, Lent(Features)],
            Call::Check => &[Design, Targets],
        }
    }

    fn takes(self, input: Input) -> bool {
        self.inputs().contains(&input)
    }

    /// The rooms of the lent buffers.
    fn rooms(self) -> Vec<Room> {
        let rooms = self.inputs().iter().filter_map(|input| match input {
            Input::Lent(room) => Some(*room),
            _ => None,
        });
        rooms.collect()
    }

    fn answers_number(self) -> bool {
        matches!(self, Call::Gradient | Call::Value | Call::AlphaMax)
    }

    /// Where a call writes to a lent buffer, it is the last one.
    fn writes(self) -> bool {
        !matches!(self, Call::Gradient | Call::Value | Call::Check)
    }
}

/// A case. What the call doesn't take is empty.
#[derive(Clone, Debug)]
pub struct DesignCase {
    call: Call,
    design: Design,
    targets: Vec<f64>,
    /// The buffers as they are lent, in the order of the record.
    lent: Vec<Vec<f64>>,
    /// The one feature, or the working set.
    features: Vec<u32>,
    difference: f64,
}

impl DesignCase {
    fn empty(call: Call) -> DesignCase {
        DesignCase {
            call,
            design: Design::default(),
            targets: Vec::new(),
            lent: Vec::new(),
            features: Vec::new(),
            difference: 0.0,
        }
    }

    /// n, which is the number of targets where there is no design.
    fn samples(&self) -> usize {
        if self.call.takes(Input::Design) {
            self.design.samples as usize
        } else {
            self.targets.len()
        }
    }

    fn length(&self, room: Room) -> usize {
        let features = self.design.features as usize;
        match room {
            Room::Samples => self.samples(),
            Room::Features => features,
            Room::TwiceFeatures => 2 * features,
        }
    }

    fn input_words(&self) -> Vec<Word> {
        let mut lent = self.lent.iter();
        let words = self.call.inputs().iter().map(|input| match input {
            Input::Design => self.design.words(),
            Input::Targets => counted(&self.targets),
            Input::Lent(_) => counted(lent.next().expect("a buffer for each room")),
            Input::Feature => vec![Word::Count(self.features[0])],
            Input::Set => counted_indices(&self.features),
            Input::Difference => vec![Word::Double(self.difference)],
        });
        words.collect::<Vec<_>>().concat()
    }

    pub fn read(code: u32, reader: &mut Reader) -> Result<DesignCase, String> {
        let call = Call::of(code).ok_or(format!("code {code:x} is not a design's"))?;
        let mut case = DesignCase::empty(call);
        for input in call.inputs() {
            match input {
                Input::Design => case.design = Design::read(reader)?,
                Input::Targets => case.targets = reader.counted()?,
                Input::Lent(_) => case.lent.push(reader.counted()?),
                Input::Feature => case.features = vec![reader.count()?],
                Input::Set => case.features = reader.counted_indices()?,
                Input::Difference => case.difference = reader.double()?,
            }
        }
        Ok(case)
    }
}
