//! What is answered to the cases: a refusal, or what the Rust says.

use super::{Call, DesignCase};
use crate::calls::Designs;
use crate::record::{status, Answers, Case, Variant};
use crate::words::Word;
use crate::{loops, published};

/// The number that is answered, where the call answers one, and what is written
/// to the front of the last lent buffer, where it writes.
type Outcome = (f64, Vec<f64>);

impl DesignCase {
    /// The room of a lent buffer: what lies beyond it is of no account.
    fn room(&self, lent: usize) -> &[f64] {
        let room = self.call.rooms()[lent];
        &self.lent[lent][..self.length(room)]
    }

    /// X'y, the second half of the prepared numbers.
    fn prepared_products(&self) -> &[f64] {
        &self.room(0)[self.design.features as usize..]
    }

    /// X'y comes from initialize, which takes the same steps as the Rust's
    /// alpha_max: the matrix product in a dense design, a sum from +0.0 over the
    /// stored entries in a CSC design. The Rust's largest drops a NaN, document
    /// 01's keeps it.
    fn alpha_max<V: Designs>(&self) -> Outcome {
        let (_, products) = V::initialize(&self.design, &self.targets);
        let largest = V::alpha_max(&self.design, &self.targets);
        let not_a_number = products.iter().any(|x| x.is_nan());
        (if not_a_number { f64::NAN } else { largest }, products)
    }

    fn asked<V: Designs>(&self) -> Outcome {
        let number = |r| (r, Vec::new());
        let written = |numbers| (0.0, numbers);
        let (design, targets) = (&self.design, &self.targets);
        let feature = || self.features[0] as usize;
        match self.call {
            Call::Initialize => {
                let (constants, products) = V::initialize(design, targets);
                written([constants, products].concat())
            }
            Call::Gradient => {
                let products = self.prepared_products();
                number(V::gradient(design, products, self.room(1), feature()))
            }
            Call::FullGradient => {
                let products = self.prepared_products();
                written(V::full_gradient(design, products, self.room(1)))
            }
            Call::Value => number(V::value(targets, self.room(0))),
            Call::UpdateFit => {
                let fit = V::updated_fit(design, self.room(0), self.difference, feature());
                written(fit)
            }
            Call::ExtrapolatedFit => {
                written(V::extrapolated_fit(design, &self.features, self.room(0)))
            }
            Call::AlphaMax => self.alpha_max::<V>(),
            Call::Check => number(0.0),
        }
    }

    fn answers_of<V: Designs>(&self) -> Answers {
        let refusal = self.refusal();
        let (number, place) = refusal.unwrap_or((0, 0));
        let (r, written) = match refusal {
            None => self.asked::<V>(),
            Some(_) => (0.0, Vec::new()),
        };

        let mut answers = status(number, place);
        if self.call.answers_number() {
            answers.push(("r", Word::Double(r)));
        }
        if let Some(lent) = self.lent.last().filter(|_| self.call.writes()) {
            let afterwards = written.iter().chain(&lent[written.len()..]);
            answers.extend(afterwards.map(|&x| ("lent", Word::Double(x))));
        }
        answers
    }
}

impl Case for DesignCase {
    fn code(&self) -> u32 {
        self.call as u32
    }

    fn inputs(&self) -> Vec<Word> {
        self.input_words()
    }

    fn answers(&self, variant: Variant) -> Answers {
        match variant {
            Variant::Loops => self.answers_of::<loops::Rust>(),
            Variant::Published => self.answers_of::<published::Rust>(),
        }
    }
}
