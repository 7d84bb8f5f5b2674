//! Walks over a list of alphas, which stop at the first usable one (request 7). This
//! file holds their case as records have it; `rules` holds the document's refusals,
//! `answers` what a walk comes to, and the others how a list of walks is made.

mod answers;
mod cases;
mod corners;
mod faults;
mod list;
mod made;
mod rules;
mod seen;
mod told;

pub use list::WALKS;
pub use seen::check;

use super::{Given, NO_ANSWER};
use crate::words::{counted, Reader, Word};

/// A preparation and then, for one alpha after the other, a solve. It is given what
/// these two are given; the alpha that stands among the settings is not looked at.
#[derive(Clone, Debug)]
pub struct WalkCase {
    pub given: Given,
    pub alphas: Vec<f64>,
    /// So many nonzero weights a usable fit has at most.
    pub most: u64,
}

impl WalkCase {
    pub const CODE: u32 = 0x23;

    fn words(&self) -> Vec<Word> {
        let most = vec![Word::Long(self.most)];
        [self.given.words(), counted(&self.alphas), most].concat()
    }

    pub fn read(reader: &mut Reader) -> Result<WalkCase, String> {
        let case = WalkCase {
            given: Given::read(reader)?,
            alphas: reader.counted()?,
            most: reader.long()?,
        };
        let comparable = case.comparable().then_some(());
        comparable.map(|()| case).ok_or(NO_ANSWER.into())
    }
}
