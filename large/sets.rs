//! Builds the working sets of full size (set_cases.rs) through the library's export, and prints a line for each. All are quick.

use crate::calls::working_set;
use crate::lent::INDEX_GUARD;
use crate::longer;
use crate::set_cases::{cases, line, Case, Ending};

fn ask(case: &Case, indices: &mut [u32]) -> Ending {
    match working_set(&case.violations, &case.weights, case.start as usize, indices) {
        Ok(size) => Ending::Built { size: size as u64, indices: indices[..case.weights.len()].to_vec() },
        Err((number, place)) => Ending::Refused { number, place: place as u64 },
    }
}

/// A refusal changes no index place, and an answer none beyond the features.
fn left_as_promised(case: &Case, ending: &Ending, indices: &[u32]) -> bool {
    let written = match ending {
        Ending::Refused { .. } => 0,
        Ending::Built { .. } => case.weights.len(),
    };
    indices[written..].iter().all(|&j| j == INDEX_GUARD)
}

pub fn print_lines() {
    for (name, case) in cases() {
        let mut indices = vec![INDEX_GUARD; longer(case.lent, case.weights.len())];
        let ending = ask(&case, &mut indices);
        let kept = if left_as_promised(&case, &ending, &indices) { "" } else { " BUFFERS" };
        println!("{}{kept}", line(&name, &ending));
    }
}
