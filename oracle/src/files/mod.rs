//! Problem files: what the program must print for one, and made ones. `layout`
//! holds the rules of a file, `listing` what is printed; the rest makes files.

mod contents;
mod damage;
mod families;
mod faults;
mod fields;
mod large;
mod layout;
mod list;
mod listing;
mod replay;
mod sound;

pub use families::{DAMAGES, FILES};
pub use fields::{bytes, fields};
pub use list::{write, Family};
pub use listing::printed;
pub use replay::list;

use crate::record::{unwritable, Variant};
use crate::runs::FitCase;
use std::io::{self, Read, Write};

fn standard_input() -> Result<Vec<u8>, String> {
    let mut file = Vec::new();
    let read = io::stdin().read_to_end(&mut file);
    read.map_err(|error| format!("cannot read the file: {error}"))?;
    Ok(file)
}

/// The problem on standard input.
pub fn problem() -> Result<FitCase, String> {
    let read = layout::read(&standard_input()?);
    read.map_err(|place| format!("no problem file: refused 9 at {place}"))
}

/// Answers the file on standard input, however long its run is.
pub fn tile(variant: Variant) -> Result<(), String> {
    let file = standard_input()?;
    let text = printed(&file, variant, u64::MAX).expect("the work is not limited");
    io::stdout().write_all(text.as_bytes()).map_err(unwritable)
}
