//! Writes the list that the replay program reads: made and damaged files, most of
//! them short, so that it can be stored.

use super::families::{DAMAGES, FILES};
use super::layout::LONGEST;
use super::list::{comments, digits, drawn, made, Family, Made};
use crate::random::Random;
use crate::record::unwritable;
use std::collections::BTreeMap;
use std::io::{self, Write};

/// Longer files are long, and of each family only a few are kept.
const SHORT: usize = 4_096;
const FEW: usize = 3;

/// One file of so many is a damaged one.
const DAMAGED: usize = 6;

const HOW: [&str; 5] = [
    "A case is a line with its family, the file's length and the text's length (8 hex",
    "digits each); a line with the file's bytes in hex; then the text that must be",
    "printed for it, as it is. One case of 6 is a damaged file. Of each family up to 3",
    "files are longer than 4,096 bytes. One that is longer than 49,153 bytes is cut",
    "there, since the program reads no more. The answers are those of loops.",
];

/// So many files, of which few are long.
fn kept(families: &[Family], count: usize, given_up: &mut usize, random: &mut Random) -> Vec<Made> {
    let mut long = BTreeMap::new();
    let mut kept = Vec::new();
    while kept.len() < count {
        let mut made = made(drawn(families, kept.len(), random), given_up, random);
        if made.file.len() > SHORT {
            let seen = long.entry(made.family).or_insert(0);
            *seen += 1;
            if *seen > FEW {
                continue;
            }
        }
        made.file.truncate(LONGEST + 1);
        kept.push(made);
    }
    kept
}

impl Made {
    fn head(&self) -> String {
        let head = format!(
            "{:24} {:08x} {:08x}\n",
            self.family,
            self.file.len(),
            self.loops.len()
        );
        assert_eq!(head.len(), 43, "the family's name is too long");
        head
    }
}

/// The same seed and count always give the same list.
pub fn list(seed: u64, count: u64) -> Result<(), String> {
    let mut random = Random::new(seed);
    let mut given_up = 0;
    let damaged = count as usize / DAMAGED;
    let mut cases = kept(&FILES, count as usize - damaged, &mut given_up, &mut random);
    cases.extend(kept(&DAMAGES, damaged, &mut given_up, &mut random));

    let mut out = io::BufWriter::new(io::stdout().lock());
    let command = format!("list tiles {seed} {count}");
    for line in comments(&command, &HOW, &cases, given_up) {
        writeln!(out, "# {line}").map_err(unwritable)?;
    }
    for case in &cases {
        let (head, hex, text) = (case.head(), digits(&case.file), &case.loops);
        write!(out, "{head}{hex}\n{text}").map_err(unwritable)?;
    }
    out.flush().map_err(unwritable)
}
