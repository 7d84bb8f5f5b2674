//! Writes a list of made files with what the program must print for each.

use super::listing::{kind, printed, PANICKED};
use crate::departures;
use crate::random::Random;
use crate::record::{unwritable, Variant};
use std::collections::BTreeMap;
use std::io::{self, Write};

/// A run that costs more is given up, and another file drawn: a gradient costs
/// as much as there are samples, so this is about a thousand epochs of the
/// largest design.
const WORK: u64 = 4_000_000;

#[derive(Clone, Copy)]
pub struct Family {
    pub name: &'static str,
    /// How often it comes, measured by the others' shares.
    pub share: usize,
    pub make: fn(&mut Random) -> Vec<u8>,
}

pub struct Made {
    pub family: &'static str,
    pub file: Vec<u8>,
    pub loops: String,
    /// Where it is another.
    published: Option<String>,
}

/// Two for each byte.
pub fn digits(bytes: &[u8]) -> String {
    bytes.iter().map(|byte| format!("{byte:02x}")).collect()
}

fn hex(bytes: &[u8]) -> String {
    if bytes.is_empty() {
        return "-".into();
    }
    digits(bytes)
}

impl Made {
    fn line(&self) -> String {
        let mut words = vec![
            self.family.to_string(),
            hex(&self.file),
            hex(self.loops.as_bytes()),
        ];
        words.extend(self.published.iter().map(|text| hex(text.as_bytes())));
        words.join(" ")
    }
}

/// Every family comes once, then as its share has it.
pub fn drawn<'a>(families: &'a [Family], index: usize, random: &mut Random) -> &'a Family {
    if let Some(family) = families.get(index) {
        return family;
    }
    let shares: usize = families.iter().map(|family| family.share).sum();
    let mut left = random.below(shares);
    let mut found = families.iter();
    loop {
        let family = found.next().expect("some share covers it");
        if left < family.share {
            return family;
        }
        left -= family.share;
    }
}

/// Also counts the files that were given up.
pub fn made(family: &Family, given_up: &mut usize, random: &mut Random) -> Made {
    loop {
        let file = (family.make)(random);
        let loops = printed(&file, Variant::Loops, WORK);
        let published = printed(&file, Variant::Published, WORK);
        if let (Some(loops), Some(published)) = (loops, published) {
            return Made {
                family: family.name,
                file,
                published: Some(published).filter(|published| *published != loops),
                loops,
            };
        }
        *given_up += 1;
    }
}

fn outcomes(made: &[Made]) -> String {
    let mut counts = BTreeMap::new();
    for made in made {
        *counts.entry(kind(&made.loops)).or_insert(0) += 1;
    }
    let counts = counts.into_iter();
    let counts: Vec<String> = counts
        .map(|(kind, count)| format!("{kind}: {count}"))
        .collect();
    counts.join(", ")
}

/// What a list says of itself: how it was made, and how often each outcome comes.
pub fn comments(command: &str, how: &[&str], made: &[Made], given_up: usize) -> Vec<String> {
    let published = || made.iter().filter_map(|made| made.published.as_deref());
    let panics = published().filter(|text| *text == PANICKED).count();
    let otherwise = published().count() - panics;
    let mut lines = vec![format!("made by: oracle {}{command}", departures::words())];
    lines.extend(how.iter().map(|line| line.to_string()));
    lines.extend([
        outcomes(made),
        format!("redrawn because the run was too long: {given_up}"),
        format!("published prints otherwise for {otherwise} files"),
    ]);
    if panics > 0 {
        lines.push(format!("the published text panics for {panics} files"));
    }
    lines
}

const HOW: [&str; 1] =
    ["FAMILY FILE PRINTED, and PUBLISHED where that prints otherwise; bytes in hex, - for none"];

/// The list of a command; the same seed and count always give the same.
/// The families with these names; all of them where none is named.
fn named(families: &[Family], names: &[&str]) -> Result<Vec<Family>, String> {
    let known = |name: &&&str| families.iter().any(|family| family.name == **name);
    if let Some(name) = names.iter().find(|name| !known(name)) {
        return Err(format!("there is no family {name:?}"));
    }
    let wanted = |family: &&Family| names.is_empty() || names.contains(&family.name);
    Ok(families.iter().filter(wanted).copied().collect())
}

pub fn write(
    command: &str,
    families: &[Family],
    seed: u64,
    count: u64,
    names: &[&str],
) -> Result<(), String> {
    let families = &named(families, names)?;
    let mut random = Random::new(seed);
    let mut given_up = 0;
    let made: Vec<Made> = (0..count as usize)
        .map(|index| {
            let family = drawn(families, index, &mut random);
            made(family, &mut given_up, &mut random)
        })
        .collect();

    let mut out = io::BufWriter::new(io::stdout().lock());
    let command = format!("{command} {seed} {count} {}", names.join(" "));
    for line in comments(command.trim_end(), &HOW, &made, given_up) {
        writeln!(out, "# {line}").map_err(unwritable)?;
    }
    for made in &made {
        writeln!(out, "{}", made.line()).map_err(unwritable)?;
    }
    out.flush().map_err(unwritable)
}
