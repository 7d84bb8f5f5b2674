//! The test oracle: answers cases with the published Rust. See README.md.

// The files under calls/ are compiled once for each variant, by intention.
#![allow(clippy::duplicate_mod)]

mod ask;
mod calls;
mod check;
mod departures;
mod designs;
mod files;
mod float;
mod large;
mod leaves;
mod list;
mod loops;
mod old;
mod published;
mod random;
mod record;
mod runs;
mod words;

use record::Variant;
use std::process::ExitCode;

const USAGE: &str = "usage: oracle [--without REQUEST].. COMMAND, where a command is ask WORD.. | answer | \
    list leaves|designs|runs|pairs|handed|extrapolated|walks|tiles SEED COUNT | \
    tile [published] | old | files SEED COUNT [FAMILY..] | damage SEED COUNT [FAMILY..] | large [quick] | check";

fn decimal(word: &str) -> Result<u64, String> {
    let number = word.parse::<u64>();
    number.map_err(|_| format!("{word:?} is not a decimal number"))
}

fn list(words: &[&str]) -> Result<(), String> {
    match words {
        ["leaves", seed, count] => leaves::LIST.write(decimal(seed)?, decimal(count)?),
        ["designs", seed, count] => designs::LIST.write(decimal(seed)?, decimal(count)?),
        ["runs", seed, count] => runs::LIST.write(decimal(seed)?, decimal(count)?),
        ["pairs", seed, count] => runs::PAIRS.write(decimal(seed)?, decimal(count)?),
        ["handed", seed, count] => runs::HANDED.write(decimal(seed)?, decimal(count)?),
        ["extrapolated", seed, count] => {
            runs::EXTRAPOLATED.write(decimal(seed)?, decimal(count)?)
        }
        ["walks", seed, count] => runs::WALKS.write(decimal(seed)?, decimal(count)?),
        ["tiles", seed, count] => files::list(decimal(seed)?, decimal(count)?),
        _ => Err(USAGE.into()),
    }
}

/// The words behind those that turn departures off, which take effect.
fn command(arguments: &[String]) -> Result<&[String], String> {
    let (mut off, mut rest) = (Vec::new(), arguments);
    while let [word, request, behind @ ..] = rest {
        if word != "--without" {
            break;
        }
        let request = decimal(request)?;
        off.push(u32::try_from(request).map_err(|_| format!("there is no request {request}"))?);
        rest = behind;
    }
    departures::turn_off(off)?;
    Ok(rest)
}

fn run(arguments: &[String]) -> Result<(), String> {
    let arguments = command(arguments)?;
    let words: Vec<&str> = arguments.iter().map(String::as_str).collect();
    match words[..] {
        ["ask", _, ..] => ask::ask(&arguments[1..]),
        ["answer"] => record::answer_all(),
        ["list", ref rest @ ..] => list(rest),
        ["tile"] => files::tile(Variant::Loops),
        ["old"] => old::tile(),
        ["tile", "published"] => files::tile(Variant::Published),
        [command @ ("files" | "damage"), seed, count, ref names @ ..] => {
            let families: &[files::Family] = match command {
                "files" => &files::FILES,
                _ => &files::DAMAGES,
            };
            files::write(command, families, decimal(seed)?, decimal(count)?, names)
        }
        ["large"] => large::write(false),
        ["large", "quick"] => large::write(true),
        ["check"] => check::check(),
        _ => Err(USAGE.into()),
    }
}

fn main() -> ExitCode {
    // Words that are not Unicode become words that nothing here knows.
    let arguments: Vec<String> = std::env::args_os()
        .skip(1)
        .map(|word| word.to_string_lossy().into_owned())
        .collect();
    match run(&arguments) {
        Ok(()) => ExitCode::SUCCESS,
        Err(problem) => {
            eprintln!("oracle: {problem}");
            ExitCode::from(2)
        }
    }
}
