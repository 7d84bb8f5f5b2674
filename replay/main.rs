//! Replays stored answers of the oracle through the library's exports, bit for bit, and stored problem files through the program besides:
//!   replay leaves LIST             records of the penalties' calls
//!   replay runs LIST               records of preparations and solves, and of working sets
//!   replay walks LIST              records of walks, on which the sign law is run too
//!   replay tiles LIST COMMAND..    problem files with what the program must print, on which the sign law is run too
//! What differs is named, then everything is counted. The status is 1 where something promised differs, 2 where a list cannot be used.

#[path = "../large/calls.rs"]
mod calls;
#[path = "../large/cases.rs"]
#[allow(dead_code)] // The makers of the problems of full size.
mod cases;
mod fits;
mod leaves;
#[path = "../large/lent.rs"]
mod lent;
mod problems;
mod records;
mod runs;
mod signs;
mod tiles;
mod walks;

use std::process::exit;

/// So many cases that differ are named; the rest are only counted.
const NAMED: usize = 20;

fn fail(problem: &str) -> ! {
    eprintln!("replay: {problem}");
    exit(2)
}

fn stored(list: &str) -> Vec<u8> {
    std::fs::read(list).unwrap_or_else(|error| fail(&format!("cannot read {list}: {error}")))
}

fn main() {
    let words: Vec<String> = std::env::args().skip(1).collect();
    let passed = match words.iter().map(String::as_str).collect::<Vec<_>>().as_slice() {
        ["leaves", list] => leaves::replay(&stored(list)),
        ["runs", list] => runs::replay(&stored(list)),
        ["walks", list] => walks::replay(&stored(list)),
        ["tiles", list, command @ ..] if !command.is_empty() => tiles::replay(&stored(list), command),
        _ => fail("usage: replay leaves LIST, replay runs LIST, replay walks LIST, or replay tiles LIST COMMAND.."),
    };
    exit(if passed { 0 } else { 1 })
}
