//! Problem files with the text that the program must print for each; oracle/README.md has the list's form.

use crate::problems::{as_program, listing, read};
use crate::signs::Tallies;
use crate::{fail, NAMED};
use std::io::Write;
use std::process::{Command, Stdio};
use std::thread;

struct Tile {
    family: String,
    file: Vec<u8>,
    text: Vec<u8>,
}

impl Tile {
    /// A file that breaks no rule of the layout, whatever becomes of it then.
    fn is_problem(&self) -> bool {
        !self.text.starts_with(b"refused 9 ")
    }
}

fn bytes_of(hex: &[u8]) -> Option<Vec<u8>> {
    let digit = |byte: u8| char::from(byte).to_digit(16);
    let pairs = hex.chunks(2).map(|pair| Some((digit(pair[0])? * 16 + digit(*pair.get(1)?)?) as u8));
    pairs.collect()
}

fn length(word: &[u8]) -> Option<usize> {
    usize::from_str_radix(std::str::from_utf8(word).ok()?, 16).ok()
}

/// The first case of a list, whose head has 43 bytes, and what follows it.
fn first_tile(list: &[u8]) -> Option<(Tile, &[u8])> {
    let (head, rest) = list.split_at_checked(43)?;
    if [head[24], head[33], head[42]] != *b"  \n" {
        return None;
    }
    let (hex, rest) = rest.split_at_checked(2 * length(&head[25..33])?)?;
    let rest = rest.strip_prefix(b"\n")?;
    let (text, rest) = rest.split_at_checked(length(&head[34..42])?)?;
    let family = String::from_utf8_lossy(&head[..24]).trim_end().to_string();
    Some((Tile { family, file: bytes_of(hex)?, text: text.to_vec() }, rest))
}

fn tiles_of(mut list: &[u8]) -> Option<Vec<Tile>> {
    let mut tiles = vec![];
    while !list.is_empty() {
        if list[0] == b'#' {
            let end = list.iter().position(|&byte| byte == b'\n')?;
            list = &list[end + 1..];
            continue;
        }
        let (tile, rest) = first_tile(list)?;
        tiles.push(tile);
        list = rest;
    }
    Some(tiles)
}

/// Whether the program prints the text for the file, nothing more and nothing on standard error.
fn is_printed(tile: &Tile, command: &[&str]) -> bool {
    let mut program = Command::new(command[0]);
    program.args(&command[1..]).stdin(Stdio::piped()).stdout(Stdio::piped()).stderr(Stdio::piped());
    let mut child = program.spawn().unwrap_or_else(|error| fail(&format!("cannot run {}: {error}", command[0])));
    // The program reads all before it prints, so that neither waits for the other.
    let given = child.stdin.take().is_some_and(|mut stdin| stdin.write_all(&tile.file).is_ok());
    let ended = child.wait_with_output();
    given && ended.is_ok_and(|ended| ended.status.success() && ended.stderr.is_empty() && ended.stdout == tile.text)
}

/// For each tile whether it is printed, as many programs running at a time as there are processors.
fn printed(tiles: &[Tile], command: &[&str]) -> Vec<bool> {
    let workers = thread::available_parallelism().map_or(1, usize::from);
    let mut found = vec![false; tiles.len()];
    thread::scope(|scope| {
        let turns = |worker| (worker..tiles.len()).step_by(workers);
        let work = move |worker| turns(worker).map(|at| (at, is_printed(&tiles[at], command))).collect::<Vec<_>>();
        let running: Vec<_> = (0..workers).map(|worker| scope.spawn(move || work(worker))).collect();
        for (at, same) in running.into_iter().flat_map(|worker| worker.join().unwrap_or_default()) {
            found[at] = same;
        }
    });
    found
}

/// Names the tiles that are wrong, and says how many they are.
fn named(tiles: &[Tile], wrong: impl Fn(usize) -> bool, what: &str) -> usize {
    let wrong: Vec<_> = (0..tiles.len()).filter(|&at| wrong(at)).collect();
    for &at in wrong.iter().take(NAMED) {
        println!("case {} {what}: {}", at + 1, tiles[at].family);
    }
    wrong.len()
}

/// Whether there is a tile, each is printed as its text says, each problem is answered so by the exports, and the sign law holds.
pub fn replay(list: &[u8], command: &[&str]) -> bool {
    let tiles = tiles_of(list).unwrap_or_else(|| fail("the list is broken off, or is none"));
    let same = printed(&tiles, command);
    let not_printed = named(&tiles, |at| !same[at], "differs");
    println!("{} cases, {not_printed} differ", tiles.len());

    let mut tallies = Tallies::default();
    let (mut problems, mut answered) = (0, vec![true; tiles.len()]);
    for (at, tile) in tiles.iter().enumerate().filter(|(_, tile)| tile.is_problem()) {
        problems += 1;
        let case = read(&tile.file);
        answered[at] = case.as_ref().and_then(as_program).is_some_and(|found| listing(&found).as_bytes() == tile.text);
        case.into_iter().for_each(|case| tallies.turn(case, at as u64));
    }
    let not_answered = named(&tiles, |at| !answered[at], "differs through the exports");
    println!("through the exports: {problems} problems, {not_answered} differ");
    tallies.print();
    not_printed + not_answered == 0 && tallies.hold() && !tiles.is_empty()
}
