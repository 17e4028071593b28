//! compare [--full] [--seed N] [--spoil]
//!
//! Feeds the same inputs to the proved calls (through bindings/rust), to a plain reading of the rules (docs/RULES.md), and to the Rust that they are ported from:
//! every list of a small world, random lists around each boundary and over several kinds, damaged copies of good files. Prints how many of each; exits with 1 where
//! any answer differs. `--spoil` changes one expectation for each kind of answer and asks once for another kind, and exits with 1 unless just these differences are
//! seen.
//!
//! The Rust is looked for in the folder that ORACLE names, or else beside the repository, in ../shared/oracle.
mod board;
mod days;
mod file;
mod files;
mod hours;
mod lists;
mod random;
mod reports;
mod rust;
mod tally;
mod tree;
mod worlds;

use lists::Case;
use random::Random;
use rust::Rust;
use std::path::{Path, PathBuf};
use std::process::ExitCode;
use tally::Tally;
use worlds::{World, TABLES};

/// How much is compared.
struct Extent {
    worlds: &'static [World],
    /// Lists of each size, for each table and each of one less, as many, one more.
    tight: u64,
    random: u64,
    /// Lists over several kinds.
    kinds: u64,
    /// Lists with calendars and lists of days.
    hours: u64,
    /// Boards with reports on windows.
    reports: u64,
    /// Copies of good files, most of them damaged.
    files: usize,
}

const SHORT: Extent = Extent { worlds: &[World { end: 2, cells: 3, letters: 2, most: 2 }], tight: 1, random: 3_000, kinds: 2_000, hours: 300, reports: 300, files: 4_000 };

const FULL: Extent = Extent {
    worlds: &[World { end: 3, cells: 3, letters: 2, most: 3 }, World { end: 4, cells: 4, letters: 2, most: 2 }],
    tight: 30,
    random: 120_000,
    kinds: 100_000,
    hours: 10_000,
    reports: 10_000,
    files: 100_000,
};

/// Sizes of the lists around each boundary.
const SIZES: std::ops::RangeInclusive<u64> = 0..=40;

/// Lists or files that go to the Rust at once.
const BATCH: usize = 500;

/// Good files that are copied: not more, and none longer.
const GOOD: usize = 5_000;
const LONGEST: usize = 4_096;

fn oracle() -> Option<Rust> {
    let here = Path::new(env!("CARGO_MANIFEST_DIR"));
    let folder = std::env::var("ORACLE").map(PathBuf::from).unwrap_or_else(|_| here.join("../../shared/oracle"));
    if !folder.join("rust/Cargo.toml").exists() {
        println!("The Rust is not at {}: the comparison is with the document alone. `rt run <stdin` in crates/replay replays the stored list of answers.", folder.display());
        return None;
    }
    println!("The Rust: {}/rust, the published source over its stand-ins.", folder.display());
    match Rust::build(&folder, &here.join("target/oracle")) {
        Ok(rust) => Some(rust),
        Err(why) => {
            println!("{why}");
            std::process::exit(2);
        }
    }
}

fn random_cases(extent: &Extent, seed: u64) -> Vec<Case> {
    let mut random = Random::new(seed);
    let mut cases = vec![];
    for size in SIZES {
        for table in TABLES {
            for less in [-1, 0, 1] {
                cases.extend((0..extent.tight).map(|_| worlds::tight_case(&mut random, size, table, less)));
            }
        }
    }
    for _ in 0..extent.random {
        let most = if random.once_in(20) { 200 } else { 40 };
        let size = random.below(most);
        cases.push(worlds::random_case(&mut random, size));
    }
    cases
}

fn kinds_cases(extent: &Extent, seed: u64) -> Vec<Case> {
    let mut random = Random::new(seed);
    let mut size = move || if random.once_in(20) { (random.below(200), random.next()) } else { (random.below(40), random.next()) };
    (0..extent.kinds).map(|_| size()).map(|(size, seed)| worlds::kinds_case(&mut Random::new(seed), size)).collect()
}

fn main() -> ExitCode {
    let arguments: Vec<String> = std::env::args().skip(1).collect();
    let has = |name: &str| arguments.iter().any(|a| a == name);
    let seed = arguments.iter().position(|a| a == "--seed").map_or(1, |k| arguments[k + 1].parse().expect("a seed"));
    let extent = if has("--full") { FULL } else { SHORT };
    let mut rust = oracle();
    let mut tally = Tally::default();
    let expected = if has("--spoil") { tally.spoil() } else { 0 };

    for world in extent.worlds {
        let cases: Vec<Case> = world.lists().into_iter().map(|ops| world.case(ops)).collect();
        println!("Every list with E = {}, {} cells, {} bytes, up to {} operations: {} lists", world.end, world.cells, world.letters, world.most, cases.len());
        for batch in cases.chunks(BATCH) {
            lists::compare(batch, &mut rust, &mut tally);
        }
    }
    let cases = random_cases(&extent, seed);
    println!("Random lists, seed {seed}: {} lists", cases.len());
    let mut good = vec![];
    for batch in cases.chunks(BATCH) {
        let files = lists::compare(batch, &mut rust, &mut tally);
        let room = GOOD - good.len();
        good.extend(files.into_iter().filter(|f| !f.is_empty() && f.len() <= LONGEST).take(room));
    }
    let cases = kinds_cases(&extent, seed ^ 0x5EC);
    println!("Random lists over several kinds: {} lists", cases.len());
    for batch in cases.chunks(BATCH) {
        lists::compare(batch, &mut rust, &mut tally);
    }
    println!("Lists with calendars and days: {} lists", extent.hours);
    hours::compare(&mut Random::new(seed ^ 0x40EA5), extent.hours, &mut tally);
    println!("Boards with reports on windows: {} boards", extent.reports);
    reports::compare(&mut Random::new(seed ^ 0x5E9), extent.reports, &mut tally);
    let mut random = Random::new(seed ^ 0xF11E);
    println!("Copies of {} good files, as they are or damaged: {} files", good.len(), extent.files);
    for start in (0..extent.files).step_by(BATCH) {
        let batch: Vec<files::Case> = (start..extent.files.min(start + BATCH)).map(|k| files::damaged(&mut random, &good[k % good.len()])).collect();
        files::compare(&batch, &mut random, &mut rust, &mut tally);
    }
    if let Some(rust) = &rust {
        println!("The Rust died {} times on a file, and was started anew.", rust.deaths);
    }
    tally.print();
    if tally.differences == expected {
        ExitCode::SUCCESS
    } else {
        ExitCode::FAILURE
    }
}
