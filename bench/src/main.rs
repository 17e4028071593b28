//! bench [--before FILE] [OPERATIONS..]
//!
//! OPERATIONS are 1,000, 10,000, 100,000, 250,000 and 1,000,000 where none are given. FILE has what an earlier run printed, with another library on the same machine:
//! the times of boards of one kind are then told by those too.
//!
//! Times of the proved calls beside those of the Rust that they are ported from: same machine, same inputs, one run. A ratio is the time of the proved
//! call by the time of the Rust; below 1 is faster. Both sides must give the same blocks, hits, cells and files, or the run ends.
extern crate oracle;

mod before;
mod board;
mod clock;
mod file;
mod files;
mod growth;
mod hours;
mod kinds;
mod memory;
mod play;
mod port;
mod ported;
mod random;
mod reads;
mod reports;
mod stays;
mod stream;
mod table;
mod times;

use before::Before;
use board::Board;

/// About how many pieces a board has; with many operations those in the middle are left out.
fn sizes(count: u64) -> &'static [u64] {
    if count < 250_000 { &[64, 512, 4_096] } else { &[64, 4_096] }
}

/// The boards of so many operations: plain ones, and those of moves.
fn boards(count: u64) -> (Vec<Board>, Vec<Board>) {
    sizes(count).iter().map(|&size| board::both(size, count).into()).unzip()
}

fn main() {
    let mut arguments: Vec<String> = std::env::args().skip(1).collect();
    let before = arguments.iter().position(|argument| argument == "--before").map(|place| {
        let name = arguments.drain(place..place + 2).nth(1).expect("a file");
        Before::read(&std::fs::read_to_string(&name).expect("what an earlier run printed"))
    });
    let given: Vec<u64> = arguments.iter().map(|a| a.parse().expect("a number of operations")).collect();
    let counts = if given.is_empty() { vec![1_000, 10_000, 100_000, 250_000, 1_000_000] } else { given };
    hours::print();
    println!("\n## Reports");
    reports::print_sparse();
    let (mut all, mut all_moves) = (vec![], vec![]);
    for &count in &counts {
        println!("\n## {count} operations");
        let (plain, moves) = boards(count);
        table::print(&plain);
        table::print_memory(&plain);
        before.iter().for_each(|before| before.print(&plain));
        println!("\n### {count} operations, half the edits are moves");
        table::print(&moves);
        table::print_beside(&plain, &moves);
        before.iter().for_each(|before| before.print(&moves));
        println!("\n### {count} operations, five kinds");
        sizes(count).iter().for_each(|&size| kinds::print(size, count));
        println!("\n### {count} operations, reports");
        sizes(count).iter().for_each(|&size| reports::print(size, count));
        all.extend(plain);
        all_moves.extend(moves);
    }
    if counts.len() > 1 {
        println!("\n## Growth");
        growth::print("", &all, sizes(0));
        growth::print(", half the edits are moves", &all_moves, sizes(0));
    }
}
