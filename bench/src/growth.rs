//! How a block's time grows with the operations: boards of one size, by the number of their operations.
use crate::board::Board;
use crate::clock::Span;
use crate::table::ratio;
use crate::times::{self, Times};

const ROWS: [(&str, Side); 7] = [
    (times::FINISH, Side::Port),
    (times::FINISH, Side::Rust),
    (times::WHOLE, Side::Port),
    (times::WHOLE, Side::Rust),
    (times::TEST_CLOSED, Side::Port),
    (times::LOAD, Side::Port),
    (times::LOAD, Side::Rust),
];

#[derive(Clone, Copy, PartialEq)]
enum Side {
    Port,
    Rust,
}

fn time(board: &Board, call: &str, side: Side) -> f64 {
    let of = |times: &Times| if side == Side::Port { Some(times.plain()) } else { times.rust };
    board.time(call).and_then(of).map_or(f64::NAN, |span: Span| span.least)
}

/// Nanoseconds a block; these by those of the board before; and how many times as long twice as many blocks take, as it was since then.
fn cell(board: &Board, before: Option<&Board>, call: &str, side: Side) -> String {
    let a_block = |board: &Board| time(board, call, side) / board.blocks as f64;
    let now = a_block(board);
    let Some(before) = before else { return format!("{now:.0} ns") };
    let by_before = now / a_block(before);
    let doublings = (board.blocks as f64 / before.blocks as f64).log2();
    // Over a shorter way the noise of the two counts more than the growth.
    let twice = if doublings < 0.8 { "-".into() } else { ratio(2.0 * by_before.powf(1.0 / doublings)) };
    format!("{now:.0} ns, {}, {twice}", ratio(by_before))
}

/// Boards of one size, ascending by their operations.
fn print_size(name: &str, boards: &[&Board]) {
    let columns: Vec<String> = boards.iter().map(|b| format!("{} ops, {} blocks", b.ops, b.blocks)).collect();
    println!("| about {} pieces{name} | {} |", boards[0].size, columns.join(" | "));
    println!("|---|{}", "---|".repeat(boards.len()));
    for (call, side) in ROWS {
        let cells = boards.iter().enumerate().map(|(k, board)| cell(board, k.checked_sub(1).map(|k| boards[k]), call, side));
        let of_rust = if side == Side::Rust { ", the Rust" } else { "" };
        println!("| {call}{of_rust} | {} |", cells.collect::<Vec<_>>().join(" | "));
    }
    println!();
}

/// All sizes of which there are at least two boards.
pub fn print(name: &str, boards: &[Board], sizes: &[u64]) {
    println!("\nNanoseconds a block, least of the runs, by the calls after one test; by those of the board before; how many times as long twice as many blocks take.\n");
    for &size in sizes {
        let mut of_size: Vec<&Board> = boards.iter().filter(|board| board.size == size).collect();
        of_size.sort_by_key(|board| board.ops);
        if of_size.len() > 1 {
            print_size(name, &of_size);
        }
    }
}
