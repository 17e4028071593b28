//! What was measured, as tables: a board in each column.
use crate::board::Board;
use crate::clock::Span;
use crate::times::{self, Times};

pub fn ratio(value: f64) -> String {
    if value < 100.0 { format!("{value:.2}") } else { format!("{value:.0}") }
}

pub fn time(ns: f64) -> String {
    match ns {
        ns if ns < 1e4 => format!("{ns:.0} ns"),
        ns if ns < 1e7 => format!("{:.1} µs", ns / 1e3),
        ns => format!("{:.1} ms", ns / 1e6),
    }
}

pub fn row(name: &str, boards: &[Board], shown: impl Fn(&Board) -> String) {
    println!("| {name} | {} |", boards.iter().map(shown).collect::<Vec<_>>().join(" | "));
}

/// How a board is called.
pub fn named(b: &Board) -> String {
    format!("{} pieces, {} ops, {} blocks", b.pieces, b.ops, b.blocks)
}

pub fn head(first: &str, boards: &[Board]) {
    row(first, boards, named);
    println!("|---|{}", "---|".repeat(boards.len()));
}

fn or_none(value: Option<f64>, shown: fn(f64) -> String) -> String {
    value.map_or("-".into(), shown)
}

/// Public by Rust, and in brackets the call after one test by Rust.
fn ratios(times: &Times, of: fn(Span) -> f64) -> String {
    let rust = times.rust.map(of);
    let by_rust = |span: Option<Span>| span.map(of).zip(rust).map(|(port, rust)| port / rust);
    let tested = times.tested.map(|_| format!(" ({})", or_none(by_rust(times.tested), ratio)));
    or_none(by_rust(times.public), ratio) + &tested.unwrap_or_default()
}

/// Public, after one test and Rust; of what goes over all blocks also the nanoseconds for one.
fn all_times(times: &Times, blocks: u64, of: fn(Span) -> f64) -> String {
    let sides = if times.rust.is_some() { vec![times.public, times.tested, times.rust] } else { vec![times.public] };
    let shown = |each: &dyn Fn(f64) -> String| sides.iter().map(|span| span.map(of).map_or("-".into(), each)).collect::<Vec<_>>().join(", ");
    let a_block = |ns: f64| format!("{:.0}", ns / blocks as f64);
    let for_one = if times.all_blocks { format!("; {} ns a block", shown(&a_block)) } else { String::new() };
    shown(&time) + &for_one
}

/// Ratios and times of some boards, by the least or by the middle of their runs.
fn print_by(boards: &[Board], runs: &str, of: fn(Span) -> f64) {
    println!("\nTime of the port by time of the Rust, {runs}; below 1 is faster. In brackets: the call after one test.\n");
    head("call", boards);
    for (k, times) in boards[0].times.iter().enumerate().filter(|(_, times)| times.rust.is_some()) {
        row(times.call, boards, |b| ratios(&b.times[k], of));
    }
    println!("\nTime of one call, {runs}: public, after one test, Rust.\n");
    head("call", boards);
    for (k, times) in boards[0].times.iter().enumerate() {
        row(times.call, boards, |b| all_times(&b.times[k], b.blocks, of));
    }
}

pub fn print(boards: &[Board]) {
    print_by(boards, "least of the runs", |span| span.least);
    print_by(boards, "middle of the runs", |span| span.middle);
}

/// Bytes a block.
pub fn print_memory(boards: &[Board]) {
    let a_block = |bytes: u64, b: &Board| format!("{:.1}", bytes as f64 / b.blocks as f64);
    println!("\nMemory, bytes a block: what is lent, and what the Rust holds after finish.\n");
    head("table", boards);
    for (k, (table, _)) in boards[0].lent.iter().enumerate() {
        row(table, boards, |b| a_block(b.lent[k].1, b));
    }
    row("all", boards, |b| a_block(b.lent.iter().map(|(_, bytes)| bytes).sum(), b));
    row("the Rust", boards, |b| a_block(b.held, b));
}

/// Boards of moves and files in another order beside the plain boards.
pub fn print_beside(boards: &[Board], moves: &[Board]) {
    println!("\nTime a block by that of the plain board or of the file as written, least of the runs. In brackets: the same of the Rust.\n");
    head("call", boards);
    let pairs = || boards.iter().zip(moves);
    for call in [times::FINISH, times::WHOLE, times::TEST_CLOSED, times::LOAD] {
        let cells: Vec<String> = pairs().map(|(plain, moved)| beside((plain, call), (moved, call))).collect();
        println!("| half the edits are moves: {call} | {} |", cells.join(" | "));
    }
    for (call, other) in [(times::LOAD, times::OTHER_LOAD), (times::LOADED_TEST, times::OTHER_TEST)] {
        row(other, boards, |b| beside((b, call), (b, other)));
    }
}

fn beside(plain: (&Board, &str), other: (&Board, &str)) -> String {
    let a_block = |(board, call): (&Board, &str), side: fn(&Times) -> Option<Span>| {
        board.time(call).and_then(side).map(|span| span.least / board.blocks as f64)
    };
    let by = |side| a_block(other, side).zip(a_block(plain, side)).map(|(other, plain)| other / plain);
    let rust = by(|times| times.rust).map(|rust| format!(" ({})", ratio(rust)));
    or_none(by(|times| Some(times.plain())), ratio) + &rust.unwrap_or_default()
}
