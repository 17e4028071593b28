//! The viewer: the board as it stood at some ticks, a line for each platform and a column for each minute.
//!
//!     cargo run --example viewer
use servercape::{Cell, Days, GrowingIndex, Index, Kind, Refusal};
use std::ops::Range;

/// A letter for each train; `.` where nothing is known, `-` where the platform is said to be free.
fn letter(cell: Option<u8>) -> char {
    match cell {
        None => '.',
        Some(0) => '-',
        Some(train) => char::from(b'A' + (train - 1) % 26),
    }
}

fn show(board: &Index, tick: u64, platforms: Range<u32>, minutes: Range<u32>) -> Result<(), Refusal> {
    let window = Cell::window(0, minutes.clone());
    println!("tick {tick}, {} to {}", board.label(window.start), board.label(window.end));
    for platform in platforms {
        let cells = board.cells(Kind::Memory, tick, Cell::window(platform, minutes.clone()))?;
        println!("  {platform} {}", cells.into_iter().map(letter).collect::<String>());
    }
    Ok(())
}

/// Trains in the nights in which the clock changes: day 90 has no 02:00 to 02:59, day 300 has them twice.
fn show_nights() -> Result<(), Refusal> {
    // day 0 is Monday, 1 January 2024
    let days = Days::central_european((2024, 1, 1), 2024..=2024).expect("a Monday");
    let mut board = GrowingIndex::open(8, &[Kind::Memory])?;
    board.install_days(days.list())?;
    for (tick, (day, minutes)) in (1..).zip(days.list()) {
        // from the hour at which the clock changes on, for eighty minutes
        let minute = days.start(*day) + if *minutes == 1380 { 110 } else { 170 };
        board.record(Kind::Memory, tick, Cell::new(1, minute as u32).number(), &[5; 80])?;
    }
    board.finish()?;
    for block in board.blocks()? {
        let cells = block.cells();
        println!("day {}: train {} stands from {} to {}, {} minutes", board.day(cells.start), block.bytes[0], board.label(cells.start), board.label(cells.end), block.bytes.len());
    }
    Ok(())
}

fn main() -> Result<(), Refusal> {
    let mut board = GrowingIndex::open(8, &[Kind::Memory])?;
    board.record(Kind::Memory, 1, Cell::new(1, 482).number(), &[1; 12])?;
    board.record(Kind::Memory, 2, Cell::new(2, 485).number(), &[2; 20])?;
    board.record(Kind::Memory, 4, Cell::new(1, 490).number(), &[3; 10])?;
    board.record(Kind::Memory, 6, Cell::new(2, 485).number(), &[0; 8])?;
    board.finish()?;
    for tick in [1, 2, 4, 6] {
        show(&board, tick, 1..3, 480..510)?;
    }
    // the whole history in blocks
    for block in board.blocks()? {
        println!("ticks {} to {}: {} for {} minutes", block.created, block.destroyed, Cell::from(block.first), block.bytes.len());
    }
    show_nights()
}
