//! The conflict checker: before a train is sent to a platform, who holds a minute of that time? `touching` lists trains that came in before the window too;
//! `find` would miss them.
//!
//!     cargo run --example conflict
use servercape::{Cell, GrowingIndex, Index, Kind, Refusal};
use std::ops::Range;

/// Prints who is in the way. A byte of 0 says that the platform is free.
fn check(board: &Index, tick: u64, platform: u32, minutes: Range<u32>) -> Result<(), Refusal> {
    let window = Cell::window(platform, minutes);
    println!("platform {platform} from {} to {} at tick {tick}:", board.label(window.start), board.label(window.end));
    let mut free = true;
    for number in board.touching(Kind::Memory, tick, window.clone())? {
        let block = board.block(number)?;
        let mut cell = block.first;
        for stay in block.bytes.chunk_by(|one, next| one == next) {
            let end = cell + stay.len() as u64;
            if stay[0] != 0 && cell < window.end && window.start < end {
                println!("    train {} stands there from {} to {}", stay[0], board.label(cell), board.label(end));
                free = false;
            }
            cell = end;
        }
    }
    if free {
        println!("    free");
        let before = board.last(Kind::Memory, tick, window.start)?.map(|number| board.block(number)).transpose()?;
        if let Some(block) = before.filter(|block| Cell::from(block.first).platform() == platform) {
            println!("    the last train before it leaves at {}", board.label(block.cells().end));
        }
    }
    Ok(())
}

fn main() -> Result<(), Refusal> {
    let mut board = GrowingIndex::open(1_000_000, &[Kind::Memory])?;
    board.record(Kind::Memory, 1, Cell::new(2, 1432).number(), &[7; 14])?; // 23:52 to 00:06
    board.record(Kind::Memory, 2, Cell::new(2, 1450).number(), &[9; 5])?; // 00:10 to 00:15
    board.record(Kind::Memory, 3, Cell::new(2, 1450).number(), &[0; 5])?; // which is cancelled
    // the board goes on, and a finished clone of it is read
    let now = board.finished()?;
    check(&now, board.last_tick(), 2, 1440..1448)?;
    check(&now, board.last_tick(), 2, 1446..1456)?;
    check(&now, 2, 2, 1446..1456)?;
    check(&now, board.last_tick(), 3, 1440..1448)
}
