//! The edit service: records what planners book, and tells each the first minute that the booking changed, or why it was refused.
//!
//!     cargo run --example edit
use servercape::{Calendar, Cell, GrowingIndex, Kind, Recorded, Refusal};

/// A booking as a planner gives it: platform, minute, how many minutes, train.
type Booking = (u32, u32, usize, u8);

fn book(board: &mut GrowingIndex, tick: u64, (platform, minute, minutes, train): Booking) -> Result<Recorded, Refusal> {
    board.record(Kind::Memory, tick, Cell::new(platform, minute).number(), &vec![train; minutes])
}

fn main() -> Result<(), Refusal> {
    // any number of ticks below the end tick; tables grow with the bookings
    let mut board = GrowingIndex::open(1_000_000, &[Kind::Memory])?;
    // every day the station is open from 05:00 to midnight
    board.install_calendar(&Calendar { week: std::array::from_fn(|_| vec![300..1440]), special: vec![] })?;
    let bookings: [(u64, Booking); 7] = [
        (1, (2, 480, 10, 7)),
        (2, (2, 480, 12, 7)),  // two minutes more
        (3, (2, 480, 12, 7)),  // says what stands
        (4, (2, 485, 20, 9)),  // takes over from 08:05 on
        (3, (3, 480, 10, 11)), // an edit that comes too late
        (5, (3, 480, 0, 11)),  // of no minutes
        (5, (3, 1435, 9, 11)), // when the station is closed
    ];
    for (tick, booking) in bookings {
        let what = match book(&mut board, tick, booking) {
            Ok(Recorded::Read) => "changes nothing".to_string(),
            Ok(recorded) => {
                let cell = recorded.cell().expect("an update has a cell");
                format!("changes platform {} from {} on", Cell::from(cell).platform(), board.label(cell))
            }
            Err(refusal) => format!("is {refusal}"),
        };
        println!("edit {tick}: train {} {what}", booking.3);
    }
    println!("last tick {}, {} blocks by now", board.last_tick(), board.block_count());
    Ok(())
}
