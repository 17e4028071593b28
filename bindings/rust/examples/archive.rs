//! The archive: finished boards written to a file one behind the other, and loaded again. A file that is damaged is refused, with words that say how.
//!
//!     cargo run --example archive
use servercape::{Cell, GrowingIndex, Index, Kind, Refusal};
use std::{env, fs, io, process};

/// The board of a day: some trains at one platform.
fn day(platform: u32, trains: u8) -> Result<Index, Refusal> {
    let mut board = GrowingIndex::open(1000, &[Kind::Memory])?;
    for train in 1..=trains {
        board.record(Kind::Memory, u64::from(train), Cell::new(platform, 400 + 30 * u32::from(train)).number(), &[train; 12])?;
    }
    board.finish()?;
    Ok(board.into_index())
}

fn main() -> io::Result<()> {
    let name = env::temp_dir().join(format!("servercape-archive-{}.boards", process::id()));
    let mut bytes = vec![];
    for (platform, trains) in [(1, 3), (2, 5), (7, 1)] {
        bytes.extend(day(platform, trains)?.write()?);
    }
    fs::write(&name, &bytes)?;

    let file = fs::read(&name)?;
    let mut at = 0;
    while at < file.len() {
        let (board, next) = Index::load(&file, at)?;
        println!("bytes {at} to {next}: {} blocks, end tick {}, kind {}", board.block_count(), board.end_tick(), board.kinds().next().expect("a kind"));
        assert_eq!(board.write()?, file[at..next], "what is written of a loaded board is what was read");
        at = next;
    }

    // one bit is changed in the first board's tree
    let mut damaged = file;
    let (first, _) = Index::load(&damaged, 0)?;
    let blocks = first.blocks()?.map(|block| 33 + block.bytes.len()).sum::<usize>();
    damaged[9 + blocks + 1] ^= 1;
    println!("damaged: {}", Index::load(&damaged, 0).expect_err("the root starts at tick 0"));
    fs::remove_file(&name)
}
