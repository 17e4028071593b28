//! What an index tells besides its answers.
use crate::{index::after_test, raw, room, tested, Index, Kind, Room};
use raw::servercape_info as Info;

// SAFETY, of the `unsafe` below: as in index.rs.
impl Index {
    /// What stands in the tables; all 0 of an empty index.
    fn info(&self) -> Info {
        let mut info = Info::default();
        // refused 2 of an empty index, and then nothing is handed out
        unsafe { after_test!(servercape_info_tested, self, pieces blocks nodes entries; &mut info) };
        info
    }

    /// The end tick: every booking and every read is below it. 0 of an empty one.
    pub fn end_tick(&self) -> u64 {
        self.info().end_tick
    }

    /// The kinds that it was opened with, by code; of a loaded one its kind alone, of an empty one none.
    pub fn kinds(&self) -> impl Iterator<Item = Kind> {
        let mask = self.info().kinds;
        Kind::ALL.into_iter().filter(move |kind| mask >> kind.code() & 1 == 1)
    }

    /// How many blocks there are by now. Finish adds one for each piece.
    pub fn block_count(&self) -> u64 {
        self.info().blocks
    }

    /// How many rows of its tables are in use, and how many bytes of its store.
    pub fn used(&self) -> Room {
        let Info { pieces, blocks, store: bytes, nodes, entries, .. } = self.info();
        Room { pieces, blocks, bytes, nodes, entries }
    }

    /// The tick of the last accepted booking; 0 before any, and of a loaded index.
    pub fn last_tick(&self) -> u64 {
        self.info().last_tick
    }

    /// The kind of each block and when it is live, and of each piece up to the end tick. No call
    /// tells the blocks and pieces of an open index, so this reads the rows (docs/LAYOUT.md in the
    /// repository), and it is the only place that does.
    pub(crate) fn lives(&self) -> impl Iterator<Item = (u64, u64, u64)> + '_ {
        let Info { pieces, blocks, end_tick, .. } = self.info();
        let rows = |table: u64| room::length(table, 0).unwrap_or(usize::MAX);
        let blocks = self.blocks[rows(raw::SERVERCAPE_BLOCKS)..].chunks_exact(ROW).take(blocks as usize);
        let pieces = self.pieces[rows(raw::SERVERCAPE_PIECES)..].chunks_exact(ROW).take(pieces as usize);
        blocks
            .map(|row| (row[BLOCK_OWNER], row[CREATED], row[DESTROYED]))
            .chain(pieces.map(move |row| (row[PIECE_OWNER], row[WRITTEN], end_tick)))
    }
}

/// How many numbers a row of blocks or pieces has, and the columns of a row of each.
const ROW: usize = 8;
const CREATED: usize = 2;
const DESTROYED: usize = 3;
const BLOCK_OWNER: usize = 5;
const WRITTEN: usize = 2;
const PIECE_OWNER: usize = 7;
