//! Tables that grow.
use crate::{index::Operations, raw, room, Calendar, Index, Kind, Opening, Played, Recorded, Refusal, Room};
use alloc::vec::Vec;
use core::ops::Deref;

impl Index {
    /// Lengthens the tables by zeros to at least this room; none gets shorter. It may be done between any two calls, on an open or a finished index: longer
    /// tables are proved to stand for the same one (`longer_tables` of the repository's crate `growth`). Refusals 9 to 13 where there is no memory for a table,
    /// and then none has grown.
    pub fn grow(&mut self, room: Room) -> Result<(), Refusal> {
        let room = self.room.joined(room);
        let pieces = reserved(&mut self.pieces, raw::SERVERCAPE_PIECES, room.pieces).ok_or(Refusal::NoRoomForPieces)?;
        let blocks = reserved(&mut self.blocks, raw::SERVERCAPE_BLOCKS, room.blocks).ok_or(Refusal::NoRoomForBlocks)?;
        let store = reserved(&mut self.store, raw::SERVERCAPE_STORE, room.bytes).ok_or(Refusal::NoRoomForBytes)?;
        let nodes = reserved(&mut self.nodes, raw::SERVERCAPE_NODES, room.nodes).ok_or(Refusal::NoRoomForNodes)?;
        let entries = reserved(&mut self.entries, raw::SERVERCAPE_ENTRIES, room.entries).ok_or(Refusal::NoRoomForEntries)?;
        self.pieces.resize(pieces, 0);
        self.blocks.resize(blocks, 0);
        self.store.resize(store, 0);
        self.nodes.resize(nodes, 0);
        self.entries.resize(entries, 0);
        self.room = room;
        Ok(())
    }

    /// A clone; refusals 9 to 13 where there is no memory for a table, for which `clone` would end the program.
    pub fn try_clone(&self) -> Result<Index, Refusal> {
        Ok(Index {
            pieces: copied(&self.pieces).ok_or(Refusal::NoRoomForPieces)?,
            blocks: copied(&self.blocks).ok_or(Refusal::NoRoomForBlocks)?,
            store: copied(&self.store).ok_or(Refusal::NoRoomForBytes)?,
            nodes: copied(&self.nodes).ok_or(Refusal::NoRoomForNodes)?,
            entries: copied(&self.entries).ok_or(Refusal::NoRoomForEntries)?,
            ..*self
        })
    }
}

fn copied<T: Copy>(numbers: &[T]) -> Option<Vec<T>> {
    let mut copy = Vec::new();
    room::reserve(&mut copy, numbers.len())?;
    copy.extend_from_slice(numbers);
    Some(copy)
}

/// The length of a table of so many rows, for which there is memory.
fn reserved<T>(numbers: &mut Vec<T>, table: u64, rows: u64) -> Option<usize> {
    let length = room::length(table, rows)?;
    room::reserve(numbers, length)?;
    Some(length)
}

/// An index whose tables grow: where a booking is refused for want of room, the table gets twice as long and the call is made again; finish and load are given
/// what they need. So 9 to 13 and 20 are told only where there is no memory.
///
/// ```
/// use servercape::{GrowingIndex, Kind};
///
/// let mut board = GrowingIndex::open(8, &[Kind::Memory])?;
/// board.record(Kind::Memory, 1, 100, &[7, 7, 7])?;
/// board.finish()?;
/// assert_eq!(board.touching(Kind::Memory, 6, 101..103)?, [0]);
/// # Ok::<(), servercape::Refusal>(())
/// ```
///
/// It is read as an [`Index`].
#[derive(Clone, Debug)]
pub struct GrowingIndex(Index);

/// The room that it begins with.
const BEGIN: Room = Room { pieces: 64, blocks: 64, bytes: 1024, nodes: 0, entries: 0 };

impl GrowingIndex {
    /// Opens an index. Refusal 1.
    pub fn open(end_tick: u64, kinds: &[Kind]) -> Result<GrowingIndex, Refusal> {
        GrowingIndex::with(&Opening::new(end_tick, kinds).room(BEGIN))
    }

    /// Opens an index by options. Refusal 1.
    pub fn with(opening: &Opening) -> Result<GrowingIndex, Refusal> {
        Ok(GrowingIndex(opening.open()?))
    }

    /// A closed index from a file's bytes from a position on, with the position behind it: as [`Index::load`]. Refusals 17 to 19, 21 to 24.
    pub fn load(file: &[u8], at: usize) -> Result<(GrowingIndex, usize), Refusal> {
        let (index, next) = Index::load(file, at)?;
        Ok((GrowingIndex(index), next))
    }

    /// Opens an index anew in the same tables. Refusal 1.
    pub fn reopen(&mut self, end_tick: u64, kinds: &[Kind]) -> Result<(), Refusal> {
        self.0.reopen(end_tick, kinds)
    }

    /// Loads a file into the same tables, which grow first where they are too small for it. Refusals 17 to 19, 21 to 24.
    pub fn reload(&mut self, file: &[u8], at: usize) -> Result<usize, Refusal> {
        match self.0.reload(file, at) {
            Err(Refusal::NoRoomForFile) => {
                self.0.grow(Room::of_file(file, at)).map_err(|_| Refusal::NoRoomForFile)?;
                self.0.reload(file, at)
            }
            answer => answer,
        }
    }

    /// Records a booking, as [`Index::record`]. Refusals 3, 25, 5 to 8, 26.
    pub fn record(&mut self, kind: Kind, tick: u64, first: u64, bytes: &[u8]) -> Result<Recorded, Refusal> {
        loop {
            match self.0.record(kind, tick, first, bytes) {
                Err(refusal) if refusal.is_no_room() => self.grow_for(refusal, bytes.len() as u64)?,
                answer => return answer,
            }
        }
    }

    /// Records the bookings of a list, all of one kind, as [`Index::record_all`]. Of each refusals 3, 25, 5 to 8, 26.
    pub fn record_all(&mut self, kind: Kind, operations: &[u8]) -> Result<Played, Refusal> {
        let mut answers = Vec::new();
        room::reserve(&mut answers, Operations(operations).count()).ok_or(Refusal::NoRoomForAnswer)?;
        let mut list = Operations(operations);
        for (tick, first, bytes) in list.by_ref() {
            answers.push(self.record(kind, tick, first, bytes));
        }
        Ok(Played { answers, next: operations.len() - list.0.len() })
    }

    /// Installs a calendar, as [`Index::install_calendar`]. Refusals 3, 27.
    pub fn install_calendar(&mut self, calendar: &Calendar) -> Result<(), Refusal> {
        self.0.install_calendar(calendar)
    }

    /// Installs a list of days, as [`Index::install_days`]. Refusals 2, 28.
    pub fn install_days(&mut self, list: &[(u64, u64)]) -> Result<(), Refusal> {
        self.0.install_days(list)
    }

    /// Finishes the index, as [`Index::finish`]. Refusal 3.
    pub fn finish(&mut self) -> Result<(), Refusal> {
        // finish goes over all rows, so what it needs is counted first, and is tried once
        self.0.grow(self.0.room_for_finish())?;
        loop {
            match self.0.finish() {
                Err(refusal) if refusal.is_no_room() => self.grow_for(refusal, 0)?,
                answer => return answer,
            }
        }
    }

    /// The board as it stands now, to be read: a clone that is finished. This one goes on. Refusal 3.
    pub fn finished(&self) -> Result<Index, Refusal> {
        let mut copy = GrowingIndex(self.0.try_clone()?);
        copy.finish()?;
        Ok(copy.0)
    }

    /// The index alone, with its tables as they are.
    pub fn into_index(self) -> Index {
        self.0
    }

    /// Makes the table larger that a refusal names; the refusal stays where there is no memory.
    fn grow_for(&mut self, refusal: Refusal, bytes: u64) -> Result<(), Refusal> {
        let room = self.0.room();
        let more = match refusal {
            Refusal::NoRoomForPieces => Room { pieces: twice(room.pieces), ..room },
            Refusal::NoRoomForBlocks => Room { blocks: twice(room.blocks), ..room },
            Refusal::NoRoomForBytes => Room { bytes: twice(room.bytes).max(room.bytes.saturating_add(bytes)), ..room },
            Refusal::NoRoomForNodes => Room { nodes: twice(room.nodes), ..room },
            Refusal::NoRoomForEntries => Room { entries: twice(room.entries), ..room },
            other => return Err(other),
        };
        self.0.grow(more).map_err(|_| refusal)
    }
}

fn twice(rows: u64) -> u64 {
    rows.saturating_mul(2).max(64)
}

impl Deref for GrowingIndex {
    type Target = Index;

    fn deref(&self) -> &Index {
        &self.0
    }
}

impl From<Index> for GrowingIndex {
    /// The index with its tables, which grow from now on.
    fn from(index: Index) -> GrowingIndex {
        GrowingIndex(index)
    }
}
