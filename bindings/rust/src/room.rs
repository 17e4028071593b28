//! How many rows tables have, and how many they need.
use crate::{raw, Kind};
use alloc::alloc::{alloc_zeroed, Layout};
use alloc::vec::Vec;

/// How many rows each table of an index has; of the store, how many bytes. A [`GrowingIndex`](crate::GrowingIndex) needs none of this.
#[derive(Clone, Copy, PartialEq, Eq, Debug, Default)]
pub struct Room {
    /// Stretches of cells that are known now.
    pub pieces: u64,
    /// Blocks that are recorded, and one for each piece besides: finish turns pieces into blocks.
    pub blocks: u64,
    /// The bytes of all accepted updates.
    pub bytes: u64,
    /// Nodes of the tree that finish builds.
    pub nodes: u64,
    /// Entries of that tree.
    pub entries: u64,
}

impl Room {
    /// As many of each.
    pub const fn even(rows: u64) -> Room {
        Room { pieces: rows, blocks: rows, bytes: rows, nodes: rows, entries: rows }
    }

    /// Enough for any list of so many bookings with so many bytes in all, and for finish after them: no call is refused for want of room. Most lists need far
    /// less. Numbers above 2^64 - 1 stop there.
    ///
    /// ```
    /// use servercape::Room;
    ///
    /// let room = Room::enough(8, 4, 9);
    /// assert_eq!((room.pieces, room.blocks, room.bytes), (8, 12, 9));
    /// assert_eq!((room.nodes, room.entries), (28, 60));
    /// ```
    pub fn enough(end_tick: u64, bookings: u64, bytes: u64) -> Room {
        // a booking that splits a piece leaves two rests and itself, and the middle as a block
        let (pieces, blocks) = (bookings.saturating_mul(2), bookings.saturating_mul(3));
        Room { pieces, blocks, bytes, ..Room::default() }.for_finish(end_tick, bookings)
    }

    /// The same with the nodes and entries that finish can need at most: of an index with this end tick, whose bookings have so many different ticks, those of each
    /// kind counted by themselves, and which has no more blocks than this room.
    ///
    /// It is proved that finish then has room (`law_of_room` of the repository's crate `tree_room`): of each kind a node for the root and two for each tick on
    /// every level below it; for each block an entry, and two on every level below the first.
    pub fn for_finish(self, end_tick: u64, ticks: u64) -> Room {
        // so often is [0, end tick) halved until it is ticks
        let levels = u64::from(64 - end_tick.saturating_sub(1).leading_zeros());
        // a kind that has a tree has a tick
        let trees = ticks.clamp(1, Kind::ALL.len() as u64);
        let nodes = levels.saturating_mul(ticks.saturating_mul(2)).saturating_add(trees);
        let entries = self.blocks.saturating_mul(1 + 2 * levels.saturating_sub(1));
        Room { nodes, entries, ..self }
    }

    /// The larger of two for each table.
    pub fn joined(self, other: Room) -> Room {
        Room {
            pieces: self.pieces.max(other.pieces),
            blocks: self.blocks.max(other.blocks),
            bytes: self.bytes.max(other.bytes),
            nodes: self.nodes.max(other.nodes),
            entries: self.entries.max(other.entries),
        }
    }

    /// What the tables must have to take the index of one kind that stands in a file from a position on. Of a file that is cut or wrong it counts what can be read.
    pub fn of_file(file: &[u8], at: usize) -> Room {
        let mut room = Room::default();
        Reader { file, at }.count(&mut room);
        room
    }
}

/// The fields of a file, one after the other: kind, block count, blocks, then nodes, root first. None where they end.
struct Reader<'a> {
    file: &'a [u8],
    at: usize,
}

impl Reader<'_> {
    fn skip(&mut self, bytes: usize) -> Option<()> {
        let next = self.at.checked_add(bytes).filter(|&next| next <= self.file.len())?;
        self.at = next;
        Some(())
    }

    fn number(&mut self) -> Option<usize> {
        let start = self.at;
        self.skip(8)?;
        let bytes = self.file[start..self.at].try_into().ok()?;
        usize::try_from(u64::from_le_bytes(bytes)).ok()
    }

    fn count(&mut self, room: &mut Room) -> Option<()> {
        self.skip(1)?;
        for _ in 0..self.number()? {
            self.block(room)?;
        }
        // nodes that are still to come: a node has two halves, each there or not
        let mut awaited: u64 = 1;
        while awaited > 0 {
            awaited -= 1;
            self.skip(1)?;
            if self.file[self.at - 1] != 0 {
                self.node(room)?;
                awaited += 2;
            }
        }
        Some(())
    }

    /// Kind, first cell, length, created, destroyed, bytes.
    fn block(&mut self, room: &mut Room) -> Option<()> {
        self.skip(1 + 8)?;
        let length = self.number()?;
        self.skip(8 + 8)?;
        self.skip(length)?;
        room.blocks += 1;
        room.bytes += length as u64;
        Some(())
    }

    /// Min, max, mid, entry count, block numbers.
    fn node(&mut self, room: &mut Room) -> Option<()> {
        self.skip(3 * 8)?;
        let entries = self.number()?;
        self.skip(entries.checked_mul(8)?)?;
        room.nodes += 1;
        room.entries += entries as u64;
        Some(())
    }
}

/// How many numbers (of the store: bytes) a table of so many rows has; none where there can be no such table.
pub(crate) fn length(table: u64, rows: u64) -> Option<usize> {
    // SAFETY: the call takes two numbers and gives one.
    let length = unsafe { raw::servercape_length(table, rows) };
    // a store of no bytes has length 0; any other 0 says that the length is no 64-bit number
    usize::try_from(length).ok().filter(|&length| length != 0 || rows == 0)
}

/// A type of which zero bytes are the number 0.
pub(crate) trait Number {}

impl Number for u8 {}

impl Number for u64 {}

/// So many zeros, or none where there is no memory for them. The memory comes as zeros from the system, so rows that are not used yet take none.
pub(crate) fn zeros<T: Number>(length: usize) -> Option<Vec<T>> {
    let layout = Layout::array::<T>(length).ok()?;
    if length == 0 {
        return Some(Vec::new());
    }
    // SAFETY: the layout is not empty, and the vector gets the memory with the layout that it was asked for; zero bytes are a number.
    unsafe {
        let start = alloc_zeroed(layout).cast::<T>();
        (!start.is_null()).then(|| Vec::from_raw_parts(start, length, length))
    }
}

/// Makes room for a vector of such a length, or tells that there is no memory for it.
pub(crate) fn reserve<T>(numbers: &mut Vec<T>, length: usize) -> Option<()> {
    numbers.try_reserve_exact(length.saturating_sub(numbers.len())).ok()
}
