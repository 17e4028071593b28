//! An index and its tables: opening, recording, finishing, files.
use crate::{days, raw, room, tested, Calendar, Days, Kind, Label, Refusal, Room};
use alloc::vec::Vec;
use core::fmt;

/// What an accepted booking did.
#[non_exhaustive]
#[derive(Clone, Copy, PartialEq, Eq, Hash, Debug)]
pub enum Recorded {
    /// Every cell was known with its byte: nothing changed but the last tick.
    Read,
    /// The board was changed.
    Update {
        /// The lowest cell that was unknown or had another byte.
        cell: u64,
    },
}

impl Recorded {
    /// The lowest cell that was unknown or had another byte, if there is one.
    pub fn cell(self) -> Option<u64> {
        match self {
            Recorded::Update { cell } => Some(cell),
            Recorded::Read => None,
        }
    }

    /// Of the two values that a call hands out.
    pub(crate) fn of(updated: u64, cell: u64) -> Recorded {
        if updated == 1 { Recorded::Update { cell } } else { Recorded::Read }
    }
}

/// What was played of a list of bookings.
#[non_exhaustive]
#[derive(Clone, PartialEq, Eq, Debug)]
pub struct Played {
    /// The answer of each booking, as [`Index::record`] gives it.
    pub answers: Vec<Result<Recorded, Refusal>>,
    /// The position behind the last booking that was played.
    pub next: usize,
}

/// What an index is ready for.
#[non_exhaustive]
#[derive(Clone, Copy, PartialEq, Eq, Hash, Debug)]
pub enum State {
    /// It takes bookings, and is not read.
    Open,
    /// It is finished or loaded: it is read, and takes no bookings.
    Closed,
    /// A load into its tables was refused, and they hold no index. It can be opened or loaded anew; every other call is refused 2.
    Empty,
}

/// How an index is opened: its end tick and kinds, and how large its tables are. What later versions add has a default.
///
/// ```
/// use servercape::{Kind, Opening, Room};
///
/// let index = Opening::new(8, &[Kind::Memory, Kind::Other]).room(Room::even(64)).open()?;
/// assert_eq!(index.end_tick(), 8);
/// assert!(index.kinds().eq([Kind::Memory, Kind::Other]));
/// # Ok::<(), servercape::Refusal>(())
/// ```
#[derive(Clone, PartialEq, Eq, Debug)]
pub struct Opening {
    pub(crate) end_tick: u64,
    pub(crate) kinds: Vec<Kind>,
    pub(crate) room: Room,
}

impl Opening {
    /// An index of an end tick from 1 to [`Index::MAX_END_TICK`] and one kind or more, with tables for 1,024 of everything. The order of the kinds and repeats do
    /// not matter.
    pub fn new(end_tick: u64, kinds: &[Kind]) -> Opening {
        Opening { end_tick, kinds: kinds.to_vec(), room: Room::even(1024) }
    }

    /// Tables of another size. Those of a [`GrowingIndex`](crate::GrowingIndex) begin with it.
    pub fn room(mut self, room: Room) -> Opening {
        self.room = room;
        self
    }

    /// Opens the index. Refusal 1; 9 to 13 where there is no memory for a table.
    pub fn open(&self) -> Result<Index, Refusal> {
        let mut index = Index::lend(self.room)?;
        index.reopen(self.end_tick, &self.kinds)?;
        Ok(index)
    }
}

/// An index and its tables, which do not grow by themselves: [`GrowingIndex`](crate::GrowingIndex) has some that do.
///
/// A clone is an index of its own. To read a board that goes on, finish a clone of it.
#[derive(Clone)]
pub struct Index {
    pub(crate) pieces: Vec<u64>,
    pub(crate) blocks: Vec<u64>,
    pub(crate) store: Vec<u8>,
    pub(crate) nodes: Vec<u64>,
    pub(crate) entries: Vec<u64>,
    pub(crate) room: Room,
    /// What `servercape_state` says of the tables. Every method that changes them keeps it true.
    pub(crate) state: u64,
    /// The list of days that is installed: the one that was accepted last since the index was opened or loaded.
    pub(crate) days: Days,
}

/// The scratch that record is lent, whatever the room: it asks for eight numbers, and writes nothing there.
const SCRATCH: [u64; 8] = [0; 8];

/// A call with the five tables in front: which of them it may write to, then what comes after them.
macro_rules! call {
    ($call:ident, $index:expr, $pieces:ident $blocks:ident $store:ident $nodes:ident $entries:ident $(, $rest:expr)*) => {
        raw::$call(
            $index.pieces.$pieces(), $index.pieces.len(),
            $index.blocks.$blocks(), $index.blocks.len(),
            $index.store.$store(), $index.store.len(),
            $index.nodes.$nodes(), $index.nodes.len(),
            $index.entries.$entries(), $index.entries.len(),
            $($rest),*
        )
    };
}

/// A read after the test: the state, the tables that it is lent, then what comes after them.
macro_rules! after_test {
    ($call:ident, $index:expr, $($table:ident)* $(; $($rest:expr),*)?) => {
        tested::$call($index.state, $($index.$table.as_ptr(), $index.$table.len(),)* $($($rest),*)?)
    };
}
pub(crate) use after_test;

// SAFETY, of every `unsafe` below: it calls a function that is proved for all slices. Its arguments are the parts of this crate's own vectors or of
// references, so they are there, aligned, and apart from one another. The state is true, since nobody else can change the tables.
impl Index {
    /// The largest end tick.
    pub const MAX_END_TICK: u64 = 1 << 63;

    /// Tables for an index, not opened yet.
    pub(crate) fn lend(room: Room) -> Result<Index, Refusal> {
        Ok(Index {
            pieces: table(raw::SERVERCAPE_PIECES, room.pieces).ok_or(Refusal::NoRoomForPieces)?,
            blocks: table(raw::SERVERCAPE_BLOCKS, room.blocks).ok_or(Refusal::NoRoomForBlocks)?,
            store: room::length(raw::SERVERCAPE_STORE, room.bytes).and_then(room::zeros).ok_or(Refusal::NoRoomForBytes)?,
            nodes: table(raw::SERVERCAPE_NODES, room.nodes).ok_or(Refusal::NoRoomForNodes)?,
            entries: table(raw::SERVERCAPE_ENTRIES, room.entries).ok_or(Refusal::NoRoomForEntries)?,
            room,
            state: tested::SERVERCAPE_NOT_WELL_FORMED,
            days: Days::regular(),
        })
    }

    /// Opens an index with tables of some room: `Opening::new(end_tick, kinds).room(room).open()`. Refusal 1; 9 to 13 where there is no memory for a table.
    pub fn open(room: Room, end_tick: u64, kinds: &[Kind]) -> Result<Index, Refusal> {
        Opening::new(end_tick, kinds).room(room).open()
    }

    /// Opens an index anew in the same tables, whatever they held. Refusal 1.
    pub fn reopen(&mut self, end_tick: u64, kinds: &[Kind]) -> Result<(), Refusal> {
        Refusal::unless_zero(unsafe {
            // a kind is a byte, its code
            call!(servercape_open, self, as_mut_ptr as_mut_ptr as_ptr as_mut_ptr as_mut_ptr, end_tick, kinds.as_ptr().cast(), kinds.len())
        })?;
        self.state = tested::SERVERCAPE_OPEN;
        self.days = Days::regular();
        Ok(())
    }

    // ── what it is ──

    /// Whether it takes bookings or is read.
    pub fn state(&self) -> State {
        match self.state {
            tested::SERVERCAPE_OPEN => State::Open,
            tested::SERVERCAPE_CLOSED => State::Closed,
            _ => State::Empty,
        }
    }

    /// How large its tables are.
    pub fn room(&self) -> Room {
        self.room
    }

    /// The list of days that is installed; none of an empty index.
    pub fn days(&self) -> Days {
        self.days
    }

    /// The day that a cell falls on, from 0, which is a Monday, by the list of days that is installed.
    pub fn day(&self, cell: u64) -> u64 {
        self.days.day(cell)
    }

    /// The clock time of a cell by the list of days that is installed. Refusal 2 of an empty one.
    pub fn clock(&self, cell: u64) -> Result<Label, Refusal> {
        let mut label = 0;
        Refusal::unless_zero(unsafe { after_test!(servercape_clock_tested, self, blocks; cell, &mut label) })?;
        Ok(Label(label))
    }

    /// The same, which an empty one has too: every day has 1,440 minutes there.
    pub fn label(&self, cell: u64) -> Label {
        self.clock(cell).unwrap_or_else(|_| Days::regular().label(cell))
    }

    // ── recording ──

    /// Records a booking: the bytes of the cells of a kind from `first` on, at a tick; and says what that changed. Outside the station
    /// hours that are installed a byte other than 0 is refused 26, even where it changes nothing. Refusals 3, 25, 5 to 8, 26, 9 to 11.
    pub fn record(&mut self, kind: Kind, tick: u64, first: u64, bytes: &[u8]) -> Result<Recorded, Refusal> {
        self.record_with(&SCRATCH, kind, tick, first, bytes)
    }

    /// The same with a scratch of the caller's, of which only the length counts. With fewer than eight numbers it is refused 2, before all else. Refusals 2, 3,
    /// 25, 5 to 8, 26, 9 to 11.
    pub fn record_with(&mut self, scratch: &[u64], kind: Kind, tick: u64, first: u64, bytes: &[u8]) -> Result<Recorded, Refusal> {
        let (mut updated, mut cell) = (0, 0);
        Refusal::unless_zero(unsafe {
            tested::servercape_record_tested(
                self.state,
                self.pieces.as_mut_ptr(), self.pieces.len(),
                self.blocks.as_mut_ptr(), self.blocks.len(),
                self.store.as_mut_ptr(), self.store.len(),
                scratch.as_ptr(), scratch.len(),
                kind.code(), tick, first, bytes.as_ptr(), bytes.len(),
                &mut updated, &mut cell,
            )
        })?;
        Ok(Recorded::of(updated, cell))
    }

    /// Records the bookings of a list, all of one kind, which [`put_operation`] makes, one after the other; a refused one changes nothing. A list that is cut short
    /// is played up to there. Each answer is that of `record`. Refusal 16 where there is no memory for the answers, and then nothing is played.
    pub fn record_all(&mut self, kind: Kind, operations: &[u8]) -> Result<Played, Refusal> {
        let count = Operations(operations).count();
        let mut answers = Vec::new();
        room::reserve(&mut answers, count).ok_or(Refusal::NoRoomForAnswer)?;
        let mut threes = count.checked_mul(3).and_then(room::zeros).ok_or(Refusal::NoRoomForAnswer)?;
        let mut next = 0;
        let played = unsafe {
            call!(servercape_record_all, self, as_mut_ptr as_mut_ptr as_mut_ptr as_ptr as_ptr,
                SCRATCH.as_ptr(), SCRATCH.len(), kind.code(), operations.as_ptr(), operations.len(), threes.as_mut_ptr(), threes.len(), &mut next)
        };
        let answer = |three: &[u64]| Refusal::unless_zero(three[0]).map(|()| Recorded::of(three[1], three[2]));
        answers.extend(threes.chunks_exact(3).take(played as usize).map(answer));
        Ok(Played { answers, next: next as usize })
    }

    /// Installs a calendar in place of the one before; until the first, every cell is open. What is booked already stays. Refusals 3, 27.
    pub fn install_calendar(&mut self, calendar: &Calendar) -> Result<(), Refusal> {
        let numbers = calendar.numbers();
        // accepted or refused, the state stays as it was
        Refusal::unless_zero(unsafe {
            call!(servercape_install_calendar, self, as_ptr as_mut_ptr as_ptr as_ptr as_ptr, numbers.as_ptr(), numbers.len())
        })
    }

    /// Installs a list of days in place of the one before, in an open or a finished index: each with its minutes, 1,380 or 1,500, ascending by day, at most 64. All
    /// other days have 1,440, and an empty list takes the one before back. Labels and station hours go by it; what is booked already stays. [`Days`] makes such a
    /// list. Refusals 2, 28.
    pub fn install_days(&mut self, list: &[(u64, u64)]) -> Result<(), Refusal> {
        // one more than there may be says that there are too many
        let mut numbers = [0; 2 * (days::MOST + 1)];
        let pairs = numbers.chunks_exact_mut(2).zip(list);
        let count = pairs.map(|(pair, &(day, minutes))| pair.copy_from_slice(&[day, minutes])).count();
        // accepted or refused, the state stays as it was
        Refusal::unless_zero(unsafe {
            call!(servercape_install_days, self, as_ptr as_mut_ptr as_ptr as_ptr as_ptr, numbers.as_ptr(), 2 * count)
        })?;
        self.days = Days::new(list)?;
        Ok(())
    }

    /// Finishes the index: it can be read from now on, and takes no more bookings. Refusals 3, 12, 13.
    pub fn finish(&mut self) -> Result<(), Refusal> {
        Refusal::unless_zero(unsafe {
            call!(servercape_finish, self, as_mut_ptr as_mut_ptr as_ptr as_mut_ptr as_mut_ptr)
        })?;
        self.state = tested::SERVERCAPE_CLOSED;
        Ok(())
    }

    // ── files ──

    /// A closed index of one kind from a file's bytes from a position on, in tables just large enough, with the position behind it, where the next kind of the same
    /// board begins. Refusals 17 to 19, 21 to 24; 20 where there is no memory for a table.
    pub fn load(file: &[u8], at: usize) -> Result<(Index, usize), Refusal> {
        Index::load_with(Room::of_file(file, at), file, at)
    }

    /// The same in tables of some room. Refusals 17 to 24.
    pub fn load_with(room: Room, file: &[u8], at: usize) -> Result<(Index, usize), Refusal> {
        let mut index = Index::lend(room).map_err(|_| Refusal::NoRoomForFile)?;
        let next = index.reload(file, at)?;
        Ok((index, next))
    }

    /// Loads a file into the same tables, whatever they held. After a refusal up to 20 they hold what they held, and after one above they are empty. Refusals 17
    /// to 24.
    pub fn reload(&mut self, file: &[u8], at: usize) -> Result<usize, Refusal> {
        let mut next = 0;
        let number = unsafe {
            call!(servercape_load, self, as_mut_ptr as_mut_ptr as_mut_ptr as_mut_ptr as_mut_ptr, file.as_ptr(), file.len(), at as u64, &mut next)
        };
        (self.state, self.days) = match number {
            0 => (tested::SERVERCAPE_CLOSED, Days::regular()),
            1..=20 => (self.state, self.days),
            _ => (tested::SERVERCAPE_NOT_WELL_FORMED, Days::regular()),
        };
        Refusal::unless_zero(number)?;
        Ok(next as usize)
    }

    /// The file of the index: of each kind that has blocks a part, by code, which is loaded by itself. Of an index without blocks it is empty, and cannot be loaded.
    /// Refusal 4; 16 where there is no memory for it.
    pub fn write(&self) -> Result<Vec<u8>, Refusal> {
        // what is refused takes no memory
        match self.write_into(&mut []) {
            Err(Refusal::NoRoomForAnswer) => (),
            other => return other.map(|_| Vec::new()),
        }
        let Room { blocks, bytes, nodes, entries, .. } = self.used();
        // of each kind: its code and a count; a block's fields and bytes; a node's fields, its entries, and a byte for each child that is not there; blocks of no life
        // are left out
        let most = (9 + 1) * self.kinds().count() as u64 + 33 * blocks + bytes + (33 + 1) * nodes + 8 * entries;
        let mut out = usize::try_from(most).ok().and_then(room::zeros).ok_or(Refusal::NoRoomForAnswer)?;
        let written = self.write_into(&mut out)?;
        out.truncate(written);
        Ok(out)
    }

    /// The same into a slice: how many bytes it wrote. Refusals 4, 16.
    pub fn write_into(&self, out: &mut [u8]) -> Result<usize, Refusal> {
        let mut written = 0;
        Refusal::unless_zero(unsafe {
            after_test!(servercape_write_tested, self, blocks store nodes entries; out.as_mut_ptr(), out.len(), &mut written)
        })?;
        Ok(written as usize)
    }
}

/// What an index is, and not its rows.
impl fmt::Debug for Index {
    fn fmt(&self, f: &mut fmt::Formatter) -> fmt::Result {
        f.debug_struct("Index")
            .field("state", &self.state())
            .field("end_tick", &self.end_tick())
            .field("kinds", &self.kinds().collect::<Vec<Kind>>())
            .field("last_tick", &self.last_tick())
            .field("blocks", &self.block_count())
            .field("room", &self.room)
            .finish()
    }
}

/// A table of so many rows.
fn table(table: u64, rows: u64) -> Option<Vec<u64>> {
    room::length(table, rows).and_then(room::zeros)
}

// ── lists of bookings ──

/// The bytes of a booking in a list, without those of its cells: tick, first cell, length.
const OPERATION: usize = 24;

/// Puts a booking behind those of a list for [`Index::record_all`]: tick, first cell and length, 8 little-endian bytes each, then the bytes.
pub fn put_operation(list: &mut Vec<u8>, tick: u64, first: u64, bytes: &[u8]) {
    for number in [tick, first, bytes.len() as u64] {
        list.extend(number.to_le_bytes());
    }
    list.extend(bytes);
}

/// The bookings of a list, each with its tick, first cell and bytes, up to one that is cut short.
pub(crate) struct Operations<'a>(pub &'a [u8]);

impl<'a> Iterator for Operations<'a> {
    type Item = (u64, u64, &'a [u8]);

    fn next(&mut self) -> Option<Self::Item> {
        let (head, rest) = self.0.split_at_checked(OPERATION)?;
        let field = |k: usize| head[8 * k..8 * k + 8].try_into().map_or(0, u64::from_le_bytes);
        let (bytes, rest) = rest.split_at_checked(usize::try_from(field(2)).ok()?)?;
        self.0 = rest;
        Some((field(0), field(1), bytes))
    }
}
