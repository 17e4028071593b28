//! What a closed index tells.
use crate::{index::after_test, room, tested, Index, Kind, Refusal};
use alloc::vec::Vec;
use core::{iter::FusedIterator, ops::Range};

/// A block: bytes that some cells held from one tick up to another.
#[non_exhaustive]
#[derive(Clone, Copy, PartialEq, Eq, Hash, Debug)]
pub struct Block<'a> {
    /// The kind.
    pub kind: Kind,
    /// The first cell.
    pub first: u64,
    /// The first tick at which it is live.
    pub created: u64,
    /// The first tick at which it is live no more. Where it is `created`, the block was never live.
    pub destroyed: u64,
    /// The byte of each cell, from the first on: the part of the index's own store.
    pub bytes: &'a [u8],
}

impl Block<'_> {
    /// The cells that it holds.
    pub fn cells(&self) -> Range<u64> {
        self.first..self.first + self.bytes.len() as u64
    }

    /// Whether it is live at a tick.
    pub fn is_live(&self, tick: u64) -> bool {
        (self.created..self.destroyed).contains(&tick)
    }
}

/// What find lists.
#[non_exhaustive]
#[derive(Clone, PartialEq, Eq, Debug)]
pub struct Found {
    /// The numbers of the blocks.
    pub numbers: Vec<u64>,
    /// How many nodes of the tree were looked at.
    pub visited: u64,
}

/// How many numbers find and touching are lent first.
const FEW: usize = 64;

/// How many cells are read at once.
const CHUNK: usize = 4096;

// SAFETY, of every `unsafe` below: as in index.rs.
impl Index {
    /// The block of a number, from 0 in recorded order. Refusals 4, 15.
    pub fn block(&self, number: u64) -> Result<Block<'_>, Refusal> {
        let [mut kind, mut first, mut length, mut created, mut destroyed, mut offset] = [0; 6];
        Refusal::unless_zero(unsafe {
            after_test!(servercape_block_tested, self, blocks store; number, &mut kind, &mut first, &mut length, &mut created, &mut destroyed, &mut offset)
        })
        .map_err(|refusal| if refusal == Refusal::WindowReversed { Refusal::NoSuchBlock } else { refusal })?;
        let from = offset as usize;
        let bytes = &self.store[from..from + length as usize];
        let kind = Kind::try_from(kind as u8).expect("a well-formed index has a kind");
        Ok(Block { kind, first, created, destroyed, bytes })
    }

    /// All blocks in recorded order, whatever their kinds. Refusal 4.
    pub fn blocks(&self) -> Result<Blocks<'_>, Refusal> {
        match self.block(0) {
            Err(refusal) if refusal != Refusal::NoSuchBlock => Err(refusal),
            _ => Ok(Blocks { index: self, next: 0, end: self.block_count() }),
        }
    }

    /// The blocks of a kind live at a tick whose first cell is in the window. One that starts before it and reaches in is not listed: [`touching`](Index::touching) has
    /// all. Refusals 4, 25, 14, 15.
    pub fn find(&self, kind: Kind, tick: u64, window: Range<u64>) -> Result<Found, Refusal> {
        let mut visited = 0;
        let numbers = self.listed(|numbers| {
            let (count, nodes) = self.find_into(kind, tick, window.clone(), numbers)?;
            visited = nodes;
            Ok(count)
        })?;
        Ok(Found { numbers, visited })
    }

    /// What a call lists, in a slice that grows where it is refused 16: a block is listed once at most.
    fn listed(&self, mut list: impl FnMut(&mut [u64]) -> Result<usize, Refusal>) -> Result<Vec<u64>, Refusal> {
        let most = usize::try_from(self.block_count()).unwrap_or(usize::MAX);
        let mut length = 0;
        loop {
            let mut numbers: Vec<u64> = room::zeros(length).ok_or(Refusal::NoRoomForAnswer)?;
            match list(&mut numbers) {
                Err(Refusal::NoRoomForAnswer) if length < most => length = most.min((2 * length).max(FEW)),
                answer => {
                    numbers.truncate(answer?);
                    return Ok(numbers);
                }
            }
        }
    }

    /// The same into a slice: how many it lists there, and how many nodes were visited. Refusals 4, 25, 14 to 16.
    pub fn find_into(&self, kind: Kind, tick: u64, window: Range<u64>, answer: &mut [u64]) -> Result<(usize, u64), Refusal> {
        let (mut count, mut visited) = (0, 0);
        Refusal::unless_zero(unsafe {
            after_test!(servercape_find_tested, self, blocks nodes entries;
                kind.code(), tick, window.start, window.end, answer.as_mut_ptr(), answer.len(), &mut count, &mut visited)
        })?;
        Ok((count as usize, visited))
    }

    /// The blocks of a kind live at a tick that hold any cell of the window, ascending by first cell; those that start before it too. An empty window lists none.
    /// Refusals 4, 25, 14, 15.
    pub fn touching(&self, kind: Kind, tick: u64, window: Range<u64>) -> Result<Vec<u64>, Refusal> {
        self.listed(|numbers| self.touching_into(kind, tick, window.clone(), numbers))
    }

    /// The same into a slice: how many it lists there. Refusals 4, 25, 14 to 16.
    pub fn touching_into(&self, kind: Kind, tick: u64, window: Range<u64>, answer: &mut [u64]) -> Result<usize, Refusal> {
        let mut count = 0;
        Refusal::unless_zero(unsafe {
            after_test!(servercape_touching_tested, self, blocks nodes entries;
                kind.code(), tick, window.start, window.end, answer.as_mut_ptr(), answer.len(), &mut count)
        })?;
        Ok(count as usize)
    }

    /// The first block of a kind live at a tick that starts at or after the cell, if there is one. Refusals 4, 25, 14.
    pub fn next(&self, kind: Kind, tick: u64, cell: u64) -> Result<Option<u64>, Refusal> {
        let (mut found, mut number) = (0, 0);
        Refusal::unless_zero(unsafe {
            after_test!(servercape_next_tested, self, blocks nodes entries; kind.code(), tick, cell, &mut found, &mut number)
        })?;
        Ok((found == 1).then_some(number))
    }

    /// The last block of a kind live at a tick whose cells are all below the cell, if there is one. Refusals 4, 25, 14.
    pub fn last(&self, kind: Kind, tick: u64, cell: u64) -> Result<Option<u64>, Refusal> {
        let (mut found, mut number) = (0, 0);
        Refusal::unless_zero(unsafe {
            after_test!(servercape_last_tested, self, blocks nodes entries; kind.code(), tick, cell, &mut found, &mut number)
        })?;
        Ok((found == 1).then_some(number))
    }

    /// For each cell of the window of a kind the byte that it holds at a tick, if it holds one. Refusals 4, 25, 14, 15; 16 where there is no memory for so many cells.
    pub fn cells(&self, kind: Kind, tick: u64, window: Range<u64>) -> Result<Vec<Option<u8>>, Refusal> {
        // into no cells first: a window that is refused takes no memory
        match self.cells_into(kind, tick, window.clone(), &mut [], &mut []) {
            Err(Refusal::NoRoomForAnswer) => (),
            other => return other.map(|()| Vec::new()),
        }
        let mut cells = Vec::new();
        usize::try_from(window.end - window.start).ok().and_then(|count| room::reserve(&mut cells, count)).ok_or(Refusal::NoRoomForAnswer)?;
        let (mut bytes, mut held) = ([0; CHUNK], [0; CHUNK]);
        let mut start = window.start;
        while start < window.end {
            let count = (window.end - start).min(CHUNK as u64);
            self.cells_into(kind, tick, start..start + count, &mut bytes, &mut held)?;
            cells.extend(bytes.iter().zip(&held).take(count as usize).map(|(&byte, &held)| (held == 1).then_some(byte)));
            start += count;
        }
        Ok(cells)
    }

    /// The same into two slices: the bytes, and 1 where a cell is held; 0 and 0 where it is not. Refusals 4, 25, 14 to 16.
    pub fn cells_into(&self, kind: Kind, tick: u64, window: Range<u64>, bytes: &mut [u8], held: &mut [u8]) -> Result<(), Refusal> {
        Refusal::unless_zero(unsafe {
            after_test!(servercape_read_cells_tested, self, blocks store nodes entries;
                kind.code(), tick, window.start, window.end, bytes.as_mut_ptr(), bytes.len(), held.as_mut_ptr(), held.len())
        })
    }
}

/// The blocks of an index in recorded order.
#[derive(Clone, Debug)]
pub struct Blocks<'a> {
    index: &'a Index,
    next: u64,
    end: u64,
}

impl<'a> Iterator for Blocks<'a> {
    type Item = Block<'a>;

    fn next(&mut self) -> Option<Block<'a>> {
        let block = self.index.block(self.next).ok()?;
        self.next += 1;
        Some(block)
    }

    fn size_hint(&self) -> (usize, Option<usize>) {
        let left = (self.end - self.next) as usize;
        (left, Some(left))
    }

    fn nth(&mut self, count: usize) -> Option<Block<'a>> {
        self.next = self.next.saturating_add(count as u64).min(self.end);
        self.next()
    }
}

impl ExactSizeIterator for Blocks<'_> {}
impl FusedIterator for Blocks<'_> {}
