//! A plain reading of the rules: pieces in a list, every cell looked at by itself. It says what the calls must answer, and which operations meet
//! D1 or D2, where the Rust does something else.
use crate::days::{self, List};
use crate::hours;
use crate::tree::Tree;
use servercape::{Calendar, Recorded, Room};
use std::collections::BTreeMap;

#[derive(Clone, PartialEq, Eq, Debug)]
pub struct Op {
    pub kind: u64,
    pub tick: u64,
    pub first: u64,
    pub bytes: Vec<u8>,
}

#[derive(Clone, PartialEq, Eq, Debug)]
pub struct Block {
    pub kind: u64,
    pub first: u64,
    pub created: u64,
    pub destroyed: u64,
    pub bytes: Vec<u8>,
}

impl Block {
    pub fn end(&self) -> u64 {
        self.first + self.bytes.len() as u64
    }

    pub fn live(&self, tick: u64) -> bool {
        self.created <= tick && tick < self.destroyed
    }

    pub fn has_life(&self) -> bool {
        self.created < self.destroyed
    }
}

/// The numbers of a scratch that record does with (request 9).
pub const LEAST_SCRATCH: usize = 8;

/// How many kinds there are (request 3).
pub const KINDS: u64 = 5;

/// A stretch that is known now.
#[derive(Clone)]
struct Piece {
    kind: u64,
    first: u64,
    written: u64,
    bytes: Vec<u8>,
}

impl Piece {
    fn end(&self) -> u64 {
        self.first + self.bytes.len() as u64
    }

    /// The part in [from, to), which must not be empty.
    fn part(&self, from: u64, to: u64) -> Piece {
        let bytes = self.bytes[(from - self.first) as usize..(to - self.first) as usize].to_vec();
        Piece { kind: self.kind, first: from, written: self.written, bytes }
    }

    fn block(self, destroyed: u64) -> Block {
        Block { kind: self.kind, first: self.first, created: self.written, destroyed, bytes: self.bytes }
    }
}

/// Where the Rust does something else than the document.
#[derive(Clone, Copy, PartialEq, Eq, Debug)]
pub enum Difference {
    D1,
    D2,
}

#[derive(Clone)]
pub struct Board {
    pub end: u64,
    pub kinds: Vec<u64>,
    room: Room,
    pieces: Vec<Piece>,
    pub blocks: Vec<Block>,
    last: u64,
    used: u64,
    hours: Option<Calendar>,
    days: List,
}

impl Board {
    pub fn open(end: u64, kinds: &[u64], room: Room) -> Board {
        Board { end, kinds: kinds.to_vec(), room, pieces: vec![], blocks: vec![], last: 0, used: 0, hours: None, days: vec![] }
    }

    /// The byte of a cell of a kind, if it is known.
    fn held(&self, kind: u64, cell: u64) -> Option<u8> {
        let piece = self.pieces.iter().find(|p| p.kind == kind && p.first <= cell && cell < p.end())?;
        Some(piece.bytes[(cell - piece.first) as usize])
    }

    /// Whether the cells of the operation up to `end` are all known with its bytes.
    fn known(&self, op: &Op, end: u64) -> bool {
        (op.first..end).all(|cell| self.held(op.kind, cell) == Some(op.bytes[(cell - op.first) as usize]))
    }

    fn is_read(&self, op: &Op) -> bool {
        self.known(op, op.first + op.bytes.len() as u64)
    }

    /// Which of the differences an accepted operation meets.
    pub fn meets(&self, op: &Op) -> Option<Difference> {
        let end = op.first + op.bytes.len() as u64;
        let overlapped: Vec<&Piece> = self.pieces.iter().filter(|p| p.kind == op.kind && p.first < end && op.first < p.end()).collect();
        let last = overlapped.last()?.end();
        if last < end && self.known(op, last) {
            return Some(Difference::D1);
        }
        let inside = overlapped.iter().any(|p| p.first <= op.first && end < p.end());
        (inside && !self.is_read(op)).then_some(Difference::D2)
    }

    /// The board after an update.
    fn updated(&self, op: &Op) -> Board {
        let (from, to) = (op.first, op.first + op.bytes.len() as u64);
        let mut next = self.clone();
        next.pieces.clear();
        for piece in &self.pieces {
            let (a, b) = (piece.first.max(from), piece.end().min(to));
            if piece.kind != op.kind || b <= a {
                next.pieces.push(piece.clone());
                continue;
            }
            next.blocks.push(piece.part(a, b).block(op.tick));
            if piece.first < a {
                next.pieces.push(piece.part(piece.first, a));
            }
            if b < piece.end() {
                next.pieces.push(piece.part(b, piece.end()));
            }
        }
        next.pieces.push(Piece { kind: op.kind, first: from, written: op.tick, bytes: op.bytes.clone() });
        next.pieces.sort_by_key(|p| (p.kind, p.first));
        next.used += op.bytes.len() as u64;
        next
    }

    /// Records an operation with a scratch of so many numbers: 0, or the number of the refusal.
    pub fn record(&mut self, op: &Op, scratch: usize) -> u64 {
        if scratch < LEAST_SCRATCH {
            return 2;
        }
        if !self.kinds.contains(&op.kind) {
            return 25;
        }
        if op.bytes.is_empty() {
            return 5;
        }
        if op.first.checked_add(op.bytes.len() as u64).is_none() {
            return 6;
        }
        if op.tick >= self.end {
            return 7;
        }
        if op.tick < self.last {
            return 8;
        }
        if self.outside(op) {
            return 26;
        }
        if !self.is_read(op) {
            let next = self.updated(op);
            if next.pieces.len() as u64 > self.room.pieces {
                return 9;
            }
            if (next.blocks.len() + next.pieces.len()) as u64 > self.room.blocks {
                return 10;
            }
            if next.used > self.room.bytes {
                return 11;
            }
            *self = next;
        }
        self.last = op.tick;
        0
    }

    /// Whether a byte that is not 0 falls on a cell that the calendar closes.
    fn outside(&self, op: &Op) -> bool {
        let closed = |hours: &Calendar| op.bytes.iter().zip(op.first..).any(|(byte, cell)| *byte != 0 && !hours::open(hours, &self.days, cell));
        self.hours.as_ref().is_some_and(closed)
    }

    /// Installs a calendar: 0, or the number of the refusal.
    pub fn install(&mut self, calendar: &Calendar) -> u64 {
        if !hours::taken(calendar) {
            return 27;
        }
        self.hours = Some(calendar.clone());
        0
    }

    /// Installs a list of days, open or finished: 0, or the number of the refusal.
    pub fn install_days(&mut self, list: &List) -> u64 {
        if !days::taken(list) {
            return 28;
        }
        self.days = list.clone();
        0
    }

    /// The list of days that counts.
    pub fn days(&self) -> &List {
        &self.days
    }

    /// What finish leaves: the blocks and the tree of each kind, or the number of the refusal.
    pub fn finish(&self) -> Result<Closed, u64> {
        let mut blocks = self.blocks.clone();
        blocks.extend(self.pieces.iter().map(|p| p.clone().block(self.end)));
        let closed = Closed { end: self.end, kinds: self.kinds.clone(), trees: (0..KINDS).map(|kind| Tree::of(self.end, kind, &blocks)).collect(), blocks };
        if closed.nodes() > self.room.nodes {
            return Err(12);
        }
        if closed.entries() > self.room.entries {
            return Err(13);
        }
        Ok(closed)
    }

    /// How much of each table is in use: pieces, blocks with pieces, bytes.
    pub fn use_now(&self) -> (u64, u64, u64) {
        (self.pieces.len() as u64, (self.blocks.len() + self.pieces.len()) as u64, self.used)
    }
}

/// The byte of each known cell of each kind, by the operations alone: no pieces.
#[derive(Default)]
pub struct Known(BTreeMap<(u64, u64), u8>);

impl Known {
    /// Takes an accepted operation. Request 2: it is an update from the lowest cell on that was unknown or had another byte, or a read.
    pub fn record(&mut self, op: &Op) -> Recorded {
        let cells = || op.bytes.iter().copied().zip(op.first..);
        let changed = cells().find(|(byte, cell)| self.0.get(&(op.kind, *cell)) != Some(byte));
        self.0.extend(cells().map(|(byte, cell)| ((op.kind, cell), byte)));
        changed.map_or(Recorded::Read, |(_, cell)| Recorded::Update { cell })
    }
}

/// A finished or loaded index: a tree for each kind, by code.
#[derive(Clone, Debug)]
pub struct Closed {
    pub end: u64,
    pub kinds: Vec<u64>,
    pub blocks: Vec<Block>,
    pub trees: Vec<Tree>,
}

impl Closed {
    /// The nodes of all kinds together.
    pub fn nodes(&self) -> u64 {
        self.trees.iter().map(Tree::nodes).sum()
    }

    /// The entries of all kinds together.
    pub fn entries(&self) -> u64 {
        self.trees.iter().map(Tree::entries).sum()
    }

    /// What record answers, whatever the operation.
    pub fn record(&self, scratch: usize) -> u64 {
        if scratch < LEAST_SCRATCH {
            return 2;
        }
        3
    }

    /// The byte of a cell of a kind at a tick, from the live blocks that hold it.
    pub fn cell(&self, kind: u64, tick: u64, cell: u64) -> Option<u8> {
        let block = self.blocks.iter().find(|b| b.kind == kind && b.live(tick) && b.first <= cell && cell < b.end())?;
        Some(block.bytes[(cell - block.first) as usize])
    }

    /// The numbers of the live blocks of a kind whose first cell is in the window, by number; find lists them in another order.
    pub fn starting(&self, kind: u64, tick: u64, start: u64, end: u64) -> Vec<u64> {
        let inside = |b: &Block| b.kind == kind && b.live(tick) && start <= b.first && b.first < end;
        (0..).zip(&self.blocks).filter(|(_, b)| inside(b)).map(|(number, _)| number).collect()
    }

    /// The live blocks of a kind with their numbers, ascending by first cell.
    fn in_order(&self, kind: u64, tick: u64) -> Vec<(u64, &Block)> {
        let mut live: Vec<(u64, &Block)> = (0..).zip(&self.blocks).filter(|(_, b)| b.kind == kind && b.live(tick)).collect();
        live.sort_by_key(|(_, b)| b.first);
        live
    }

    /// Request 1: the numbers of the live blocks of a kind that hold any cell of the window, ascending by cell.
    pub fn touching(&self, kind: u64, tick: u64, start: u64, end: u64) -> Vec<u64> {
        let touches = |b: &Block| (b.first..b.end()).any(|cell| start <= cell && cell < end);
        self.in_order(kind, tick).into_iter().filter(|(_, b)| touches(b)).map(|(number, _)| number).collect()
    }

    /// The first live block of a kind that starts at or after a cell.
    pub fn next(&self, kind: u64, tick: u64, cell: u64) -> Option<u64> {
        self.in_order(kind, tick).into_iter().find(|(_, b)| cell <= b.first).map(|(number, _)| number)
    }

    /// The last live block of a kind whose cells are all below a cell.
    pub fn last(&self, kind: u64, tick: u64, cell: u64) -> Option<u64> {
        self.in_order(kind, tick).into_iter().rev().find(|(_, b)| (b.first..b.end()).all(|own| own < cell)).map(|(number, _)| number)
    }
}
