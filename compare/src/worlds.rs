//! The lists that are tried: every list of a small world, and random ones around each boundary.
use crate::board::{Board, Op, KINDS, LEAST_SCRATCH};
use crate::lists::{need, Case, UNBOUNDED};
use crate::random::Random;
use crate::rust::Query;
use servercape::{Index, Room};

// ── every list of a small world ──

/// Ticks below `end`, cells below `cells`, bytes 1 to `letters`, lists of up to `most` operations with ticks that do not go back.
pub struct World {
    pub end: u64,
    pub cells: u64,
    pub letters: u64,
    pub most: usize,
}

impl World {
    /// What can be recorded at a tick.
    fn ops(&self) -> Vec<Op> {
        let mut ops = vec![];
        for first in 0..self.cells {
            for length in 1..=self.cells - first {
                for code in 0..self.letters.pow(length as u32) {
                    let bytes = (0..length as u32).map(|i| (code / self.letters.pow(i) % self.letters) as u8 + 1).collect();
                    ops.push(Op { kind: 1, tick: 0, first, bytes });
                }
            }
        }
        ops
    }

    /// Every list, the empty one too.
    pub fn lists(&self) -> Vec<Vec<Op>> {
        let ops = self.ops();
        let mut all = vec![vec![]];
        let mut longest: Vec<Vec<Op>> = vec![vec![]];
        for _ in 0..self.most {
            let longer = |list: &Vec<Op>| {
                let from = list.last().map_or(0, |op| op.tick);
                let with = |tick: u64, op: &Op| list.iter().cloned().chain([Op { tick, ..op.clone() }]).collect::<Vec<Op>>();
                (from..self.end).flat_map(|tick| ops.iter().map(move |op| (tick, op))).map(|(tick, op)| with(tick, op)).collect::<Vec<_>>()
            };
            longest = longest.iter().flat_map(longer).collect();
            all.extend(longest.iter().cloned());
        }
        all
    }

    /// A list with a find at each tick over all cells, and one over the second cell.
    pub fn case(&self, ops: Vec<Op>) -> Case {
        let whole = (0..self.end).map(|tick| (tick, 0, self.cells));
        let queries = whole.chain([(self.end - 1, 1, 2)]).collect();
        Case { end: self.end, kinds: vec![1], room: Room { pieces: 8, blocks: 16, bytes: 16, nodes: 16, entries: 32 }, ops, queries }
    }
}

// ── random lists ──

const LAST: u64 = Index::MAX_END_TICK;
const ENDS: [u64; 24] = [
    1, 2, 3, 4, 5, 7, 8, 9, 15, 16, 17, 31, 32, 33, 63, 64, 65, 127, 128, 129, 1000, 1 << 32, LAST - 1, LAST,
];

/// A table that a list's room may be short of.
#[derive(Clone, Copy)]
pub enum Table {
    Pieces,
    Blocks,
    Bytes,
    Nodes,
    Entries,
}

pub const TABLES: [Table; 5] = [Table::Pieces, Table::Blocks, Table::Bytes, Table::Nodes, Table::Entries];

/// How a random list is made.
struct Style {
    kinds: Vec<u64>,
    end: u64,
    base: u64,
    span: u64,
    wide: u64,
    letters: u64,
    step: u64,
    faults: bool,
    /// Operations that meet a difference are left out, so that the Rust is given the whole list.
    whole: bool,
}

fn style(random: &mut Random, size: u64, kinds: Vec<u64>) -> Style {
    let end = random.of(&ENDS);
    let span = random.of(&[1, 2, 3, 4, 8, 16, 40]);
    let top = u64::MAX - span;
    Style {
        kinds,
        end,
        base: random.of(&[0, 0, 1, 100, 1430, (1 << 32) - 3, (1 << 63) - 2, top]),
        span,
        wide: random.of(&[1, 2, 3, span]),
        letters: random.of(&[1, 2, 2, 256]),
        step: random.of(&[1, 2, end / (size + 1) + 1, (end / (size + 1)).saturating_mul(2) | 1]),
        faults: random.once_in(2),
        whole: random.once_in(2),
    }
}

fn op(random: &mut Random, style: &Style, tick: u64) -> Op {
    let length = 1 + random.below(style.wide.min(style.span));
    let first = style.base + random.below(style.span - length + 1);
    let bytes = (0..length).map(|_| random.below(style.letters) as u8).collect();
    Op { kind: random.of(&style.kinds), tick, first, bytes }
}

/// An operation that is refused, or nearly: any kind, no cells, an end that wraps, a tick past the end or before the last.
fn spoiled(random: &mut Random, end: u64, last: u64, op: Op) -> Op {
    match random.below(5) {
        4 => Op { kind: random.below(KINDS), ..op },
        0 => Op { bytes: vec![], ..op },
        1 => Op { first: u64::MAX - random.below(op.bytes.len() as u64 + 1), ..op },
        2 => Op { tick: end + random.below(2), ..op },
        _ => Op { tick: last.saturating_sub(random.below(2)), ..op },
    }
}

/// A list of so many operations of one kind, with room for all of it and a little more.
pub fn random_case(random: &mut Random, size: u64) -> Case {
    let kind = random.below(KINDS);
    case_of(random, size, vec![kind])
}

/// The same over several kinds, which ascend; they stand on the same cells. Now and then one table has one row less than is needed, as many, or one more.
pub fn kinds_case(random: &mut Random, size: u64) -> Case {
    let many = 2 + random.below(KINDS - 1);
    let mut kinds: Vec<u64> = (0..KINDS).collect();
    while kinds.len() as u64 > many {
        kinds.remove(random.below(kinds.len() as u64) as usize);
    }
    let mut case = case_of(random, size, kinds);
    if random.once_in(4) {
        let (table, less) = (random.of(&TABLES), random.of(&[-1, 0, 1]));
        tighten(&mut case, table, less);
    }
    case
}

fn case_of(random: &mut Random, size: u64, kinds: Vec<u64>) -> Case {
    let style = style(random, size, kinds);
    let mut board = Board::open(style.end, &style.kinds, UNBOUNDED);
    let (mut tick, mut ops) = (0u64, vec![]);
    for _ in 0..size {
        let later = tick.saturating_add(random.below(style.step));
        let next = op(random, &style, later.min(style.end - 1));
        if style.faults && random.once_in(8) {
            ops.push(spoiled(random, style.end, tick, next));
        } else if style.whole && board.meets(&next).is_some() {
            continue;
        } else {
            ops.push(next);
        }
        let last = ops.last().unwrap();
        if board.record(last, LEAST_SCRATCH) == 0 {
            tick = last.tick;
        }
    }
    let queries = queries(random, &style, tick);
    let mut case = Case { end: style.end, kinds: style.kinds, room: UNBOUNDED, ops, queries };
    let need = need(&case);
    case.room = Room { pieces: need.pieces + 2, blocks: need.blocks + 2, bytes: need.bytes + 2, nodes: need.nodes + 2, entries: need.entries + 2 };
    case
}

fn queries(random: &mut Random, style: &Style, last: u64) -> Vec<Query> {
    let mut queries = vec![(last, 0, u64::MAX), (style.end - 1, style.base, style.base + style.span)];
    for _ in 0..random.below(4) {
        let start = style.base.saturating_sub(2) + random.below(style.span + 2);
        let end = start.saturating_add(random.below(style.span + 2));
        queries.push((random.below(style.end.min(last + 2)), start, end));
    }
    queries
}

/// A list whose room in one table is what it needs, one less or one more.
pub fn tight_case(random: &mut Random, size: u64, table: Table, less: i64) -> Case {
    let mut case = random_case(random, size);
    tighten(&mut case, table, less);
    case
}

fn tighten(case: &mut Case, table: Table, less: i64) {
    let need = need(case);
    let room = |rows: u64| rows.saturating_add_signed(less);
    match table {
        Table::Pieces => case.room.pieces = room(need.pieces),
        Table::Blocks => case.room.blocks = room(need.blocks),
        Table::Bytes => case.room.bytes = room(need.bytes),
        Table::Nodes => case.room.nodes = room(need.nodes),
        Table::Entries => case.room.entries = room(need.entries),
    }
}
