//! Boards of five kinds, all of which are updated at each tick, beside boards of one kind: with as many updates at one tick, and with one at each.
use crate::clock::{by_turns, once, runs, timed, Span};
use crate::port::{Rows, Tables};
use crate::stream::{self, Op};
use crate::table::{ratio, time};
use servercape::{GrowingIndex, Kind};

/// An operation with its kind.
type Booked = (Kind, Op);

/// A board: what it is called, its operations, and its end tick.
pub struct Board {
    pub name: &'static str,
    pub ops: Vec<Booked>,
    pub end: u64,
}

fn copy(op: &Op, tick: u64, first: u64) -> Op {
    Op { tick, first, bytes: op.bytes.clone() }
}

/// The same bookings five times at each tick: in all kinds, or on five times as many platforms of one. Then one after the other, on the same platforms of one kind.
fn boards(pieces: u64, count: u64) -> [Board; 3] {
    let many = Kind::ALL.len() as u64;
    let stream = stream::timetable(pieces / many, count / many);
    let ops = || stream.fill.iter().chain(&stream.ops);
    // no platform of a stream has such a number
    let apart = |kind: Kind, first: u64| first + (u64::from(kind.code()) << 56);
    let kinds = ops().flat_map(|op| Kind::ALL.map(|kind| (kind, copy(op, op.tick, op.first)))).collect();
    let platforms = ops().flat_map(|op| Kind::ALL.map(|kind| (Kind::Memory, copy(op, op.tick, apart(kind, op.first))))).collect();
    let single = ops().flat_map(|op| Kind::ALL.map(|kind| (Kind::Memory, copy(op, many * op.tick + u64::from(kind.code()), apart(kind, op.first))))).collect();
    [
        Board { name: "one kind, one update at a tick", ops: single, end: many * stream.end },
        Board { name: "one kind, five updates at a tick", ops: platforms, end: stream.end },
        Board { name: "five kinds, each updated at each tick", ops: kinds, end: stream.end },
    ]
}

impl Board {
    fn kinds(&self) -> Vec<Kind> {
        Kind::ALL.into_iter().filter(|kind| self.ops.iter().take(5).any(|(own, _)| own == kind)).collect()
    }

    /// Just as many rows as it needs.
    pub fn rows(&self) -> Rows {
        let mut index = GrowingIndex::open(self.end, &self.kinds()).expect("open");
        let mut pieces = 0;
        for (kind, op) in &self.ops {
            index.record(*kind, op.tick, op.first, &op.bytes).expect("record");
            pieces = pieces.max(index.used().pieces);
        }
        index.finish().expect("finish");
        let used = index.used();
        Rows { pieces, blocks: used.blocks, bytes: used.bytes, nodes: used.nodes, entries: used.entries }
    }

    /// All operations and the finish: how long one operation takes, and the finish.
    pub fn played(&self, rows: Rows) -> (f64, f64, Tables) {
        let mut tables = Tables::open_kinds(rows, self.end, &self.kinds());
        let all = || self.ops.iter().map(|(kind, op)| tables.record_kind(*kind, op.tick, op.first, &op.bytes)).fold(0, u64::wrapping_add);
        let (record, refused) = once(all);
        assert_eq!(refused, 0, "record");
        let (finish, refused) = once(|| tables.finish());
        assert_eq!(refused, 0, "finish");
        (record / self.ops.len() as f64, finish, tables)
    }
}

/// Every tree of a file, one after the other.
fn load_all(tables: &mut Tables, file: &[u8]) -> u64 {
    let mut at = 0;
    while at < file.len() as u64 {
        at = tables.load_at(file, at);
    }
    at
}

/// What is measured of a board: its blocks, and the times of its calls.
struct Measured {
    blocks: u64,
    record: Span,
    finish: Span,
    test: Span,
    write: Span,
    load: Span,
}

fn measured(boards: &[Board; 3]) -> [Measured; 3] {
    let rows = boards.each_ref().map(Board::rows);
    let each = |k: usize| boards[k].played(rows[k]);
    let mut plays = [0, 1, 2].map(|k| vec![each(k)]);
    // by turns, so that what else the machine does meets all alike
    for _ in 1..runs(plays.iter().map(|play| play[0].1 * 8.0).sum()) {
        (0..3).for_each(|k| plays[k].push(each(k)));
    }
    let tables = plays.each_ref().map(|play| &play[0].2);
    let files = tables.map(|tables| {
        let mut out = vec![0; rows_bytes(tables)];
        let written = tables.write_tested(&mut out);
        out.truncate(written as usize);
        out
    });
    let tests = by_turns(tables.map(|tables| Some(timed(move |_| tables.test(true)))));
    let mut outs = files.clone();
    let [a, b, c] = &mut outs;
    let writes = by_turns([(a, 0), (b, 1), (c, 2)].map(|(out, k)| Some(timed(move |_| tables[k].write_tested(out)))));
    let mut spaces = [0, 1, 2].map(|k| Tables::open_kinds(rows[k], 1, &[Kind::Memory]));
    let [a, b, c] = &mut spaces;
    let loads = by_turns([(a, 0), (b, 1), (c, 2)].map(|(space, k)| {
        let file = &files[k];
        Some(timed(move |_| load_all(space, file)))
    }));
    [0, 1, 2].map(|k| Measured {
        blocks: rows[k].blocks,
        record: Span::of(plays[k].iter().map(|play| play.0).collect()),
        finish: Span::of(plays[k].iter().map(|play| play.1).collect()),
        test: tests[k].expect("timed"),
        write: writes[k].expect("timed"),
        load: loads[k].expect("timed"),
    })
}

/// More than a file can have.
fn rows_bytes(tables: &Tables) -> usize {
    tables.lent().iter().map(|(_, bytes)| *bytes as usize).sum::<usize>() * 5 + 100
}

/// A row's name, its time, and whether it goes over all blocks.
type Row = (&'static str, fn(&Measured) -> Span, bool);

const ROWS: [Row; 5] = [
    ("record", |m| m.record, false),
    ("finish", |m| m.finish, true),
    ("the test of refusal 2, closed", |m| m.test, true),
    ("write", |m| m.write, true),
    ("load, all trees", |m| m.load, true),
];

pub fn print(pieces: u64, count: u64) {
    let boards = boards(pieces, count);
    let all = measured(&boards);
    println!("\nFive kinds, about {pieces} pieces, {} operations: least of the runs, after one test; in brackets by the first board, a block or an operation.\n", boards[0].ops.len());
    println!("| call | {} |", boards.iter().zip(&all).map(|(board, m)| format!("{}, {} blocks", board.name, m.blocks)).collect::<Vec<_>>().join(" | "));
    println!("|---|---|---|---|");
    for (call, of, over_blocks) in ROWS {
        let each = |m: &Measured| of(m).least / if over_blocks { m.blocks as f64 } else { 1.0 };
        let cells = all.iter().map(|m| format!("{} ({})", time(of(m).least), ratio(each(m) / each(&all[0]))));
        println!("| {call} | {} |", cells.collect::<Vec<_>>().join(" | "));
    }
}
