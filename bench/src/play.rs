//! A whole stream, by the public calls, by those after one test and by the Rust.
use crate::clock::{by_turns, once, runs, timed, Span};
use crate::file::File;
use crate::memory;
use crate::port::{Rows, Tables};
use crate::ported;
use crate::stream::{Op, Stream};
use servercape::put_operation;

/// From so many operations on the public calls, each of which tests all rows, would take hours.
const LARGE: usize = 100_000;

/// On such a board so many operations, the last ones, are recorded by the public call, and only they.
const SAMPLE: usize = 16;

/// Times of a stream: an operation, one of the sample, finish, and all with the filling of the board.
struct Played {
    record: f64,
    sample: Option<f64>,
    finish: f64,
    whole: f64,
}

type Record = fn(&mut Tables, u64, u64, &[u8]) -> u64;

/// Records operations: how long each takes.
fn recorded(tables: &mut Tables, ops: &[Op], record: Record) -> f64 {
    let (taken, refused) = once(|| ops.iter().map(|op| record(tables, op.tick, op.first, &op.bytes)).fold(0, u64::wrapping_add));
    assert_eq!(refused, 0, "record");
    taken / ops.len() as f64
}

/// Plays a stream by the public calls or by those after one test; of a large one the last operations by the public ones. `open` is given the tables before
/// finish.
fn played(stream: &Stream, rows: Rows, tested: bool, open: impl FnOnce(&Tables)) -> (Played, Tables) {
    let Stream { fill, ops, .. } = stream;
    let mut tables = Tables::open(rows, stream.end);
    let record = if tested { Tables::record_tested } else { Tables::record };
    let (most, last) = ops.split_at(if ops.len() < LARGE { ops.len() } else { ops.len() - SAMPLE });
    let filled = recorded(&mut tables, fill, record) * fill.len() as f64;
    let record = recorded(&mut tables, most, record);
    let sample = (!last.is_empty()).then(|| recorded(&mut tables, last, Tables::record));
    open(&tables);
    let (finish, refused) = once(|| tables.finish());
    assert_eq!(refused, 0, "finish");
    (Played { record, sample, finish, whole: filled + record * ops.len() as f64 + finish }, tables)
}

/// Rows of `record_all`: their names, how many operations a list has, and how many lists are timed, the last ones of the stream.
const LISTS: [(&str, usize, usize); 3] = [("record all of 1, each", 1, 16), ("record all of 100, each", 100, 4), ("record all of 10,000, each", 10_000, 1)];

/// Records the last operations of a stream in lists: how long each operation takes. None where the stream has fewer.
fn listed(stream: &Stream, rows: Rows, length: usize, lists: usize) -> Option<f64> {
    let Stream { fill, ops, .. } = stream;
    let (most, last) = ops.split_at(ops.len().checked_sub(length * lists)?);
    let mut tables = Tables::open(rows, stream.end);
    recorded(&mut tables, fill, Tables::record_tested);
    if !most.is_empty() {
        recorded(&mut tables, most, Tables::record_tested);
    }
    let list = |ops: &[Op]| {
        let mut list = vec![];
        ops.iter().for_each(|op| put_operation(&mut list, op.tick, op.first, &op.bytes));
        list
    };
    let all: Vec<Vec<u8>> = last.chunks(length).map(list).collect();
    let mut answers = vec![7; 3 * length];
    let (taken, played) = once(|| all.iter().map(|list| tables.record_all(list, &mut answers)).sum::<u64>());
    assert_eq!(played, last.len() as u64, "record all");
    assert!(answers.iter().step_by(3).all(|&refusal| refusal == 0), "record all");
    Some(taken / last.len() as f64)
}

/// Plays a stream by the Rust: its times, its file, and the bytes that it holds in the end.
fn played_by_rust(stream: &Stream) -> (Played, Vec<u8>, u64) {
    let before = memory::in_use();
    let (mut indexer, file) = ported::indexer(stream);
    let mut all = |ops: &[Op]| {
        let ops = ported::operations(ops);
        once(|| ops.into_iter().for_each(|op| indexer.record_op(op))).0
    };
    let (fill, ops) = (all(&stream.fill), all(&stream.ops));
    let (finish, _) = once(|| indexer.finalize());
    let held = memory::in_use().saturating_sub(before);
    indexer.save_indices().unwrap();
    drop(indexer);
    (Played { record: ops / stream.ops.len() as f64, sample: None, finish, whole: fill + ops + finish }, file.take(), held)
}

/// Several runs of a stream, by one side.
#[derive(Default)]
pub struct Plays(Vec<Played>);

impl Plays {
    fn span(&self, part: impl Fn(&Played) -> Option<f64>) -> Option<Span> {
        let runs: Vec<f64> = self.0.iter().filter_map(part).collect();
        (!runs.is_empty()).then(|| Span::of(runs))
    }

    pub fn record(&self) -> Option<Span> {
        self.span(|played| Some(played.record))
    }

    pub fn sample(&self) -> Option<Span> {
        self.span(|played| played.sample)
    }

    pub fn finish(&self) -> Option<Span> {
        self.span(|played| Some(played.finish))
    }

    pub fn whole(&self) -> Option<Span> {
        self.span(|played| Some(played.whole))
    }
}

/// What comes of a stream: its runs, the test before finish, the closed tables and their rows, the Rust's file and the bytes that the Rust holds.
pub struct All<'a> {
    stream: &'a Stream,
    pub public: Plays,
    pub tested: Plays,
    pub rust: Plays,
    /// An operation by `record_all`, by the length of its lists.
    pub lists: Vec<(&'static str, Option<Span>)>,
    /// How many runs by the public calls are still to come.
    public_left: usize,
    pub test_open: Option<Span>,
    pub tables: Tables,
    pub rows: Rows,
    pub file: Vec<u8>,
    pub held: u64,
}

impl<'a> All<'a> {
    /// The first run of each side; of the public calls only where it is asked for and the board is not large.
    pub fn new(stream: &'a Stream, blocks: u64, public_too: bool) -> All<'a> {
        let (rust, file, held) = played_by_rust(stream);
        let (nodes, entries) = File::read(&file).nodes_and_entries();
        let rows = Rows { pieces: stream.most_pieces, blocks, bytes: stream.bytes, nodes, entries };
        let mut test_open = None;
        let (tested, tables) = played(stream, rows, true, |tables| [test_open] = by_turns([Some(timed(|_| tables.test(false)))]));
        let (public, tested, rust) = (Plays::default(), Plays(vec![tested]), Plays(vec![rust]));
        let mut all = All { stream, public, tested, rust, lists: vec![], public_left: 0, test_open, tables, rows, file, held };
        if public_too {
            all.lists = LISTS.map(|(call, length, lists)| (call, all.lists_run(length, lists))).into();
        }
        if public_too && stream.ops.len() < LARGE {
            all.public_run();
            all.public_left = runs(4.0 * all.public.0[0].whole) - 1;
        }
        all
    }

    /// Some runs with lists.
    fn lists_run(&self, length: usize, lists: usize) -> Option<Span> {
        let each = |_| listed(self.stream, self.rows, length, lists);
        (0..runs(4.0 * self.tested.0[0].whole)).map(each).collect::<Option<Vec<f64>>>().map(Span::of)
    }

    fn public_run(&mut self) {
        let (played, tables) = played(self.stream, self.rows, false, |_| ());
        assert!(self.tables == tables, "the public calls and those after one test leave the same tables");
        self.public.0.push(played);
    }

    /// One more run of each side.
    fn again(&mut self) {
        self.rust.0.push(played_by_rust(self.stream).0);
        self.tested.0.push(played(self.stream, self.rows, true, |_| ()).0);
        if self.public_left > 0 {
            self.public_left -= 1;
            self.public_run();
        }
    }
}

/// Plays streams again, by turns.
pub fn again(all: &mut [All]) {
    let each = |all: &All| all.tested.0[0].whole + all.rust.0[0].whole;
    for _ in 1..runs(all.iter().map(each).sum()) {
        all.iter_mut().for_each(All::again);
    }
}
