//! What is measured: a board of bookings, and beside it one of moves.
use crate::clock::{by_turns, timed, Timed};
use crate::file::File;
use crate::play::{self, All};
use crate::port::Tables;
use crate::reads::{Reads, HOUR};
use crate::stream::{self, Stream};
use crate::times::{self, Times};
use crate::{files, ported};
use oracle::index::SpacetimeBlock;

pub struct Board {
    /// About how many pieces were asked for.
    pub size: u64,
    pub pieces: u64,
    pub ops: u64,
    pub blocks: u64,
    /// What is lent, and what the Rust holds, in bytes.
    pub lent: Vec<(&'static str, u64)>,
    pub held: u64,
    pub times: Vec<Times>,
}

impl Board {
    fn new(size: u64, stream: &Stream, all: &All) -> Board {
        let ops = stream.ops.len() as u64;
        Board { size, pieces: stream.pieces, ops, blocks: all.rows.blocks, lent: all.tables.lent(), held: all.held, times: streamed(all) }
    }

    pub fn time(&self, call: &str) -> Option<&Times> {
        self.times.iter().find(|times| times.call == call)
    }
}

/// A stream's times.
fn streamed(all: &All) -> Vec<Times> {
    let All { public, tested, rust, .. } = all;
    let mut times = vec![Times::of("record", [public.record().or(tested.sample()), tested.record(), rust.record()])];
    times.extend(all.lists.iter().map(|&(call, each)| Times::of(call, [each, None, rust.record()])));
    // there is one finish: it goes over all rows anyway
    times.push(Times::of(times::FINISH, [tested.finish(), None, rust.finish()]).for_all_blocks());
    times.push(Times::of(times::WHOLE, [public.whole(), tested.whole(), rust.whole()]).for_all_blocks());
    times
}

/// The tests of both boards, open and closed.
fn tested(all: &[All; 2]) -> [[Times; 2]; 2] {
    let test = |k: usize| -> Option<Timed> { Some(timed(move |_| all[k].tables.test(true))) };
    let of = |call, test| Times::of(call, [test, None, None]).for_all_blocks();
    let [plain, moves] = by_turns([test(0), test(1)]);
    let both = [(&all[0], plain), (&all[1], moves)];
    both.map(|(all, closed)| [of(times::TEST_OPEN, all.test_open), of(times::TEST_CLOSED, closed)])
}

/// The tables hold the Rust's blocks: some of them are looked at here, all that have a life in the file.
fn same_blocks(tables: &Tables, blocks: &[SpacetimeBlock]) {
    for (number, block) in blocks.iter().enumerate().step_by(1 + blocks.len() / 64) {
        assert_eq!(tables.block_bytes_tested(number as u64), block.data, "block {number}");
    }
}

/// The port's file, which is the Rust's but for the order of its blocks.
fn written(tables: &Tables, file: &[u8]) -> Vec<u8> {
    let mut out = vec![7; file.len()];
    assert_eq!(tables.write_tested(&mut out), out.len() as u64, "as many bytes as the Rust writes");
    assert!(File::read(&out).same(&File::read(file)), "the Rust's file, renumbered");
    out
}

/// The reads of a board and its file. Of a board of moves only some, without the public calls.
fn read(stream: &Stream, all: &All, blocks: &[SpacetimeBlock], public: bool, moves: bool) -> (Vec<Times>, Vec<u8>) {
    let All { tables, file, .. } = all;
    same_blocks(tables, blocks);
    let mut out = written(tables, file);
    let mut reads = Reads::new(stream, tables, blocks, file, public && !moves);
    let mut times = vec![
        reads.find("find, an hour of a platform", |cell| (cell, cell + HOUR)),
        reads.touching("touching, an hour of a platform", |cell| (cell, cell + HOUR)),
        reads.find("find, the whole board", |_| (0, u64::MAX)),
        reads.touching("touching, the whole board", |_| (0, u64::MAX)),
    ];
    if !moves {
        let rust = times[0].rust;
        let all = [("find all of 1, an hour, each", 1), ("find all of 100, an hour, each", 100), ("find all of 10,000, an hour, each", 10_000)];
        times.splice(1..1, all.map(|(call, count)| reads.find_all(call, count, rust)));
        times.push(reads.neighbour("next", [Tables::next, Tables::next_tested], ported::next));
        times.push(reads.neighbour("last", [Tables::last, Tables::last_tested], ported::last));
        times.extend([reads.block_bytes(), reads.cells()]);
    }
    times.push(reads.write(&mut out));
    (times, out)
}

/// A public read takes the test and what the one after it takes; where the test alone takes more than this, it is not timed.
const LONG_TEST: f64 = 3e7;

/// Everything on a board of about so many pieces and with so many operations, and on one of moves.
pub fn both(size: u64, count: u64) -> [Board; 2] {
    let streams = [stream::timetable(size, count), stream::moves(size, count)];
    let blocks = [&streams[0], &streams[1]].map(ported::blocks);
    let mut all = [false, true].map(|moves| All::new(&streams[moves as usize], blocks[moves as usize].len() as u64, !moves));
    play::again(&mut all);
    let mut boards = [0, 1].map(|k| Board::new(size, &streams[k], &all[k]));
    let tests = tested(&all);
    let public = tests[0][1].plain().least < LONG_TEST;
    let [(plain_reads, written), (moves_reads, moved)] = [0, 1].map(|k| read(&streams[k], &all[k], &blocks[k], public, k == 1));
    boards[0].times.extend(plain_reads);
    boards[1].times.extend(moves_reads);
    let rows = [all[0].rows, all[1].rows];
    drop((all, blocks));
    let loads = files::loads(rows, &written, &File::read(&written).shuffled(), &moved);
    boards[0].times.extend(loads.plain);
    boards[1].times.push(loads.moves);
    tests.into_iter().zip(&mut boards).for_each(|(tests, board)| board.times.extend(tests));
    boards[0].times.extend(loads.tests);
    boards
}
