//! Lists of operations, played by the proved calls, by the plain reading of the document and by the Rust, which is given each kind by itself.
use crate::board::{Block, Board, Closed, Difference, Known, Op, KINDS, LEAST_SCRATCH};
use crate::file;
use crate::reports;
use crate::rust::{Answer, Job, Query, Rust};
use crate::tally::Tally;
use servercape::{Index, Kind, Recorded, Refusal, Room};
use std::collections::BTreeMap;
use std::ops::Range;

#[derive(Clone, Debug)]
pub struct Case {
    pub end: u64,
    /// Ascending.
    pub kinds: Vec<u64>,
    pub room: Room,
    pub ops: Vec<Op>,
    pub queries: Vec<Query>,
}

/// Room for anything that is tried here.
pub const UNBOUNDED: Room = Room { pieces: u64::MAX, blocks: u64::MAX, bytes: u64::MAX, nodes: u64::MAX, entries: u64::MAX };

// ── what the document says ──

/// What must come of a list.
struct Expected {
    /// What record says of each operation with each scratch that is tried, or the number of its refusal.
    recorded: Vec<Told>,
    closed: Result<Closed, u64>,
    /// The accepted operations, and for each kind the first of its own that meets a difference: where it stands among them.
    accepted: Vec<Op>,
    meets: BTreeMap<u64, (usize, Difference)>,
}

/// What record must say of an operation with a scratch of so many numbers.
struct Told {
    op: Op,
    scratch: usize,
    answer: Result<Recorded, u64>,
}

/// The lengths of a scratch that are tried with one operation after the other: too short twice, then by turns just long enough, longer, as long as the pieces.
fn scratches(room: Room, place: usize) -> [usize; 3] {
    let enough = [LEAST_SCRATCH, LEAST_SCRATCH + 1, 8 + 8 * room.pieces as usize];
    [0, LEAST_SCRATCH - 1, enough[place % enough.len()]]
}

fn expected(case: &Case) -> Expected {
    let mut board = Board::open(case.end, &case.kinds, case.room);
    let mut known = Known::default();
    let (mut recorded, mut accepted, mut meets) = (vec![], vec![], BTreeMap::new());
    let calls = case.ops.iter().enumerate().flat_map(|(place, op)| scratches(case.room, place).map(|scratch| (op, scratch)));
    for (op, scratch) in calls {
        let before = board.clone();
        let number = board.record(op, scratch);
        let answer = if number == 0 { Ok(known.record(op)) } else { Err(number) };
        recorded.push(Told { op: op.clone(), scratch, answer });
        if number != 0 {
            continue;
        }
        if let Some(difference) = before.meets(op) {
            meets.entry(op.kind).or_insert((accepted.len(), difference));
        }
        accepted.push(op.clone());
    }
    Expected { recorded, closed: board.finish(), accepted, meets }
}

/// How much room a list needs, at its fullest.
pub fn need(case: &Case) -> Room {
    let mut board = Board::open(case.end, &case.kinds, UNBOUNDED);
    let mut most = (0, 0, 0);
    for op in &case.ops {
        board.record(op, LEAST_SCRATCH);
        let (pieces, blocks, bytes) = board.use_now();
        most = (most.0.max(pieces), most.1.max(blocks), most.2.max(bytes));
    }
    let closed = board.finish().expect("room for anything");
    Room { pieces: most.0, blocks: most.1, bytes: most.2, nodes: closed.nodes(), entries: closed.entries() }
}

// ── what the proved calls answer ──

pub fn number<T>(answer: &Result<T, Refusal>) -> u64 {
    answer.as_ref().err().map_or(0, |refusal| refusal.number())
}

pub fn kind_of(code: u64) -> Kind {
    Kind::ALL[code as usize]
}

pub fn kinds_of(codes: &[u64]) -> Vec<Kind> {
    codes.iter().copied().map(kind_of).collect()
}

/// Opened with the kinds in another order, and one of them twice.
fn opened(case: &Case, tally: &mut Tally) -> Index {
    let mut kinds = kinds_of(&case.kinds);
    kinds.reverse();
    kinds.push(kinds[0]);
    let index = Index::open(case.room, case.end, &kinds).expect("an end tick and kinds that opening takes");
    tally.same(|| format!("opened kinds of {case:?}"), &index.kinds().collect(), &kinds_of(&case.kinds));
    index
}

pub fn owned(block: servercape::Block) -> Block {
    Block { kind: block.kind.code().into(), first: block.first, created: block.created, destroyed: block.destroyed, bytes: block.bytes.to_vec() }
}

/// Records an operation and compares with the document: the number of the refusal; else what changed.
fn recorded(index: &mut Index, want: &Told, tally: &mut Tally, of: &dyn Fn() -> String) {
    let Told { op, scratch, answer: want } = want;
    let got = index.record_with(&vec![77; *scratch], kind_of(op.kind), op.tick, op.first, &op.bytes);
    if *scratch < LEAST_SCRATCH {
        return short(number(&got), *scratch, want.err(), tally, of);
    }
    tally.same(|| format!("record {op:?} of {}", of()), &number(&got), &want.err().unwrap_or(0));
    tally.count(1, "operations recorded, the answer compared with the document", 1);
    match got {
        Err(refusal) => tally.refused(refusal.number()),
        Ok(recorded) => {
            tally.same(|| format!("change by {op:?} of {}", of()), &Some(recorded), &want.ok());
            match recorded.cell() {
                None => tally.count(8, "reads compared with the document", 1),
                Some(_) => tally.count(9, "updates compared with the document, by their first changed cell", 1),
            }
        }
    }
}

/// What came of a scratch that is too short.
fn short(got: u64, scratch: usize, want: Option<u64>, tally: &mut Tally, of: &dyn Fn() -> String) {
    tally.same(|| format!("short scratch, {scratch} of {}", of()), &Some(got), &want);
    tally.count(1, "operations with a scratch that is too short, the answer compared with the document", 1);
    tally.refused(got);
}

/// Record on a closed index, which nothing may change: what is read afterwards is compared.
pub fn closed_records(index: &mut Index, want: &Closed, tally: &mut Tally, of: &dyn Fn() -> String) {
    for scratch in [0, LEAST_SCRATCH - 1, LEAST_SCRATCH, LEAST_SCRATCH + 1] {
        let got = number(&index.record_with(&vec![77; scratch], kind_of(scratch as u64 % KINDS), want.end - 1, 0, &[1]));
        tally.same(|| format!("closed index, scratch of {scratch} of {}", of()), &got, &want.record(scratch));
        tally.refused(got);
    }
}

/// Plays a list, compares every answer with the document's, and gives the finished index.
fn played(case: &Case, want: &Expected, tally: &mut Tally) -> Option<Index> {
    let mut index = opened(case, tally);
    for want in &want.recorded {
        recorded(&mut index, want, tally, &|| format!("{case:?}"));
    }
    let got = number(&index.finish());
    tally.same(|| format!("finish of {case:?}"), &got, &want.closed.as_ref().err().copied().unwrap_or(0));
    if got != 0 {
        tally.refused(got);
    }
    if let (0, Ok(closed)) = (got, &want.closed) {
        closed_records(&mut index, closed, tally, &|| format!("{case:?}"));
    }
    (got == 0).then_some(index)
}

/// Reads a closed index and compares with the document: blocks, and of each kind finds, touching blocks, neighbours, cells and refused reads.
pub fn read(index: &Index, want: &Closed, queries: &[Query], tally: &mut Tally, of: &dyn Fn() -> String) {
    let blocks: Vec<Block> = index.blocks().expect("a closed index").map(owned).collect();
    tally.same(|| format!("blocks of {}", of()), &blocks, &want.blocks);
    tally.count(2, "blocks compared with the document, their kinds too", blocks.len() as u64);
    let past = number(&index.block(want.blocks.len() as u64));
    tally.same(|| format!("block past the last of {}", of()), &past, &15);
    for &query in queries {
        for &kind in &want.kinds {
            read_kind(index, want, kind, query, tally, of);
        }
        not_opened(index, want, query, tally, of);
    }
}

/// The reads of one kind for a window.
fn read_kind(index: &Index, want: &Closed, kind: u64, query: Query, tally: &mut Tally, of: &dyn Fn() -> String) {
    let (tick, start, end) = query;
    let sorted = |kind: u64| {
        let mut found = index.find(kind_of(kind), tick, start..end).expect("a tick and a window that find takes");
        found.numbers.sort();
        found
    };
    let (found, starting) = (sorted(kind), want.starting(kind, tick, start, end));
    tally.same(|| format!("find {kind} {query:?} of {}", of()), &found.numbers, &starting);
    tally.same(|| format!("visited by find {kind} {tick} of {}", of()), &found.visited, &want.trees[kind as usize].visited(tick));
    tally.count(3, "finds compared with the document", 1);
    let other = want.kinds.iter().copied().find(|&other| other != kind);
    if let Some(other) = other.filter(|&other| tally.mixes(|| want.starting(other, tick, start, end) != starting)) {
        tally.same(|| format!("kind {other} asked for {kind}, {query:?} of {}", of()), &sorted(other).numbers, &starting);
    }
    let find = |tick, window, answer: &mut [u64]| number(&index.find_into(kind_of(kind), tick, window, answer));
    refused_windows(&find, "find", want, query, found.numbers.len(), tally, of);
    touching(index, want, kind, query, tally, of);
    neighbours(index, want, kind, query, tally, of);
    cells(index, want, kind, query, tally, of);
    reports::read(index, want, kind, query, tally, of);
}

/// Every read of a kind that was not opened, before 14 and 15.
fn not_opened(index: &Index, want: &Closed, (_, start, end): Query, tally: &mut Tally, of: &dyn Fn() -> String) {
    let Some(kind) = (0..KINDS).find(|kind| !want.kinds.contains(kind)).map(kind_of) else { return };
    let (late, window) = (want.end, end..start);
    let got = [
        number(&index.find(kind, late, window.clone())),
        number(&index.touching(kind, late, window.clone())),
        number(&index.next(kind, late, start)),
        number(&index.last(kind, late, end)),
        number(&index.occupation(kind, late, &[window.clone()])),
        number(&index.cells(kind, late, window)),
    ];
    tally.same(|| format!("kind not opened, {kind} of {}", of()), &got, &[25; 6]);
    got.into_iter().for_each(|got| tally.refused(got));
}

/// A call that lists block numbers of a window in a slice: 0, or the number of its refusal.
type Lists<'a> = &'a dyn Fn(u64, Range<u64>, &mut [u64]) -> u64;

/// Such a call with a slice that is too short by one, at the end tick, and with a window turned round.
fn refused_windows(ask: Lists, call: &str, want: &Closed, (tick, start, end): Query, count: usize, tally: &mut Tally, of: &dyn Fn() -> String) {
    let mut answer = vec![77; count.saturating_sub(1)];
    if count > 0 {
        let got = ask(tick, start..end, &mut answer);
        tally.same(|| format!("{call} {tick} {start} {end} into too few of {}", of()), &got, &16);
        tally.refused(got);
    }
    let late = ask(want.end, start..end, &mut answer);
    tally.same(|| format!("{call} at the end of {}", of()), &late, &14);
    tally.refused(late);
    if start < end {
        let turned = ask(tick, end..start, &mut answer);
        tally.same(|| format!("{call} {end} {start} of {}", of()), &turned, &15);
        tally.refused(turned);
    }
    tally.same(|| format!("answer of refused {call} of {}", of()), &answer.iter().all(|&k| k == 77), &true);
}

/// Cells at which the answer about a window may change, ascending: its own bounds, and those of the first and the last block that it touches, with the cells
/// before and after.
fn edges(want: &Closed, kind: u64, (tick, start, end): Query) -> Vec<u64> {
    let touching = want.touching(kind, tick, start, end);
    let mut cells = vec![start, end];
    for &number in touching.first().into_iter().chain(touching.last()) {
        let block = &want.blocks[number as usize];
        cells.extend([block.first.saturating_sub(1), block.first, block.first + 1, block.end() - 1, block.end(), block.end().saturating_add(1)]);
    }
    cells.sort();
    cells.dedup();
    cells
}

/// The blocks that touch a window: the window that is asked, those between its edges, and an empty one at an edge inside.
fn touching(index: &Index, want: &Closed, kind: u64, query: Query, tally: &mut Tally, of: &dyn Fn() -> String) {
    let (tick, start, end) = query;
    let edges = edges(want, kind, query);
    let middle = edges[edges.len() / 2];
    let between = edges.windows(2).map(|pair| (pair[0], pair[1]));
    for (start, end) in between.chain([(start, end), (middle, middle)]) {
        let got = index.touching(kind_of(kind), tick, start..end).expect("a tick and a window that touching takes");
        tally.same(|| format!("touching {kind} {tick} {start} {end} of {}", of()), &got, &want.touching(kind, tick, start, end));
        tally.count(6, "lists of touching blocks compared with the document, their order too", 1);
    }
    let ask = |tick, window, answer: &mut [u64]| number(&index.touching_into(kind_of(kind), tick, window, answer));
    refused_windows(&ask, "touching", want, query, want.touching(kind, tick, start, end).len(), tally, of);
}

/// Next and last at the same edges, at the first cell and at the last one; and at the end tick.
fn neighbours(index: &Index, want: &Closed, kind: u64, query: Query, tally: &mut Tally, of: &dyn Fn() -> String) {
    let (tick, named) = (query.0, kind_of(kind));
    for cell in edges(want, kind, query).into_iter().chain([0, u64::MAX]) {
        let next = index.next(named, tick, cell).expect("a tick that next takes");
        tally.same(|| format!("next block {kind} {tick} {cell} of {}", of()), &next, &want.next(kind, tick, cell));
        let last = index.last(named, tick, cell).expect("a tick that last takes");
        tally.same(|| format!("last block {kind} {tick} {cell} of {}", of()), &last, &want.last(kind, tick, cell));
        tally.count(7, "neighbours compared with the document", 2);
    }
    let late = [number(&index.next(named, want.end, query.1)), number(&index.last(named, want.end, query.1))];
    tally.same(|| format!("neighbours at the end of {}", of()), &late, &[14, 14]);
    late.into_iter().for_each(|got| tally.refused(got));
}

/// Some cells from a place on.
fn cells(index: &Index, want: &Closed, kind: u64, (tick, start, _): Query, tally: &mut Tally, of: &dyn Fn() -> String) {
    let end = start.saturating_add(24);
    let shown: Vec<Option<u8>> = (start..end).map(|c| want.cell(kind, tick, c)).collect();
    let got = index.cells(kind_of(kind), tick, start..end).expect("a tick and a window that read cells takes");
    tally.same(|| format!("cells {start} to {end} of kind {kind} at {tick} of {}", of()), &got, &shown);
    tally.count(4, "cells read and compared with the document", end - start);
}

/// The file of an index: its bytes, and of several kinds each part loaded by itself. Gives the parts.
fn written(case: &Case, index: &Index, want: &Closed, tally: &mut Tally) -> Vec<Vec<u8>> {
    let file = index.write().expect("a closed index");
    tally.same(|| format!("file of {case:?}"), &file, &file::written(want));
    tally.count(5, "file bytes compared with the document", file.len() as u64);
    let parts = file::parts(&file);
    let mut at = 0;
    for (kind, bytes) in parts.iter().filter(|_| case.kinds.len() > 1) {
        let Ok((loaded, next)) = Index::load(&file, at) else {
            tally.differs(format!("part of kind {kind} is not loaded, of {case:?}"));
            break;
        };
        let own: Vec<Block> = want.blocks.iter().filter(|block| block.kind == *kind && block.has_life()).cloned().collect();
        let blocks: Vec<Block> = loaded.blocks().expect("a loaded index").map(owned).collect();
        tally.same(|| format!("loaded kind of {case:?}"), &loaded.kinds().collect(), &vec![kind_of(*kind)]);
        tally.same(|| format!("part of kind {kind} of {case:?}"), &(&blocks, next - at, loaded.write()), &(&own, bytes.len(), Ok(bytes.clone())));
        tally.count(18, "parts of files of several kinds, loaded by themselves and written again", 1);
        at = next;
    }
    parts.into_iter().map(|(_, bytes)| bytes).collect()
}

// ── what the Rust gives ──

/// One kind of a list that has been played, and what the Rust is asked about it: the operations of the kind up to the first difference, or with it.
struct Asked {
    case: Case,
    kind: u64,
    ops: Vec<Op>,
    blocks: Vec<Block>,
    listed: Vec<Vec<Block>>,
    file: Vec<u8>,
    with_difference: Option<Difference>,
}

pub fn lists_of(index: &Index, kind: Kind, blocks: &[Block], queries: &[Query]) -> Vec<Vec<Block>> {
    let list = |&(tick, start, end): &Query| {
        let found = index.find(kind, tick, start..end).expect("a tick and a window that find takes");
        found.numbers.iter().map(|&k| blocks[k as usize].clone()).collect()
    };
    queries.iter().map(list).collect()
}

fn asked(case: &Case, kind: u64, index: &Index, with_difference: Option<Difference>) -> Asked {
    let all: Vec<Block> = index.blocks().expect("a closed index").map(owned).collect();
    let listed = lists_of(index, kind_of(kind), &all, &case.queries);
    let file = file::parts(&index.write().expect("a closed index")).into_iter().find(|part| part.0 == kind).map_or(vec![], |part| part.1);
    let ops = case.ops.iter().filter(|op| op.kind == kind).cloned().collect();
    Asked { case: case.clone(), kind, ops, blocks: all.into_iter().filter(|block| block.kind == kind).collect(), listed, file, with_difference }
}

fn compared(asked: &Asked, answer: &Answer, tally: &mut Tally) {
    let (kind, case) = (asked.kind, &asked.case);
    if let Some(difference) = asked.with_difference {
        let (line, run, others) = match difference {
            Difference::D1 => (20, "lists run up to an operation that meets D1", "  of these the Rust gave other blocks"),
            Difference::D2 => (22, "lists run up to an operation that meets D2", "  of these the Rust gave other blocks"),
        };
        tally.count(line, run, 1);
        tally.count(line + 1, others, (answer.failed.is_some() || answer.blocks != asked.blocks) as u64);
        return;
    }
    tally.count(10, "lists compared with the Rust, each kind by itself", 1);
    if case.kinds.len() > 1 {
        tally.count(11, "  of these one of several kinds", 1);
    }
    if let Some(why) = &answer.failed {
        return tally.differs(format!("the Rust fails, {why}, on kind {kind} of {case:?}"));
    }
    tally.same(|| format!("blocks of the Rust for kind {kind} of {case:?}"), &asked.blocks, &answer.blocks);
    tally.count(11, "blocks compared with the Rust, their order too", answer.blocks.len() as u64);
    for ((got, want), query) in asked.listed.iter().zip(&answer.finds).zip(&case.queries) {
        tally.same(|| format!("find {query:?} of the Rust for kind {kind} of {case:?}"), &Some(got), &want.as_ref());
        tally.count(12, "finds compared with the Rust, their order too", 1);
    }
    let want = match file::parsed(&answer.file, 0) {
        Err(_) => Some(vec![]),
        Ok((parsed, _)) => file::reordered(&parsed, &asked.blocks),
    };
    tally.same(|| format!("file of the Rust for kind {kind} of {case:?}"), &Some(&asked.file), &want.as_ref());
    tally.count(13, "file bytes compared with the Rust, after renumbering", asked.file.len() as u64);
}

// ── all of it ──

/// Some of the accepted operations of a list, in tables with room for them.
fn part_of(case: &Case, kinds: &[u64], ops: Vec<Op>) -> Case {
    let part = Case { kinds: kinds.to_vec(), ops, room: UNBOUNDED, ..case.clone() };
    let Room { pieces, blocks, bytes, nodes, entries } = need(&part);
    Case { room: Room { pieces: pieces + 1, blocks: blocks + 1, bytes: bytes + 1, nodes: nodes + 1, entries: entries + 1 }, ..part }
}

/// What the Rust is asked about a list: each kind up to its first difference, and the kinds that meet one up to it and with it.
fn questions(case: &Case, want: &Expected, index: Index, tally: &mut Tally) -> Vec<Asked> {
    let before = |&(place, op): &(usize, &Op)| want.meets.get(&op.kind).is_none_or(|&(first, _)| place < first);
    let ops: Vec<Op> = want.accepted.iter().enumerate().filter(before).map(|(_, op)| op.clone()).collect();
    let cut = Case { ops, ..case.clone() };
    let (cut, index) = if want.meets.is_empty() {
        (cut, Some(index))
    } else {
        let cut = part_of(case, &case.kinds, cut.ops);
        let index = played(&cut, &expected(&cut), tally);
        (cut, index)
    };
    // of a list without operations the Rust is given none
    let has_ops = |kind: &u64| cut.ops.is_empty() && *kind == case.kinds[0] || cut.ops.iter().any(|op| op.kind == *kind);
    let mut all: Vec<Asked> = index.iter().flat_map(|index| cut.kinds.iter().filter(|kind| has_ops(kind)).map(|&kind| asked(&cut, kind, index, None))).collect();
    for (&kind, &(first, difference)) in &want.meets {
        let with = part_of(case, &[kind], want.accepted[..=first].iter().filter(|op| op.kind == kind).cloned().collect());
        let index = played(&with, &expected(&with), tally);
        all.extend(index.map(|index| asked(&with, kind, &index, Some(difference))));
    }
    all
}

/// Plays some lists. A list is compared with the document whole, and with the Rust kind by kind, up to the first difference. Gives the parts of their files.
pub fn compare(cases: &[Case], rust: &mut Option<Rust>, tally: &mut Tally) -> Vec<Vec<u8>> {
    let (mut waiting, mut files) = (vec![], vec![]);
    for case in cases {
        tally.count(0, "lists compared with the document", 1);
        if case.kinds.len() > 1 {
            tally.count(1, "  of these over several kinds", 1);
        }
        let want = expected(case);
        let index = played(case, &want, tally);
        let (Some(index), Ok(closed)) = (index, &want.closed) else { continue };
        read(&index, closed, &case.queries, tally, &|| format!("{case:?}"));
        files.extend(written(case, &index, closed, tally));
        waiting.extend(questions(case, &want, index, tally));
    }
    if let Some(rust) = rust {
        // without operations the Rust writes no file, and finds need one
        let queries = |a: &Asked| if a.ops.is_empty() { vec![] } else { a.case.queries.clone() };
        let job = |a: &Asked| Job::Ops { end: a.case.end, kind: a.kind, ops: a.ops.clone(), queries: queries(a) };
        let jobs: Vec<Job> = waiting.iter().map(job).collect();
        for (asked, answer) in waiting.iter().zip(rust.ask(&jobs)) {
            compared(asked, &answer, tally);
        }
    }
    files
}
