//! The boards to try and the edges of the refusals, through the Rust types.
#![allow(clippy::reversed_empty_ranges)] // such windows are refused 15
use servercape::{Block, Calendar, Days, Index, Kind, Recorded, Room};

fn opened(end_tick: u64) -> Index {
    Index::open(Room::even(64), end_tick, &[Kind::Memory]).unwrap()
}

/// First cell, length, created, destroyed, bytes in hexadecimal.
fn shown(block: &Block) -> String {
    let hex: String = block.bytes.iter().map(|b| format!("{b:02x}")).collect();
    format!("{} {} {} {} {hex}", block.first, block.bytes.len(), block.created, block.destroyed)
}

/// What record answers: an update from a cell on, or a read.
fn update(cell: u64) -> Result<Recorded, servercape::Refusal> {
    Ok(Recorded::Update { cell })
}

const READ: Result<Recorded, servercape::Refusal> = Ok(Recorded::Read);

fn number<T>(answer: Result<T, servercape::Refusal>) -> u64 {
    answer.err().map_or(0, |refusal| refusal.number())
}

fn listing() -> Index {
    let mut index = opened(8);
    assert_eq!(index.record(Kind::Memory, 1, 100, &[7, 7, 7]), update(100));
    assert_eq!(index.record(Kind::Memory, 3, 102, &[9, 9, 9]), update(102));
    assert_eq!(index.record(Kind::Memory, 5, 100, &[7, 7]), READ);
    assert_eq!(index.record(Kind::Memory, 6, 103, &[4]), update(103));
    index.finish().unwrap();
    index
}

#[test]
fn the_listing() {
    let index = listing();
    let blocks: Vec<String> = index.blocks().unwrap().map(|b| shown(&b)).collect();
    assert_eq!(blocks, ["102 1 1 3 07", "103 1 3 6 09", "100 2 1 8 0707", "102 1 3 8 09", "103 1 6 8 04", "104 1 3 8 09"]);
    assert!(index.blocks().unwrap().all(|b| b.kind == Kind::Memory));
    let found = index.find(Kind::Memory, 6, 100..104).unwrap();
    let cells: Vec<u64> = found.numbers.iter().map(|&k| index.block(k).unwrap().first).collect();
    assert_eq!((cells, found.visited), (vec![100, 102, 103], 3));
    assert_eq!(index.find(Kind::Memory, 6, 104..104).unwrap().numbers, []);
    assert_eq!(index.cells(Kind::Memory, 6, 99..106).unwrap(), [None, Some(7), Some(7), Some(9), Some(4), Some(9), None]);
}

#[test]
fn written_and_loaded() {
    let index = listing();
    let file = index.write().unwrap();
    assert_eq!(number(index.write_into(&mut vec![0; file.len() - 1])), 16);
    let (loaded, next) = Index::load_with(Room::even(64), &file, 0).unwrap();
    assert_eq!(next, file.len());
    assert!(loaded.blocks().unwrap().eq(index.blocks().unwrap()));
    assert_eq!(loaded.find(Kind::Memory, 6, 100..104), index.find(Kind::Memory, 6, 100..104));
    assert_eq!(loaded.touching(Kind::Memory, 6, 101..103), Ok(vec![2, 3]));
    assert_eq!((loaded.next(Kind::Memory, 6, 103), loaded.last(Kind::Memory, 6, 103)), (Ok(Some(4)), Ok(Some(3))));
    assert_eq!(loaded.write().unwrap(), file);
    // as one of several in a file
    let twice = [&file[..], &file[..]].concat();
    assert_eq!(Index::load_with(Room::even(64), &twice, next).unwrap().1, twice.len());
    assert_eq!(number(Index::load_with(Room::even(64), &twice, twice.len())), 17);
    assert_eq!(number(Index::load_with(Room { entries: 11, ..Room::even(64) }, &file, 0)), 20);
    // nothing was recorded: no bytes
    let mut empty = opened(1);
    empty.finish().unwrap();
    assert_eq!(empty.write().unwrap(), []);
}

#[test]
fn a_matching_operation_that_runs_on() {
    let mut index = opened(2);
    assert_eq!(index.record(Kind::Memory, 0, 10, &[5, 5]), update(10));
    assert_eq!(index.record(Kind::Memory, 1, 10, &[5, 5, 5, 5]), update(12));
    index.finish().unwrap();
    let blocks: Vec<String> = index.blocks().unwrap().map(|b| shown(&b)).collect();
    assert_eq!(blocks, ["10 2 0 1 0505", "10 4 1 2 05050505"]);
}

#[test]
fn what_changed() {
    let mut index = opened(8);
    assert_eq!(index.record(Kind::Memory, 0, 10, &[5, 5]), update(10));
    assert_eq!(index.record(Kind::Memory, 1, 10, &[5, 5, 5]), update(12));
    assert_eq!(index.record(Kind::Memory, 2, 10, &[5, 5]), READ);
    assert_eq!(index.record(Kind::Memory, 3, 9, &[5, 5]), update(9));
    assert_eq!(index.record(Kind::Memory, 4, 10, &[5, 6, 5]), update(11), "the first of the cells that differ");
    assert_eq!(index.record(Kind::Memory, 5, 10, &[5, 6, 6]), update(12), "the last cell alone");
}

#[test]
fn what_changed_over_several_pieces() {
    let mut index = opened(8);
    index.record(Kind::Memory, 0, 10, &[5]).unwrap();
    index.record(Kind::Memory, 0, 12, &[5]).unwrap();
    assert_eq!(index.record(Kind::Memory, 1, 10, &[5, 5, 6]), update(11), "the gap, though a difference stands behind it");

    let mut index = opened(8);
    index.record(Kind::Memory, 0, 10, &[1, 1]).unwrap();
    index.record(Kind::Memory, 0, 12, &[2, 2]).unwrap();
    index.record(Kind::Memory, 0, 14, &[3, 3]).unwrap();
    assert_eq!(index.clone().record(Kind::Memory, 1, 10, &[1, 1, 2, 4, 4, 4]), update(13), "in the second piece");
    assert_eq!(index.clone().record(Kind::Memory, 1, 11, &[1, 2, 2, 3, 4]), update(15), "in the third piece");
    assert_eq!(index.clone().record(Kind::Memory, 1, 10, &[1, 1, 2, 2, 3, 3, 3]), update(16), "past the last piece");
    assert_eq!(index.record(Kind::Memory, 1, 11, &[1, 2, 2, 3]), READ);
}

#[test]
fn a_held_zero_is_known() {
    let mut index = opened(8);
    assert_eq!(index.record(Kind::Memory, 0, 0, &[0]), update(0));
    assert_eq!(index.record(Kind::Memory, 1, 0, &[0]), READ);
    assert_eq!(index.record(Kind::Memory, 2, 0, &[0, 0]), update(1), "an unknown cell is not held");
    assert_eq!(index.record(Kind::Memory, 3, 0, &[0, 0]), READ);
    assert_eq!(index.record(Kind::Memory, 4, 0, &[1, 0]), update(0));
}

#[test]
fn through_midnight() {
    let mut index = opened(1);
    index.record(Kind::Memory, 0, 1432, &[3; 14]).unwrap();
    index.finish().unwrap();
    // find lists what starts in the window, touching what reaches into it too
    assert_eq!(index.find(Kind::Memory, 0, 1440..1450).unwrap().numbers, []);
    assert_eq!(index.touching(Kind::Memory, 0, 1440..1450), Ok(vec![0]));
    assert_eq!(index.touching(Kind::Memory, 0, 1445..1450), Ok(vec![0]));
    assert_eq!(index.touching(Kind::Memory, 0, 1446..1450), Ok(vec![]));
    assert_eq!(index.cells(Kind::Memory, 0, 1444..1447).unwrap(), [Some(3), Some(3), None]);
    assert_eq!([1432, 1445].map(|cell| Days::regular().label(cell).to_string()), ["23:52", "00:05"]);
}

/// Day 0 is short, then long: by the label up to the minute at which the clock jumps, and behind it.
#[test]
fn a_short_and_a_long_day() {
    let mut index = opened(8);
    let labels = |index: &Index, cells: [u64; 8]| cells.map(|cell| index.clock(cell).unwrap().number());
    index.install_days(&[(0, 1380)]).unwrap();
    assert_eq!(labels(&index, [0, 119, 120, 1379, 1380, 2819, 2820, u64::MAX]), [0, 159, 300, 2359, 0, 2359, 0, 515]);
    index.install_days(&[(0, 1500)]).unwrap();
    assert_eq!(labels(&index, [119, 179, 180, 239, 240, 1499, 1500, u64::MAX]), [159, 259, 200, 259, 300, 2359, 0, 315]);
    assert_eq!((number(index.install_days(&[(0, 1440)])), number(index.install_days(&[(1, 1380), (0, 1500)]))), (28, 28));
    // Mondays from 03:00 on
    index.install_calendar(&Calendar { week: std::array::from_fn(|weekday| if weekday == 0 { vec![180..1440] } else { vec![] }), special: vec![] }).unwrap();
    assert_eq!((number(index.record(Kind::Memory, 0, 239, &[1])), index.record(Kind::Memory, 0, 240, &[1])), (26, update(240)));
    index.finish().unwrap();
    index.install_days(&[(1, 1380), (2, 1500), (5, 1380)]).unwrap();
    assert_eq!(labels(&index, [1440, 1559, 1560, 2820, 3000, 4320, 8579, 8580]), [0, 159, 300, 0, 200, 0, 2359, 0]);
}

#[test]
fn touching_goes_by_cells() {
    let index = listing();
    assert_eq!(index.touching(Kind::Memory, 6, 101..103), Ok(vec![2, 3]));
    assert_eq!(index.touching(Kind::Memory, 6, 102..103), Ok(vec![3]));
    assert_eq!(index.touching(Kind::Memory, 6, 101..101), Ok(vec![]), "an empty window inside a block");
    assert_eq!(index.touching(Kind::Memory, 6, 0..100), Ok(vec![]), "the block that starts at the end");
    assert_eq!(index.touching(Kind::Memory, 6, 0..101), Ok(vec![2]));
    // ascending by cell, not by number
    assert_eq!(index.touching(Kind::Memory, 2, 0..u64::MAX), Ok(vec![2, 0]));
    assert_eq!(index.touching(Kind::Memory, 0, 0..u64::MAX), Ok(vec![]));
    let mut answer = [77; 3];
    assert_eq!(index.touching_into(Kind::Memory, 6, 101..103, &mut answer), Ok(2));
    assert_eq!(answer, [2, 3, 77]);
}

#[test]
fn neighbours() {
    let index = listing();
    let next = |cell| index.next(Kind::Memory, 6, cell).unwrap();
    let last = |cell| index.last(Kind::Memory, 6, cell).unwrap();
    assert_eq!([0, 100, 101, 104, 105, u64::MAX].map(next), [Some(2), Some(2), Some(3), Some(5), None, None]);
    // the block of 100 and 101 reaches over 101, and ends at 102
    assert_eq!([0, 100, 101, 102, 105, u64::MAX].map(last), [None, None, None, Some(2), Some(5), Some(5)]);
    assert_eq!((index.next(Kind::Memory, 0, 0), index.last(Kind::Memory, 0, u64::MAX)), (Ok(None), Ok(None)));

    // where the last block that starts below reaches over the cell, the one before it
    let mut index = opened(1);
    index.record(Kind::Memory, 0, 1400, &[2; 5]).unwrap();
    index.record(Kind::Memory, 0, 1432, &[3; 14]).unwrap();
    index.finish().unwrap();
    assert_eq!((index.last(Kind::Memory, 0, 1440), index.last(Kind::Memory, 0, 1446)), (Ok(Some(0)), Ok(Some(1))));
}

#[test]
fn the_last_cells() {
    let mut index = opened(1);
    assert_eq!(index.record(Kind::Memory, 0, u64::MAX - 2, &[8, 9]), update(u64::MAX - 2));
    assert_eq!(index.record(Kind::Memory, 0, u64::MAX - 2, &[8, 9]), READ);
    assert_eq!(index.clone().record(Kind::Memory, 0, u64::MAX - 2, &[8, 8]), update(u64::MAX - 1));
    index.finish().unwrap();
    assert_eq!(index.touching(Kind::Memory, 0, u64::MAX - 1..u64::MAX), Ok(vec![0]));
    assert_eq!(index.touching(Kind::Memory, 0, u64::MAX..u64::MAX), Ok(vec![]));
    assert_eq!((index.next(Kind::Memory, 0, u64::MAX - 2), index.next(Kind::Memory, 0, u64::MAX)), (Ok(Some(0)), Ok(None)));
    assert_eq!((index.last(Kind::Memory, 0, u64::MAX - 1), index.last(Kind::Memory, 0, u64::MAX)), (Ok(None), Ok(Some(0))));
}

#[test]
fn no_life_and_no_block() {
    let mut index = opened(8);
    index.record(Kind::Memory, 3, 50, &[1]).unwrap();
    index.record(Kind::Memory, 3, 50, &[2]).unwrap();
    index.finish().unwrap();
    assert_eq!(index.touching(Kind::Memory, 3, 0..100), Ok(vec![1]), "the first of two writes at one tick is live never");
    assert_eq!((index.next(Kind::Memory, 3, 50), index.last(Kind::Memory, 3, 51)), (Ok(Some(1)), Ok(Some(1))));
    assert_eq!((index.next(Kind::Memory, 2, 50), index.last(Kind::Memory, 2, 51)), (Ok(None), Ok(None)));

    let mut index = opened(8);
    index.finish().unwrap();
    assert_eq!(index.touching(Kind::Memory, 0, 0..u64::MAX), Ok(vec![]));
    assert_eq!((index.next(Kind::Memory, 7, 0), index.last(Kind::Memory, 7, u64::MAX)), (Ok(None), Ok(None)));
    assert_eq!((number(index.touching(Kind::Memory, 8, 0..1)), number(index.next(Kind::Memory, 8, 0)), number(index.last(Kind::Memory, 8, 0))), (14, 14, 14));
}

/// Kinds 0, 3 and 4: the same cell and byte in two kinds are two bookings; finish goes by kind, then by cell; the last tick is common.
fn several() -> Index {
    let mut index = Index::open(Room { nodes: 11, entries: 6, ..Room::even(3) }, 8, &[Kind::Other, Kind::Constant, Kind::Unique, Kind::Constant]).unwrap();
    assert_eq!(index.record(Kind::Unique, 1, 5, &[8]), update(5));
    assert_eq!(number(index.record(Kind::Constant, 0, 5, &[8])), 8);
    assert_eq!(index.record(Kind::Constant, 3, 9, &[8]), update(9));
    assert_eq!(index.record(Kind::Constant, 4, 5, &[8]), update(5));
    assert_eq!(index.record(Kind::Unique, 4, 5, &[8]), READ);
    index
}

#[test]
fn several_kinds() {
    let mut index = several();
    assert_eq!((number(index.record(Kind::Memory, 8, u64::MAX, &[])), number(index.find(Kind::Memory, 8, 1..0))), (25, 4));
    index.finish().unwrap();
    let blocks: Vec<(Kind, String)> = index.blocks().unwrap().map(|b| (b.kind, shown(&b))).collect();
    assert_eq!(blocks, [(Kind::Constant, "5 1 4 8 08".into()), (Kind::Constant, "9 1 3 8 08".into()), (Kind::Unique, "5 1 1 8 08".into())]);
    let found = |kind| index.find(kind, 5, 0..10).map(|found| (found.numbers, found.visited));
    assert_eq!((found(Kind::Constant), found(Kind::Unique), found(Kind::Other)), (Ok((vec![0, 1], 2)), Ok((vec![2], 2)), Ok((vec![], 0))));
    assert_eq!((index.touching(Kind::Constant, 5, 5..10), index.touching(Kind::Unique, 5, 5..10)), (Ok(vec![0, 1]), Ok(vec![2])));
    assert_eq!((index.next(Kind::Constant, 5, 6), index.next(Kind::Unique, 5, 6), index.last(Kind::Unique, 5, 9)), (Ok(Some(1)), Ok(None), Ok(Some(2))));
    assert_eq!((index.cells(Kind::Constant, 3, 5..6), index.cells(Kind::Unique, 3, 5..6), index.cells(Kind::Other, 3, 5..6)), (Ok(vec![None]), Ok(vec![Some(8)]), Ok(vec![None])));
    for kind in [Kind::Memory, Kind::Register] {
        assert_eq!((number(index.find(kind, 8, 1..0)), number(index.touching(kind, 8, 1..0)), number(index.cells(kind, 8, 1..0))), (25, 25, 25));
        assert_eq!((number(index.next(kind, 8, 0)), number(index.last(kind, 8, 0)), number(index.record(kind, 8, 0, &[]))), (25, 25, 3));
    }
    // the trees one behind the other, each with its own numbers
    let file = index.write().unwrap();
    let (first, next) = Index::load(&file, 0).unwrap();
    let (second, end) = Index::load(&file, next).unwrap();
    assert_eq!((file.len(), next, end), (544, 272, 544));
    assert!(first.kinds().eq([Kind::Constant]) && second.kinds().eq([Kind::Unique]));
    assert_eq!((first.touching(Kind::Constant, 5, 0..10), second.touching(Kind::Unique, 5, 0..10)), (Ok(vec![0, 1]), Ok(vec![0])));
    assert_eq!((number(first.touching(Kind::Unique, 5, 0..10)), number(second.touching(Kind::Constant, 5, 0..10))), (25, 25));
    assert_eq!([first.write().unwrap(), second.write().unwrap()].concat(), file);
}

/// 12 and 13 count the trees together, and 9 to 11 the pieces, blocks and bytes of all kinds.
#[test]
fn kinds_share_the_room() {
    let index = several();
    let without = |nodes, entries| {
        let mut less = Index::open(Room { nodes, entries, ..Room::even(3) }, 8, &[Kind::Constant, Kind::Unique]).unwrap();
        for (kind, tick, first) in [(Kind::Unique, 1, 5), (Kind::Constant, 3, 9), (Kind::Constant, 4, 5)] {
            less.record(kind, tick, first, &[8]).unwrap();
        }
        number(less.finish())
    };
    assert_eq!((without(11, 6), without(10, 6), without(11, 5), without(6, 6)), (0, 12, 13, 12));
    assert_eq!(number(index.clone().record(Kind::Other, 4, 5, &[8])), 9);
    assert_eq!(number(index.clone().record(Kind::Unique, 4, 5, &[9])), 10);
    let mut longer = index.clone();
    longer.grow(Room { pieces: 9, blocks: 9, ..Room::default() }).unwrap();
    assert_eq!(number(longer.record(Kind::Other, 4, 5, &[8])), 11);
}

#[test]
fn refusals_change_nothing() {
    let mut index = opened(8);
    index.record(Kind::Memory, 3, 5, &[1]).unwrap();
    assert_eq!(number(index.record(Kind::Memory, 3, 5, &[])), 5);
    assert_eq!(number(index.record(Kind::Memory, 3, u64::MAX, &[1])), 6);
    assert_eq!(number(index.record(Kind::Memory, 8, 5, &[2])), 7);
    assert_eq!(number(index.record(Kind::Memory, 2, 5, &[2])), 8);
    assert_eq!(number(index.record(Kind::Memory, 3, 6, &[2; 64])), 11);
    assert_eq!(number(index.blocks()), 4);
    assert_eq!(number(index.find(Kind::Memory, 0, 0..1)), 4);
    assert_eq!(number(index.cells(Kind::Memory, 0, 0..1)), 4);
    assert_eq!((number(index.touching(Kind::Memory, 8, 0..1)), number(index.next(Kind::Memory, 8, 0)), number(index.last(Kind::Memory, 8, 0))), (4, 4, 4));
    assert_eq!(number(index.write()), 4);
    index.finish().unwrap();
    assert_eq!(number(index.finish()), 3);
    assert_eq!(number(index.record(Kind::Memory, 3, 5, &[1])), 3);
    assert_eq!(number(index.block(1)), 15);
    assert_eq!(number(index.find(Kind::Memory, 8, 0..1)), 14);
    assert_eq!(number(index.cells(Kind::Memory, 0, 1..0)), 15);
    assert_eq!(number(index.find_into(Kind::Memory, 3, 0..9, &mut [])), 16);
    assert_eq!((number(index.touching_into(Kind::Memory, 8, 1..0, &mut [])), number(index.next(Kind::Memory, 8, 0)), number(index.last(Kind::Memory, 8, 0))), (14, 14, 14));
    assert_eq!(number(index.touching_into(Kind::Memory, 3, 1..0, &mut [])), 15);
    assert_eq!(number(index.touching(Kind::Memory, 3, u64::MAX..0)), 15);
    assert_eq!(number(index.touching_into(Kind::Memory, 3, 0..9, &mut [])), 16);
    assert_eq!(index.blocks().unwrap().map(|b| shown(&b)).collect::<Vec<_>>(), ["5 1 3 8 01"]);
}

#[test]
fn the_room_is_used_to_its_end() {
    let room = Room { pieces: 2, blocks: 3, bytes: 4, nodes: 2, entries: 3 };
    let mut index = Index::open(room, 2, &[Kind::Other]).unwrap();
    index.record(Kind::Other, 0, 0, &[1]).unwrap();
    index.record(Kind::Other, 0, 4, &[1]).unwrap();
    assert_eq!(number(index.record(Kind::Other, 0, 8, &[1])), 9);
    index.record(Kind::Other, 1, 4, &[2]).unwrap();
    assert_eq!(number(index.record(Kind::Other, 1, 4, &[3])), 10);
    assert_eq!(number(index.finish()), 12);
    assert_eq!(number(index.clone().reopen(0, &[Kind::Other])), 1);
}

#[test]
fn eight_numbers_for_any_number_of_pieces() {
    let mut index = Index::open(Room { pieces: 10, ..Room::even(64) }, 8, &[Kind::Memory]).unwrap();
    for k in 0..10 {
        assert_eq!(index.record(Kind::Memory, 0, 2 * k, &[7]), update(2 * k));
    }
    assert_eq!(number(index.record(Kind::Memory, 0, 20, &[7])), 9);
    assert_eq!(number(index.record_with(&[0; 640], Kind::Memory, 0, 20, &[7])), 9, "a longer scratch makes no room");
    assert_eq!(index.record_with(&[0; 9], Kind::Memory, 1, 0, &[7, 8]), update(1));
    index.finish().unwrap();
    assert_eq!(index.touching(Kind::Memory, 1, 0..100).unwrap().len(), 10);
    assert_eq!(unsafe { servercape::raw::servercape_length(servercape::raw::SERVERCAPE_SCRATCH, 1) }, 8);
}

#[test]
fn a_short_scratch_is_refused_first() {
    let mut index = opened(8);
    assert_eq!(index.record_with(&[0; 8], Kind::Memory, 4, 5, &[1]), update(5));
    for short in [&[][..], &[0; 7]] {
        assert_eq!(number(index.record_with(short, Kind::Memory, 7, 5, &[2])), 2, "an update");
        assert_eq!(number(index.record_with(short, Kind::Memory, 4, 5, &[1])), 2, "a read");
        assert_eq!(number(index.record_with(short, Kind::Memory, 8, u64::MAX, &[])), 2, "before 5 to 8");
    }
    assert_eq!(index.record(Kind::Memory, 4, 5, &[1]), READ, "nothing has changed, the last tick neither");
    index.finish().unwrap();
    assert_eq!((number(index.record_with(&[0; 7], Kind::Memory, 5, 5, &[1])), number(index.record_with(&[0; 8], Kind::Memory, 5, 5, &[1]))), (2, 3));
    assert_eq!(index.blocks().unwrap().map(|b| shown(&b)).collect::<Vec<_>>(), ["5 1 4 8 01"]);
    assert_eq!(index.next(Kind::Memory, 4, 0), Ok(Some(0)), "reads are lent no scratch");
}

#[test]
fn the_largest_end_tick() {
    assert_eq!(number(Index::open(Room::even(1), Index::MAX_END_TICK + 1, &[Kind::Unique])), 1);
    let mut index = Index::open(Room::even(64), Index::MAX_END_TICK, &[Kind::Unique]).unwrap();
    index.record(Kind::Unique, Index::MAX_END_TICK - 1, 0, &[9]).unwrap();
    index.finish().unwrap();
    assert_eq!(index.find(Kind::Unique, Index::MAX_END_TICK - 1, 0..1).unwrap().visited, 64);
}

#[test]
fn station_hours() {
    let mut index = opened(8);
    assert_eq!(index.record(Kind::Memory, 0, 479, &[7]), update(479), "open until the first calendar");
    let mut hours = Calendar::default();
    hours.week[0].push(480..1200);
    index.install_calendar(&hours).unwrap();
    assert_eq!(number(index.record(Kind::Memory, 1, 479, &[7])), 26, "known, and closed");
    assert_eq!(index.record(Kind::Memory, 1, 480, &[7]), update(480));
    assert_eq!(number(index.record(Kind::Memory, 1, 1199, &[7, 7])), 26);
    assert_eq!(index.record(Kind::Memory, 1, 1199, &[7, 0]), update(1199), "a zero byte passes");
    // Mondays to midnight, and the Tuesday after: each cell by its own day
    hours.week[0] = vec![1437..1440];
    hours.special.push((1, vec![0..2]));
    index.install_calendar(&hours).unwrap();
    assert_eq!(index.record(Kind::Memory, 2, 1437, &[7; 5]), update(1437));
    assert_eq!(number(index.record(Kind::Memory, 2, 1438, &[7; 5])), 26);
    assert_eq!(number(index.record(Kind::Memory, 2, 480, &[7])), 26, "the calendar before is gone");
    index.install_calendar(&Calendar::default()).unwrap();
    assert_eq!(number(index.record(Kind::Memory, 2, 1437, &[7])), 26, "no windows: closed");
    assert_eq!(index.record(Kind::Memory, 2, 1437, &[0]), update(1437));
    index.finish().unwrap();
    assert_eq!(number(index.install_calendar(&hours)), 3);
}

/// On a special day only its own windows count, and without windows it is closed; its weekday has its windows on all other days.
#[test]
fn special_days_prevail() {
    let mut index = opened(8);
    index.record(Kind::Memory, 0, 480, &[7]).unwrap();
    let mut hours = Calendar { special: vec![(0, vec![60..120]), (1, vec![0..10]), (7, vec![])], ..Calendar::default() };
    hours.week[0].push(480..1200);
    index.install_calendar(&hours).unwrap();
    for (day, minute) in [(0, 59), (0, 120), (0, 480), (1, 10), (1, 480), (7, 60), (7, 480), (8, 9), (14, 60)] {
        assert_eq!(number(index.record(Kind::Memory, 1, 1440 * day + minute, &[7])), 26, "day {day} minute {minute}");
    }
    for (day, minute) in [(0, 60), (0, 119), (1, 9), (14, 480)] {
        assert_eq!(index.record(Kind::Memory, 1, 1440 * day + minute, &[7]), update(1440 * day + minute));
    }
    assert_eq!(index.record(Kind::Memory, 1, 7 * 1440 + 480, &[0]), update(7 * 1440 + 480), "a zero byte passes");
}

/// Each weekday, window and special day counts: a full calendar, whose windows are all apart.
#[test]
fn every_window_counts() {
    let windows = |day: u64| (0..8).map(|k| 100 * k + day..100 * k + day + 1).collect::<Vec<_>>();
    let hours = Calendar {
        week: std::array::from_fn(|day| windows(day as u64)),
        special: (0..64).map(|k| (70 + k, windows(10 + k))).collect(),
    };
    let mut index = opened(8);
    index.install_calendar(&hours).unwrap();
    for day in 0..140 {
        for minute in 0..800 {
            let open = minute % 100 == if (70..134).contains(&day) { day - 60 } else { day % 7 };
            assert_eq!(number(index.record(Kind::Memory, 0, 1440 * day + minute, &[7])) == 26, !open, "day {day} minute {minute}");
        }
    }
}

#[test]
fn calendars_that_are_refused() {
    let mut index = opened(8);
    let day = |windows: Vec<std::ops::Range<u64>>| Calendar { special: vec![(3, windows)], ..Calendar::default() };
    let days = |days: Vec<u64>| Calendar { special: days.into_iter().map(|d| (d, vec![])).collect(), ..Calendar::default() };
    let faults = [day(vec![5..5]), day(vec![0..1441]), day(vec![0..1; 9]), days(vec![3, 3]), days(vec![4, 3]), days((0..65).collect())];
    for fault in &faults {
        assert_eq!(number(index.install_calendar(fault)), 27, "{fault:?}");
    }
    assert_eq!(index.record(Kind::Memory, 0, 0, &[7]), update(0), "none is installed");
    for taken in [day(vec![0..1440; 8]), days((0..64).collect()), days(vec![0, u64::MAX])] {
        assert_eq!(index.install_calendar(&taken), Ok(()), "{taken:?}");
    }
}
