//! Tables that grow between calls: the index stays the same, and only refusals for want of room go away.
use servercape::{Block, Index, Kind, Refusal, Room};

const END: u64 = 1 << 20;

/// The operations of a small board: tick, first cell, bytes.
fn operations() -> Vec<(u64, u64, Vec<u8>)> {
    (0..40u64).map(|i| (i * 1000 + i % 3, 100 + i * 7 % 20, vec![i as u8 % 5; 1 + i as usize % 4])).collect()
}

fn number<T>(answer: Result<T, Refusal>) -> u64 {
    answer.err().map_or(0, |refusal| refusal.number())
}

/// A board of large tables from the start.
fn board() -> Index {
    let mut index = Index::open(Room::even(4096), END, &[Kind::Memory]).unwrap();
    for (tick, first, bytes) in operations() {
        index.record(Kind::Memory, tick, first, &bytes).unwrap();
    }
    index
}

/// Every read of two finished indexes is answered alike.
fn same(one: &Index, other: &Index) {
    assert_eq!(one.blocks().unwrap().collect::<Vec<Block>>(), other.blocks().unwrap().collect::<Vec<Block>>());
    for tick in (0..END).step_by(997).take(60).chain([END - 1, END]) {
        assert_eq!(one.find(Kind::Memory, tick, 90..130), other.find(Kind::Memory, tick, 90..130));
        assert_eq!(one.touching(Kind::Memory, tick, 103..111), other.touching(Kind::Memory, tick, 103..111));
        assert_eq!(one.cells(Kind::Memory, tick, 95..130), other.cells(Kind::Memory, tick, 95..130));
        assert_eq!((one.next(Kind::Memory, tick, 104), one.last(Kind::Memory, tick, 117)), (other.next(Kind::Memory, tick, 104), other.last(Kind::Memory, tick, 117)));
    }
    assert_eq!(one.write(), other.write());
}

/// One row more of what a refusal asks for; of the store some bytes.
fn one_more(room: Room, refusal: u64) -> Room {
    match refusal {
        9 => Room { pieces: room.pieces + 1, ..room },
        10 => Room { blocks: room.blocks + 1, ..room },
        11 => Room { bytes: room.bytes + 1, ..room },
        12 => Room { nodes: room.nodes + 1, ..room },
        13 => Room { entries: room.entries + 1, ..room },
        _ => panic!("refused {refusal}"),
    }
}

/// From no rows at all, one row more after each refusal: each of the five is met, the answers are those of large tables.
#[test]
fn row_by_row() {
    let mut whole = Index::open(Room::even(4096), END, &[Kind::Memory]).unwrap();
    let mut room = Room::even(0);
    let mut index = Index::open(room, END, &[Kind::Memory]).unwrap();
    let mut met = [0; 14];
    let mut more = |index: &mut Index, refusal: Refusal| {
        met[refusal.number() as usize] += 1;
        room = one_more(room, refusal.number());
        index.grow(room).unwrap();
    };
    for (tick, first, bytes) in operations() {
        let recorded = loop {
            match index.record(Kind::Memory, tick, first, &bytes) {
                Err(refusal) => more(&mut index, refusal),
                Ok(recorded) => break recorded,
            }
        };
        assert_eq!(Ok(recorded), whole.record(Kind::Memory, tick, first, &bytes));
    }
    while let Err(refusal) = index.finish() {
        more(&mut index, refusal);
    }
    whole.finish().unwrap();
    same(&index, &whole);
    assert!(met[9..].iter().all(|&times| times > 0), "{met:?}");
}

/// A finished index grows too, and so does a loaded one; what was finished or loaded takes no more operations.
#[test]
fn finished_and_loaded() {
    let mut whole = board();
    whole.finish().unwrap();
    let mut finished = whole.clone();
    finished.grow(Room { blocks: 5000, nodes: 7777, ..Room::even(0) }).unwrap();
    same(&finished, &whole);
    assert_eq!((number(finished.record(Kind::Memory, END - 1, 0, &[1])), number(finished.finish())), (3, 3));
    let (mut loaded, _) = Index::load_with(Room::even(4096), &whole.write().unwrap(), 0).unwrap();
    loaded.grow(Room::even(5000)).unwrap();
    same(&loaded, &whole);
    // and the longer tables take another index
    loaded.reopen(8, &[Kind::Other]).unwrap();
    assert_eq!(number(loaded.record(Kind::Other, 1, 100, &[7; 4500])), 0);
}

/// None gets shorter, and to grow to what there is changes nothing.
#[test]
fn never_shorter() {
    let mut index = board();
    index.grow(Room::even(0)).unwrap();
    index.grow(Room::even(4096)).unwrap();
    index.finish().unwrap();
    let mut whole = board();
    whole.finish().unwrap();
    same(&index, &whole);
}

/// The rows that `law_of_room` says are enough: 1 + 2 * n * t nodes for t ticks, 2 * n - 1 entries for each row of blocks, where E is at most 2^n.
#[test]
fn room_for_finish() {
    for n in [1, 2, 7, 20, 63] {
        let end = 1u64 << n;
        let mut ticks: Vec<u64> = (1..=100u128).map(|i| (end as u128 * i / 101) as u64).collect();
        ticks.dedup();
        let (t, blocks) = (ticks.len() as u64, 100);
        let room = Room { pieces: 1, blocks, bytes: 100, nodes: 1 + 2 * n * t, entries: (2 * n - 1) * blocks };
        let mut index = Index::open(room, end, &[Kind::Memory]).unwrap();
        for (byte, tick) in ticks.into_iter().enumerate() {
            index.record(Kind::Memory, tick, 100, &[byte as u8]).unwrap();
        }
        assert_eq!(index.finish(), Ok(()));
    }
}
