//! Threads: indexes go from one to another, and many may read one.
use servercape::{Block, Calendar, Cell, Days, GrowingIndex, Index, Kind, Played, Refusal};
use std::panic::{RefUnwindSafe, UnwindSafe};
use std::thread;

/// Every type may be sent, shared, and held across a panic: a method changes nothing between its
/// proved calls but the room of tables.
#[test]
fn send_and_sync() {
    fn all<T: Send + Sync + UnwindSafe + RefUnwindSafe>() {}
    all::<Index>();
    all::<GrowingIndex>();
    all::<Block<'static>>();
    all::<servercape::Blocks<'static>>();
    all::<(
        Calendar,
        Cell,
        Days,
        Kind,
        Played,
        Refusal,
        servercape::Room,
        servercape::Opening,
    )>();
}

fn board(thread: u64) -> GrowingIndex {
    let mut board = GrowingIndex::open(5000, &[Kind::Memory]).unwrap();
    for tick in 0..2000 {
        board
            .record(Kind::Memory, tick, tick * thread % 700, &[tick as u8; 9])
            .unwrap();
    }
    board
}

/// Boards that are recorded side by side are those that are recorded one after the other, and many
/// threads read one of them alike.
#[test]
fn side_by_side() {
    let boards: Vec<GrowingIndex> = thread::scope(|scope| {
        let threads: Vec<_> = (1..5)
            .map(|each| scope.spawn(move || board(each)))
            .collect();
        threads
            .into_iter()
            .map(|each| each.join().unwrap())
            .collect()
    });
    for (each, given) in (1..5).zip(&boards) {
        assert_eq!(
            given.finished().unwrap().write(),
            board(each).finished().unwrap().write()
        );
    }
    let now = boards[0].finished().unwrap();
    let read = || {
        (
            now.write(),
            now.touching(Kind::Memory, 1999, 0..900),
            now.cells(Kind::Memory, 1500, 0..900),
            now.blocks().unwrap().count(),
        )
    };
    let want = read();
    thread::scope(|scope| {
        for _ in 0..4 {
            scope.spawn(|| (0..20).for_each(|_| assert_eq!(read(), want)));
        }
    });
}
