//! No method takes more memory than its answer needs, and none for a call that is refused. Alone in its file, since it counts all that is allocated.
#![allow(clippy::reversed_empty_ranges)] // such windows are refused 15
use servercape::{Calendar, Index, Kind, Refusal, Room};
use std::alloc::{GlobalAlloc, Layout, System};
use std::sync::atomic::{AtomicUsize, Ordering::Relaxed};

/// Adds up what is asked for.
struct Counting;

static ASKED: AtomicUsize = AtomicUsize::new(0);

// SAFETY: everything is the system's.
unsafe impl GlobalAlloc for Counting {
    unsafe fn alloc(&self, layout: Layout) -> *mut u8 {
        ASKED.fetch_add(layout.size(), Relaxed);
        unsafe { System.alloc(layout) }
    }

    unsafe fn alloc_zeroed(&self, layout: Layout) -> *mut u8 {
        ASKED.fetch_add(layout.size(), Relaxed);
        unsafe { System.alloc_zeroed(layout) }
    }

    unsafe fn dealloc(&self, start: *mut u8, layout: Layout) {
        unsafe { System.dealloc(start, layout) }
    }
}

#[global_allocator]
static COUNTING: Counting = Counting;

/// How many bytes a call asked for, and its answer.
fn asked<T>(call: impl FnOnce() -> T) -> (usize, T) {
    let before = ASKED.load(Relaxed);
    let answer = call();
    (ASKED.load(Relaxed) - before, answer)
}

fn refused<T>(number: u64, call: impl FnOnce() -> Result<T, Refusal>) {
    let (bytes, answer) = asked(call);
    assert_eq!((bytes, answer.err().map(Refusal::number)), (0, Some(number)));
}

#[test]
fn as_much_as_the_answer() {
    // a large room, of which little is used
    let room = Room { pieces: 10_000, blocks: 1 << 16, bytes: 1 << 16, nodes: 1 << 16, entries: 1 << 16 };
    let mut index = Index::open(room, 1000, &[Kind::Memory]).unwrap();
    for tick in 0..600 {
        index.record(Kind::Memory, tick, tick * 10, &[7; 5]).unwrap();
    }
    refused(4, || index.find(Kind::Memory, 0, 0..9));
    refused(4, || index.write());
    let wrong = Calendar { special: vec![(1, vec![5..5])], ..Calendar::default() };
    refused(27, || index.install_calendar(&wrong));
    assert_eq!(asked(|| index.install_calendar(&Calendar::default())), (0, Ok(())));
    refused(26, || index.record(Kind::Memory, 600, 0, &[7]));
    refused(28, || index.install_days(&[(0, 1440)]));
    assert_eq!(asked(|| index.install_days(&[(0, 1380)])), (0, Ok(())));
    index.finish().unwrap();
    refused(3, || index.install_calendar(&wrong));
    let many: Vec<(u64, u64)> = (0..65).map(|day| (day, 1500)).collect();
    refused(28, || index.install_days(&many));
    assert_eq!(asked(|| index.install_days(&many[1..])), (0, Ok(())));
    assert_eq!(asked(|| (index.label(0).number(), index.day(0))), (0, (0, 0)));
    let window = 0..u64::MAX;
    refused(14, || index.cells(Kind::Memory, 1000, window.clone()));
    refused(14, || index.find(Kind::Memory, 1000, window.clone()));
    refused(14, || index.touching(Kind::Memory, 1000, window.clone()));
    refused(15, || index.cells(Kind::Memory, 0, u64::MAX..0));
    refused(15, || index.block(600));
    refused(37, || index.occupation(Kind::Memory, 0, &[]));
    assert_eq!(asked(|| index.occupation(Kind::Memory, 599, &[0..6000]).map(|report| report.tenths)), (0, Ok(500)));

    for (tick, count) in [(0, 1), (50, 51), (200, 201), (599, 600)] {
        let (bytes, found) = asked(|| index.find(Kind::Memory, tick, window.clone()).unwrap().numbers.len());
        assert!(found == count && bytes <= 4 * 8 * count.max(64), "find of {count}: {bytes} bytes");
        let (bytes, found) = asked(|| index.touching(Kind::Memory, tick, window.clone()).unwrap().len());
        assert!(found == count && bytes <= 4 * 8 * count.max(64), "touching of {count}: {bytes} bytes");
    }
    assert_eq!(asked(|| index.find(Kind::Memory, 0, 5..5).unwrap().numbers), (0, vec![]));
    assert_eq!(asked(|| index.next(Kind::Memory, 0, 0)), (0, Ok(Some(0))));
    assert_eq!(asked(|| index.blocks().unwrap().count()), (0, 600));

    let (bytes, cells) = asked(|| index.cells(Kind::Memory, 599, 0..20_000).unwrap());
    assert_eq!((bytes, cells.len()), (2 * 20_000, 20_000));
    assert_eq!(cells.iter().flatten().count(), 3000);

    let (bytes, file) = asked(|| index.write().unwrap());
    assert_eq!(bytes, file.len(), "no block of no life: just the file");
    let (bytes, loaded) = asked(|| Index::load(&file, 0).unwrap().0);
    let used = loaded.used();
    let rows = 8 * (8 * (used.blocks + used.nodes) + 2 * used.entries) + used.bytes;
    assert!(bytes as u64 <= rows + 8 * 2100, "the rows of the file, and the heads: {bytes} bytes");
}
