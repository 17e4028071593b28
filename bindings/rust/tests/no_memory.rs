//! Each allocation refused once: the call says that there is no memory, the index is as it was, and
//! the same call made again goes on. Alone in its file, since it has an allocator of its own.
use servercape::{put_operation, GrowingIndex, Index, Kind, Refusal};
use std::alloc::{GlobalAlloc, Layout, System};
use std::cell::Cell;

/// The system's memory, as long as this thread may have some.
struct Limited;

thread_local! {
    static LEFT: Cell<u64> = const { Cell::new(u64::MAX) };
}

fn refused() -> bool {
    LEFT.with(|left| {
        let now = left.get();
        left.set(now.saturating_sub(1));
        now == 0
    })
}

// SAFETY: everything is the system's, or null.
unsafe impl GlobalAlloc for Limited {
    unsafe fn alloc(&self, layout: Layout) -> *mut u8 {
        if refused() {
            std::ptr::null_mut()
        } else {
            unsafe { System.alloc(layout) }
        }
    }

    unsafe fn alloc_zeroed(&self, layout: Layout) -> *mut u8 {
        if refused() {
            std::ptr::null_mut()
        } else {
            unsafe { System.alloc_zeroed(layout) }
        }
    }

    unsafe fn realloc(&self, start: *mut u8, layout: Layout, size: usize) -> *mut u8 {
        if refused() {
            std::ptr::null_mut()
        } else {
            unsafe { System.realloc(start, layout, size) }
        }
    }

    unsafe fn dealloc(&self, start: *mut u8, layout: Layout) {
        unsafe { System.dealloc(start, layout) }
    }
}

#[global_allocator]
static LIMITED: Limited = Limited;

/// How many allocations there may be still, and how many calls have told that there is no memory.
struct Limit {
    left: u64,
    told: u64,
}

impl Limit {
    /// Makes a call, and makes it again where it found no memory.
    fn call<T>(&mut self, mut call: impl FnMut() -> Result<T, Refusal>) -> Result<T, Refusal> {
        LEFT.set(self.left);
        let answer = call();
        self.left = LEFT.replace(u64::MAX);
        match answer {
            Err(refusal)
                if (9..=13).contains(&refusal.number()) || matches!(refusal.number(), 16 | 20) =>
            {
                self.told += 1;
                self.left = u64::MAX;
                call()
            }
            answer => answer,
        }
    }
}

/// A board from its first booking to its file and back.
fn session(limit: &mut Limit) -> (Vec<u8>, Vec<u64>, Vec<u64>) {
    let kinds = [Kind::Memory, Kind::Other];
    let mut board = GrowingIndex::open(100_000, &kinds).unwrap();
    for tick in 0..700 {
        let before = (board.used(), board.last_tick());
        let answer = limit.call(|| {
            assert_eq!((board.used(), board.last_tick()), before, "as it was");
            board.record(
                kinds[tick as usize % 2],
                tick,
                17 * (tick % 90),
                &[tick as u8 % 5; 30],
            )
        });
        assert!(answer.is_ok());
    }
    let mut list = Vec::new();
    for tick in 700..720 {
        put_operation(&mut list, tick, 5000 + tick, &[1, 2, 3]);
    }
    assert!(limit
        .call(|| board.record_all(Kind::Memory, &list))
        .unwrap()
        .answers
        .iter()
        .all(Result::is_ok));
    let now: Index = limit.call(|| board.finished()).unwrap();
    let found = limit
        .call(|| now.find(Kind::Memory, 719, 0..u64::MAX))
        .unwrap()
        .numbers;
    let touching = limit
        .call(|| now.touching(Kind::Other, 719, 0..u64::MAX))
        .unwrap();
    let cells = limit
        .call(|| now.cells(Kind::Memory, 719, 0..9000))
        .unwrap();
    assert_eq!(cells.len(), 9000);
    let file = limit.call(|| now.write()).unwrap();
    let (loaded, next) = limit.call(|| GrowingIndex::load(&file, 0)).unwrap();
    assert_eq!(loaded.write().unwrap(), file[..next]);
    let mut again = GrowingIndex::open(8, &kinds).unwrap();
    assert_eq!(limit.call(|| again.reload(&file, 0)), Ok(next));
    assert_eq!(again.write().unwrap(), file[..next]);
    limit.call(|| board.finish()).unwrap();
    assert_eq!(board.write().unwrap(), file);
    (file, found, touching)
}

#[test]
fn each_allocation_refused_once() {
    let mut whole = Limit {
        left: u64::MAX,
        told: 0,
    };
    let want = session(&mut whole);
    let asked = u64::MAX - whole.left;
    assert!(asked > 30, "{asked}");
    let mut told = 0;
    for left in 0..asked {
        let mut limit = Limit { left, told: 0 };
        assert!(session(&mut limit) == want, "allocation {left}");
        assert!(limit.told <= 1);
        told += limit.told;
    }
    // where there is no memory to count what finish needs, or for a list in one piece, the call
    // does without
    assert!(told + 4 >= asked, "{told} of {asked}");
}
