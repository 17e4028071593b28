//! The reports on a closed index, beside what its cells say one by one.
#![allow(clippy::reversed_empty_ranges)] // such windows are refused 15
use servercape::{Cell, GrowingIndex, Index, Kind, Occupation, Refusal, Room};
use std::ops::Range;

const KINDS: [Kind; 2] = [Kind::Memory, Kind::Other];
const END: u64 = 30;

/// As many cells as a report may have.
const MOST: u64 = 1 << 32;

/// A sequence of numbers without pattern.
struct Random(u64);

impl Random {
    fn below(&mut self, limit: u64) -> u64 {
        self.0 = self.0.wrapping_mul(6364136223846793005).wrapping_add(1442695040888963407);
        (self.0 >> 33) % limit
    }
}

/// Bookings of two kinds around the start of platforms 0 and 1, in kinds and platforms by turns.
fn board(seed: u64, count: u64) -> Index {
    let mut random = Random(seed);
    let mut board = GrowingIndex::open(END, &KINDS).unwrap();
    for k in 0..count {
        let cell = Cell::new(random.below(2) as u32, random.below(200) as u32).number();
        let bytes: Vec<u8> = (0..=random.below(30)).map(|_| random.below(3) as u8).collect();
        board.record(KINDS[random.below(2) as usize], k * END / count, cell, &bytes).unwrap();
    }
    board.finish().unwrap();
    board.into_index()
}

/// A window around those bookings, now and then an empty one.
fn window(random: &mut Random) -> Range<u64> {
    let start = Cell::new(random.below(2) as u32, random.below(220) as u32).number();
    start..start + random.below(4) * random.below(40)
}

fn number<T>(answer: Result<T, Refusal>) -> u64 {
    answer.err().map_or(0, |refusal| refusal.number())
}

// ── occupation ──

fn divisor(a: u64, b: u64) -> u64 {
    (1..=b).rev().find(|d| a % d == 0 && b % d == 0).unwrap()
}

/// Whether these are the tenths of a percent: no others are nearer, and where others are as near these are even.
fn nearest(occupied: u64, cells: u64, tenths: u64) -> bool {
    let away = |tenths: u64| (1000 * occupied).abs_diff(tenths * cells);
    (0..=1000).all(|other| away(tenths) < away(other) || other == tenths || away(tenths) == away(other) && tenths.is_multiple_of(2))
}

#[test]
fn occupation_is_what_the_cells_say() {
    let mut random = Random(13);
    for seed in 0..30 {
        let index = board(seed, 40);
        for _ in 0..60 {
            let (kind, tick) = (KINDS[random.below(2) as usize], random.below(END));
            let windows: Vec<Range<u64>> = (0..=random.below(5)).map(|_| window(&mut random)).collect();
            let all: Vec<Option<u8>> = windows.iter().flat_map(|window| index.cells(kind, tick, window.clone()).unwrap()).collect();
            let (occupied, cells) = (all.iter().filter(|cell| cell.is_some_and(|byte| byte != 0)).count() as u64, all.len() as u64);
            let report = index.occupation(kind, tick, &windows);
            if cells == 0 {
                assert_eq!(report, Err(Refusal::WrongWindows));
                continue;
            }
            let (report, by) = (report.unwrap(), divisor(occupied, cells));
            assert_eq!((report.occupied, report.cells), (occupied / by, cells / by), "{windows:?}");
            assert!(nearest(occupied, cells, report.tenths), "{report:?}");
        }
    }
}

/// The index that a train makes which is there from cell 10,000 on, for 4,000 minutes.
fn long() -> Index {
    let mut index = Index::open(Room { bytes: 4096, ..Room::even(8) }, 8, &[Kind::Memory]).unwrap();
    index.record(Kind::Memory, 0, 10_000, &[7; 4000]).unwrap();
    index.finish().unwrap();
    index
}

#[test]
fn fractions_and_ties() {
    let index = long();
    // of a window in which so many cells are occupied
    let report = |occupied: u64, cells: u64| index.occupation(Kind::Memory, 7, &[10_000 + occupied - cells..10_000 + occupied]).unwrap();
    let of = |occupied: u64, cells: u64| {
        let Occupation { occupied, cells, tenths, .. } = report(occupied, cells);
        (occupied, cells, tenths)
    };
    assert_eq!((of(3, 4), of(2, 3), of(6, 8)), ((3, 4, 750), (2, 3, 667), (3, 4, 750)));
    assert_eq!((of(1, 16), of(3, 16), of(1, 2000), of(3, 2000)), ((1, 16, 62), (3, 16, 188), (1, 2000, 0), (3, 2000, 2)));
    assert_eq!((of(0, 9), of(9, 9), of(1, 1)), ((0, 1, 0), (1, 1, 1000), (1, 1, 1000)));
    assert_eq!([report(3, 4), report(3, 2000), report(0, 3), report(5, 5)].map(|report| report.to_string()), ["3/4 (75.0 %)", "3/2000 (0.2 %)", "0/1 (0.0 %)", "1/1 (100.0 %)"]);
}

#[test]
fn the_most_windows_and_cells() {
    let index = long();
    let report = |windows: &[Range<u64>]| index.occupation(Kind::Memory, 7, windows);
    let one = 10_000..10_001;
    assert_eq!(report(&vec![one.clone(); 256]).unwrap().tenths, 1000);
    assert_eq!(report(&vec![one.clone(); 257]), Err(Refusal::WrongWindows));
    let whole = report(&[9..MOST + 9]).unwrap();
    assert_eq!((whole.occupied, whole.cells, whole.tenths), (125, MOST / 32, 0), "4,000 of 2^32");
    assert_eq!(report(&[9..MOST + 10]), Err(Refusal::WrongWindows));
    assert_eq!(report(&[9..MOST + 9, 0..1]), Err(Refusal::WrongWindows));
    assert_eq!(report(&[0..u64::MAX, 0..u64::MAX]), Err(Refusal::WrongWindows), "more than 2^64 cells in all");
    assert_eq!((report(&[]), report(&[5..5, 7..7])), (Err(Refusal::WrongWindows), Err(Refusal::WrongWindows)));
    // every window is looked at for 15, before 37
    for place in [0, 1, 255, 256, 257, 999] {
        let mut windows = vec![one.clone(); 1000];
        windows[place] = 6..5;
        assert_eq!(report(&windows), Err(Refusal::WindowReversed), "{place}");
        windows[place] = 5..5;
        assert_eq!(report(&windows), Err(Refusal::WrongWindows), "{place}");
    }
}

#[test]
fn refused_in_order() {
    let mut index = Index::open(Room::even(64), 8, &[Kind::Memory]).unwrap();
    let numbers = |index: &Index| {
        let of = |kind, tick, windows: &[Range<u64>]| number(index.occupation(kind, tick, windows));
        [of(Kind::Other, 8, &[5..4]), of(Kind::Memory, 8, &[5..4]), of(Kind::Memory, 7, &[5..4]), of(Kind::Memory, 7, &[]), of(Kind::Memory, 7, &[0..9])]
    };
    assert_eq!(numbers(&index), [4; 5]);
    index.finish().unwrap();
    assert_eq!(numbers(&index), [25, 14, 15, 37, 0]);
    assert_eq!(number(index.reload(&[1; 99], 0)), 17);
    assert_eq!(numbers(&index), [25, 14, 15, 37, 0], "17 leaves the index");
    let grown = GrowingIndex::from(index);
    assert_eq!(numbers(&grown), [25, 14, 15, 37, 0]);
}
