//! Station hours (docs/RULES.md): a plain reading, and lists of operations between which calendars and lists of days are installed.
use crate::board::{Board, Op, LEAST_SCRATCH};
use crate::days::{self, List, DAY, LAST, PLATFORM};
use crate::lists::{kind_of, kinds_of, number, owned};
use crate::random::Random;
use crate::tally::Tally;
use servercape::{Calendar, Index, Room};
use std::ops::Range;

/// A calendar counts for every kind.
const KINDS: [u64; 2] = [1, 4];

// ── what the document says ──

/// Whether a window of the cell's special day, or of its weekday where it has none, covers what the clock shows.
pub fn open(calendar: &Calendar, days: &List, cell: u64) -> bool {
    let (day, label) = days::place(days, cell);
    let special = calendar.special.iter().find(|(number, _)| *number == day);
    let windows = special.map_or(&calendar.week[(day % 7) as usize], |(_, windows)| windows);
    windows.iter().any(|window| window.contains(&label))
}

/// Whether the calendar can be installed.
pub fn taken(calendar: &Calendar) -> bool {
    let hours = |windows: &Vec<Range<u64>>| windows.len() <= 8 && windows.iter().all(|w| w.start < w.end && w.end <= DAY);
    calendar.week.iter().all(hours)
        && calendar.special.len() <= 64
        && calendar.special.iter().all(|(_, windows)| hours(windows))
        && calendar.special.windows(2).all(|pair| pair[0].0 < pair[1].0)
}

// ── random calendars ──

fn windows(random: &mut Random, most: u64) -> Vec<Range<u64>> {
    let fault = random.once_in(60);
    let mut window = || {
        let (a, b) = (random.below(DAY + 1), random.below(DAY + 1 + fault as u64));
        if a < b || fault { a..b } else { b..a + (a == b && a < DAY) as u64 }
    };
    let many = window().start % (most + 1);
    (0..many).map(|_| window()).filter(|w| w.start < w.end || fault).collect()
}

fn calendar(random: &mut Random) -> Calendar {
    if random.once_in(6) {
        return Calendar { week: std::array::from_fn(|_| vec![0..DAY]), special: vec![] };
    }
    let most = if random.once_in(40) { 66 } else { 5 };
    let step = if random.once_in(40) { 1 } else { 0 };
    let (mut day, mut special) = (random.below(9), vec![]);
    for _ in 0..random.below(most) {
        special.push((day, windows(random, 9)));
        day += 1 - step + random.below(9);
    }
    if random.once_in(3) {
        special.push((LAST, windows(random, 8)));
    }
    Calendar { week: std::array::from_fn(|_| windows(random, 4)), special }
}

/// An operation around the edges of a calendar: of a window, of a day, of a platform.
fn op(random: &mut Random, calendar: &Calendar, days: &List, tick: u64) -> Op {
    let all = calendar.week.iter().chain(calendar.special.iter().map(|(_, windows)| windows)).flatten();
    let edges: Vec<u64> = all.flat_map(|w| [w.start, w.end]).chain([0, DAY]).collect();
    let day = days::start(days, random.of(&[0, 0, 1, 5, 6, 7, 8, 13, 20, LAST]));
    let cell = random.below(3) * PLATFORM + day + random.of(&edges);
    let first = cell.saturating_sub(random.below(4) + random.of(&[0, 0, 60]));
    let length = random.of(&[1, 1, 2, 3, 6, 40, 1500]);
    let zero = random.of(&[2, 5, 1000]);
    Op { kind: random.of(&KINDS), tick, first, bytes: (0..length).map(|_| if random.once_in(zero) { 0 } else { 7 }).collect() }
}

// ── compared ──

fn install(index: &mut Index, board: &mut Board, calendar: &Calendar, tally: &mut Tally) {
    let got = number(&index.install_calendar(calendar));
    tally.same(|| format!("install {calendar:?}"), &got, &board.install(calendar));
    tally.count(14, "calendars installed, the answer compared with the document", 1);
    if got != 0 {
        tally.refused(got);
    }
}

fn record(index: &mut Index, board: &mut Board, op: &Op, tally: &mut Tally) {
    let got = number(&index.record(kind_of(op.kind), op.tick, op.first, &op.bytes));
    tally.same(|| format!("hours of {op:?}"), &got, &board.record(op, LEAST_SCRATCH));
    tally.count(15, "operations judged by a calendar, the answer compared with the document", 1);
    if got != 0 {
        tally.refused(got);
    }
}

fn install_days(index: &mut Index, board: &mut Board, list: &List, tally: &mut Tally) {
    let got = number(&index.install_days(list));
    tally.same(|| format!("days {list:?}"), &got, &board.install_days(list));
    tally.count(16, "lists of days installed, the answer compared with the document", 1);
    if got != 0 {
        tally.refused(got);
    }
}

fn clock(random: &mut Random, index: &Index, days: &List, tally: &mut Tally) {
    let cell = days::cell(random, days);
    let got = index.clock(cell).map(|label| label.number());
    tally.same(|| format!("clock of {cell} by {days:?}"), &got, &Ok(days::label(days, cell)));
    tally.same(|| format!("day of {cell} by {days:?}"), &index.day(cell), &days::place(days, cell).0);
    tally.count(17, "clock labels compared with the document", 1);
}

/// A finished index and one that is loaded: each takes lists of days.
fn closed(random: &mut Random, mut index: Index, mut board: Board, tally: &mut Tally) {
    let file = index.write().expect("a closed index");
    clock(random, &index, board.days(), tally);
    for _ in 0..2 {
        install_days(&mut index, &mut board, &days::random_list(random), tally);
        clock(random, &index, board.days(), tally);
    }
    tally.same(|| "file after lists of days".to_string(), &index.write(), &Ok(file.clone()));
    let Ok((mut index, _)) = Index::load(&file, 0) else {
        return;
    };
    clock(random, &index, &vec![], tally);
    board.install_days(&vec![]);
    install_days(&mut index, &mut board, &days::random_list(random), tally);
    clock(random, &index, board.days(), tally);
}

/// Plays lists with calendars and lists of days. Each is compared with the document; the Rust has neither.
pub fn compare(random: &mut Random, lists: u64, tally: &mut Tally) {
    let room = Room { pieces: 90, blocks: 300, bytes: 1 << 16, nodes: 2_000, entries: 4_000 };
    for _ in 0..lists {
        let (mut board, mut index) = (Board::open(40, &KINDS, room), Index::open(room, 40, &kinds_of(&KINDS)).expect("an end tick that opening takes"));
        let mut hours = Calendar::default();
        for tick in 0..30 {
            if random.once_in(5) {
                hours = calendar(random);
                install(&mut index, &mut board, &hours, tally);
            }
            if random.once_in(6) {
                install_days(&mut index, &mut board, &days::random_list(random), tally);
            }
            let next = op(random, &hours, board.days(), tick);
            record(&mut index, &mut board, &next, tally);
            clock(random, &index, board.days(), tally);
        }
        index.finish().expect("room for the tree");
        let blocks: Vec<_> = index.blocks().expect("a closed index").map(owned).collect();
        tally.same(|| format!("blocks after {hours:?}"), &blocks, &board.finish().expect("room for the tree").blocks);
        tally.same(|| "closed install".to_string(), &number(&index.install_calendar(&hours)), &3);
        closed(random, index, board, tally);
    }
}
