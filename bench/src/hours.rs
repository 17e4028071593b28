//! Record with and without a calendar and a list of days: known bookings, which change nothing, on a board of one piece, so that little is timed but these. And the
//! clock label of a cell.
use crate::clock::{by_turns, timed, Span, Timed};
use servercape::{Calendar, Index, Kind, Room};

/// The longest booking, more than four days.
const LONGEST: usize = 6_000;

/// All of each weekday.
fn whole() -> Calendar {
    Calendar { week: std::array::from_fn(|_| vec![0..1440]), special: vec![] }
}

/// All windows and special days that there can be: each day is covered by its last window.
fn full() -> Calendar {
    let day = || (0..8).map(|k| if k < 7 { k..k + 1 } else { 0..1440 }).collect::<Vec<_>>();
    Calendar { week: std::array::from_fn(|_| day()), special: (0..64).map(|k| (1_000 + k, day())).collect() }
}

/// As many days as may be listed, behind those of the bookings and among them.
fn listed(first: u64) -> Vec<(u64, u64)> {
    (0..64).map(|k| (first + k, if k % 2 == 0 { 1380 } else { 1500 })).collect()
}

fn board(calendar: Option<Calendar>, days: &[(u64, u64)]) -> Index {
    let room = Room { pieces: 8, blocks: 8, bytes: 1 << 16, nodes: 8, entries: 8 };
    let mut index = Index::open(room, 8, &[Kind::Memory]).expect("open");
    index.record(Kind::Memory, 0, 0, &vec![7; LONGEST]).expect("record");
    if let Some(calendar) = calendar {
        index.install_calendar(&calendar).expect("install");
    }
    index.install_days(days).expect("install");
    index
}

fn record(mut index: Index, cells: usize) -> Option<Timed<'static>> {
    let bytes = vec![7; cells];
    Some(timed(move |k| index.record(Kind::Memory, 0, k as u64, &bytes).is_ok() as u64))
}

/// A cell for each call, over a hundred days.
fn label(index: Index) -> Option<Timed<'static>> {
    Some(timed(move |k| index.clock(k as u64 * 7_919 % 144_000).map_or(0, |label| label.number())))
}

fn shown(span: Option<Span>) -> String {
    span.map_or(String::new(), |s| format!("{:.0}, {:.0}", s.least, s.middle))
}

pub fn print() {
    println!("\n## Station hours and days\n\nA known booking recorded, ns: least, middle.\n");
    println!("| cells | no calendar | each day open | 8 windows a day, 64 special days | each day open, 64 days listed from day 0 on | the same, from day 1,000 on |");
    println!("|---|---|---|---|---|---|");
    for cells in [1, 60, 1_440, 5_900] {
        let times = by_turns([
            record(board(None, &[]), cells),
            record(board(Some(whole()), &[]), cells),
            record(board(Some(full()), &[]), cells),
            record(board(Some(whole()), &listed(0)), cells),
            record(board(Some(whole()), &listed(1_000)), cells),
        ]);
        let [none, whole, full, first, late] = times.map(shown);
        println!("| {cells} | {none} | {whole} | {full} | {first} | {late} |");
    }
    println!("\nA clock label after one test, ns: least, middle.\n\n| no list | one day | 64 days |\n|---|---|---|");
    let times = by_turns([label(board(None, &[])), label(board(None, &[(0, 1380)])), label(board(None, &listed(0)))]);
    let [none, one, many] = times.map(shown);
    println!("| {none} | {one} | {many} |");
}
