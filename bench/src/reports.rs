//! Reports beside the read of the same cells, all after one test: of an hour, a day, all minutes of a platform, a day of each platform. On timetables, and on a board
//! of few bookings far apart, whose platform has 2^32 minutes all the same.
use crate::clock::{by_turns, timed, Span, MIXED};
use crate::kinds::Board;
use crate::port::Tables;
use crate::random::Random;
use crate::reads::HOUR;
use crate::stream::{self, Op};
use crate::table::time;
use servercape::Kind;

const DAY: u64 = 1_440;
const PLATFORM: u64 = 1 << 32;

/// The most windows of a report.
const WINDOWS: u64 = 256;

/// A board with what is asked of it.
struct Asked {
    tables: Tables,
    end: u64,
    /// First cells of bookings.
    cells: Vec<u64>,
}

fn closed(ops: Vec<Op>, end: u64) -> Asked {
    let cells = ops.iter().map(|op| op.first).collect();
    let board = Board { name: "", ops: ops.into_iter().map(|op| (Kind::Memory, op)).collect(), end };
    let (_, _, tables) = board.played(board.rows());
    Asked { tables, end, cells }
}

fn timetable(pieces: u64, count: u64) -> Asked {
    let stream = stream::timetable(pieces, count);
    closed(stream.fill.into_iter().chain(stream.ops).collect(), stream.end)
}

/// So many stays of an hour on one platform, spread over all its minutes.
fn sparse(many: u64) -> Asked {
    let mut random = Random(many);
    let op = |k| Op { tick: k, first: PLATFORM / many * k + random.below(PLATFORM / many - HOUR), bytes: vec![7; HOUR as usize] };
    closed((0..many).map(op).collect(), many)
}

impl Asked {
    /// Ticks of the board's second half, each with the windows that some booking gives.
    fn queries(&self, windows: impl Fn(u64) -> Vec<u64>) -> Vec<(u64, Vec<u64>)> {
        let cell = |k: usize| self.cells[k * 7_919 % self.cells.len()];
        (0..MIXED).map(|k| (self.end - 1 - (k as u64 * 104_729) % self.end.div_ceil(2), windows(cell(k)))).collect()
    }

    /// A row of the table: the read of the cells where it can be had, and the report.
    fn print(&self, name: &str, windows: impl Fn(u64) -> Vec<u64>) {
        let queries = self.queries(windows);
        let length = queries[0].1[1] - queries[0].1[0];
        let one = queries[0].1.len() == 2;
        let [mut bytes, mut held] = [vec![0; if one && length <= DAY { length as usize } else { 0 }], vec![0; length.min(DAY) as usize]];
        let tables = &self.tables;
        if !bytes.is_empty() {
            for (tick, windows) in &queries {
                tables.cells_tested(*tick, windows[0], windows[1], &mut bytes, &mut held);
                let occupied = bytes.iter().filter(|&&byte| byte != 0).count() as u64;
                let (part, whole) = tables.occupation_tested(*tick, windows);
                assert_eq!(part * length, occupied * whole, "occupation");
            }
        }
        let all = [
            (!bytes.is_empty()).then(|| timed(|k| {
                tables.cells_tested(queries[k].0, queries[k].1[0], queries[k].1[1], &mut bytes, &mut held);
                bytes[0] as u64
            })),
            Some(timed(|k| tables.occupation_tested(queries[k].0, &queries[k].1).0)),
        ];
        let shown = by_turns(all).map(|span: Option<Span>| span.map_or("-".into(), |span| time(span.least)));
        println!("| {name} | {} |", shown.join(" | "));
    }
}

fn head(what: &str, asked: &Asked) {
    println!("\n{what}, {} bookings: least of the runs, after one test.\n", asked.cells.len());
    println!("| window | read cells | occupation |\n|---|---|---|");
}

/// From a platform's first minute on.
fn platform(cell: u64) -> u64 {
    cell / PLATFORM * PLATFORM
}

pub fn print(pieces: u64, count: u64) {
    let asked = timetable(pieces, count);
    head(&format!("Reports, about {pieces} pieces"), &asked);
    asked.print("an hour", |cell| vec![cell, cell + HOUR]);
    asked.print("a day", |cell| vec![cell, cell + DAY]);
    asked.print("a platform, 2^32 cells", |cell| vec![platform(cell), platform(cell) + PLATFORM]);
    asked.print("256 windows of an hour", |cell| (0..WINDOWS).flat_map(|k| [cell + k, cell + k + HOUR]).collect());
}

/// Boards of few bookings.
pub fn print_sparse() {
    for many in [4, 64] {
        let asked = sparse(many);
        head("Reports, a platform with few bookings", &asked);
        asked.print("an hour", |cell| vec![cell, cell + HOUR]);
        asked.print("a platform, 2^32 cells", |_| vec![0, PLATFORM]);
    }
}
