//! The times of a run before, read from what it printed, beside those of this one. The streams are the same in every run, so a board is known by its size.
use crate::board::Board;
use crate::clock::Span;
use crate::table;
use std::collections::HashMap;

/// How many times as long a call may take.
const LIMIT: f64 = 1.1;

/// Public, after one test and Rust, in nanoseconds, by board and call.
pub struct Before(HashMap<(String, String), Vec<Option<f64>>>);

/// The table that is read.
const TIMES: &str = "Time of one call, least of the runs";

/// A time as `table::time` prints it.
fn nanoseconds(text: &str) -> Option<f64> {
    let (number, unit) = text.trim().split_once(' ')?;
    let factor = match unit {
        "ns" => 1.0,
        "µs" => 1e3,
        "ms" => 1e6,
        _ => return None,
    };
    number.parse::<f64>().ok().map(|number| number * factor)
}

fn cells(line: &str) -> Vec<&str> {
    line.trim_matches('|').split('|').map(str::trim).collect()
}

impl Before {
    /// What a run printed.
    pub fn read(text: &str) -> Before {
        let mut times = HashMap::new();
        let mut lines = text.lines();
        while lines.by_ref().any(|line| line.starts_with(TIMES)) {
            let rows: Vec<&str> = lines.by_ref().skip_while(|line| !line.starts_with('|')).take_while(|line| line.starts_with('|')).collect();
            let boards = rows.first().map_or(vec![], |head| cells(head));
            for row in rows.iter().skip(2).map(|row| cells(row)) {
                for (board, cell) in boards.iter().zip(&row).skip(1) {
                    let sides = cell.split(';').next().unwrap_or("").split(',').map(nanoseconds).collect();
                    times.insert((board.to_string(), row[0].to_string()), sides);
                }
            }
        }
        Before(times)
    }

    /// Now by before: the public call, in brackets the one after one test, and behind them the Rust, which has not changed.
    fn by(&self, board: &Board, call: &str) -> Option<[Option<f64>; 3]> {
        let before = self.0.get(&(table::named(board), call.to_string()))?;
        let times = board.time(call)?;
        let by = |place: usize, now: Option<Span>| Some(now?.least / before.get(place).copied().flatten()?);
        Some([by(0, times.public), by(1, times.tested), by(2, times.rust)])
    }

    pub fn print(&self, boards: &[Board]) {
        println!("\nTime of one call by that of the run before, least of the runs; the limit is {LIMIT}, and what is above it is marked. In brackets: the call after one test; behind them the Rust, which is the same.\n");
        table::head("call", boards);
        let mut above = 0;
        for call in boards[0].times.iter().map(|times| times.call) {
            let cells: Vec<String> = boards.iter().map(|board| self.by(board, call).map_or("-".into(), |by| cell(by, &mut above))).collect();
            println!("| {call} | {} |", cells.join(" | "));
        }
        println!("\n{above} above {LIMIT}.");
    }
}

fn cell([public, tested, rust]: [Option<f64>; 3], above: &mut u64) -> String {
    let shown = |value: Option<f64>| value.map_or("-".into(), table::ratio);
    let high = [public, tested].into_iter().flatten().any(|by| by > LIMIT);
    *above += high as u64;
    let tested = tested.map_or(String::new(), |tested| format!(" ({})", table::ratio(tested)));
    format!("{}{}{tested}, {}", if high { "! " } else { "" }, shown(public), shown(rust))
}
