//! Station hours, as they are installed into an index.
use alloc::vec::Vec;
use core::ops::Range;

/// When a station is open. A window is some minutes of a day as the clock shows them, from 0 up to 1440. Day 0 is a Monday, and
/// [`Index::day`](crate::Index::day) gives the day of a cell. A cell is open if a window of its weekday covers what the clock shows then; on a special day only the
/// windows of that day count. The default has no windows: every cell is closed.
///
/// ```
/// use servercape::{Calendar, Index, Kind, Refusal, Room};
///
/// let mut hours = Calendar::default();
/// hours.week[0] = vec![300..720, 780..1440]; // Mondays from 05:00, with a break at noon
/// hours.special.push((1, vec![0..90])); // and the Tuesday after, up to 01:30
/// hours.special.push((7, vec![])); // the Monday after is a holiday
/// let mut index = Index::open(Room::even(64), 8, &[Kind::Memory])?;
/// index.install_calendar(&hours)?;
/// index.record(Kind::Memory, 1, 1430, &[7; 20])?; // through midnight: each minute by its own day
/// assert_eq!(index.record(Kind::Memory, 2, 715, &[9; 10]), Err(Refusal::OutsideHours));
/// assert_eq!(index.record(Kind::Memory, 2, 7 * 1440 + 600, &[9; 10]), Err(Refusal::OutsideHours));
/// # Ok::<(), servercape::Refusal>(())
/// ```
#[derive(Clone, PartialEq, Eq, Hash, Debug, Default)]
pub struct Calendar {
    /// The windows of each weekday, Monday first: at most eight a day, in any order.
    pub week: [Vec<Range<u64>>; 7],
    /// Special days, at most 64, by ascending day number: their windows count in place of the weekday's, and one without windows is closed.
    pub special: Vec<(u64, Vec<Range<u64>>)>,
}

/// The most windows of a day, and the most special days. More can be said, by their count, and are refused.
const WINDOWS: usize = 8;
const SPECIAL: usize = 64;

/// How many numbers the hours of a day are, and a calendar.
const HOURS: usize = 1 + 2 * WINDOWS;
const NUMBERS: usize = 7 * HOURS + 1 + SPECIAL * (1 + HOURS);

impl Calendar {
    /// Every weekday is open from midnight to midnight, as every cell is before the first calendar.
    pub fn always_open() -> Calendar {
        Calendar { week: core::array::from_fn(|_| Vec::from([0..1440])), special: Vec::new() }
    }

    /// The numbers that the call takes: the hours of each weekday; a count; of each special day its number and hours.
    pub(crate) fn numbers(&self) -> [u64; NUMBERS] {
        let mut numbers = [0; NUMBERS];
        let (week, special) = numbers.split_at_mut(7 * HOURS);
        for (windows, hours) in self.week.iter().zip(week.chunks_exact_mut(HOURS)) {
            put(windows, hours);
        }
        special[0] = self.special.len() as u64;
        for ((number, windows), day) in self.special.iter().zip(special[1..].chunks_exact_mut(1 + HOURS)) {
            day[0] = *number;
            put(windows, &mut day[1..]);
        }
        numbers
    }
}

/// The hours of a day: a count and eight pairs.
fn put(windows: &[Range<u64>], hours: &mut [u64]) {
    hours[0] = windows.len() as u64;
    for (window, pair) in windows.iter().zip(hours[1..].chunks_exact_mut(2)) {
        pair.copy_from_slice(&[window.start, window.end]);
    }
}
