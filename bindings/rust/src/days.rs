//! How long the days are, and what the clock shows.
use crate::{Cell, Refusal};
use core::{fmt, ops::RangeInclusive};

/// Minutes of a day that is not listed, of a short one and of a long one.
const DAY: u64 = 1440;
const SHORT: u64 = 1380;
const LONG: u64 = 1500;

/// The most days that may be listed.
pub(crate) const MOST: usize = 64;

/// How long the days are, which says what day and what clock time a cell has: every day has 1,440 minutes but for those of a list, at most 64, which have 1,380
/// or 1,500. Minutes count elapsed time, so a listed day moves all later ones. On a short day the clock goes from 01:59 to 03:00, on a long one it shows 02:00 to
/// 02:59 twice.
///
/// ```
/// use servercape::{Cell, Days};
///
/// let cell = Cell::new(2, 1440 + 102).number();
/// assert_eq!(Days::regular().day(cell), 1, "the Tuesday after minute 0");
/// assert_eq!(Days::regular().label(cell).to_string(), "01:42");
///
/// let days = Days::new(&[(0, 1380), (6, 1500)])?; // the first Monday is short, the first Sunday long
/// assert_eq!([119, 120, 1379, 1380].map(|cell| days.label(cell).to_string()), ["01:59", "03:00", "23:59", "00:00"]);
/// assert_eq!((days.start(6), days.start(7)), (6 * 1440 - 60, 7 * 1440));
/// # Ok::<(), servercape::Refusal>(())
/// ```
///
/// An index has a list of its own: [`Index::install_days`](crate::Index::install_days). The calls go by that; this type works it out once more, without an index.
#[derive(Clone, Copy, PartialEq, Eq)]
pub struct Days {
    count: usize,
    /// Zeros past the count.
    listed: [(u64, u64); MOST],
}

impl Days {
    /// Every day has 1,440 minutes.
    pub const fn regular() -> Days {
        Days { count: 0, listed: [(0, 0); MOST] }
    }

    /// Some days with their minutes, 1,380 or 1,500, ascending by day, at most 64. Refusal 28, as installing the list is.
    pub fn new(list: &[(u64, u64)]) -> Result<Days, Refusal> {
        let ascend = list.windows(2).all(|pair| pair[0].0 < pair[1].0);
        let lengths = list.iter().all(|&(_, minutes)| minutes == SHORT || minutes == LONG);
        if list.len() > MOST || !ascend || !lengths {
            return Err(Refusal::WrongDays);
        }
        let mut days = Days { count: list.len(), ..Days::regular() };
        days.listed[..list.len()].copy_from_slice(list);
        Ok(days)
    }

    /// The clock changes of some years in Central European Time, by Directive 2000/84/EC of the European Union: the last Sunday of March is short, the last of
    /// October long. `monday` is the date of day 0, as year, month and day; changes before it are left out. None where that is no Monday, or where there are more
    /// than 64 changes.
    ///
    /// ```
    /// use servercape::{Days, GrowingIndex, Kind};
    ///
    /// let days = Days::central_european((2024, 1, 1), 2024..=2026).expect("a Monday");
    /// assert_eq!(days.list()[..2], [(90, 1380), (300, 1500)]); // 31 March and 27 October 2024
    /// let mut board = GrowingIndex::open(1_000_000, &[Kind::Memory])?;
    /// board.install_days(days.list())?;
    /// let last = days.start(90) + 119;
    /// assert_eq!([last, last + 1].map(|cell| board.label(cell).to_string()), ["01:59", "03:00"]);
    /// # Ok::<(), servercape::Refusal>(())
    /// ```
    pub fn central_european(monday: (u32, u32, u32), years: RangeInclusive<u32>) -> Option<Days> {
        let (year, month, day) = monday;
        let zero = date(year, month, day)?;
        if weekday(zero) != 0 {
            return None;
        }
        let mut days = Days::regular();
        for year in years {
            for (month, minutes) in [(3, SHORT), (10, LONG)] {
                if let Some(day) = last_sunday(year, month)?.checked_sub(zero) {
                    *days.listed.get_mut(days.count)? = (day, minutes);
                    days.count += 1;
                }
            }
        }
        Some(days)
    }

    /// The listed days with their minutes, as [`Index::install_days`](crate::Index::install_days) takes them.
    pub fn list(&self) -> &[(u64, u64)] {
        &self.listed[..self.count]
    }

    /// The first minute of a day, at most 2^64 - 1. Minutes of cells are below 2^32.
    pub fn start(&self, day: u64) -> u64 {
        let earlier = self.list().iter().filter(|(listed, _)| *listed < day);
        let start = earlier.fold(u128::from(day) * u128::from(DAY), |start, (_, minutes)| start + u128::from(*minutes) - u128::from(DAY));
        u64::try_from(start).unwrap_or(u64::MAX)
    }

    /// The day that a cell falls on, from 0, which is a Monday.
    pub fn day(&self, cell: u64) -> u64 {
        self.place(cell).0
    }

    /// The clock time of a cell.
    pub fn label(&self, cell: u64) -> Label {
        let (_, minute, length) = self.place(cell);
        let shown = match length {
            SHORT if minute >= 120 => minute + 60,
            LONG if minute >= 180 => minute - 60,
            _ => minute,
        };
        Label(shown / 60 * 100 + shown % 60)
    }

    /// The day of a cell, the minute in it, and how many it has.
    fn place(&self, cell: u64) -> (u64, u64, u64) {
        let (mut from, mut left) = (0, u64::from(Cell::from(cell).minute()));
        for &(day, minutes) in self.list() {
            let gap = day - from;
            if left / DAY < gap {
                break;
            }
            left -= gap * DAY;
            if left < minutes {
                return (day, left, minutes);
            }
            left -= minutes;
            from = day + 1;
        }
        (from + left / DAY, left % DAY, DAY)
    }
}

impl Default for Days {
    fn default() -> Days {
        Days::regular()
    }
}

impl fmt::Debug for Days {
    fn fmt(&self, f: &mut fmt::Formatter) -> fmt::Result {
        f.debug_tuple("Days").field(&self.list()).finish()
    }
}

// ── dates ──

/// How many days a date of the Gregorian calendar lies after 1 March of year 0. None where there is no such month, or day in it.
fn date(year: u32, month: u32, day: u32) -> Option<u64> {
    let leap = year % 4 == 0 && (year % 100 != 0 || year % 400 == 0);
    let days = [31, 28 + u32::from(leap), 31, 30, 31, 30, 31, 31, 30, 31, 30, 31];
    let most = *days.get(month.checked_sub(1)? as usize)?;
    // a year begins with March, so that a leap day is its last
    let (year, month) = if month > 2 { (u64::from(year), month - 3) } else { (u64::from(year.checked_sub(1)?), month + 9) };
    (1..=most).contains(&day).then(|| 365 * year + year / 4 - year / 100 + year / 400 + u64::from((153 * month + 2) / 5 + day - 1))
}

/// 0 is a Monday.
fn weekday(date: u64) -> u64 {
    (date + 2) % 7
}

/// Of a month of 31 days.
fn last_sunday(year: u32, month: u32) -> Option<u64> {
    date(year, month, 31).map(|last| last - (weekday(last) + 1) % 7)
}

/// A clock time. It is printed as `01:42`.
#[derive(Clone, Copy, PartialEq, Eq, PartialOrd, Ord, Hash, Debug)]
pub struct Label(pub(crate) u64);

impl Label {
    /// Hours times 100 plus minutes, as the call for C has it.
    pub const fn number(self) -> u64 {
        self.0
    }

    /// From 0 to 23.
    pub const fn hour(self) -> u64 {
        self.0 / 100
    }

    /// From 0 to 59.
    pub const fn minute(self) -> u64 {
        self.0 % 100
    }
}

impl fmt::Display for Label {
    fn fmt(&self, f: &mut fmt::Formatter) -> fmt::Result {
        write!(f, "{:02}:{:02}", self.hour(), self.minute())
    }
}
