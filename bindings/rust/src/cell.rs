//! Cells.
use core::{fmt, ops::Range};

/// A platform in a minute. Calls take and give the number of a cell: the platform is its upper 32 bits, the minute its lower 32. Minute 0 is a Monday 00:00.
///
/// ```
/// use servercape::Cell;
///
/// let cell = Cell::new(2, 1432);
/// assert_eq!(cell.number(), (2 << 32) + 1432);
/// assert_eq!((Cell::from(8589936024).platform(), Cell::from(8589936024).minute()), (2, 1432));
/// ```
#[derive(Clone, Copy, PartialEq, Eq, PartialOrd, Ord, Hash, Debug)]
pub struct Cell(u64);

impl Cell {
    /// The cell of a platform and a minute.
    pub const fn new(platform: u32, minute: u32) -> Cell {
        Cell((platform as u64) << 32 | minute as u64)
    }

    /// The platform.
    pub const fn platform(self) -> u32 {
        (self.0 >> 32) as u32
    }

    /// The minute, counted from a Monday 00:00 on.
    pub const fn minute(self) -> u32 {
        self.0 as u32
    }

    /// The number that calls take.
    pub const fn number(self) -> u64 {
        self.0
    }

    /// The window of some minutes of a platform.
    ///
    /// ```
    /// assert_eq!(servercape::Cell::window(0, 1440..1450), 1440..1450);
    /// ```
    pub const fn window(platform: u32, minutes: Range<u32>) -> Range<u64> {
        Cell::new(platform, minutes.start).0..Cell::new(platform, minutes.end).0
    }
}

impl From<u64> for Cell {
    fn from(number: u64) -> Cell {
        Cell(number)
    }
}

impl From<Cell> for u64 {
    fn from(cell: Cell) -> u64 {
        cell.0
    }
}

impl fmt::Display for Cell {
    fn fmt(&self, f: &mut fmt::Formatter) -> fmt::Result {
        write!(f, "platform {} minute {}", self.platform(), self.minute())
    }
}
