//! Reports on a closed index: how much of some windows is occupied.
use crate::{index::after_test, tested, Index, Kind, Refusal};
use core::{fmt, ops::Range};

/// How many cells of some windows are occupied: held, with a byte other than 0. All windows are taken together, and a cell that several of them have counts for each.
///
/// It is printed as `3/4 (75.0 %)`.
#[non_exhaustive]
#[derive(Clone, Copy, PartialEq, Eq, Hash, Debug)]
pub struct Occupation {
    /// The occupied cells, by as many as `cells`: the fraction is reduced fully, and 0 of 1 where no cell is occupied.
    pub occupied: u64,
    /// All cells, by the same number.
    pub cells: u64,
    /// Tenths of a percent, from 0 to 1,000: the nearest, and of two that are as near the even one.
    pub tenths: u64,
}

impl fmt::Display for Occupation {
    fn fmt(&self, f: &mut fmt::Formatter) -> fmt::Result {
        write!(f, "{}/{} ({}.{} %)", self.occupied, self.cells, self.tenths / 10, self.tenths % 10)
    }
}

/// The most windows of a report. More can be said, and are refused.
const WINDOWS: usize = 256;

// SAFETY, of every `unsafe` below: as in index.rs.
impl Index {
    /// How many cells of some windows of a kind are occupied at a tick. Windows may be of several platforms, and may overlap; one of them may be empty beside others.
    /// Refusals 4, 25, 14, 15 of any window, 37.
    ///
    /// ```
    /// use servercape::{Cell, GrowingIndex, Kind, Refusal};
    ///
    /// let mut board = GrowingIndex::open(8, &[Kind::Memory])?;
    /// board.record(Kind::Memory, 1, Cell::new(1, 480).number(), &[7; 45])?; // platform 1 from 08:00 to 08:45
    /// board.record(Kind::Memory, 2, Cell::new(2, 510).number(), &[9; 10])?; // platform 2 from 08:30 to 08:40
    /// let now = board.finished()?;
    /// let hour = |platform| Cell::window(platform, 480..540);
    /// assert_eq!(now.occupation(Kind::Memory, 2, &[hour(1)])?.to_string(), "3/4 (75.0 %)");
    /// let both = now.occupation(Kind::Memory, 2, &[hour(1), hour(2)])?;
    /// assert_eq!((both.occupied, both.cells, both.tenths), (11, 24, 458)); // 55 minutes of 120
    /// assert_eq!(now.occupation(Kind::Memory, 2, &[]), Err(Refusal::WrongWindows));
    /// # Ok::<(), Refusal>(())
    /// ```
    pub fn occupation(&self, kind: Kind, tick: u64, windows: &[Range<u64>]) -> Result<Occupation, Refusal> {
        // of those that are too many one is enough: one that is turned round, if there is one
        let (few, more) = windows.split_at(windows.len().min(WINDOWS));
        let one = more.iter().find(|window| window.end < window.start).or(more.first());
        let mut numbers = [0; 2 * (WINDOWS + 1)];
        let pairs = numbers.chunks_exact_mut(2).zip(few.iter().chain(one));
        let count = pairs.map(|(pair, window)| pair.copy_from_slice(&[window.start, window.end])).count();
        let [mut occupied, mut cells, mut tenths] = [0; 3];
        Refusal::unless_zero(unsafe {
            after_test!(servercape_occupation_tested, self, blocks store nodes entries;
                kind.code(), tick, numbers.as_ptr(), 2 * count, &mut occupied, &mut cells, &mut tenths)
        })?;
        Ok(Occupation { occupied, cells, tenths })
    }
}
