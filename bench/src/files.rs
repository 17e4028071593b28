//! Load of files: as the boards were written, and with the blocks in another order.
use crate::clock::{by_turns, timed, Timed};
use crate::port::{Rows, Tables};
use crate::ported;
use crate::times::{self, Times};

/// A file with tables to load it into. A load finds them as the load before left them.
struct Loading<'a> {
    file: &'a [u8],
    tables: Tables,
}

impl<'a> Loading<'a> {
    fn new(file: &'a [u8], rows: Rows) -> Loading<'a> {
        Loading { file, tables: Tables::open(rows, 1) }
    }

    fn port(&mut self) -> Option<Timed<'_>> {
        Some(timed(|_| self.tables.load(self.file)))
    }

    fn rust(&self) -> Option<Timed<'a>> {
        let file = self.file;
        Some(timed(move |_| ported::load(file).last_tick()))
    }

    fn test(&self) -> Option<Timed<'_>> {
        Some(timed(|_| self.tables.test(true)))
    }

    /// What was loaded is written as it was read.
    fn same(&self) {
        let mut out = vec![7; self.file.len()];
        assert_eq!(self.tables.write_tested(&mut out), out.len() as u64, "as many bytes as were read");
        assert!(out == self.file, "written as read");
    }
}

/// The loads of a board, and the tests of what was loaded.
pub struct Loads {
    pub plain: [Times; 2],
    pub tests: [Times; 2],
    pub moves: Times,
}

/// Loads a file, the same with its blocks in another order, and that of a board of moves, by turns. Load has no test of its tables before it.
pub fn loads(rows: [Rows; 2], written: &[u8], shuffled: &[u8], moves: &[u8]) -> Loads {
    let (mut plain, mut other) = (Loading::new(written, rows[0]), Loading::new(shuffled, rows[0]));
    let mut moved = Loading::new(moves, rows[1]);
    let [rust, other_rust, moved_rust] = [plain.rust(), other.rust(), moved.rust()];
    let [port, rust, other_port, other_rust, moved_port, moved_rust] =
        by_turns([plain.port(), rust, other.port(), other_rust, moved.port(), moved_rust]);
    [&plain, &other, &moved].into_iter().for_each(Loading::same);
    let [test, other_test] = by_turns([plain.test(), other.test()]);
    let of = |call, port, rust| Times::of(call, [port, None, rust]).for_all_blocks();
    Loads {
        plain: [of(times::LOAD, port, rust), of(times::OTHER_LOAD, other_port, other_rust)],
        tests: [of(times::LOADED_TEST, test, None), of(times::OTHER_TEST, other_test, None)],
        moves: of(times::LOAD, moved_port, moved_rust),
    }
}
