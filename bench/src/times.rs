//! Times of one call, by the port and by the Rust.
use crate::clock::Span;

/// Names of rows that are looked up.
pub const FINISH: &str = "finish";
pub const WHOLE: &str = "the whole stream: fill, record, finish";
pub const LOAD: &str = "load";
pub const OTHER_LOAD: &str = "load, blocks in another order";
pub const TEST_OPEN: &str = "the test of refusal 2, open";
pub const TEST_CLOSED: &str = "the test of refusal 2, closed";
pub const LOADED_TEST: &str = "the test, closed, of what was loaded";
pub const OTHER_TEST: &str = "the test, closed, of what was loaded in another order";

/// The public call, the one after one test and the Rust's, as far as there are any and they were timed.
pub struct Times {
    pub call: &'static str,
    pub public: Option<Span>,
    pub tested: Option<Span>,
    pub rust: Option<Span>,
    /// Whether it goes over all blocks, so that its time is told for a block too.
    pub all_blocks: bool,
}

impl Times {
    pub fn of(call: &'static str, [public, tested, rust]: [Option<Span>; 3]) -> Times {
        Times { call, public, tested, rust, all_blocks: false }
    }

    pub fn for_all_blocks(self) -> Times {
        Times { all_blocks: true, ..self }
    }

    /// Without the test of refusal 2 where it can be had.
    pub fn plain(&self) -> Span {
        self.tested.or(self.public).expect("a time of the port")
    }
}
