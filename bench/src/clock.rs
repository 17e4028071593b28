//! Processor time of this thread, so that what else the machine runs counts little. Of several runs the least counts, since other work only adds, and the
//! middle one is told beside it.
use std::hint::black_box;

#[repr(C)]
struct Time {
    seconds: i64,
    nanoseconds: i64,
}

extern "C" {
    fn clock_gettime(clock: i32, time: &mut Time) -> i32;
}

fn now() -> f64 {
    const THREAD_CPUTIME: i32 = 3;
    let mut time = Time { seconds: 0, nanoseconds: 0 };
    assert_eq!(unsafe { clock_gettime(THREAD_CPUTIME, &mut time) }, 0, "clock_gettime");
    time.seconds as f64 * 1e9 + time.nanoseconds as f64
}

/// Nanoseconds of one run, and what it gives.
pub fn once<T>(run: impl FnOnce() -> T) -> (f64, T) {
    let start = now();
    let given = black_box(run());
    (now() - start, given)
}

/// The least and the middle of several runs, in nanoseconds.
#[derive(Clone, Copy)]
pub struct Span {
    pub least: f64,
    pub middle: f64,
}

impl Span {
    pub fn of(mut runs: Vec<f64>) -> Span {
        runs.sort_by(f64::total_cmp);
        let half = runs.len() / 2;
        let middle = if runs.len() % 2 == 1 { runs[half] } else { (runs[half - 1] + runs[half]) / 2.0 };
        Span { least: runs[0], middle }
    }

    /// Of one of so many.
    pub fn each(self, count: usize) -> Span {
        Span { least: self.least / count as f64, middle: self.middle / count as f64 }
    }
}

/// How many runs there are at most.
pub const MOST: usize = 7;

/// How many runs there are where one takes so long.
pub fn runs(nanoseconds: f64) -> usize {
    match nanoseconds {
        ns if ns < 3e8 => MOST,
        ns if ns < 1e9 => 5,
        ns if ns < 2e10 => 3,
        _ => 1,
    }
}

/// How many different calls are mixed.
pub const MIXED: usize = 64;

/// So many calls in a row, in nanoseconds. Each is given a number below MIXED.
pub type Timed<'a> = Box<dyn FnMut(usize) -> f64 + 'a>;

pub fn timed<'a>(mut call: impl FnMut(usize) -> u64 + 'a) -> Timed<'a> {
    Box::new(move |calls| once(|| (0..calls).map(|k| black_box(call(k % MIXED))).fold(0u64, u64::wrapping_add)).0)
}

/// A call among others that are run by turns.
struct Turn<'a> {
    call: Timed<'a>,
    calls: usize,
    runs: usize,
    taken: Vec<f64>,
}

impl<'a> Turn<'a> {
    /// A run has as many calls as take LEAST. The first call is a run only if it takes more than LONG, else it warms up.
    fn new(mut call: Timed<'a>) -> Turn<'a> {
        const LEAST: f64 = 2e6;
        const LONG: f64 = 1e9;
        let first = call(1);
        let calls = (LEAST / first.max(1.0)).ceil().clamp(1.0, 1e6) as usize;
        let calls = if calls > MIXED { calls.next_multiple_of(MIXED) } else { calls };
        let taken = if first > LONG { vec![first] } else { vec![] };
        // Many calls are timed, so each has a quarter of what a stream has.
        Turn { call, calls, runs: runs(4.0 * first), taken }
    }

    /// The others may have taken the cache, so many calls begin with some that are not timed.
    fn run(&mut self) {
        if self.taken.len() < self.runs {
            if self.calls > MIXED {
                (self.call)(MIXED);
            }
            self.taken.push((self.call)(self.calls) / self.calls as f64);
        }
    }
}

/// One call of each, by turns.
pub fn by_turns<const N: usize>(calls: [Option<Timed>; N]) -> [Option<Span>; N] {
    let mut turns = calls.map(|call| call.map(Turn::new));
    for _ in 0..MOST {
        turns.iter_mut().flatten().for_each(Turn::run);
    }
    turns.map(|turn| turn.map(|turn| Span::of(turn.taken)))
}
