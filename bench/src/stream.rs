//! Timetable-like streams of bookings: platforms and days, each from 17:00 through midnight to 7:00, stays of 5 to 40 minutes. Most book a train over
//! what stood there, some repeat what is known, some free the platform. In a stream of moves half the edits are moves.
use crate::random::Random;
use crate::stays::{differs, known, Stay, Stays};

pub struct Op {
    pub tick: u64,
    pub first: u64,
    pub bytes: Vec<u8>,
}

#[derive(Default)]
pub struct Stream {
    /// The tick after the last one, and the first tick that is timed.
    pub end: u64,
    pub start: u64,
    /// Bookings until the board is full, then those that are timed.
    pub fill: Vec<Op>,
    pub ops: Vec<Op>,
    /// The most pieces at any time, the pieces at the end, and the bytes of all updates.
    pub most_pieces: u64,
    pub pieces: u64,
    pub bytes: u64,
    /// The first cells of the stays at the end.
    pub cells: Vec<u64>,
}

/// The longest stay, in minutes.
pub const LONGEST: u64 = 40;

/// From 17:00 to 7:00 of the next day; a board has about as many pieces there as PIECES.
const EVENING: u64 = 17 * 60;
const MINUTES: u64 = 14 * 60;
const PIECES: u64 = 64;
const DAYS: u64 = 4;

/// How many bookings fill a board, for each of its pieces.
const FILL: u64 = 4;

/// Where there is something to book: so many evenings, each of a platform and a day, of so many minutes.
struct Ground {
    parts: u64,
    days: u64,
    minutes: u64,
}

/// Bookings on a board of about so many pieces.
struct Booking {
    random: Random,
    ground: Ground,
    stays: Stays,
    stream: Stream,
}

impl Booking {
    fn new(seed: u64, ground: Ground) -> Booking {
        Booking { random: Random(seed), ground, stays: Stays::default(), stream: Stream::default() }
    }

    /// A cell where any stay may start.
    fn place(&mut self) -> u64 {
        let part = self.random.below(self.ground.parts);
        let (platform, day) = (part / self.ground.days, part % self.ground.days);
        (platform << 32) + day * 1440 + EVENING + self.random.below(self.ground.minutes - LONGEST)
    }

    /// A stay somewhere on the board, with its train.
    fn stay(&mut self) -> Stay {
        let from = self.place();
        let to = from + 5 + self.random.below(LONGEST - 5);
        let train = if self.random.one_in(20) { 0 } else { 1 + self.random.below(255) as u8 };
        match self.stays.next(from) {
            // a stay that is known, once more
            Some(known) if self.random.one_in(8) => known,
            _ => Stay { from, to, train },
        }
    }

    /// Whether port and Rust do this booking alike.
    fn alike(&self, stay: Stay) -> bool {
        !differs(&self.stays.met(stay), stay)
    }

    /// Whether it changes something, and both do it alike.
    fn alike_update(&self, stay: Stay) -> bool {
        self.alike(stay) && !known(&self.stays.met(stay), stay)
    }

    /// The booking, at the tick that comes next.
    fn op(&mut self, stay: Stay) -> Op {
        let met = self.stays.met(stay);
        let length = stay.to - stay.from;
        if !known(&met, stay) {
            self.stays.book(&met, stay);
            self.stream.bytes += length;
        }
        self.stream.most_pieces = self.stream.most_pieces.max(self.stays.count());
        Op { tick: self.stream.end, first: stay.from, bytes: vec![stay.train; length as usize] }
    }

    /// A booking that both do alike.
    fn booking(&mut self) -> Op {
        loop {
            let stay = self.stay();
            if self.alike(stay) {
                let op = self.op(stay);
                self.stream.end += 1;
                return op;
            }
        }
    }

    /// What becomes of a train's stay on the platform that it leaves: it is set free, or the train comes up to ten minutes earlier or later.
    fn left(&mut self, stay: Stay) -> Stay {
        let minutes = 1 + self.random.below(10);
        match self.random.below(4) {
            0 => Stay { from: stay.from - minutes, to: stay.to - minutes, ..stay },
            1 => Stay { from: stay.from + minutes, to: stay.to + minutes, ..stay },
            _ => Stay { train: 0, ..stay },
        }
    }

    /// A train's stay moved to another platform: two updates at one tick, first that on the lower platform or first that on the higher.
    fn moved(&mut self) -> Option<[Op; 2]> {
        let place = self.place();
        let stay = self.stays.next(place).filter(|stay| stay.train != 0)?;
        let (left, from) = (self.left(stay), self.place());
        let come = Stay { from, to: from + (stay.to - stay.from), ..stay };
        if from >> 32 == stay.from >> 32 || !self.alike_update(left) || !self.alike_update(come) {
            return None;
        }
        let (one, other) = if self.random.one_in(2) { (left, come) } else { (come, left) };
        let ops = [self.op(one), self.op(other)];
        self.stream.end += 1;
        Some(ops)
    }

    /// So many operations; half the edits are moves, where a move is found in some tries.
    fn edits(&mut self, count: u64) -> Vec<Op> {
        const TRIES: usize = 256;
        let mut ops = Vec::with_capacity(count as usize);
        while (ops.len() as u64) < count {
            let moves = ops.len() as u64 + 1 < count && self.random.one_in(2);
            match (0..if moves { TRIES } else { 0 }).find_map(|_| self.moved()) {
                Some(two) => ops.extend(two),
                None => ops.push(self.booking()),
            }
        }
        ops
    }

    /// A full board of about so many pieces, and so many operations on it.
    fn stream(mut self, pieces: u64, count: u64, mut ops: impl FnMut(&mut Booking, u64) -> Vec<Op>) -> Stream {
        self.stream.fill = ops(&mut self, FILL * pieces);
        self.stream.start = self.stream.end;
        self.stream.ops = ops(&mut self, count);
        self.stream.pieces = self.stays.count();
        self.stream.cells = self.stays.first_cells();
        self.stream
    }
}

/// Bookings, each at a tick of its own.
pub fn timetable(pieces: u64, count: u64) -> Stream {
    let ground = Ground { parts: pieces.div_ceil(PIECES), days: DAYS, minutes: MINUTES };
    Booking::new(pieces * 1_000_003 + count, ground).stream(pieces, count, |booking, n| (0..n).map(|_| booking.booking()).collect())
}

/// Bookings and moves. There are at least two platforms: where one evening would do, two halves of it.
pub fn moves(pieces: u64, count: u64) -> Stream {
    let parts = pieces.div_ceil(PIECES);
    let ground = if parts > DAYS { Ground { parts, days: DAYS, minutes: MINUTES } } else { Ground { parts: 2 * parts, days: parts, minutes: MINUTES / 2 } };
    Booking::new(pieces * 1_000_033 + count, ground).stream(pieces, count, Booking::edits)
}
