//! Days of 23 and 25 hours (docs/RULES.md): a plain reading, and random lists of days.
use crate::random::Random;

pub const DAY: u64 = 1440;
pub const PLATFORM: u64 = 1 << 32;

const SHORT: u64 = 1380;
const LONG: u64 = 1500;

/// The last day of a platform that has a minute, where none is listed.
pub const LAST: u64 = PLATFORM / DAY;

/// Days with their minutes.
pub type List = Vec<(u64, u64)>;

// ── what the document says ──

/// The first minute of a day: the lengths of all earlier ones.
pub fn start(list: &List, day: u64) -> u64 {
    let earlier = || list.iter().filter(|(listed, _)| *listed < day);
    let (short, long) = (earlier().filter(|(_, minutes)| *minutes == SHORT).count(), earlier().filter(|(_, minutes)| *minutes == LONG).count());
    DAY * day + 60 * long as u64 - 60 * short as u64
}

/// The day of a cell, and what the clock shows then, as a minute of 24 hours. A list of 64 days moves a minute by less than three days.
pub fn place(list: &List, cell: u64) -> (u64, u64) {
    let minute = cell % PLATFORM;
    let near = minute / DAY;
    let day = (near.saturating_sub(3)..near + 4).find(|day| start(list, *day) <= minute && minute < start(list, day + 1)).expect("a minute lies in a day");
    let into = (minute - start(list, day)) as usize;
    let length = list.iter().find(|(listed, _)| *listed == day).map_or(DAY, |(_, minutes)| *minutes);
    // minute by minute: a short day has no 02:00 to 02:59, a long one has them twice
    let shown = match length {
        SHORT => (0..120).chain(180..DAY).nth(into),
        LONG => (0..180).chain(120..DAY).nth(into),
        _ => (0..DAY).nth(into),
    };
    (day, shown.expect("a minute of the day"))
}

/// The clock label of a cell.
pub fn label(list: &List, cell: u64) -> u64 {
    let (_, shown) = place(list, cell);
    shown / 60 * 100 + shown % 60
}

/// Whether the list can be installed.
pub fn taken(list: &List) -> bool {
    list.len() <= 64 && list.iter().all(|(_, minutes)| [SHORT, LONG].contains(minutes)) && list.windows(2).all(|pair| pair[0].0 < pair[1].0)
}

// ── random lists ──

pub fn random_list(random: &mut Random) -> List {
    let most = if random.once_in(20) { 67 } else { 6 };
    let step = if random.once_in(25) { 0 } else { 1 };
    let fault = random.once_in(25);
    let (mut day, mut list) = (random.of(&[0, 0, 1, 5, 6, LAST - 3]), vec![]);
    for _ in 0..random.below(most) {
        list.push((day, if fault && random.once_in(3) { random.of(&[0, 1379, 1381, DAY, 1499, 1501]) } else { random.of(&[SHORT, LONG]) }));
        day += step + random.below(5);
    }
    if random.once_in(6) {
        list.push((random.of(&[LAST, LAST + 1, 1 << 40, u64::MAX]), SHORT));
    }
    list
}

/// A cell around a place at which something changes: the edges of a day, the jumps of the label, the end of a platform.
pub fn cell(random: &mut Random, list: &List) -> u64 {
    if random.once_in(8) {
        return random.below(4) * PLATFORM + random.below(PLATFORM);
    }
    let day = random.of(&[0, 0, 1, 2, 5, 6, 7, 8, 13, 20, LAST - 2, LAST]);
    let edge = random.of(&[0, 60, 120, 180, 240, 1380, 1440, 1500]) + random.below(3);
    random.below(3) * PLATFORM + (start(list, day) + edge).saturating_sub(1) % PLATFORM
}
