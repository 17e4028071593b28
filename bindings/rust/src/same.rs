//! Every method answers as the public call of its name, which tests the tables: the same number, the same values, the same slices and tables. Tried on
//! indices that were opened, finished, loaded and refused.
use crate::{put_operation, raw, tested, Calendar, Days, Index, Kind, Played, Recorded, Refusal, Room, State};

/// A public call that writes to none of the tables.
macro_rules! public {
    ($call:path, $index:expr $(, $rest:expr)*) => {
        unsafe {
            $call(
                $index.pieces.as_ptr(), $index.pieces.len(),
                $index.blocks.as_ptr(), $index.blocks.len(),
                $index.store.as_ptr(), $index.store.len(),
                $index.nodes.as_ptr(), $index.nodes.len(),
                $index.entries.as_ptr(), $index.entries.len(),
                $($rest),*
            )
        }
    };
}

fn state(index: &Index) -> u64 {
    public!(tested::servercape_state, index)
}

/// The number of an answer.
fn number<T>(answer: &Result<T, Refusal>) -> u64 {
    answer.as_ref().err().map_or(0, |refusal| refusal.number())
}

/// Both have the same tables, and the state is that of a test.
fn same_tables(what: &str, one: &Index, other: &Index) {
    let same = one.pieces == other.pieces && one.blocks == other.blocks && one.store == other.store && one.nodes == other.nodes && one.entries == other.entries;
    assert!(same, "{what}: the same tables");
    assert_eq!(one.state, state(one), "{what}: the state");
    same_info(what, one);
    let days = one.days();
    let labels = [0, 119, 120, 179, 180, 1379, 1380, 1439, 1440, 2820, 4320, 100_000].map(|cell| (one.clock(cell), days.label(cell)));
    assert!(labels.iter().all(|(shown, by_list)| shown.map_or(true, |shown| shown == *by_list)), "{what}: the list of days that is remembered");
}

/// What the index tells of itself is what the public call says, which is refused of an empty one.
fn same_info(what: &str, index: &Index) {
    let mut info = raw::servercape_info::default();
    let by = public!(raw::servercape_info, index, &mut info);
    assert_eq!(by, if index.state() == State::Empty { 2 } else { 0 }, "{what}: info");
    let used = index.used();
    assert_eq!((info.pieces, info.blocks, info.store, info.nodes, info.entries), (used.pieces, used.blocks, used.bytes, used.nodes, used.entries), "{what}: used");
    assert_eq!((info.state, info.end_tick, info.last_tick, info.blocks), (index.state, index.end_tick(), index.last_tick(), index.block_count()), "{what}: info");
    assert_eq!(info.kinds, index.kinds().map(|kind| 1 << kind.code()).sum(), "{what}: its kinds");
}

// ── indices ──

/// A sequence of numbers without pattern.
struct Random(u64);

impl Random {
    fn below(&mut self, limit: u64) -> u64 {
        self.0 = self.0.wrapping_mul(6364136223846793005).wrapping_add(1442695040888963407);
        (self.0 >> 33) % limit
    }
}

const END: u64 = 40;
const CELLS: u64 = 60;

/// The kinds that are opened, and those that are asked for, by turns: the last of them is not opened.
const KINDS: [Kind; 2] = [Kind::Other, Kind::Memory];
const ASKED: [Kind; 4] = [Kind::Memory, Kind::Other, Kind::Memory, Kind::Constant];

/// An open index of so many operations, most of them accepted.
fn played(room: Room, operations: u64) -> Index {
    let mut random = Random(operations);
    let mut index = Index::open(room, END, &KINDS).unwrap();
    for k in 0..operations {
        let bytes = vec![random.below(3) as u8; 1 + random.below(7) as usize];
        let kind = ASKED[random.below(4) as usize];
        let _ = index.record(kind, k * END / operations, random.below(CELLS), &bytes);
    }
    index
}

fn finished(operations: u64) -> Index {
    let mut index = played(Room::even(4096), operations);
    index.finish().unwrap();
    index
}

/// Station hours that close some of the cells.
fn hours() -> Calendar {
    let mut hours = Calendar::default();
    hours.week[0] = vec![0..30];
    hours.special.push((0, vec![8..20, 12..41, 45..60]));
    hours
}

/// Lists of days that are taken: no day; short and long ones at the start; as many as there may be; such that no minute reaches.
fn lists_of_days() -> [Vec<(u64, u64)>; 6] {
    [
        vec![],
        vec![(0, 1380)],
        vec![(0, 1500), (2, 1380), (3, 1500)],
        (0..64).map(|day| (day, if day % 3 == 0 { 1500 } else { 1380 })).collect(),
        (0..64).map(|k| (2_982_570 + k, 1380)).collect(),
        vec![(1, 1500), (1 << 40, 1380), (u64::MAX, 1500)],
    ]
}

/// Indices of every state, each as some call has left it, accepted or refused.
fn indices() -> Vec<(&'static str, Index)> {
    let room = Room::even(4096);
    let file = finished(200).write().unwrap();
    let mut spoiled = file.clone();
    // the first block's created tick is its destroyed one: 22
    spoiled.copy_within(9 + 25..9 + 33, 9 + 17);
    let mut full = played(Room { nodes: 3, ..room }, 30);
    assert_eq!(number(&full.finish()), 12);
    let mut cut = played(room, 30);
    assert_eq!(number(&cut.reload(&file[..20], 0)), 17);
    let mut zeroed = finished(30);
    assert_eq!(number(&zeroed.reload(&spoiled, 0)), 22);
    let mut opened_anew = finished(30);
    opened_anew.reopen(END, &[Kind::Other]).unwrap();
    let mut not_opened_anew = finished(30);
    assert_eq!(number(&not_opened_anew.reopen(0, &[Kind::Other])), 1);
    let mut loaded_over = played(room, 30);
    loaded_over.reload(&file, 0).unwrap();
    let mut with_hours = played(room, 30);
    with_hours.install_calendar(&hours()).unwrap();
    let mut finished_with_hours = with_hours.clone();
    finished_with_hours.finish().unwrap();
    let mut loaded_over_hours = with_hours.clone();
    loaded_over_hours.reload(&file, 0).unwrap();
    let mut with_days = with_hours.clone();
    with_days.install_days(&lists_of_days()[2]).unwrap();
    let mut finished_with_days = with_days.clone();
    finished_with_days.finish().unwrap();
    let mut days_of_a_finished = finished(30);
    days_of_a_finished.install_days(&lists_of_days()[3]).unwrap();
    let mut loaded_over_days = with_days.clone();
    loaded_over_days.reload(&file, 0).unwrap();
    vec![
        ("not opened", Index::lend(room).unwrap()),
        ("opened", played(room, 0)),
        ("opened, of no rows", Index::open(Room::even(0), 1, &[Kind::Unique]).unwrap()),
        ("recorded", played(room, 30)),
        ("opened anew", opened_anew),
        ("finished", finished(200)),
        ("finished, no blocks", finished(0)),
        ("loaded", Index::load_with(room, &file, 0).unwrap().0),
        ("loaded, the other kind", Index::load_with(room, &file, Index::load(&file, 0).unwrap().1).unwrap().0),
        ("loaded over an open index", loaded_over),
        ("with station hours", with_hours),
        ("finished, with station hours", finished_with_hours),
        ("loaded over station hours", loaded_over_hours),
        ("with days", with_days),
        ("finished, with days", finished_with_days),
        ("days of a finished index", days_of_a_finished),
        ("loaded over days", loaded_over_days),
        ("finish refused", full),
        ("load refused before anything was written", cut),
        ("load refused after that", zeroed),
        ("open refused", not_opened_anew),
    ]
}

// ── reads ──

const EDGES: [u64; 9] = [0, 1, 7, 20, 33, 59, 66, u64::MAX - 1, u64::MAX];
const TICKS: [u64; 6] = [0, 1, 13, END - 1, END, u64::MAX];

fn windows() -> impl Iterator<Item = (Kind, u64, u64, u64)> {
    let all = TICKS.into_iter().flat_map(|tick| EDGES.into_iter().flat_map(move |start| EDGES.into_iter().map(move |end| (tick, start, end))));
    ASKED.into_iter().cycle().zip(all).map(|(kind, (tick, start, end))| (kind, tick, start, end))
}

/// The first block without a number tells what is said of others too.
fn same_blocks(what: &str, index: &Index) {
    let mut met = 0;
    for k in (0..).take_while(|&k| k == 0 || index.block(k - 1).is_ok()).chain([u64::MAX - 1, u64::MAX]) {
        let [mut kind, mut first, mut length, mut created, mut destroyed, mut offset] = [7; 6];
        let by = public!(raw::servercape_block, index, k, &mut kind, &mut first, &mut length, &mut created, &mut destroyed, &mut offset);
        let block = index.block(k);
        assert_eq!(number(&block), by, "{what}: block {k}");
        if let Ok(block) = block {
            let bytes = &index.store[offset as usize..(offset + length) as usize];
            assert_eq!((block.kind as u64, block.first, block.created, block.destroyed, block.bytes), (kind, first, created, destroyed, bytes), "{what}: block {k}");
            assert_eq!(index.blocks().unwrap().nth(k as usize), Some(block), "{what}: block {k} of all");
            met += 1;
        }
    }
    assert_eq!(index.blocks().map(|blocks| blocks.count()).unwrap_or(0), met, "{what}: all blocks");
}

fn same_lists(what: &str, index: &Index) {
    for (kind, tick, start, end) in windows() {
        for room in [0, 1, 3, 4096] {
            let (mut one, mut other) = (vec![7; room], vec![7; room]);
            let (mut count, mut visited) = (7, 7);
            let by = public!(raw::servercape_find, index, kind.code(), tick, start, end, other.as_mut_ptr(), other.len(), &mut count, &mut visited);
            let found = index.find_into(kind, tick, start..end, &mut one);
            assert_eq!((number(&found), &one), (by, &other), "{what}: find at {tick} of {start} to {end}");
            assert!(found.is_err() || found == Ok((count as usize, visited)), "{what}: find counts");
            if room == 4096 {
                let all = index.find(kind, tick, start..end);
                assert_eq!(number(&all), by, "{what}: find all");
                assert!(all.is_err() || all.is_ok_and(|all| all.numbers == other[..count as usize] && all.visited == visited), "{what}: find all");
            }

            let (mut one, mut other) = (vec![7; room], vec![7; room]);
            let by = public!(raw::servercape_touching, index, kind.code(), tick, start, end, other.as_mut_ptr(), other.len(), &mut count);
            let touched = index.touching_into(kind, tick, start..end, &mut one);
            assert_eq!((number(&touched), &one), (by, &other), "{what}: touching at {tick} of {start} to {end}");
            assert!(touched.is_err() || touched == Ok(count as usize), "{what}: touching counts");
            if room == 4096 {
                let all = index.touching(kind, tick, start..end);
                assert_eq!(number(&all), by, "{what}: touching all");
                assert!(all.is_err() || all.is_ok_and(|all| all == other[..count as usize]), "{what}: touching all");
            }
        }
    }
}

/// Many finds by one public call, each lent what the ones before have left.
fn same_lists_of_finds(what: &str, index: &Index, kind: Kind) {
    let queries: Vec<u64> = windows().flat_map(|(_, tick, start, end)| [tick, start, end]).chain([0, 0]).collect();
    for (places, room) in [(0, 0), (1 << 12, 0), (1 << 12, 77), (100, 1 << 14), (1 << 12, 1 << 16)] {
        let (mut answers, mut numbers) = (vec![7; places], vec![7; room]);
        let asked = public!(raw::servercape_find_all, index, kind.code(), queries.as_ptr(), queries.len(), answers.as_mut_ptr(), answers.len(), numbers.as_mut_ptr(), numbers.len());
        assert_eq!(asked as usize, (queries.len() / 3).min(places / 3), "{what}: finds asked");
        let (mut of_each, mut used) = (vec![7; room], 0);
        for (query, answer) in queries.chunks_exact(3).zip(answers.chunks_exact(3)) {
            let found = index.find_into(kind, query[0], query[1]..query[2], &mut of_each[used..]);
            let (count, visited) = found.unwrap_or((0, 0));
            assert_eq!(answer, [number(&found), count as u64, visited], "{what}: one of many finds");
            used += count;
        }
        assert_eq!((&numbers, &answers[3 * asked as usize..]), (&of_each, &vec![7; places - 3 * asked as usize][..]), "{what}: numbers of many finds");
    }
}

fn same_neighbours(what: &str, index: &Index) {
    for (kind, (tick, cell)) in ASKED.into_iter().cycle().zip(TICKS.into_iter().flat_map(|tick| EDGES.map(|cell| (tick, cell)))) {
        let (mut found, mut block) = (7, 7);
        let by = public!(raw::servercape_next, index, kind.code(), tick, cell, &mut found, &mut block);
        let next = index.next(kind, tick, cell);
        assert_eq!(number(&next), by, "{what}: next at {tick} of {cell}");
        assert!(next.is_err() || next == Ok((found == 1).then_some(block)), "{what}: next at {tick} of {cell}");
        let by = public!(raw::servercape_last, index, kind.code(), tick, cell, &mut found, &mut block);
        let last = index.last(kind, tick, cell);
        assert_eq!(number(&last), by, "{what}: last at {tick} of {cell}");
        assert!(last.is_err() || last == Ok((found == 1).then_some(block)), "{what}: last at {tick} of {cell}");
    }
}

fn same_cells(what: &str, index: &Index) {
    for (kind, tick, start, end) in windows() {
        for (of_bytes, of_held) in [(0, 0), (13, 80), (80, 13), (80, 80)] {
            let [mut one, mut other] = [(); 2].map(|()| (vec![7; of_bytes], vec![7; of_held]));
            let by = public!(raw::servercape_read_cells, index, kind.code(), tick, start, end, other.0.as_mut_ptr(), other.0.len(), other.1.as_mut_ptr(), other.1.len());
            let read = index.cells_into(kind, tick, start..end, &mut one.0, &mut one.1);
            assert_eq!((number(&read), &one), (by, &other), "{what}: cells at {tick} of {start} to {end}");
            if (of_bytes, of_held) == (80, 80) && by != 16 {
                let cells = index.cells(kind, tick, start..end);
                let held = other.0.iter().zip(&other.1).map(|(&byte, &held)| (held == 1).then_some(byte));
                assert_eq!(number(&cells), by, "{what}: all cells");
                assert!(cells.is_err() || cells.is_ok_and(|cells| cells == held.take((end - start) as usize).collect::<Vec<_>>()), "{what}: all cells");
            }
        }
    }
}

/// Of one window, and of several: those of the same tick and kind.
fn same_occupation(what: &str, index: &Index) {
    let all: Vec<_> = windows().collect();
    for (k, &(kind, tick, ..)) in all.iter().enumerate() {
        for count in [0, 1, 2, 9, 256, 257, 300] {
            let several: Vec<_> = all.iter().cycle().skip(k).take(count).filter(|w| count < 3 || w.2 <= w.3 && w.3 - w.2 < 1 << 24).map(|w| w.2..w.3).collect();
            let several: Vec<_> = if count > 255 { several.iter().cloned().cycle().take(count).collect() } else { several };
            let numbers: Vec<u64> = several.iter().flat_map(|window| [window.start, window.end]).collect();
            let [mut occupied, mut cells, mut tenths] = [7; 3];
            let by = public!(raw::servercape_occupation, index, kind.code(), tick, numbers.as_ptr(), numbers.len(), &mut occupied, &mut cells, &mut tenths);
            let report = index.occupation(kind, tick, &several);
            assert_eq!(number(&report), by, "{what}: occupation at {tick} of {several:?}");
            assert_eq!(report.map_or((7, 7, 7), |report| (report.occupied, report.cells, report.tenths)), (occupied, cells, tenths), "{what}: occupation at {tick} of {several:?}");
        }
    }
}

fn same_file(what: &str, index: &Index) {
    let length = index.write().map_or(9, |file| file.len());
    for room in [0, 1, length.saturating_sub(1), length, length + 7] {
        let (mut one, mut other, mut count) = (vec![7; room], vec![7; room], 7);
        let by = public!(raw::servercape_write, index, other.as_mut_ptr(), other.len(), &mut count);
        let written = index.write_into(&mut one);
        assert_eq!((number(&written), &one), (by, &other), "{what}: write into {room}");
        assert!(written.is_err() || written == Ok(count as usize), "{what}: write into {room}");
        assert!(room < length || by != 0 || index.write().as_deref() == Ok(&other[..length]), "{what}: write");
    }
}

/// Cells around the places at which days start and labels jump, some in between, and those around the end of a platform.
fn minutes() -> impl Iterator<Item = u64> {
    let starts = [0, 1380, 1440, 1500, 2760, 2820, 2880, 2940, 3000, 4320];
    let around = starts.into_iter().flat_map(|start| [0, 1, 119, 120, 179, 180, 239, 240, 1379].map(|into| start + into));
    around.chain((0..60).map(|k| k * 71_583_000)).chain(((1 << 32) - 600..(1 << 32) + 600).step_by(43))
}

/// The label that the public call gives, and the one that the list of the index gives.
fn same_labels(what: &str, index: &Index) {
    let days = index.days();
    for cell in minutes().chain(EDGES) {
        let mut label = 7777;
        let by = public!(raw::servercape_clock, index, cell, &mut label);
        let clock = index.clock(cell);
        assert_eq!(number(&clock), by, "{what}: clock of {cell}");
        assert!(clock.is_ok() || label == 7777, "{what}: the label stays");
        assert!(clock.is_err() || clock.is_ok_and(|clock| clock.number() == label), "{what}: clock of {cell}");
        assert!(clock.is_err() || days.label(cell).number() == label, "{what}: the label of {cell} by {days:?}");
        assert!(index.label(cell) == days.label(cell) && index.day(cell) == days.day(cell), "{what}: the day of {cell}");
    }
}

#[test]
fn reads() {
    for (what, index) in indices() {
        assert_eq!(index.state, state(&index), "{what}: the state");
        same_info(what, &index);
        let before = index.clone();
        same_blocks(what, &index);
        same_lists(what, &index);
        [Kind::Memory, Kind::Other, Kind::Constant].into_iter().for_each(|kind| same_lists_of_finds(what, &index, kind));
        same_neighbours(what, &index);
        same_cells(what, &index);
        same_occupation(what, &index);
        same_file(what, &index);
        same_labels(what, &index);
        same_tables(what, &index, &before);
    }
}

// ── calls that change an index ──

/// A call that may write to the tables.
macro_rules! writes {
    ($call:path, $index:expr, $store:ident $nodes:ident $(, $rest:expr)*) => {
        unsafe {
            $call(
                $index.pieces.as_mut_ptr(), $index.pieces.len(),
                $index.blocks.as_mut_ptr(), $index.blocks.len(),
                $index.store.$store(), $index.store.len(),
                $index.nodes.$nodes(), $index.nodes.len(),
                $index.entries.$nodes(), $index.entries.len(),
                $($rest),*
            )
        }
    };
}

fn public_record(index: &mut Index, scratch: &[u64], kind: Kind, tick: u64, first: u64, bytes: &[u8]) -> (u64, Recorded) {
    let (mut updated, mut cell) = (0, 0);
    let by = writes!(raw::servercape_record, index, as_mut_ptr as_ptr, scratch.as_ptr(), scratch.len(), kind.code(), tick, first, bytes.as_ptr(), bytes.len(), &mut updated, &mut cell);
    (by, Recorded::of(updated, cell))
}

#[test]
fn records() {
    for (what, index) in indices() {
        let (mut one, mut other) = (index.clone(), index.clone());
        let mut random = Random(7);
        for k in 0..80 {
            let tick = [k / 2, END, u64::MAX, 0][if random.below(8) == 0 { random.below(4) as usize } else { 0 }];
            let first = if random.below(16) == 0 { u64::MAX - 1 } else { random.below(CELLS) };
            let bytes = vec![random.below(3) as u8; random.below(7) as usize];
            let scratch = vec![0; if random.below(8) == 0 { 7 } else { 8 }];
            let kind = ASKED[random.below(4) as usize];
            let (by, recorded) = public_record(&mut other, &scratch, kind, tick, first, &bytes);
            let answer = one.record_with(&scratch, kind, tick, first, &bytes);
            assert_eq!(number(&answer), by, "{what}: record {k}");
            assert!(answer.is_err() || answer == Ok(recorded), "{what}: record {k}");
            same_tables(what, &one, &other);
        }
    }
}

#[test]
fn lists_of_records() {
    let mut list = vec![];
    let mut random = Random(11);
    for k in 0..100 {
        let bytes = vec![random.below(3) as u8; random.below(7) as usize];
        put_operation(&mut list, if random.below(8) == 0 { END } else { k * END / 100 }, random.below(CELLS), &bytes);
    }
    let whole = list.len();
    put_operation(&mut list, END - 1, 0, &[1, 2]);
    list.pop();
    for (kind, (what, index)) in ASKED.into_iter().cycle().zip(indices()) {
        let (mut one, mut other, mut third) = (index.clone(), index.clone(), index.clone());
        let Played { answers, next } = one.record_all(kind, &list).unwrap();
        assert_eq!((answers.len(), next), (100, whole), "{what}: the last one is cut");
        let (mut threes, mut behind) = (vec![7; 3 * 41 + 2], 7);
        let scratch = [0; 8];
        let played = writes!(raw::servercape_record_all, other, as_mut_ptr as_ptr, scratch.as_ptr(), 8, kind.code(), list.as_ptr(), list.len(), threes.as_mut_ptr(), threes.len(), &mut behind);
        assert_eq!((played, &threes[3 * 41..]), (41, &[7, 7][..]), "{what}: as many as there are places");
        let rest = other.record_all(kind, &list[behind as usize..]).unwrap();
        assert_eq!(rest.answers, answers[41..], "{what}: the rest");
        same_tables(what, &one, &other);
        let mut at = 0;
        for answer in &answers {
            let field = |k: usize| u64::from_le_bytes(list[at + 8 * k..at + 8 * k + 8].try_into().unwrap());
            let bytes = &list[at + 24..at + 24 + field(2) as usize];
            assert_eq!(third.record(kind, field(0), field(1), bytes), *answer, "{what}: each by itself");
            at += 24 + bytes.len();
        }
        same_tables(what, &one, &third);
    }
}

/// As the call with all numbers, and with those alone that are not 0 at the end.
#[test]
fn installs() {
    let mut wrong = hours();
    wrong.week[6].push(5..5);
    for (what, index) in indices() {
        for calendar in [hours(), wrong.clone(), Calendar::default(), Calendar::always_open()] {
            let numbers = calendar.numbers();
            let said = numbers.iter().rposition(|&number| number != 0).map_or(0, |last| last + 1);
            let (mut one, mut other) = (index.clone(), index.clone());
            let by = writes!(raw::servercape_install_calendar, other, as_ptr as_ptr, numbers.as_ptr(), said);
            assert_eq!(number(&one.install_calendar(&calendar)), by, "{what}: install {calendar:?}");
            same_tables(what, &one, &other);
            for (kind, cell) in ASKED.into_iter().cycle().zip(0..CELLS) {
                let (by, recorded) = public_record(&mut other, &[0; 8], kind, END - 1, cell, &[cell as u8 % 3]);
                let answer = one.record(kind, END - 1, cell, &[cell as u8 % 3]);
                assert_eq!(number(&answer), by, "{what}: record at {cell}");
                assert!(answer.is_err() || answer == Ok(recorded), "{what}: record at {cell}");
            }
            same_tables(what, &one, &other);
        }
    }
}

/// As the call with the list's numbers, taken or refused; and what the index says of its list.
#[test]
fn installs_of_days() {
    let wrong = [vec![(0, 1440)], vec![(3, 1380), (3, 1500)], vec![(4, 1380), (3, 1500)], (0..65).map(|day| (day, 1380)).collect(), (0..99).map(|day| (day, 1500)).collect()];
    for (what, index) in indices() {
        for list in lists_of_days().into_iter().chain(wrong.clone()) {
            let numbers: Vec<u64> = list.iter().flat_map(|&(day, minutes)| [day, minutes]).collect();
            let (mut one, mut other) = (index.clone(), index.clone());
            let by = writes!(raw::servercape_install_days, other, as_ptr as_ptr, numbers.as_ptr(), numbers.len());
            assert_eq!(number(&one.install_days(&list)), by, "{what}: install {list:?}");
            same_tables(what, &one, &other);
            let taken = Days::new(&list);
            assert_eq!(by == 28, taken.is_err() && one.state != tested::SERVERCAPE_NOT_WELL_FORMED, "{what}: {list:?} refused");
            assert_eq!(one.days(), if by == 0 { taken.unwrap() } else { index.days() }, "{what}: the list");
            same_labels(what, &one);
            // a day without its minutes
            let by = writes!(raw::servercape_install_days, other, as_ptr as_ptr, [9].as_ptr(), 1);
            assert_eq!(by, if one.state == tested::SERVERCAPE_NOT_WELL_FORMED { 2 } else { 28 }, "{what}: an odd list");
            for (kind, cell) in ASKED.into_iter().cycle().zip((100..260).step_by(7).chain((1_300..1_560).step_by(5))) {
                let (by, recorded) = public_record(&mut other, &[0; 8], kind, END - 1, cell, &[1]);
                let answer = one.record(kind, END - 1, cell, &[1]);
                assert_eq!(number(&answer), by, "{what}: record at {cell}");
                assert!(answer.is_err() || answer == Ok(recorded), "{what}: record at {cell}");
            }
            same_tables(what, &one, &other);
        }
    }
}

#[test]
fn finishes_opens_and_loads() {
    let file = finished(50).write().unwrap();
    for (what, index) in indices() {
        let (mut one, mut other) = (index.clone(), index.clone());
        assert_eq!(number(&one.finish()), writes!(raw::servercape_finish, other, as_ptr as_mut_ptr), "{what}: finish");
        same_tables(what, &one, &other);
        for (end, kinds) in [(0, &KINDS[..]), (1 << 63, &[Kind::Constant]), (u64::MAX, &[Kind::Other]), (8, &[]), (8, &Kind::ALL), (8, &ASKED)] {
            let codes: Vec<u8> = kinds.iter().map(|kind| kind.code()).collect();
            let (mut one, mut other) = (index.clone(), index.clone());
            assert_eq!(number(&one.reopen(end, kinds)), writes!(raw::servercape_open, other, as_ptr as_mut_ptr, end, codes.as_ptr(), codes.len()), "{what}: open");
            same_tables(what, &one, &other);
            assert!(one.state != tested::SERVERCAPE_OPEN || end != 8 || kinds.is_empty() || Kind::ALL.into_iter().filter(|kind| kinds.contains(kind)).eq(one.kinds()), "{what}: its kinds");
        }
        for damaged in (0..file.len()).step_by(1 + file.len() / 64) {
            let mut file = file.clone();
            file[damaged] ^= 1 << (damaged % 8);
            let at = damaged % 7 / 6;
            let (mut one, mut other, mut next) = (index.clone(), index.clone(), 7);
            let loaded = one.reload(&file, at);
            assert_eq!(number(&loaded), writes!(raw::servercape_load, other, as_mut_ptr as_mut_ptr, file.as_ptr(), file.len(), at as u64, &mut next), "{what}: load");
            assert!(loaded.is_err() || loaded == Ok(next as usize), "{what}: load");
            same_tables(what, &one, &other);
        }
    }
}

/// All blocks of 12,000 in one pass: with a test for each this takes a minute.
#[test]
fn many_blocks() {
    let mut index = Index::open(Room::even(1 << 17), 12_000, &[Kind::Memory]).unwrap();
    for tick in 0..12_000 {
        index.record(Kind::Memory, tick, tick % 600 * 10, &[tick as u8, 1]).unwrap();
    }
    index.finish().unwrap();
    assert_eq!(index.blocks().unwrap().count(), 12_000);
    assert_eq!(index.state, state(&index));
    // more than a find is lent first, and than it is lent then
    let live: Vec<u64> = (11_400..12_000).collect();
    assert_eq!(index.touching(Kind::Memory, 11_999, 0..u64::MAX).unwrap(), live);
    let mut found = index.find(Kind::Memory, 11_999, 0..u64::MAX).unwrap().numbers;
    found.sort();
    assert_eq!(found, live);
}
