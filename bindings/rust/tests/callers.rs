//! What callers meet besides the answers: words, sizes, growth, names.
use servercape::{put_operation, Block, Calendar, Cell, Days, GrowingIndex, Index, Kind, Opening, Recorded, Refusal, Room, State};
use std::error::Error;

const END: u64 = 1 << 20;

/// A sequence of numbers without pattern.
struct Random(u64);

impl Random {
    fn below(&mut self, limit: u64) -> u64 {
        self.0 = self.0.wrapping_mul(6364136223846793005).wrapping_add(1442695040888963407);
        (self.0 >> 33) % limit
    }
}

/// Bookings whose ticks ascend: tick, first cell, bytes.
fn bookings(seed: u64, count: u64) -> Vec<(u64, u64, Vec<u8>)> {
    let mut random = Random(seed);
    (0..count).map(|k| (k * END / count, random.below(300), vec![random.below(3) as u8; 1 + random.below(40) as usize])).collect()
}

fn number<T>(answer: Result<T, Refusal>) -> u64 {
    answer.err().map_or(0, |refusal| refusal.number())
}

fn closed() -> Index {
    let mut board = GrowingIndex::open(END, &[Kind::Memory]).unwrap();
    for (tick, first, bytes) in bookings(1, 200) {
        board.record(Kind::Memory, tick, first, &bytes).unwrap();
    }
    board.finish().unwrap();
    board.into_index()
}

// ── refusals ──

#[test]
fn a_refusal_has_number_and_words() {
    for number in (1..=28).chain([37]) {
        let refusal = Refusal::of(number).unwrap();
        assert_eq!(refusal.number(), number);
        let words = refusal.to_string();
        assert!(words.starts_with(&format!("refused {number}: ")) && words.len() > 30, "{words}");
        assert_eq!(refusal.is_no_room(), [9, 10, 11, 12, 13, 16, 20].contains(&number));
    }
    assert_eq!((Refusal::of(0), Refusal::of(77), Refusal::of(u64::MAX)), (None, Some(Refusal::Other(77)), Some(Refusal::Other(u64::MAX))));
    assert_eq!((Refusal::Other(77).number(), Refusal::of(25), Refusal::of(29)), (77, Some(Refusal::KindNotOpened), Some(Refusal::Other(29))));
    assert_ne!(Refusal::RecordAtEnd.to_string()[10..], Refusal::ReadAtEnd.to_string()[11..], "7 and 14");
}

#[test]
fn station_hours_have_names() {
    let mut board = GrowingIndex::open(END, &[Kind::Memory]).unwrap();
    assert_eq!(board.install_calendar(&Calendar { special: vec![(9, vec![]), (9, vec![])], ..Calendar::default() }), Err(Refusal::WrongCalendar));
    board.install_calendar(&Calendar { special: vec![(9, vec![0..5])], ..Calendar::default() }).unwrap();
    // tables that grow keep the calendar, and so does a clone
    let day = Cell::new(3, 9 * 1440).number();
    for tick in 0..500 {
        board.record(Kind::Memory, tick, day, &[tick as u8; 5]).unwrap();
        assert_eq!(board.record(Kind::Memory, tick, day, &[7; 6]), Err(Refusal::OutsideHours));
    }
    let mut list = vec![];
    put_operation(&mut list, 500, day + 4, &[1, 1]);
    put_operation(&mut list, 500, day + 4, &[1, 0]);
    let mut copy = board.clone();
    assert_eq!(copy.record_all(Kind::Memory, &list).unwrap().answers, [Err(Refusal::OutsideHours), Ok(Recorded::Update { cell: day + 4 })]);
    assert_eq!(copy.install_calendar(&Calendar::always_open()), Ok(()));
    assert_eq!(copy.record(Kind::Memory, 501, day - 3, &[7; 20]).map(Recorded::cell), Ok(Some(day - 3)));
    // opened anew it has none
    board.reopen(END, &[Kind::Memory]).unwrap();
    assert_eq!(board.record(Kind::Memory, 0, 0, &[7]).map(Recorded::cell), Ok(Some(0)));
    board.finish().unwrap();
    assert_eq!(board.install_calendar(&Calendar::default()), Err(Refusal::Closed));
}

#[test]
fn days_have_names() {
    let mut board = GrowingIndex::open(END, &[Kind::Memory]).unwrap();
    assert_eq!(board.install_days(&[(0, 1440)]), Err(Refusal::WrongDays));
    board.install_days(&[(0, 1380), (1, 1500)]).unwrap();
    let labels = |board: &Index| [119, 120, 1380, 1380 + 180].map(|cell| board.label(cell).to_string());
    let listed = ["01:59", "03:00", "00:00", "02:00"];
    assert_eq!(labels(&board), listed);
    assert_eq!((board.days().list(), board.day(1379), board.day(1380)), (&[(0, 1380), (1, 1500)][..], 0, 1));
    // tables that grow keep the list, and so do a clone and a finished board
    for tick in 0..500 {
        board.record(Kind::Memory, tick, 40 * tick, &[7; 5]).unwrap();
    }
    let now = board.finished().unwrap();
    assert_eq!((labels(&board), labels(&now)), (listed.map(String::from), listed.map(String::from)));
    // station hours go by what the clock shows: no minute of the short day is between 02:00 and 03:00, on the long one both passes are
    let mut hours = Calendar::default();
    hours.week = std::array::from_fn(|_| vec![120..180]);
    board.install_calendar(&hours).unwrap();
    assert!((0..1380).all(|cell| board.record(Kind::Memory, 500, cell, &[9]) == Err(Refusal::OutsideHours)));
    assert_eq!(board.record(Kind::Memory, 500, 1380 + 120, &[9; 120]).map(Recorded::cell), Ok(Some(1500)));
    assert_eq!(board.record(Kind::Memory, 500, 1380 + 119, &[9]), Err(Refusal::OutsideHours));
    assert_eq!(board.record(Kind::Memory, 500, 1380 + 240, &[9]), Err(Refusal::OutsideHours));
    // a finished board takes another list, and a file holds none
    board.finish().unwrap();
    board.install_days(&[(0, 1500)]).unwrap();
    assert_eq!((board.label(180).number(), board.install_days(&[(5, 1380), (5, 1380)])), (200, Err(Refusal::WrongDays)));
    let (mut loaded, _) = Index::load(&board.write().unwrap(), 0).unwrap();
    assert_eq!((loaded.days(), loaded.label(180).number()), (Days::regular(), 300));
    loaded.install_days(board.days().list()).unwrap();
    assert_eq!((loaded.days(), loaded.label(180)), (board.days(), board.label(180)));
    board.reopen(END, &[Kind::Memory]).unwrap();
    assert_eq!((board.days(), board.clock(180).map(|label| label.number())), (Days::regular(), Ok(300)));
    // a load that is refused 22 leaves no index, and the clock is refused 2
    let mut file = loaded.write().unwrap();
    file.copy_within(9 + 25..9 + 33, 9 + 17);
    assert_eq!((number(loaded.reload(&file, 0)), loaded.clock(180), loaded.label(180).number()), (22, Err(Refusal::NotWellFormed), 300));
    assert_eq!(loaded.install_days(&[]), Err(Refusal::NotWellFormed));
}

#[test]
fn clock_changes_by_date() {
    let days = Days::central_european((2024, 1, 1), 2024..=2026).unwrap();
    // 31 March and 27 October 2024, 30 March and 26 October 2025, 29 March and 25 October 2026
    assert_eq!(days.list(), [(90, 1380), (300, 1500), (454, 1380), (664, 1500), (818, 1380), (1028, 1500)]);
    assert!(days.list().iter().all(|(day, _)| day % 7 == 6), "Sundays");
    let later = Days::central_european((2025, 6, 2), 2024..=2026).unwrap();
    assert_eq!(later.list(), days.list()[3..].iter().map(|(day, minutes)| (day - 518, *minutes)).collect::<Vec<_>>(), "what lies before day 0 is left out");
    assert_eq!(Days::central_european((2024, 1, 1), 2024..=2055).unwrap().list().len(), 64);
    assert_eq!(Days::central_european((2024, 1, 1), 2024..=2056), None, "66 changes");
    assert!([(2024, 1, 2), (2024, 0, 1), (2024, 13, 1), (2023, 2, 29), (2024, 4, 31), (0, 1, 3)].iter().all(|&monday| Days::central_european(monday, 2024..=2024).is_none()));
    assert_eq!(Days::central_european((2024, 2, 26), 2024..=2024).unwrap().list(), [(34, 1380), (244, 1500)]);
    assert_eq!(Days::central_european((1900, 2, 26), 1900..=1900).unwrap().list(), [(27, 1380), (244, 1500)], "1900 had no leap day");
    assert_eq!(format!("{:?}", Days::new(&[(3, 1380)]).unwrap()), "Days([(3, 1380)])");
}

/// The day that starts at a minute or before, and the one after it starts behind.
#[test]
fn days_start_after_those_before() {
    for list in [vec![], vec![(0, 1500)], vec![(0, 1380), (1, 1380), (5, 1500)], (0..64).map(|k| (2 * k, 1500)).collect(), vec![(u64::MAX, 1380)]] {
        let days = Days::new(&list).unwrap();
        for minute in (0..200_000).chain([u32::MAX]) {
            let (cell, day) = (Cell::new(3, minute).number(), days.day(minute.into()));
            assert!(days.day(cell) == day && days.start(day) <= minute.into() && u64::from(minute) < days.start(day + 1), "{days:?}: {minute}");
        }
        assert_eq!(days.start(u64::MAX), u64::MAX, "it stops there");
    }
}

#[test]
fn the_two_meanings_of_15() {
    let index = closed();
    assert_eq!(index.block(index.block_count()), Err(Refusal::NoSuchBlock));
    let (start, end) = (9, 3);
    assert_eq!(index.find(Kind::Memory, 0, start..end).unwrap_err(), Refusal::WindowReversed);
    assert_eq!(index.touching(Kind::Memory, 0, start..end).unwrap_err(), Refusal::WindowReversed);
    assert_eq!(index.cells(Kind::Memory, 0, start..end).unwrap_err(), Refusal::WindowReversed);
    assert_eq!((Refusal::NoSuchBlock.number(), Refusal::WindowReversed.number()), (15, 15));
    assert_ne!(Refusal::NoSuchBlock.to_string(), Refusal::WindowReversed.to_string());
}

#[test]
fn a_refusal_is_an_error() {
    fn reads() -> Result<(), Box<dyn Error>> {
        closed().block(1 << 40)?;
        Ok(())
    }
    assert_eq!(reads().unwrap_err().to_string(), "refused 15: there is no block of that number");
    #[cfg(feature = "std")]
    assert_eq!(std::io::Error::from(Refusal::FileCut).to_string(), "refused 17: the file ends inside a field, or the position is behind its end");
}

// ── windows and rooms that no memory is large enough for ──

#[test]
fn no_window_takes_the_memory() {
    let index = closed();
    assert_eq!(number(index.cells(Kind::Memory, END, 0..u64::MAX)), 14);
    assert_eq!(number(index.cells(Kind::Memory, END, 0..1 << 46)), 14);
    assert_eq!(number(index.cells(Kind::Memory, 0, 0..u64::MAX)), 16);
    assert_eq!(number(index.cells(Kind::Memory, 0, 0..1 << 46)), 16);
    let mut open = Index::open(Room::even(1), 8, &[Kind::Memory]).unwrap();
    assert_eq!(number(open.cells(Kind::Memory, 0, 0..u64::MAX)), 4);
    open.finish().unwrap();
    assert_eq!(open.cells(Kind::Memory, 0, 5..5), Ok(vec![]));
}

#[test]
fn no_room_takes_the_memory() {
    let none = Room::even(0);
    for rows in [1 << 58, 1 << 62, u64::MAX] {
        assert_eq!(number(Index::open(Room { pieces: rows, ..none }, 8, &[Kind::Memory])), 9);
        assert_eq!(number(Index::open(Room { blocks: rows, ..none }, 8, &[Kind::Memory])), 10);
        assert_eq!(number(Index::open(Room { bytes: rows, ..none }, 8, &[Kind::Memory])), 11);
        assert_eq!(number(Index::open(Room { nodes: rows, ..none }, 8, &[Kind::Memory])), 12);
        assert_eq!(number(Index::open(Room { entries: rows, ..none }, 8, &[Kind::Memory])), 13);
        assert_eq!(number(Index::load_with(Room { entries: rows, ..none }, &[], 0)), 20);
        let mut index = closed();
        let (before, blocks) = (index.room(), index.blocks().unwrap().count());
        assert_eq!(number(index.grow(Room { pieces: 1 << 12, entries: rows, ..none })), 13);
        assert_eq!((index.room(), index.blocks().unwrap().count()), (before, blocks), "none has grown");
    }
}

// ── cells, days, kinds ──

#[test]
fn cells_and_days() {
    let cell = Cell::new(u32::MAX, 7);
    assert_eq!((cell.platform(), cell.minute(), u64::from(cell)), (u32::MAX, 7, (u64::from(u32::MAX) << 32) + 7));
    assert_eq!(Cell::from(u64::MAX), Cell::new(u32::MAX, u32::MAX));
    assert_eq!(cell.to_string(), "platform 4294967295 minute 7");
    assert_eq!(Cell::window(3, 10..20), (3 << 32) + 10..(3 << 32) + 20);
    let days = Days::regular();
    for minute in (0..20_000).chain([u32::MAX]) {
        let label = days.label(Cell::new(5, minute).number());
        assert_eq!((label.hour(), label.minute()), (u64::from(minute % 1440 / 60), u64::from(minute % 60)));
        assert_eq!(days.day(Cell::new(5, minute).number()), u64::from(minute / 1440));
    }
    let index = closed();
    assert_eq!((index.day(1445), index.label(1445).to_string(), index.label(605).number()), (1, "00:05".into(), 1005));
}

#[test]
fn kinds() {
    for kind in Kind::ALL {
        assert_eq!(kind.to_string().parse(), Ok(kind));
        assert_eq!(kind.to_string().to_uppercase().parse(), Ok(kind));
        assert_eq!(Kind::try_from(kind.code()), Ok(kind));
        assert_eq!(Index::open(Room::even(1), 8, &[kind]).unwrap().kinds().collect::<Vec<_>>(), [kind]);
    }
    let mut board = GrowingIndex::open(8, &[Kind::Other, Kind::Memory, Kind::Other]).unwrap();
    assert_eq!((board.kinds().collect::<Vec<_>>(), number(GrowingIndex::open(8, &[]))), (vec![Kind::Memory, Kind::Other], 1));
    assert_eq!((board.record(Kind::Unique, 1, 5, &[]), number(board.reopen(8, &[]))), (Err(Refusal::KindNotOpened), 1), "the index stays");
    assert_eq!(board.record(Kind::Memory, 1, 5, &[7]).map(Recorded::cell), Ok(Some(5)));
    assert!(format!("{board:?}").contains("kinds: [Memory, Other]"));
    assert!(Kind::try_from(5).is_err() && "platforms".parse::<Kind>().is_err() && "".parse::<Kind>().is_err());
    assert_eq!(format!("{:>9}", Kind::Memory), "   memory");
}

// ── what an index says of itself ──

#[test]
fn getters() {
    let mut index = Opening::new(8, &[Kind::Register]).room(Room::even(9)).open().unwrap();
    let said = |index: &Index| (index.state(), index.end_tick(), index.last_tick(), index.block_count(), index.used().pieces);
    assert_eq!(said(&index), (State::Open, 8, 0, 0, 0));
    index.record(Kind::Register, 3, 10, &[1, 2, 3]).unwrap();
    index.record(Kind::Register, 5, 11, &[9]).unwrap();
    assert_eq!(said(&index), (State::Open, 8, 5, 1, 3));
    assert_eq!(number(index.record(Kind::Register, 4, 11, &[9])), 8);
    assert_eq!((said(&index), index.used().bytes), ((State::Open, 8, 5, 1, 3), 4));
    assert_eq!(index.room(), Room::even(9));
    index.finish().unwrap();
    assert_eq!(said(&index), (State::Closed, 8, 5, 4, 0));
    assert_eq!(index.blocks().unwrap().len(), 4);
    assert_eq!(index.blocks().unwrap().nth(3), index.block(3).ok());
    assert_eq!((index.blocks().unwrap().nth(4), index.blocks().unwrap().nth(usize::MAX)), (None, None));
    let mut file = index.write().unwrap();
    let (mut loaded, _) = Index::load(&file, 0).unwrap();
    assert_eq!((loaded.state(), loaded.end_tick(), loaded.block_count(), loaded.kinds().next()), (State::Closed, 8, 4, Some(Kind::Register)));
    // the first block's created tick becomes its destroyed one
    file.copy_within(9 + 25..9 + 33, 9 + 17);
    assert_eq!(number(loaded.reload(&file, 0)), 22);
    assert_eq!((loaded.state(), loaded.end_tick(), loaded.kinds().next(), number(loaded.finish())), (State::Empty, 0, None, 2));
    loaded.reopen(5, &[Kind::Other]).unwrap();
    assert_eq!((loaded.state(), loaded.end_tick()), (State::Open, 5));
}

#[test]
fn an_index_is_shown_without_its_rows() {
    let mut index = Index::open(Room::even(1 << 12), 8, &[Kind::Memory]).unwrap();
    index.record(Kind::Memory, 3, 10, &[1]).unwrap();
    let shown = format!("{index:?}");
    assert!(shown.starts_with("Index { state: Open, end_tick: 8, kinds: [Memory], last_tick: 3, blocks: 0, room: Room"), "{shown}");
    assert!(shown.len() < 250);
}

#[test]
fn a_block_says_where_and_when_it_is() {
    let index = closed();
    for block in index.blocks().unwrap() {
        assert_eq!((block.cells().start, block.cells().count()), (block.first, block.bytes.len()));
        assert!(!block.is_live(block.destroyed) && (block.created == block.destroyed || block.is_live(block.created)));
    }
}

// ── room ──

/// Bookings that split one piece again and again, and random ones: a room that is said to be enough is.
#[test]
fn enough_is_enough() {
    let splits: Vec<(u64, u64, Vec<u8>)> = (0..60).map(|k| (k * 17_000, if k == 0 { 0 } else { 2 * k }, vec![k as u8; if k == 0 { 400 } else { 1 }])).collect();
    for list in [splits, bookings(2, 150), bookings(3, 1), vec![]] {
        let bytes = list.iter().map(|(_, _, bytes)| bytes.len() as u64).sum();
        let mut index = Index::open(Room::enough(END, list.len() as u64, bytes), END, &[Kind::Memory]).unwrap();
        for (tick, first, bytes) in &list {
            index.record(Kind::Memory, *tick, *first, bytes).unwrap();
        }
        let used = index.used();
        assert!(used.pieces <= 2 * list.len() as u64 && used.blocks + used.pieces <= 3 * list.len() as u64);
        index.finish().unwrap();
    }
    assert_eq!(Room::enough(u64::MAX, u64::MAX, u64::MAX), Room::even(u64::MAX), "it stops there");
    assert_eq!(Room::even(5).for_finish(1, 9), Room { nodes: 5, entries: 5, ..Room::even(5) }, "one tick is not halved, and there are five kinds at most");
    assert_eq!(Room::even(5).for_finish(1 << 63, 1), Room { nodes: 127, entries: 5 * 125, ..Room::even(5) });
}

/// The same of all kinds by turns: each has a tree of its own, and finish is said to need what all of them use.
#[test]
fn enough_for_all_kinds() {
    for list in [bookings(11, 150), bookings(12, 3), bookings(13, 1)] {
        let (count, bytes) = (list.len() as u64, list.iter().map(|(_, _, bytes)| bytes.len() as u64).sum());
        let mut index = Index::open(Room::enough(END, count, bytes), END, &Kind::ALL).unwrap();
        let mut board = GrowingIndex::open(END, &Kind::ALL).unwrap();
        for (kind, (tick, first, bytes)) in Kind::ALL.into_iter().cycle().zip(&list) {
            assert_eq!(board.record(kind, *tick, *first, bytes), index.record(kind, *tick, *first, bytes));
        }
        let room = index.room_for_finish();
        index.finish().unwrap();
        let used = index.used();
        assert_eq!(room.entries, used.entries);
        assert!(used.nodes <= room.nodes && room.nodes <= 2 * used.nodes, "{} of {}", used.nodes, room.nodes);
        board.finish().unwrap();
        assert_eq!((board.write(), board.room().entries), (index.write(), used.entries));
    }
}

/// What finish is said to need is what it uses: of entries just so many, of nodes at most twice as many.
#[test]
fn the_room_of_finish() {
    let splits = (0..60).map(|k| (k * 17_000, if k == 0 { 0 } else { 2 * k }, vec![k as u8; if k == 0 { 400 } else { 1 }])).collect();
    let early = bookings(7, 200).into_iter().map(|(tick, first, bytes)| (tick >> 13, first, bytes)).collect();
    let at_once = bookings(8, 30).into_iter().map(|(_, first, bytes)| (0, first, bytes)).collect();
    let lists: [Vec<(u64, u64, Vec<u8>)>; 6] = [splits, early, at_once, bookings(9, 300), bookings(10, 1), vec![]];
    for (end, list) in [END, END + 12345, 1 << 63].into_iter().flat_map(|end| lists.iter().map(move |list| (end, list))) {
        let mut index = Index::open(Room { nodes: 0, entries: 0, ..Room::even(1 << 14) }, end, &[Kind::Memory]).unwrap();
        for (tick, first, bytes) in list {
            index.record(Kind::Memory, *tick, *first, bytes).unwrap();
        }
        let room = index.room_for_finish();
        index.grow(room).unwrap();
        index.finish().unwrap();
        let used = index.used();
        assert_eq!(room.entries, used.entries, "{} bookings up to {end}", list.len());
        assert!(used.nodes <= room.nodes && room.nodes <= 2 * used.nodes, "{} bookings up to {end}: {} of {}", list.len(), used.nodes, room.nodes);
        assert_eq!(index.room_for_finish(), index.room());
    }
}

#[test]
fn the_room_of_a_file() {
    let index = closed();
    let file = index.write().unwrap();
    let room = Room::of_file(&file, 0);
    let (loaded, next) = Index::load(&file, 0).unwrap();
    assert_eq!((next, loaded.room(), loaded.used()), (file.len(), room, room), "just large enough");
    assert!(loaded.blocks().unwrap().eq(index.blocks().unwrap().filter(|block| block.created < block.destroyed)));
    // one row less is too few
    assert_eq!(number(Index::load_with(Room { blocks: room.blocks - 1, ..room }, &file, 0)), 20);
    assert_eq!(number(Index::load_with(Room { bytes: room.bytes - 1, ..room }, &file, 0)), 20);
    assert_eq!(number(Index::load_with(Room { nodes: room.nodes - 1, ..room }, &file, 0)), 20);
    assert_eq!(number(Index::load_with(Room { entries: room.entries - 1, ..room }, &file, 0)), 20);
    // behind other bytes, and cut anywhere
    let behind = [&[9; 5][..], &file].concat();
    assert_eq!((Room::of_file(&behind, 5), number(Index::load(&behind, 5))), (room, 0));
    for end in (0..file.len()).step_by(file.len() / 200).chain([file.len() - 1]) {
        assert_eq!(number(Index::load(&file[..end], 0)), 17);
    }
    assert_eq!((Room::of_file(&file, file.len()), Room::of_file(&file, usize::MAX)), (Room::default(), Room::default()));
}

/// A damaged file is refused as it is in tables with room for anything.
#[test]
fn the_room_of_a_damaged_file() {
    let mut board = GrowingIndex::open(40, &[Kind::Memory]).unwrap();
    for (k, (_, first, bytes)) in bookings(4, 12).into_iter().enumerate() {
        board.record(Kind::Memory, 3 * k as u64, first, &bytes).unwrap();
    }
    board.finish().unwrap();
    let file = board.write().unwrap();
    let mut met = [0; 25];
    for place in 0..file.len() {
        for change in [1, 0x80, 0xFF] {
            let mut damaged = file.clone();
            damaged[place] ^= change;
            let want = number(Index::load_with(Room::even(1 << 12), &damaged, 0));
            assert_eq!(number(Index::load(&damaged, 0)), want, "byte {place}");
            met[want as usize] += 1;
        }
    }
    assert!([0, 17, 18, 19, 21, 22, 23, 24].iter().all(|&number| met[number] > 0), "{met:?}");
}

// ── growth ──

/// A growing index answers as one of large tables.
#[test]
fn grows_by_itself() {
    let mut whole = Index::open(Room::even(1 << 14), END, &[Kind::Memory]).unwrap();
    let mut board = GrowingIndex::with(&Opening::new(END, &[Kind::Memory]).room(Room::even(0))).unwrap();
    for (tick, first, bytes) in bookings(5, 400) {
        assert_eq!(board.record(Kind::Memory, tick, first, &bytes), whole.record(Kind::Memory, tick, first, &bytes));
    }
    assert_eq!((number(board.record(Kind::Memory, 0, 0, &[1])), number(board.record(Kind::Memory, END, 0, &[1])), number(board.record(Kind::Memory, END - 1, 0, &[]))), (8, 7, 5));
    let copy = board.finished().unwrap();
    assert_eq!(board.try_clone().map(|clone| format!("{clone:?}")), Ok(format!("{:?}", *board)));
    assert_eq!(board.state(), State::Open);
    board.finish().unwrap();
    whole.finish().unwrap();
    for index in [&board, &copy] {
        assert_eq!(index.blocks().unwrap().collect::<Vec<Block>>(), whole.blocks().unwrap().collect::<Vec<Block>>());
        assert_eq!(index.write(), whole.write());
    }
    assert_eq!(board.room().entries, board.used().entries, "what finish needs is counted and not tried");
    assert_eq!((number(board.finish()), number(board.record(Kind::Memory, END - 1, 0, &[1])), number(board.finished())), (3, 3, 3));
}

#[test]
fn grows_for_a_list() {
    let (mut list, mut each) = (vec![], GrowingIndex::open(END, &[Kind::Memory]).unwrap());
    let mut answers = vec![];
    for (tick, first, bytes) in bookings(6, 300).into_iter().chain([(0, 0, vec![1]), (END - 1, 3, vec![])]) {
        put_operation(&mut list, tick, first, &bytes);
        answers.push(each.record(Kind::Memory, tick, first, &bytes));
    }
    let whole = list.len();
    put_operation(&mut list, END - 1, 0, &[1, 2]);
    list.pop();
    let mut board = GrowingIndex::open(END, &[Kind::Memory]).unwrap();
    let played = board.record_all(Kind::Memory, &list).unwrap();
    assert_eq!((&played.answers, played.next), (&answers, whole), "the last one is cut");
    assert_eq!(answers[300..], [Err(Refusal::TickGoesBack), Err(Refusal::NoCells)]);
    // the same into large tables with one test
    let mut index = Index::open(Room::even(1 << 14), END, &[Kind::Memory]).unwrap();
    assert_eq!(index.record_all(Kind::Memory, &list), Ok(played));
    board.finish().unwrap();
    index.finish().unwrap();
    assert_eq!(board.write(), index.write());
}

#[test]
fn grows_for_a_file() {
    let file = closed().write().unwrap();
    let mut board = GrowingIndex::open(1, &[Kind::Other]).unwrap();
    assert_eq!(board.reload(&file, 0), Ok(file.len()));
    assert_eq!(board.write().unwrap(), file);
    let (loaded, next) = GrowingIndex::load(&file, 0).unwrap();
    assert_eq!((loaded.write().unwrap(), next), (file, loaded.write().unwrap().len()));
    assert_eq!(number(board.reload(&[], 0)), 17);
    board.reopen(8, &[Kind::Memory]).unwrap();
    assert_eq!(board.record(Kind::Memory, 1, 100, &[7; 3]), Ok(Recorded::Update { cell: 100 }));
    assert_eq!(GrowingIndex::from(board.into_index()).last_tick(), 1);
}
