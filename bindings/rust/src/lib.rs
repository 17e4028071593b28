//! The history of a planning board: which train stood at which platform in which minute, at each edit. Every call is a proved function of a static library; this
//! crate owns the tables that those functions are lent, and gives their answers Rust types.
//!
//! A **cell** is a platform and a minute, as one number ([`Cell`]). Its byte is a train code; 0 says that the platform is free. A **tick** is the number of an
//! edit. A **booking** writes bytes into cells from a first one on, at a tick. A **block** is what some cells held over a time: it is **live** from the tick at
//! which it was created up to, and not including, the one at which it was destroyed. All ticks are below the **end tick** of the index.
//!
//! An index is opened with one [`Kind`] or more, and every call on cells names one of them.
//!
//! An index is open first: it takes bookings. Once it is finished it is read, and takes none. To read a board that goes on, finish a clone of it:
//! [`GrowingIndex::finished`].
//!
//! # The edit service
//!
//! It records what planners book, and shows the first minute that a booking changed.
//!
//! ```
//! use servercape::{Cell, GrowingIndex, Kind, Recorded, Refusal};
//!
//! let mut board = GrowingIndex::open(1_000_000, &[Kind::Memory])?;
//! let at_0800 = Cell::new(2, 480).number();
//! assert_eq!(board.record(Kind::Memory, 1, at_0800, &[7; 10])?.cell(), Some(at_0800));
//! assert_eq!(board.record(Kind::Memory, 2, at_0800, &[7; 12])?.cell(), Some(at_0800 + 10), "two minutes more");
//! assert_eq!(board.record(Kind::Memory, 3, at_0800, &[7; 12])?, Recorded::Read, "nothing changed");
//! // a tick that goes back is refused, and the board is as it was
//! assert_eq!(board.record(Kind::Memory, 2, at_0800, &[9]), Err(Refusal::TickGoesBack));
//! # Ok::<(), Refusal>(())
//! ```
//!
//! It installs station hours ([`Calendar`]), so that nobody books a train for a minute at which the station is closed.
//!
//! ```
//! use servercape::{Calendar, Cell, GrowingIndex, Kind, Refusal};
//!
//! let mut board = GrowingIndex::open(1_000_000, &[Kind::Memory])?;
//! let mut hours = Calendar::default();
//! hours.week[0].push(480..1200); // Mondays from 08:00 to 20:00, and no other day
//! board.install_calendar(&hours)?;
//! let at_1955 = Cell::new(2, 1195).number();
//! assert_eq!(board.record(Kind::Memory, 1, at_1955, &[7; 6]), Err(Refusal::OutsideHours), "its last minute is 20:00");
//! assert_eq!(board.record(Kind::Memory, 1, at_1955, &[7; 5])?.cell(), Some(at_1955));
//! # Ok::<(), Refusal>(())
//! ```
//!
//! # The conflict checker
//!
//! It asks who holds a minute of a window: by [`touching`](Index::touching), not by [`find`](Index::find), which lists only blocks that start in the window and
//! misses a train that came in before.
//!
//! ```
//! use servercape::{Cell, GrowingIndex, Kind};
//!
//! let mut board = GrowingIndex::open(1_000_000, &[Kind::Memory])?;
//! board.record(Kind::Memory, 1, Cell::new(2, 1432).number(), &[7; 14])?; // from 23:52 through midnight
//! let now = board.finished()?;
//! let window = Cell::window(2, 1440..1450); // from 00:00 on
//! assert_eq!(now.touching(Kind::Memory, 1, window.clone())?, [0]);
//! assert_eq!(now.find(Kind::Memory, 1, window)?.numbers, [], "it starts before");
//! # Ok::<(), servercape::Refusal>(())
//! ```
//!
//! # The viewer
//!
//! It shows the board as it stood at a tick.
//!
//! ```
//! use servercape::{Cell, GrowingIndex, Kind};
//!
//! let mut board = GrowingIndex::open(8, &[Kind::Memory])?;
//! board.record(Kind::Memory, 1, 100, &[7, 7, 7])?;
//! board.record(Kind::Memory, 3, 102, &[9, 9, 9])?;
//! board.finish()?;
//! assert_eq!(board.cells(Kind::Memory, 2, 100..104)?, [Some(7), Some(7), Some(7), None]);
//! assert_eq!(board.cells(Kind::Memory, 3, 100..104)?, [Some(7), Some(7), Some(9), Some(9)]);
//! assert_eq!(board.label(102).to_string(), "01:42");
//! # Ok::<(), servercape::Refusal>(())
//! ```
//!
//! Where trains run through the clock change, days of 23 and 25 hours are installed ([`Days`]), into an open or a finished board: labels and station hours go by
//! them. A file does not hold them.
//!
//! ```
//! use servercape::{Cell, Days, GrowingIndex, Kind};
//!
//! let mut board = GrowingIndex::open(1_000_000, &[Kind::Memory])?;
//! let days = Days::central_european((2024, 1, 1), 2024..=2055).expect("day 0 is a Monday");
//! board.install_days(days.list())?;
//! let long = days.start(300); // day 300 is Sunday, 27 October 2024
//! assert_eq!([long + 179, long + 180].map(|cell| board.label(cell).to_string()), ["02:59", "02:00"]);
//! # Ok::<(), servercape::Refusal>(())
//! ```
//!
//! Line managers compare platforms by how much of some windows is occupied.
//!
//! ```
//! use servercape::{Cell, GrowingIndex, Kind};
//!
//! let mut board = GrowingIndex::open(8, &[Kind::Memory])?;
//! board.record(Kind::Memory, 1, Cell::new(2, 480).number(), &[7; 45])?; // from 08:00 to 08:45
//! board.finish()?;
//! let hour = board.occupation(Kind::Memory, 1, &[Cell::window(2, 480..540)])?;
//! assert_eq!(hour.to_string(), "3/4 (75.0 %)");
//! # Ok::<(), servercape::Refusal>(())
//! ```
//!
//! # The archive
//!
//! It writes finished boards to files, and loads them again. Several may stand in one file, one behind the other.
//!
//! ```
//! use servercape::{GrowingIndex, Index, Kind};
//!
//! let mut board = GrowingIndex::open(8, &[Kind::Memory])?;
//! board.record(Kind::Memory, 1, 100, &[7, 7, 7])?;
//! board.finish()?;
//! let file = board.write()?;
//! let (loaded, next) = Index::load(&file, 0)?;
//! assert_eq!(next, file.len());
//! assert!(loaded.blocks()?.eq(board.blocks()?));
//! # Ok::<(), servercape::Refusal>(())
//! ```
//!
//! # Several kinds
//!
//! Platforms, rolling stock and crews can be kinds of one board. A cell of one kind is none of another; tables, block numbers and the last tick are common. Their files
//! stand one behind the other, and a load takes one of them.
//!
//! ```
//! use servercape::{GrowingIndex, Index, Kind, Refusal};
//!
//! const PLATFORMS: Kind = Kind::Memory;
//! const CREWS: Kind = Kind::Other;
//!
//! let mut board = GrowingIndex::open(8, &[PLATFORMS, CREWS])?;
//! board.record(PLATFORMS, 1, 100, &[7, 7, 7])?;
//! board.record(CREWS, 1, 100, &[3])?; // the same cell, and nothing is replaced
//! assert_eq!(board.record(Kind::Unique, 1, 100, &[3]), Err(Refusal::KindNotOpened));
//! board.finish()?;
//! assert_eq!(board.cells(PLATFORMS, 1, 100..102)?, [Some(7), Some(7)]);
//! assert_eq!(board.cells(CREWS, 1, 100..102)?, [Some(3), None]);
//! let file = board.write()?;
//! let (platforms, next) = Index::load(&file, 0)?;
//! let (crews, end) = Index::load(&file, next)?;
//! assert!(platforms.kinds().eq([PLATFORMS]) && crews.kinds().eq([CREWS]) && end == file.len());
//! # Ok::<(), Refusal>(())
//! ```
//!
//! # What is proved
//!
//! Each function of the library is proved to give its answer for every argument: no call loses a cell, invents one or changes a byte. The tables of an index are
//! private, so nobody else can change them, and they are tested once: an index keeps the state that they are in, and its methods use the calls after one test, which
//! are proved to answer as the public calls do. A read takes the time of what it reads, and not of all rows. This crate itself is not proved but tested.
//!
//! # Features
//!
//! `std`, on by default, turns a [`Refusal`] into a `std::io::Error`. Without it the crate needs `alloc` alone.
//!
//! # The library
//!
//! The build links `libservercape.a` and `libservercape_tested.a` from the folder that the environment
//! variable `SERVERCAPE_LIB` names, or else from the repository's `dist/`. They need no Rattle; with
//! `SERVERCAPE_FROM_SOURCE=1` the repository has them proved and built first.
#![cfg_attr(not(any(feature = "std", test)), no_std)]
#![warn(missing_docs)]

extern crate alloc;

mod calendar;
mod cell;
mod days;
mod grow;
mod head;
mod index;
mod kind;
mod need;
pub mod raw;
mod reads;
mod refusal;
mod refusals;
mod reports;
mod room;
#[cfg(test)]
mod same;
pub mod tested;

pub use calendar::Calendar;
pub use cell::Cell;
pub use days::{Days, Label};
pub use grow::GrowingIndex;
pub use index::{put_operation, Index, Opening, Played, Recorded, State};
pub use kind::{Kind, NoSuchKind};
pub use reads::{Block, Blocks, Found};
pub use refusal::Refusal;
pub use reports::Occupation;
pub use room::Room;

#[cfg(doctest)]
#[doc = include_str!("../README.md")]
struct Readme;
