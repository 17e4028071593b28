//! The kinds of board.
use core::{error::Error, fmt, str::FromStr};

/// A kind of space. An index is opened with one or more: platforms, rolling stock and crews of one board, say. A cell of one kind is none of another. A board of
/// platforms alone is [`Kind::Memory`]; the names are those of the library that this one is ported from.
#[derive(Clone, Copy, PartialEq, Eq, PartialOrd, Ord, Hash, Debug)]
#[repr(u8)]
pub enum Kind {
    /// Code 0.
    Constant,
    /// Code 1.
    Memory,
    /// Code 2.
    Register,
    /// Code 3.
    Unique,
    /// Code 4.
    Other,
}

impl Kind {
    /// All kinds by code.
    pub const ALL: [Kind; 5] = [Kind::Constant, Kind::Memory, Kind::Register, Kind::Unique, Kind::Other];

    /// The code, from 0 to 4.
    pub const fn code(self) -> u8 {
        self as u8
    }

    /// The name, as readable lists of bookings have it.
    pub const fn name(self) -> &'static str {
        match self {
            Kind::Constant => "constant",
            Kind::Memory => "memory",
            Kind::Register => "register",
            Kind::Unique => "unique",
            Kind::Other => "other",
        }
    }
}

/// A code or a name that no kind has.
#[derive(Clone, Copy, PartialEq, Eq, Debug)]
pub struct NoSuchKind(());

impl fmt::Display for NoSuchKind {
    fn fmt(&self, f: &mut fmt::Formatter) -> fmt::Result {
        f.write_str("no such kind: it is constant, memory, register, unique or other, with codes 0 to 4")
    }
}

impl Error for NoSuchKind {}

impl TryFrom<u8> for Kind {
    type Error = NoSuchKind;

    fn try_from(code: u8) -> Result<Kind, NoSuchKind> {
        Kind::ALL.get(usize::from(code)).copied().ok_or(NoSuchKind(()))
    }
}

impl FromStr for Kind {
    type Err = NoSuchKind;

    /// The kind of a name; capitals do not matter.
    fn from_str(name: &str) -> Result<Kind, NoSuchKind> {
        Kind::ALL.into_iter().find(|kind| kind.name().eq_ignore_ascii_case(name)).ok_or(NoSuchKind(()))
    }
}

impl fmt::Display for Kind {
    fn fmt(&self, f: &mut fmt::Formatter) -> fmt::Result {
        f.pad(self.name())
    }
}
