//! What is done with a refusal; refusals.rs has their names, numbers and words.
pub use crate::refusals::Refusal;
use crate::refusals::NUMBERED;
use core::{error::Error, fmt};

impl Refusal {
    /// The refusal of a number that a call of [`raw`](crate::raw) gave; none of 0, which is an
    /// accepted call. A number does not tell the two meanings of 15 apart: this takes it for
    /// [`WindowReversed`](Refusal::WindowReversed).
    pub fn of(number: u64) -> Option<Refusal> {
        let place = number.checked_sub(1)?;
        let named = usize::try_from(place).ok().and_then(|place| NUMBERED.get(place)).copied();
        Some(named.unwrap_or(Refusal::Other(number)))
    }

    /// What a call's number says: 0 is accepted.
    pub(crate) fn unless_zero(number: u64) -> Result<(), Refusal> {
        Refusal::of(number).map_or(Ok(()), Err)
    }
}

impl fmt::Display for Refusal {
    fn fmt(&self, f: &mut fmt::Formatter) -> fmt::Result {
        write!(f, "refused {}: {}", self.number(), self.words())
    }
}

impl Error for Refusal {}

/// So that `?` takes a refusal out of a function that reads or writes files.
#[cfg(feature = "std")]
impl From<Refusal> for std::io::Error {
    fn from(refusal: Refusal) -> std::io::Error {
        std::io::Error::other(refusal)
    }
}
