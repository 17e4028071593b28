//! The words of the refusals, and the version.
use servercape::{raw, Refusal};

#[test]
fn each_number_has_its_refusal() {
    let named = (1..).map_while(|number| Refusal::of(number).filter(|&refusal| refusal != Refusal::Other(number)).map(|refusal| (number, refusal)));
    let all: Vec<(u64, Refusal)> = named.collect();
    assert!(all.len() >= 28 && all.iter().map(|&(number, _)| number).eq(1..=all.len() as u64));
    for &(number, refusal) in &all {
        assert_eq!(refusal.number(), number);
        assert_eq!(refusal.to_string(), format!("refused {number}: {}", refusal.words()));
        assert!(!refusal.words().is_empty() && !refusal.advice().is_empty());
    }
    let more_room = all.iter().filter(|(_, refusal)| refusal.is_no_room()).map(|&(number, _)| number).take_while(|&number| number <= 28);
    assert!(more_room.eq([9, 10, 11, 12, 13, 16, 20]));
}

#[test]
fn accepted_unknown_and_shared_numbers() {
    assert_eq!(Refusal::of(0), None);
    assert_eq!(Refusal::of(u64::MAX), Some(Refusal::Other(u64::MAX)));
    assert_eq!(Refusal::Other(99).to_string(), "refused 99: refused for a reason that this crate does not know");
    assert_eq!((Refusal::of(15), Refusal::NoSuchBlock.number()), (Some(Refusal::WindowReversed), 15));
    assert_eq!(Refusal::NoSuchBlock.words(), "there is no block of that number");
    assert_eq!(Refusal::TickGoesBack.advice(), "give edits in order; several may have the same tick");
}

#[test]
fn the_library_is_that_of_the_crate() {
    // SAFETY: the call takes nothing
    assert_eq!(unsafe { raw::servercape_version() }, raw::SERVERCAPE_VERSION_NUMBER);
    assert_eq!(raw::SERVERCAPE_VERSION, env!("CARGO_PKG_VERSION"));
}
