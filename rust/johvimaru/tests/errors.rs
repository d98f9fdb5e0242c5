//! What errors say, and which error has led to which.

use johvimaru::{BusError, CutError, Failure, Misuse, Refusal};
use std::error::Error;
use std::iter;

/// What a reporter prints: an error, its source, the source of that, and so on.
fn chain(error: &(dyn Error + 'static)) -> Vec<String> {
    iter::successors(Some(error), |&error| error.source()).map(ToString::to_string).collect()
}

#[test]
fn a_chips_error_is_the_source_and_is_said_once() {
    let inside = CutError::Chip(Misuse::NotEmpty);
    let words = ["the chip inside failed", "a page is programmed that is not empty"];
    assert_eq!(chain(&inside), words);
    assert_eq!(chain(&Failure::Chip(inside))[..1], ["the chip failed"]);
    assert_eq!(chain(&Failure::Chip(inside))[1..], words);
    let off = Failure::Chip(CutError::<Misuse>::PowerCut);
    assert_eq!(chain(&off), ["the chip failed", "the power is off"]);
    assert!(off.source().is_some_and(|source| source.is::<CutError<Misuse>>()));
}

#[test]
fn a_buses_error_is_told_from_a_failed_status() {
    let bus = Failure::Chip(BusError::Bus(Refusal::ImageSize));
    let size = "the image is not 8 to 256 full blocks of 4,096 bytes";
    assert_eq!(chain(&bus), ["the chip failed", "the bus failed", size]);
    let failed = BusError::<Refusal>::Failed;
    assert_eq!(chain(&failed), ["the chip's status is failed"]);
    let outside = BusError::<Refusal>::Outside;
    assert_eq!(chain(&outside), ["the chip has no such page or block"]);
}

#[test]
fn what_has_no_source() {
    let refused: Failure<Misuse> = Refusal::NothingThere.into();
    assert_eq!(chain(&refused), ["there is no node there"]);
    assert_eq!(chain(&Failure::<Misuse>::NotMounted), ["the chip has to be mounted first"]);
    assert_eq!(chain(&Misuse::Outside), ["the chip has no such page or block"]);
    for refusal in Refusal::all() {
        assert_eq!(chain(&refusal).len(), 1, "{refusal}");
    }
}

/// What a commit may help against says so.
#[test]
fn refusals_that_a_commit_answers() {
    let hints = Refusal::all().filter(|refusal| refusal.to_string().contains("; a commit "));
    assert!(hints.eq([Refusal::NoFreeKey, Refusal::NoRoom]));
}
