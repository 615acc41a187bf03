//! Scratched films: what is left of them is by the second program what it is by construction.

use maker::scratches::{make, Made, Scratch, Scratched};
use maker::Seeded;
use reference::salvage::{salvage, LeftOut, Stop, END_CHUNK};
use std::collections::BTreeSet;

const FILMS: u64 = 4_000;

/// The chunks left out, as the film was made.
fn left_out(made: &Scratched) -> Vec<LeftOut> {
    let of = |(position, chunk): (usize, &Made)| {
        let (length, scratch) = (chunk.bytes.len() - 4, chunk.scratch?);
        Some(LeftOut { position, length, number: scratch.number() })
    };
    made.walked().into_iter().filter_map(of).collect()
}

/// The new film, and how the walk stopped.
fn new_film(made: &Scratched) -> (Vec<u8>, Stop) {
    let walked = made.walked();
    let kept = |(_, chunk): &&(usize, &Made)| chunk.scratch.is_none();
    let mut film = made.bytes()[..26].to_vec();
    film.extend(walked.iter().filter(kept).flat_map(|(_, chunk)| chunk.bytes.iter()));
    let stop = match walked.last() {
        Some((_, chunk)) if chunk.ends && chunk.scratch.is_none() => Stop::BehindEnd,
        _ if made.tail.is_empty() => Stop::FilmEnd,
        _ => Stop::PastEnd,
    };
    if stop != Stop::BehindEnd {
        film.extend(END_CHUNK);
    }
    (film, stop)
}

#[test]
fn what_is_left_is_known_by_construction() {
    let (mut kinds, mut stops) = (BTreeSet::new(), BTreeSet::new());
    let (mut most, mut ends_left_out) = (0, 0);
    for seed in 0..FILMS {
        let made = make(&mut Seeded::new(seed));
        let saved = salvage(&made.bytes(), usize::MAX, usize::MAX).expect("a good header");
        assert_eq!(saved.left_out, left_out(&made), "seed {seed}");
        assert_eq!((saved.film, saved.stop), new_film(&made), "seed {seed}");
        for (_, chunk) in made.walked() {
            kinds.extend(chunk.scratch.map(|kind| format!("{kind:?}")));
            ends_left_out += usize::from(chunk.ends && chunk.scratch.is_some());
        }
        stops.insert(format!("{:?}", saved.stop));
        most = most.max(saved.left_out.len());
    }
    assert_eq!(kinds.len(), Scratch::ALL.len(), "every kind is met");
    assert_eq!(stops.len(), 3, "every way to stop is met");
    assert!(most >= 5, "films with several chunks left out");
    assert!(ends_left_out > 100, "chunks with 00 that are left out");
}
