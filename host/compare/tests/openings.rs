//! Openings up to the size: the proved library answers, gives the state and leaves the palette and the
//! place as the second decoder does, and as its own separate calls do.

use compare::{Comparison, Event, Kind, Proved, Second, Separate, Tally};

const SEED: u64 = 1;
const FILMS: u64 = 20_000;
/// How often each thing must be reached at least.
const OFTEN: usize = 20;

#[test]
fn openings() {
    let mut comparison = Comparison::new(Proved, Second);
    let compared = comparison.run(Kind::Openings, SEED, 0..FILMS);
    compared.unwrap_or_else(|found| panic!("{found}"));
    assert_reached(comparison.tally());
}

#[test]
fn separate_calls() {
    let mut comparison = Comparison::new(Proved, Separate(Proved));
    let compared = comparison.run(Kind::Openings, SEED, 0..FILMS / 4);
    compared.unwrap_or_else(|found| panic!("{found}"));
}

/// Films with 05 behind every kind of opcode that may stand in front of it, and every number that an
/// opening can meet, also where palettes, maps and sound were taken before. 10 to 16 and 19 are never
/// met.
fn assert_reached(tally: &Tally) {
    let before =
        [0x01, 0x02, 0x03, 0x04, 0x07, 0x08, 0x09, 0x0A, 0x0B, 0x0C, 0x0D, 0x0F, 0x12, 0x15];
    let numbers = [1, 2, 3, 4, 5, 6, 7, 8, 9, 17, 18, 21];
    let changed = [0x0B, 0x0C, 0x0D, 0x0F];
    let after = [2, 3, 4, 5, 6, 7, 9, 21].into_iter();
    let after = after.flat_map(|number| changed.map(|kind| Event::RefusedAfter(number, kind)));
    let sound = [17, 18, 21].map(|number| Event::RefusedAfter(number, 0x08));
    let begun = [Event::Begun(true), Event::Begun(false), Event::EmptyBefore];
    let wanted = begun
        .into_iter()
        .chain(before.map(Event::Before))
        .chain(numbers.map(Event::Refused))
        .chain(after)
        .chain(sound);
    for event in wanted {
        let times = tally.times(event);
        println!("{event:?} reached {times} times");
        assert!(times >= OFTEN, "{event:?} reached {times} times, wanted {OFTEN}");
    }
    for number in (10..=16).chain([19]) {
        assert_eq!(tally.times(Event::Refused(number)), 0, "{number}");
    }
}
