//! Checking: the proved library answers as the second decoder does, in both forms.

mod common;

use compare::{Comparison, Event, Kind, Proved, Second, Touched};

const SEED: u64 = 1;
const PACKETS: u64 = 10_000;

#[test]
fn packets() {
    let mut comparison = Comparison::new(Proved, Second);
    let compared = comparison.run(Kind::Packets, SEED, 0..PACKETS);
    compared.unwrap_or_else(|found| panic!("{found}"));
    let answers = [Event::Accepted, Event::LaterBlock, Event::Smallest, Event::Largest];
    let numbers = [6, 10, 12, 13, 14, 15].map(Event::Refused);
    let rows = Touched::ALL.map(Event::Touched);
    let wanted = [&answers[..], &numbers, &common::LEFT_OVER, &rows].concat();
    common::assert_reached(comparison.tally(), &wanted);
}
