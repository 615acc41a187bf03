//! Drawing: after every call of a list, of either form, the proved library has answered and stored what
//! the second decoder has, and what the book of demand 3 says.

mod common;

use compare::{Comparison, Event, Kind, Proved, Second, Touched};

const SEED: u64 = 1;
const LISTS: u64 = 6000;

#[test]
fn lists() {
    let mut comparison = Comparison::new(Proved, Second);
    let compared = comparison.run(Kind::Lists, SEED, 0..LISTS);
    compared.unwrap_or_else(|found| panic!("{found}"));
    let answers = [
        Event::Whole,
        Event::WholeBefore,
        Event::Unfinished,
        Event::NothingAllowed,
        Event::Cut,
        Event::RefusedBetween,
        Event::LaterBlock,
        Event::Longer,
        Event::Smallest,
        Event::Largest,
    ];
    let numbers = [6, 8, 10, 11, 12, 13, 14, 15].map(Event::Refused);
    let rows = [&Touched::ALL.map(Event::Touched)[..], &[Event::TouchedBefore]].concat();
    let wanted = [&answers[..], &numbers, &common::LEFT_OVER, &rows].concat();
    common::assert_reached(comparison.tally(), &wanted);
}
