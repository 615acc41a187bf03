//! Films with sound: after every step the proved library has answered, written to the room and left
//! the state and all that is lent as the second decoder has.

mod common;

use compare::{Comparison, Event, Kind, Proved, Second};
use maker::film::SOUND;
use maker::sound::Format;

const SEED: u64 = 1;
const FILMS: u64 = 4000;
/// Steps that must write samples at least.
const SOUNDS: usize = 10_000;

#[test]
fn sounds() {
    let mut comparison = Comparison::new(Proved, Second);
    let compared = comparison.run(Kind::Sounds, SEED, 0..FILMS);
    compared.unwrap_or_else(|found| panic!("{found}"));
    let answers = [
        Event::Opened,
        Event::Taken,
        Event::Whole,
        Event::Unfinished,
        Event::Ended,
        Event::Turned,
        Event::Coloured,
    ];
    let numbers = [3, 4, 5, 8, 16, 17, 18, 19].map(Event::Refused);
    let first = Format::ALL.map(|format| Event::Written(format, false));
    let later = [false, true]
        .map(|stereo| Event::Written(Format { stereo, wide: true, compressed: true }, true));
    let opcodes = SOUND.map(Event::Opcode);
    let wanted = [&answers[..], &numbers, &first, &later, &opcodes].concat();
    common::assert_reached(comparison.tally(), &wanted);
    assert!(comparison.tally().sounds >= SOUNDS, "{}", comparison.tally());
}
