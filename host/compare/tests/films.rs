//! Films: after every step, of either form, the proved library has answered and left the state, the
//! palette, the place, all pictures and the shown one as the second decoder has; also over films with true
//! colour.

mod common;

use compare::{Comparison, Event, Kind, Proved, Second, Touched, Unparted};
use maker::film::{ACTED_ON, PASSED_OVER};
use reference::CallForm;

const SEED: u64 = 1;
const FILMS: u64 = 20_000;

#[test]
fn films() {
    let mut comparison = Comparison::new(Proved, Second);
    let compared = comparison.run(Kind::Films, SEED, 0..FILMS);
    compared.unwrap_or_else(|found| panic!("{found}"));
    let answers = [
        Event::Begun(false),
        Event::Opened,
        Event::Taken,
        Event::Whole,
        Event::WholeBefore,
        Event::Unfinished,
        Event::Ended,
        Event::LaterBlock,
        Event::Turned,
        Event::Coloured,
        Event::Shown,
    ];
    let numbers: Vec<Event> = (1..=16).map(Event::Refused).collect();
    let opcodes: Vec<Event> = ACTED_ON.into_iter().chain(PASSED_OVER).map(Event::Opcode).collect();
    let rows = [&Touched::ALL.map(Event::Touched)[..], &[Event::TouchedBefore]].concat();
    // Palettes, maps and drawings that run short of stores (02, W11).
    let short = [0x0B, 0x0C, 0x0D, 0x11].map(Event::Short);
    let none = [0x0B, 0x0C, 0x0D, 0x0F, 0x11].map(Event::NoneAllowed);
    let wanted =
        [&answers[..], &numbers, &opcodes, &common::LEFT_OVER, &rows, &short, &none].concat();
    common::assert_reached(comparison.tally(), &wanted);
    // Films with true colour among them: no 12 there.
    let kinds = ["taken", "whole", "unfinished", "ended"].map(Event::Deep);
    let numbers: Vec<Event> =
        [2, 3, 4, 5, 6, 7, 8, 9, 10, 11, 13, 14, 15, 16, 20].map(Event::DeepRefused).to_vec();
    let turned = [0, 1, 2].map(Event::TurnedTo);
    let short = [true, false].map(Event::ShortVideo);
    let others = [Event::NotTurned, Event::ShownWords, Event::Refused(20)];
    // Opcode 11 has a word at least there, so that a packet under two bytes is no 20.
    let unparted = [Unparted::Below, Unparted::Past].map(Event::Unparted);
    let parts = [1, 2].map(Event::ShortPart);
    // All kinds of it are in `words`; here those by which the forms, and the parts, are told apart.
    let [default, strict] = CallForm::ALL;
    let taken = [(default, 0), (default, 1), (strict, 0)];
    let taken = taken.map(|(form, over)| Event::TakenWords(form, over));
    let refused = [(strict, 0, 1), (default, 0, 2), (default, 0, 3), (default, 1, 0)];
    let refused = refused.map(|(form, one, other)| Event::RefusedWords(form, one, other));
    let over = [&taken[..], &refused].concat();
    let wanted =
        [&kinds[..], &numbers, &turned, &short, &others, &unparted, &parts, &over].concat();
    common::assert_reached_words(comparison.tally(), &wanted);
    let tally = comparison.tally();
    assert_eq!(tally.times(Event::Unparted(Unparted::Short)), 0);
    assert_eq!(tally.times(Event::DeepRefused(12)), 0);
}
