//! Films that are refused: the number and the byte are told, and the last picture stays on the screen.

mod common;

use boot::films;
use boot::judge::{expected, judge, Expected};
use boot::machine::{Given, Machine, Start, FILM_ROOM};
use boot::watchdog::{play, End};
use common::{folder, screen_of, STAGE};
use maker::film::Opcode;
use maker::film_damage::{damaged, Damage};
use maker::{true_colour, Seeded};

/// The beginning of the line that tells a refusal.
fn line(expected: &Expected) -> String {
    let refusal = expected.refusal.expect("a refused film");
    let block = match refusal.number {
        12..=14 => format!(" in block {}", refusal.block),
        _ => String::new(),
    };
    format!("refusal {}{block} at byte {}: ", refusal.number, expected.position)
}

/// Plays a film that is refused, and resets the machine then: it tells the same again and shows the last
/// picture again. False where QEMU cannot be had.
fn is_told(name: &str, film: &[u8]) -> bool {
    let expected = expected(film);
    let given = Given { program: &STAGE, start: Start::Rom, film, kept: &[] };
    let Some(mut machine) = Machine::start(&folder(name), given) else { return false };
    for turn in 0..2 {
        let End::Told(told) = play(&mut machine, &mut Seeded::new(0), 0).end else {
            panic!("{name}: not told")
        };
        let reason = told.strip_prefix(&line(&expected)).unwrap_or_default();
        assert!(reason.len() > 10, "{name}, turn {turn}: {told}, not {}", line(&expected));
        let screen = machine.screen();
        assert!(screen == screen_of(expected.pictures.last()), "{name}, turn {turn}: the screen");
        machine.reset();
    }
    let verdict = judge(&machine.end(), &expected.pictures);
    verdict.unwrap_or_else(|wrong| panic!("{name}: {wrong:?}"));
    true
}

/// A film that is refused behind its third picture.
#[test]
fn in_the_middle() {
    let mut film = films::all_codes(3, 6);
    film.chunks[5].opcodes.insert(0, Opcode::new(0x0E, 0, Vec::new()));
    let expected = expected(&film.bytes());
    assert_eq!((expected.pictures.len(), expected.refusal.map(|r| r.number)), (3, Some(4)));
    is_told("in_the_middle", &film.bytes());
}

/// Every kind of damage.
#[test]
fn damages() {
    for damage in Damage::ALL {
        let mut seeds = (0..).map(|seed| damaged(&mut Seeded::new(seed), damage));
        let film = seeds.find(|film| expected(film).refusal.is_some()).expect("a refused film");
        if !is_told(&format!("{damage:?}"), &film) {
            return;
        }
    }
}

/// No film at all, and a film without a size.
#[test]
fn nothing_to_play() {
    assert_eq!(line(&expected(&[])), "refusal 1 at byte 0: ");
    let mut film = films::all_codes(3, 0);
    film.chunks[0].opcodes.clear();
    assert_eq!(expected(&film.bytes()).refusal.map(|refusal| refusal.number), Some(21));
    let _ = is_told("no_film", &[]) && is_told("no_size", &film.bytes());
}

/// A film with true colour: the stage lends no pictures of words, so the film is refused by 8, right behind its
/// size.
#[test]
fn no_true_colour() {
    let film = true_colour::with_frames(&mut Seeded::new(5), 2).bytes();
    let expected = expected(&film);
    assert_eq!((expected.pictures.len(), expected.refusal.map(|r| r.number)), (0, Some(8)));
    is_told("no_true_colour", &film);
}

/// A film that is larger than its room is not played. The largest that is not is.
#[test]
fn too_large() {
    let mut film = films::all_codes(3, 2).bytes();
    for (length, is_played) in [(FILM_ROOM, true), (FILM_ROOM + 1, false)] {
        film.resize(length, 0);
        let given = Given { program: &STAGE, start: Start::Rom, film: &film, kept: &[] };
        let Some(mut machine) = Machine::start(&folder("too_large"), given) else { return };
        let end = play(&mut machine, &mut Seeded::new(0), 0).end;
        let told = format!("the film is larger than its room of bytes {FILM_ROOM}");
        assert_eq!(end, if is_played { End::Ended(2) } else { End::Told(told) });
        machine.end();
    }
}
