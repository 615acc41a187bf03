//! The stage on a machine that is not reset: its screen, its stack, its start, and memory that holds
//! something when power comes on.

mod common;

use boot::films;
use boot::judge::{expected, judge, Wrong};
use boot::machine::{Given, Machine, Start};
use boot::program::{build, Program};
use boot::watchdog::{play, End, Played};
use common::{folder, run, screen_of, STAGE};
use maker::{demo, film, Profile, Seeded, Size};

/// Plays a film and compares its pictures and the screen at its end.
fn plays(name: &str, given: Given<'_>) -> Option<Played> {
    let expected = expected(given.film);
    let mut machine = Machine::start(&folder(name), given)?;
    let played = play(&mut machine, &mut Seeded::new(0), 0);
    assert_eq!(played.end, End::Ended(expected.pictures.len()), "{name}");
    assert!(machine.screen() == screen_of(expected.pictures.last()), "{name}: the screen");
    let tally = judge(&machine.end(), &expected.pictures);
    assert_eq!(tally.map(|tally| (tally.twice, tally.again)), Ok((0, 0)), "{name}");
    Some(played)
}

/// The largest pictures, the smallest, and those of the demonstration.
#[test]
fn screen() {
    let rng = &mut Seeded::new(1);
    let large = film::plain(rng, Size::new(80, 60), Profile::Light, 3).bytes();
    let small = film::plain(rng, Size::new(1, 1), Profile::Mixed, 3).bytes();
    for (name, film) in [("large", large), ("small", small), ("demo", demo::film().bytes())] {
        plays(name, Given { program: &STAGE, start: Start::Rom, film: &film, kept: &[] });
    }
}

/// By QEMU's own firmware, which leaves the kept memory alone, too.
#[test]
fn kernel() {
    let film = demo::film().bytes();
    let given = Given { program: &STAGE, start: Start::Kernel, film: &film, kept: &[] };
    let Some(mut machine) = Machine::start(&folder("kernel"), given) else { return };
    let played = play(&mut machine, &mut Seeded::new(0), 5);
    assert_eq!((played.end, played.openings), (End::Ended(demo::FRAMES), 1));
    assert!(played.resets > 0);
    let tally = judge(&machine.end(), &expected(&film).pictures);
    assert!(tally.is_ok(), "{tally:?}");
}

/// Memory as a stop in the middle of a drawing leaves it. `None` where QEMU cannot be had.
fn stopped_in_drawing(film: &[u8], size: Size) -> Option<Vec<u8>> {
    let is_in_drawing = |kept: &Vec<u8>| {
        let place = u64::from_le_bytes(kept[8..16].try_into().expect("the second word"));
        0 < place && place < (size.columns * size.rows) as u64
    };
    for _ in 0..20 {
        let given = Given { program: &STAGE, start: Start::Rom, film, kept: &[] };
        let mut machine = Machine::start(&folder("stopped"), given)?;
        let left = (0..100).map(|_| machine.kept()).find(is_in_drawing);
        if left.is_some() {
            return left;
        }
    }
    panic!("no drawing is met")
}

/// What is used of the stack is told, by the three films of the resets, and where a drawing is gone on with
/// in its middle, which takes most. A stack that is smaller is told by the fault at its end.
#[test]
fn stack() {
    let (demo, palettes) = (demo::film().bytes(), films::palettes(1, 60).bytes());
    let film = films::all_codes(1, 40).bytes();
    let Some(stopped) = stopped_in_drawing(&film, films::SIZE) else { return };
    let start = |program: &Program, film: &[u8], kept: &[u8]| {
        let given = Given { program, start: Start::Kernel, film, kept };
        let mut machine = Machine::start(&folder("stack"), given).expect("qemu is there");
        play(&mut machine, &mut Seeded::new(0), 0)
    };
    let starts =
        [("demo", &demo, &[][..]), ("palettes", &palettes, &[]), ("all codes", &film, &[])];
    let mut used = 0;
    for (name, film, kept) in starts.into_iter().chain([("stopped", &film, &stopped[..])]) {
        let played = start(&STAGE, film, kept);
        assert_eq!(played.end, End::Ended(expected(film).pictures.len()), "{name}");
        used = played.stack.expect("the stack is told");
        println!("stack, {name}: {used} bytes");
        assert!(512 < used && used <= 1024, "{name}: {used} bytes");
    }
    for stack in [512, (used - 1) / 16 * 16] {
        let narrow = build(&folder("narrow_stage"), &[&format!("-DSTACK={stack}")]);
        let End::Told(told) = start(&narrow, &film, &stopped).end else {
            panic!("{stack} bytes: no fault is told")
        };
        let is_told = told.starts_with("fault ") && told.ends_with(": the stack is too small");
        assert!(is_told, "{stack} bytes: {told}");
    }
}

/// What the display lacks of a picture are the rows of all packets since it was last sent: with those of
/// the last packet alone, it does not keep up.
#[test]
fn last_rows() {
    let film = films::all_codes(4, 20).bytes();
    let given = Given { program: &STAGE, start: Start::Rom, film: &film, kept: &[] };
    if plays("all_rows", given).is_some() {
        let wrong = build(&folder("last_rows_stage"), &["-DFAULT_LAST_ROWS"]);
        let outcome = run("last_rows", &wrong, &film, 0, 0).expect("qemu is there");
        assert!(matches!(outcome.verdict, Err(Wrong::Differs(_))), "{:?}", outcome.verdict);
    }
}

/// Memory as it was is gone on from. Memory that holds anything else, a record that has decayed, and the
/// record of another film are not.
#[test]
fn power_on() {
    let film = films::all_codes(4, 3).bytes();
    let start = |kept: &[u8]| {
        let given = Given { program: &STAGE, start: Start::Rom, film: &film, kept };
        let mut machine = Machine::start(&folder("power_on"), given)?;
        let played = play(&mut machine, &mut Seeded::new(0), 0);
        assert_eq!(played.end, End::Ended(3));
        Some((played.openings, machine.kept()))
    };
    let Some((1, left)) = start(&[]) else { return };
    assert_eq!(start(&left).map(|(openings, _)| openings), Some(0));
    // Each record ends in the pictures sent, the film's length and a sum; the first byte tells which one
    // holds.
    let is_end = |at: &usize| {
        let word = |at: usize| u64::from_le_bytes(left[at..at + 8].try_into().expect("a word"));
        word(at - 8) <= 3 && word(*at) == film.len() as u64
    };
    let holds = usize::from(left[0] % 2);
    let end = (8..1024).step_by(8).filter(is_end).nth(holds).expect("a record");
    for byte in [0, 7, end - 100, end - 1, end, end + 15] {
        let mut decayed = left.clone();
        decayed[byte] ^= 0x10;
        assert_eq!(start(&decayed).map(|(openings, _)| openings), Some(1), "byte {byte}");
    }
    let noise = Seeded::new(1).bytes(left.len());
    let other = films::all_codes(5, 3).bytes();
    plays("noise", Given { program: &STAGE, start: Start::Rom, film: &film, kept: &noise });
    plays("other", Given { program: &STAGE, start: Start::Rom, film: &other, kept: &left });
}
