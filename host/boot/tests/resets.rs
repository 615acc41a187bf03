//! Films through hundreds of resets at random moments, and planted faults that this must find.

mod common;

use boot::films;
use boot::judge::Tally;
use boot::program::{build, Program};
use common::{folder, run, STAGE};
use maker::demo;
use std::sync::LazyLock;
use std::time::Instant;

/// Resets of each film of either kind, at least.
const RESETS: usize = 200;

/// A stage that resets the machine itself: start number n after 53 n instructions.
static COARSE: LazyLock<Program> = LazyLock::new(|| build(&folder("coarse"), &["-DSTOPS=53"]));
/// Start number n after 3 n instructions.
static FINE: LazyLock<Program> = LazyLock::new(|| build(&folder("fine"), &["-DSTOPS=3"]));

/// What plays of a film gave, all together; of the stack the most.
#[derive(Debug, Default)]
struct Sum {
    resets: usize,
    stack: Option<usize>,
    in_drawing: usize,
    pictures: Tally,
}

/// Plays a film again and again, until there were so many resets: random ones from outside, or those of
/// a stage that counts instructions. Every time each picture is sent, in order, whole and in its
/// colours, and the film ends. `None` where QEMU cannot be had.
fn survives(name: &str, stage: &Program, film: &[u8], most: usize, resets: usize) -> Option<Sum> {
    let (begun, mut sum) = (Instant::now(), Sum::default());
    let mut seed = 0;
    while sum.resets < resets {
        let outcome = run(name, stage, film, seed, most)?;
        assert_eq!(outcome.wrong(), None, "{name}, seed {seed}");
        sum.resets += outcome.played.resets;
        sum.stack = sum.stack.max(outcome.played.stack);
        sum.in_drawing += outcome.in_drawing();
        sum.pictures += outcome.verdict.expect("nothing is wrong");
        seed += 1;
    }
    println!("{name}: {sum:?} in {:.1} s", begun.elapsed().as_secs_f64());
    Some(sum)
}

/// Plays a film by both kinds of resets. Most random ones fall into the messages, which take long; of
/// the others, only the steps, the saving and what lies between are counted.
fn survives_both(name: &str, film: &[u8]) {
    let random = survives(name, &STAGE, film, usize::MAX, RESETS);
    let counted = survives(&format!("{name}_counted"), &COARSE, film, 0, RESETS);
    if let Some((random, counted)) = random.zip(counted) {
        assert!(random.pictures.again > 0 && counted.in_drawing > 0, "{random:?}, {counted:?}");
    }
}

#[test]
fn demonstration() {
    survives_both("demonstration", &demo::film().bytes());
}

#[test]
fn all_codes() {
    let film = films::all_codes(1, 40);
    let codes = films::codes(&film);
    assert!((0..16).all(|code| codes[code] != (code == 6)), "{codes:?}");
    survives_both("all_codes", &film.bytes());
}

#[test]
fn palettes() {
    survives_both("palettes", &films::palettes(1, 60).bytes());
}

/// Many short steps: stops fall everywhere in them, between sending and saving, and between the words of
/// a record.
#[test]
fn short_steps() {
    if let Some(sum) = survives("short_steps", &FINE, &films::tiny(1, 250).bytes(), 0, 1_000) {
        assert!(sum.in_drawing > 0 && sum.pictures.twice > 0, "{sum:?}");
    }
}

/// A planted fault is found, by resets after counted instructions: the same ones in every run.
fn finds(name: &str, flags: &[&str], film: &[u8]) {
    let wrong = build(&folder(&format!("{name}_stage")), flags);
    let Some(outcome) = run(name, &wrong, film, 0, 0) else { return };
    let found = outcome.wrong().unwrap_or_else(|| panic!("{name}: not found"));
    println!("{name}: found with {} resets: {found}", outcome.played.resets);
}

/// A place that is saved a row of blocks before the row is drawn.
#[test]
fn early_place() {
    let film = films::all_codes(2, 12).bytes();
    finds("early_place", &["-DSTOPS=53", "-DFAULT_EARLY_PLACE"], &film);
}

/// A record that is written over where it stands.
#[test]
fn one_record() {
    let film = films::tiny(1, 250).bytes();
    finds("one_record", &["-DSTOPS=3", "-DFAULT_ONE_RECORD"], &film);
}
