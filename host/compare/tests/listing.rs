//! The listing program, built from the proved library, writes for every film what the second
//! decoder's listing has, byte for byte. It is at the repository's `target/bin`, or in the folder
//! that MVE_BIN_DIR names.

use std::collections::BTreeMap;
use std::env;
use std::io::{ErrorKind, Write};
use std::path::PathBuf;
use std::process::{Command, Stdio};

use maker::film::{self, Opcode};
use maker::film_damage::{self, Damage};
use maker::{sound, sound_damage, true_colour, Seeded};
use reference::listing;

const SEED: u64 = 1;
/// Films of each kind: valid, scratched, hostile, and each damage; and with sound, which is listed and
/// passed over.
const ROUNDS: usize = 30;
/// The refusals that a film alone can meet: it lends nothing and starts at place 0. 8 is that of films with
/// true colour, since no pictures of words are lent to them (02, W7).
const NUMBERS: [usize; 14] = [1, 2, 3, 4, 5, 6, 7, 8, 9, 10, 12, 13, 14, 15];

fn program() -> PathBuf {
    let folder = match env::var_os("MVE_BIN_DIR") {
        Some(folder) => PathBuf::from(folder),
        None => PathBuf::from(env!("CARGO_MANIFEST_DIR")).join("../../target/bin"),
    };
    let program = folder.join("mve_list");
    assert!(
        program.is_file(),
        "the listing program is not at {}: in the repository's folder, run: make listing",
        program.display()
    );
    program
}

/// What the program writes for a film. It does not read a film that is too large to its end.
fn listed(film: &[u8]) -> String {
    let mut command = Command::new(program());
    let command = command.stdin(Stdio::piped()).stdout(Stdio::piped());
    let mut child = command.spawn().expect("the program starts");
    let mut input = child.stdin.take().expect("its input is a pipe");
    if let Err(error) = input.write_all(film) {
        assert_eq!(error.kind(), ErrorKind::BrokenPipe, "{error}");
    }
    drop(input);
    let output = child.wait_with_output().expect("the program ends");
    assert!(output.status.success(), "{}", output.status);
    String::from_utf8(output.stdout).expect("text")
}

/// A film whose one opcode is of this kind, version 0.
fn film_of(kind: u8, body: Vec<u8>) -> Vec<u8> {
    let mut film = film::with_frames(&mut Seeded::new(SEED), 0);
    film.chunks.truncate(1);
    film.chunks[0].opcodes = vec![Opcode::new(kind, 0, body)];
    film.tail = Vec::new();
    film.bytes()
}

fn sized(columns: u16, rows: u16) -> Vec<u8> {
    film_of(0x05, [columns, rows].map(u16::to_le_bytes).concat())
}

/// The made films, those at both limits last.
fn films() -> Vec<Vec<u8>> {
    let rng = &mut Seeded::new(SEED);
    let mut films = Vec::new();
    for _ in 0..ROUNDS {
        films.push(film::valid(rng).bytes());
        films.push(film_damage::scratched(rng));
        films.push(film::hostile(rng));
        films.extend(Damage::ALL.map(|damage| film_damage::damaged(rng, damage)));
        films.push(true_colour::valid(rng).bytes());
        films.push(true_colour::scratched(rng));
        let stream = rng.below(16);
        films.push(sound::valid(rng, stream).bytes());
        let damage = rng.pick(&sound_damage::Damage::ALL);
        films.push(sound_damage::damaged(rng, stream, damage).bytes());
    }
    films.extend([(16, 16), (17, 16), (80, 60)].map(|(columns, rows)| sized(columns, rows)));
    let lengths = [listing::MAX_FILM, listing::MAX_FILM + 1, 100_000];
    films.extend(lengths.map(|length| {
        let mut film = film_of(0x04, vec![7; 24_542]);
        film.resize(length, 0);
        film
    }));
    films
}

/// How a listing ended: its last line's first word, with the number of a refusal.
fn ending(text: &str) -> String {
    let last = text.lines().last().expect("a line");
    let words = if last.starts_with("refused") { 2 } else { 1 };
    last.split(' ').take(words).collect::<Vec<_>>().join(" ")
}

#[test]
fn as_the_second_decoder_lists() {
    let mut endings = BTreeMap::new();
    for (number, film) in films().iter().enumerate() {
        let expected = listing::list(film);
        assert_eq!(listed(film), expected, "film {number}");
        *endings.entry(ending(&expected)).or_insert(0) += 1;
    }
    println!("{endings:?}");
    assert!(endings.values().sum::<usize>() >= 300);
    let refusals = NUMBERS.map(|number| format!("refused {number}"));
    for wanted in refusals.iter().map(String::as_str).chain(["ended"]) {
        assert!(endings.get(wanted).copied().unwrap_or(0) >= 3, "{wanted}: {endings:?}");
    }
}

/// Both limits, with the text that 01 gives: 16x16 blocks are 16,384 pixels.
#[test]
fn too_large() {
    let films = films();
    let [fits, wide, widest, longest, longer, much_longer] = &films[films.len() - 6..] else {
        panic!("six films");
    };
    assert!(listed(fits).ends_with("\nended 38\n"));
    for film in [wide, widest] {
        assert_eq!(listed(film), "at type version length\n30 5 0 4\ntoo large\n");
    }
    assert_eq!(listed(longest), "at type version length\n30 4 0 24542\nended 24576\n");
    for film in [longer, much_longer] {
        assert_eq!(listed(film), "too large\n");
    }
}
