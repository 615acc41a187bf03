//! The synopsis of `include/mve.h` is the program `examples/synopsis.c`. It is compiled as C99 and as
//! C++, with all warnings as errors, and counts as many pictures as the second decoder gives, or says
//! the refusal that it meets.

use maker::film_damage::{self, Damage};
use maker::{demo, sound, true_colour, Seeded};
use reference::begin::begin;
use reference::pictures;
use std::collections::BTreeSet;
use std::fs::{self, File};
use std::path::{Path, PathBuf};
use std::process::{Command, Output};

/// No stream of the sound.
const NO_STREAM: usize = 16;

fn root() -> PathBuf {
    Path::new(env!("CARGO_MANIFEST_DIR")).join("../..")
}

#[test]
fn header_has_the_program() {
    let read = |path: &str| fs::read_to_string(root().join(path)).expect("a text");
    let (header, program) = (read("include/mve.h"), read("examples/synopsis.c"));
    let behind = header.split_once("SYNOPSIS\n").expect("a synopsis").1;
    let (_, lines) = behind.split_once(":\n\n").expect("the program");
    let (text, _) = lines.split_once("\n    cc -I include ").expect("the line that compiles it");
    let unindented = |line: &str| format!("{}\n", line.strip_prefix("    ").unwrap_or(line));
    assert_eq!(text.lines().map(unindented).collect::<String>(), program);
}

/// The program, compiled as each language.
fn programs() -> [PathBuf; 2] {
    let folder = std::env::var_os("MVE_LIB_DIR").map(PathBuf::from);
    let library = folder.unwrap_or_else(|| root().join("target/staticlib")).join("libmve.a");
    [("cc", "c", "c99"), ("c++", "c++", "c++11")].map(|(compiler, language, standard)| {
        let program = Path::new(env!("CARGO_TARGET_TMPDIR")).join(format!("synopsis_{standard}"));
        let compiled = Command::new(compiler)
            .args(["-x", language, &format!("-std={standard}"), "-O1"])
            .args(["-Wall", "-Wextra", "-pedantic", "-Werror", "-I"])
            .arg(root().join("include"))
            .arg(root().join("examples/synopsis.c"))
            .args(["-x", "none"])
            .arg(&library)
            .arg("-o")
            .arg(&program)
            .output()
            .unwrap_or_else(|error| panic!("{compiler} does not run: {error}"));
        assert!(compiled.status.success(), "{}", String::from_utf8_lossy(&compiled.stderr));
        program
    })
}

fn run(program: &Path, film: &[u8]) -> Output {
    let file = Path::new(env!("CARGO_TARGET_TMPDIR")).join("synopsis.mve");
    fs::write(&file, film).expect("the film is written");
    let film = File::open(&file).expect("the film");
    Command::new(program).stdin(film).output().expect("the program runs")
}

/// What the program says of a film, on standard output or standard error.
fn assert_said(program: &Path, film: &[u8]) -> Option<u8> {
    let output = run(program, film);
    let said = String::from_utf8([output.stdout, output.stderr].concat()).expect("text");
    let (refusal, position) = match begin(film, NO_STREAM, &mut [0; 768], &mut 0) {
        Err(unbegun) => (unbegun.refusal, unbegun.state.map_or(0, |state| state.position)),
        Ok(state) => {
            let played = pictures::play(film, NO_STREAM);
            let Some(refusal) = played.refusal else {
                let (width, height) = (8 * state.columns, 8 * state.rows);
                let count = played.pictures.len();
                let expected = format!("{count} pictures of {width} by {height} pixels\n");
                assert_eq!((output.status.code(), said), (Some(0), expected));
                return None;
            };
            (refusal, played.position)
        }
    };
    let start = format!("refusal {} at byte {position}: ", refusal.number);
    assert_eq!(output.status.code(), Some(1));
    assert!(said.starts_with(&start) && said.len() > start.len() + 10, "{said}, not {start}");
    Some(refusal.number)
}

#[test]
fn counts_and_refuses() {
    for program in programs() {
        assert_eq!(assert_said(&program, &demo::film().bytes()), None);
        let mut numbers = BTreeSet::new();
        for seed in 0..12 {
            let rng = &mut Seeded::new(seed);
            // It may have no size, which is 21.
            let said = assert_said(&program, &sound::valid(rng, 0).bytes());
            assert!(matches!(said, None | Some(21)), "{said:?}");
            assert_eq!(assert_said(&program, &true_colour::with_frames(rng, 3).bytes()), None);
            for damage in Damage::ALL {
                numbers.extend(assert_said(&program, &film_damage::damaged(rng, damage)));
            }
        }
        assert!(numbers.len() >= 10, "{numbers:?}");
    }
}
