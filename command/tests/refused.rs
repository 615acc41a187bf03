//! `mve play` of films that are refused.

mod common;

use common::second::{Second, Sent};
use common::{ffmpeg, files, mve, names, with_film};
use maker::film_damage::{self, Damage};
use maker::{demo, Seeded};

/// The demonstration with code 6 in a block of the fourth picture. Its opcode 0F is first in its chunk.
fn broken() -> (Vec<u8>, usize) {
    let mut film = demo::beginning(6);
    let block = 70;
    film.chunks[5].opcodes[0].body[block / 2] = 0x16;
    (film.bytes(), block)
}

/// The message, where the second decoder says where it is.
fn message(film: &[u8], block: usize, end: &str) -> String {
    let (refusal, byte) = Second::of(film, 0).refused.expect("a refused film");
    assert_eq!((refusal.number, refusal.block), (12, block));
    format!(
        "mve: film.mve: refusal 12 at byte {byte}, block {block}: \
         the block has code 6, which 8-bit films do not have. {end}\n"
    )
}

/// Nothing is left of a film that is refused.
#[test]
fn nothing_left() {
    let (film, block) = broken();
    let folder = with_film("nothing", &film);
    let end = "Nothing is written; --partial keeps what comes before it.";
    for output in ["out/", "out.gif", "out.y4m"] {
        let ran = mve(&folder, &["play", "film.mve", "-o", output, "--sound", "out.wav"]);
        assert_eq!((ran.code, &*ran.err), (Some(1), &*message(&film, block, end)), "{output}");
        assert_eq!(names(&folder), ["film.mve"], "{output}");
    }
}

/// --partial is offered only where something comes before that was asked for. The broken picture is the
/// fourth, and its sound comes before its packet.
#[test]
fn nothing_before() {
    let (film, _) = broken();
    let folder = with_film("nothing_before", &film);
    let (offered, nothing) =
        ("; --partial keeps what comes before it.\n", " Nothing comes before it.\n");
    let cases: [(&[&str], &str); 5] = [
        (&["-o", "out.gif"], offered),
        (&["-o", "out.gif", "--from", "3"], nothing),
        (&["-o", "out.gif", "--from", "3", "--sound", "out.wav"], offered),
        (&["--sound", "out.wav"], offered),
        (&["--sound", "out.wav", "--stream", "5", "--from", "3"], offered), // silence is sound, too
    ];
    for (words, end) in cases {
        let ran = mve(&folder, &[&["play", "film.mve"], words].concat());
        assert_eq!(ran.code, Some(1), "{words:?}");
        assert!(ran.err.ends_with(end), "{words:?}: {}", ran.err);
        assert_eq!(names(&folder), ["film.mve"]);
    }
}

/// With --partial the pictures and the sound before the refusal are kept. The fourth picture's sound
/// comes before its packet.
#[test]
fn partial() {
    let (film, block) = broken();
    let second = Second::of(&film, 0);
    assert_eq!((second.sent.len(), second.sounds[0].samples.len()), (3, 4 * 4410));
    let end = "The 3 pictures before it are written.";
    for output in ["out/", "out.gif", "out.y4m"] {
        let folder = with_film("partial", &film);
        let words = ["play", "film.mve", "-o", output, "--sound", "out.wav", "--partial"];
        let ran = mve(&folder, &words);
        assert_eq!((ran.code, &*ran.err), (Some(1), &*message(&film, block, end)), "{output}");
        let found = files(&folder);
        assert!(found["out.wav"] == second.sounds[0].wav(&second.sounds[0].samples));
        let input = if output == "out/" { "out/%06d.png" } else { output };
        assert!(
            output != "out/" || found.keys().filter(|name| name.ends_with(".png")).count() == 3
        );
        let Some(decoded) = ffmpeg(&folder, &["-i", input]) else { continue };
        let expected: Vec<u8> = second.sent.iter().flat_map(Sent::rgb).collect();
        assert_eq!(decoded.len(), expected.len(), "{output}");
        assert!(output == "out.y4m" || decoded == expected, "{output}");
    }
}

/// What went to standard output cannot be taken back.
#[test]
fn standard_output() {
    let (film, block) = broken();
    let folder = with_film("refused_output", &film);
    let end = "The 3 pictures before it are written.";
    let ran = mve(&folder, &["play", "film.mve", "-o", "-", "--sound", "out.wav"]);
    assert_eq!((ran.code, &*ran.err), (Some(1), &*message(&film, block, end)));
    let picture = 6 + 3 * 128 * 96;
    let head = ran.out.iter().position(|&byte| byte == b'\n').expect("a line") + 1;
    assert_eq!(ran.out.len(), head + 3 * picture);
    assert_eq!(names(&folder), ["film.mve"]);
}

/// What comes behind the pictures that are wanted is not judged.
#[test]
fn behind_the_wanted() {
    let (film, _) = broken();
    let folder = with_film("behind", &film);
    mve(&folder, &["play", "film.mve", "-o", "out.gif", "--pictures", "3"]).assert_silent();
    let words = ["play", "film.mve", "-o", "out/", "--sound", "out.wav", "--pictures", "3"];
    mve(&folder, &words).assert_silent();
    assert_eq!(files(&folder)["out.wav"].len(), 44 + 3 * 4410);
    let ran = mve(&folder, &["play", "film.mve", "-o", "four.gif", "--pictures", "4"]);
    assert_eq!(ran.code, Some(1));
}

/// A refusal at the header, and one before any picture.
#[test]
fn no_picture() {
    let folder = with_film("no_picture_before", b"RIFF....AVI LIST");
    let ran = mve(&folder, &["play", "film.mve", "-o", "out.gif", "--partial"]);
    let message =
        "mve: film.mve: refusal 1 at byte 0: the film does not begin with the header of an \
                   MVE film. No picture is written.\n";
    assert_eq!((ran.code, &*ran.err), (Some(1), message));
    assert_eq!(names(&folder), ["film.mve"]);

    let (film, _) = broken();
    let folder = with_film("no_picture_before", &film);
    let ran = mve(&folder, &["play", "film.mve", "-o", "out.gif", "--partial", "--from", "3"]);
    assert_eq!(ran.code, Some(1));
    assert!(ran.err.ends_with(" No picture is written.\n"), "{}", ran.err);
    assert_eq!(names(&folder), ["film.mve"]);
}

/// Seeded films with every kind of damage: the pictures before it, the number, the byte, the block.
#[test]
fn damaged() {
    let rng = &mut Seeded::new(50);
    let mut refused = 0;
    for damage in Damage::ALL.into_iter().cycle().take(3 * Damage::ALL.len()) {
        let film = film_damage::damaged(rng, damage);
        let second = Second::of(&film, 16);
        let Some((refusal, byte)) = second.refused else { continue };
        if refusal.number == 15 {
            continue; // how many bytes may be left over is tested by info
        }
        let folder = with_film("damaged_played", &film);
        let ran = mve(&folder, &["play", "film.mve", "-o", "out", "--partial"]);
        let block = match refusal.number {
            12..=14 => format!(", block {}", refusal.block),
            _ => String::new(),
        };
        let begin = format!("mve: film.mve: refusal {} at byte {byte}{block}: ", refusal.number);
        assert!(ran.code == Some(1) && ran.err.starts_with(&begin), "{damage:?}: {ran:?}");
        let pictures = files(&folder).into_keys().filter(|name| name.ends_with(".png")).count();
        assert_eq!(pictures, second.sent.len(), "{damage:?}");
        refused += 1;
    }
    assert!(refused > 40, "{refused}");
}
