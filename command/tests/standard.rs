//! Standard input and standard output; the film that is read is never overwritten.

mod common;

use common::{files, fresh, mve, names, program, run, with_film, Ran};
use maker::film::{self, Chunk, Opcode};
use maker::{demo, Profile, Seeded, Size};
use std::fs;
use std::os::unix::fs::symlink;
use std::path::Path;
use std::process::Command;

/// Runs the command with the film on standard input.
fn from_input(folder: &Path, film: &str, words: &[&str]) -> Ran {
    let mut command = Command::new("sh");
    command.args(["-c", "film=$1; shift; exec \"$0\" \"$@\" <\"$film\""]);
    command.arg(program()).arg(film).args(words);
    run(folder, command)
}

#[test]
fn input() {
    let folder = with_film("input", &demo::beginning(3).bytes());
    mve(&folder, &["play", "film.mve", "-o", "a.gif", "--sound", "a.wav"]).assert_silent();
    from_input(&folder, "film.mve", &["play", "-", "-o", "b.gif", "--sound", "b.wav"])
        .assert_silent();
    let found = files(&folder);
    assert!(found["a.gif"] == found["b.gif"] && found["a.wav"] == found["b.wav"]);
    let listed = mve(&folder, &["list", "film.mve"]);
    assert_eq!(from_input(&folder, "film.mve", &["list", "-"]).out, listed.out);

    fs::write(folder.join("text"), "RIFF....AVI LIST").expect("a file");
    let ran = from_input(&folder, "text", &["play", "-", "-o", "c.gif"]);
    let message =
        "mve: standard input: refusal 1 at byte 0: the film does not begin with the header of \
                   an MVE film. No picture is written.\n";
    assert_eq!((ran.code, &*ran.err), (Some(1), message));
}

/// The sound on standard output is the file that it would be.
#[test]
fn sound() {
    let film = demo::beginning(9).bytes();
    for options in [&[][..], &["--from", "3", "--pictures", "4"], &["-o", "out.gif"]] {
        let folder = with_film("sound_output", &film);
        let words = [&["play", "film.mve", "--sound", "out.wav", "--force"], options].concat();
        mve(&folder, &words).assert_silent();
        let words = [&["play", "film.mve", "--sound", "-", "--force"], options].concat();
        let ran = mve(&folder, &words);
        ran.assert_silent();
        assert!(ran.out.len() > 1000 && ran.out == files(&folder)["out.wav"], "{options:?}");
    }
    let mut film = demo::beginning(6);
    film.chunks[5].opcodes[0].body[0] = 0x16;
    let folder = with_film("sound_output", &film.bytes());
    let ran = mve(&folder, &["play", "film.mve", "--sound", "-"]);
    assert_eq!((ran.code, ran.out.len()), (Some(1), 0));
    let ran = mve(&folder, &["play", "film.mve", "--sound", "-", "--partial"]);
    assert_eq!((ran.code, ran.out.len()), (Some(1), 44 + 4 * 4410));
    assert_eq!(names(&folder), ["film.mve"]);
}

/// One WAV file has one format.
#[test]
fn two_formats() {
    let mut film = film::plain(&mut Seeded::new(71), Size::new(1, 1), Profile::Light, 2);
    let mut opcodes = Vec::new();
    for rate in [4000_u16, 8000] {
        opcodes.push(Opcode::new(0x03, 0, [&[0; 4][..], &rate.to_le_bytes(), &[0, 0]].concat()));
        opcodes.push(Opcode::new(0x08, 0, vec![0, 0, 1, 0, 2, 0, 7, 7]));
    }
    film.chunks.insert(1, Chunk { kind: 1, opcodes, ..Chunk::default() });
    let folder = with_film("two_formats", &film.bytes());
    let ran = mve(&folder, &["play", "film.mve", "--sound", "-"]);
    let message =
        "mve: the sound changes its format, and standard output takes one: give --sound a name\n";
    assert_eq!((ran.code, &*ran.err, ran.out.len()), (Some(2), message, 0));
}

/// Under whatever name, and with --force.
#[test]
fn never_overwritten() {
    let film = demo::beginning(2).bytes();
    let cases: [(&str, &[&str]); 7] = [
        ("film.gif", &["play", "film.gif", "-o", "film.gif"]),
        ("film.y4m", &["play", "./film.y4m", "-o", "film.y4m"]),
        ("film.wav", &["play", "film.wav", "--sound", "film.wav"]),
        ("film.png", &["blocks", "film.png", "0", "-o", "film.png"]),
        ("000001.png", &["play", "000001.png", "-o", "./"]),
        ("film.mve", &["salvage", "film.mve", "-o", "film.mve"]),
        ("film.mve", &["strip", "film.mve", "-o", "film.mve"]),
    ];
    for (name, words) in cases {
        let folder = fresh("never_overwritten");
        fs::write(folder.join(name), &film).expect("the film");
        let ran = mve(&folder, &[words, &["--force"]].concat());
        assert_eq!(ran.code, Some(2), "{words:?}: {ran:?}");
        assert!(ran.err.ends_with(": is the film itself: give another name\n"), "{}", ran.err);
        assert!(files(&folder)[name] == film, "{words:?}");
    }
}

/// By links and by standard input.
#[test]
fn never_overwritten_by_other_names() {
    let film = demo::beginning(2).bytes();
    let folder = with_film("other_names", &film);
    symlink("film.mve", folder.join("soft.gif")).expect("a link");
    fs::hard_link(folder.join("film.mve"), folder.join("hard.gif")).expect("a link");
    for name in ["soft.gif", "hard.gif"] {
        let message = format!("mve: {name}: is the film itself: give another name\n");
        for ran in [
            mve(&folder, &["play", "film.mve", "-o", name, "--force"]),
            from_input(&folder, "film.mve", &["play", "-", "-o", name, "--force"]),
        ] {
            assert_eq!((ran.code, &*ran.err), (Some(2), &*message));
            assert!(files(&folder).values().all(|bytes| *bytes == film));
        }
    }
    assert_eq!(names(&folder), ["film.mve", "hard.gif", "soft.gif"]);
}
