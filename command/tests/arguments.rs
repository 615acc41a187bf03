//! Arguments, exit statuses and messages.

mod common;

use common::{fresh, mve, names, with_film};
use maker::demo;
use std::fs;

/// The version of the interface, as the C header has it.
fn interface() -> String {
    let header = concat!(env!("CARGO_MANIFEST_DIR"), "/../include/mve.h");
    let header = fs::read_to_string(header).expect("the header");
    let line =
        header.lines().find(|line| line.starts_with("#define MVE_VERSION")).expect("a version");
    line.split(' ').next_back().expect("a number").into()
}

#[test]
fn help_and_version() {
    let folder = fresh("help");
    for word in ["--version", "-V"] {
        let ran = mve(&folder, &[word]);
        ran.assert_silent();
        let expected = format!("mve {} (MVE_VERSION {})\n", env!("CARGO_PKG_VERSION"), interface());
        assert_eq!(ran.text(), expected);
    }
    let all: [(&[&str], &[&str]); 11] = [
        (
            &["--help"],
            &[
                "info",
                "list",
                "play",
                "why",
                "blocks",
                "salvage",
                "strip",
                "completions",
                "--version",
            ],
        ),
        (&["-h"], &["info", "play"]),
        (&["info", "--help"], &["opcode 0x02", "rate times its subdivision", "--json", "--strict"]),
        (&["play", "--help"], &["BT.601", "4:4:4", "(v << 2) | (v >> 4)", "--stops", "1/100 s"]),
        (&["help", "play"], &["--partial", "--force", "--sound", "--stream", "--from"]),
        (
            &["help", "why"],
            &["<FILM> <PICTURE> <X> <Y>", "--page <OUT.html>", "ORIGIN", "counted from 0"],
        ),
        (&["help", "blocks"], &["OUT.png", "--force", "  E  one colour"]),
        (&["help", "list"], &["hex", "VERSION", "- is standard input"]),
        (&["help", "completions"], &["bash", "zsh", "fish"]),
        (&["help", "salvage"], &["SAVED.mve", "--json", "--force", "is never overwritten"]),
        (
            &["help", "strip"],
            &["OUT.mve", "--no-sound", "--stream", "--json", "is never overwritten"],
        ),
    ];
    for (words, expected) in all {
        let ran = mve(&folder, words);
        ran.assert_silent();
        for part in expected {
            assert!(ran.text().contains(part), "{words:?}: {part}");
        }
        let widest = ran.text().lines().map(|line| line.chars().count()).max();
        assert!(widest <= Some(100), "{words:?}: {widest:?}");
    }
}

/// Wrong use: status 2, a message on standard error and nothing else.
#[test]
fn wrong_use() {
    let folder = with_film("wrong", &demo::beginning(2).bytes());
    let cases: [(&[&str], &str); 25] = [
        (&[], "Usage: mve <COMMAND>"),
        (&["watch"], "'watch' wasn't recognized"),
        (&["info"], "<FILM>"),
        (&["info", "--loud", "film.mve"], "'--loud'"),
        (&["info", "--stream", "16", "film.mve"], "16 is not in 0..=15"),
        (&["info", "--stream", "x", "film.mve"], "--stream"),
        (&["play", "film.mve"], "<--output <OUT>|--sound <OUT.wav>>"),
        (&["play", "-o", "x.gif"], "<FILM>"),
        (&["play", "film.mve", "film.mve", "-o", "x.gif"], "film.mve"),
        (
            &["play", "film.mve", "-o", "x.mp4"],
            "give a name that ends in .gif, .y4m or /, or give -",
        ),
        (&["play", "film.mve", "-o", ""], "give a name"),
        (&["play", "film.mve", "-o", "x.png"], "PNG pictures go to a folder"),
        (&["play", "film.mve", "--sound", "x.mp3"], "give a name that ends in .wav, or give -"),
        (&["play", "film.mve", "--sound", "wav"], "give a name that ends in .wav, or give -"),
        (&["play", "film.mve", "-o", "x.gif", "--stops", "0"], "give a number, 1 or more"),
        (&["play", "film.mve", "-o", "x.gif", "--pictures", "0"], "give a number, 1 or more"),
        (&["play", "film.mve", "-o", "x.gif", "--from", "-1"], "'-1'"),
        (&["play", "film.mve", "-o", "x.gif", "--stream", "16"], "16 is not in 0..=15"),
        (&["play", "film.mve", "-o", "-", "--sound", "-"], "pictures or sound, not both"),
        (&["completions", "cmd"], "'cmd'"),
        (&["salvage", "film.mve"], "--output <SAVED.mve>"),
        (&["salvage", "-o", "x.mve"], "<SCRATCHED.mve>"),
        (&["strip", "film.mve"], "--output <OUT.mve>"),
        (&["strip", "film.mve", "-o", "x.mve", "--stream", "16"], "16 is not in 0..=15"),
        (
            &["strip", "film.mve", "-o", "x.mve", "--stream", "1", "--no-sound"],
            "cannot be used with",
        ),
    ];
    for (words, message) in cases {
        let ran = mve(&folder, words);
        assert_eq!(ran.code, Some(2), "{words:?}: {ran:?}");
        assert!(ran.err.contains(message), "{words:?}: {}", ran.err);
        assert!(ran.out.is_empty(), "{words:?}: {ran:?}");
        assert_eq!(names(&folder), ["film.mve"], "{words:?}");
    }
}

/// A file that cannot be read: status 2, by both subcommands.
#[test]
fn unreadable() {
    let folder = with_film("unreadable", &demo::beginning(1).bytes());
    let no_film = "mve: no.mve: cannot be read: No such file or directory\n";
    let a_folder = "mve: .: cannot be read: Is a directory\n";
    for (film, message) in [("no.mve", no_film), (".", a_folder)] {
        for words in
            [&["info", film][..], &["play", film, "-o", "x.gif"], &["play", film, "-o", "-"]]
        {
            let ran = mve(&folder, words);
            assert_eq!((ran.code, &*ran.err, ran.text()), (Some(2), message, ""), "{words:?}");
        }
    }
    assert_eq!(names(&folder), ["film.mve"]);
}

/// A name with a sequence that would steer the terminal does not.
#[test]
fn hostile_names() {
    let folder = fresh("hostile_names");
    let ran = mve(&folder, &["info", "a\u{1b}[2J\nb"]);
    let message = "mve: a\u{FFFD}[2J\u{FFFD}b: cannot be read: No such file or directory\n";
    assert_eq!((ran.code, &*ran.err), (Some(2), message));
}
