//! What is overwritten, and what a run that fails leaves.

mod common;

use common::{ended, files, fresh, mve, names, program, run, with_film};
use maker::demo;
use std::fs::{self, File};
use std::io::{BufRead, BufReader, Write};
use std::path::Path;
use std::process::{Command, Stdio};

fn play(folder: &Path, words: &[&str]) -> common::Ran {
    mve(folder, &[&["play", "film.mve"], words].concat())
}

fn write(folder: &Path, name: &str, text: &str) {
    fs::write(folder.join(name), text).expect("a file");
}

/// A file that is there stays, but for --force.
#[test]
fn existing_files() {
    let folder = with_film("existing", &demo::beginning(2).bytes());
    for (option, name) in [("-o", "out.gif"), ("-o", "out.y4m"), ("--sound", "out.wav")] {
        write(&folder, name, "old");
        let before = files(&folder);
        let ran = play(&folder, &[option, name]);
        let message = format!("mve: {name}: exists already: give another name, or --force\n");
        assert_eq!((ran.code, ran.err), (Some(2), message));
        assert!(files(&folder) == before);
        play(&folder, &[option, name, "--force"]).assert_silent();
        let after = files(&folder);
        assert!(after.keys().eq(before.keys()) && after[name].len() > 100, "{name}");
    }
}

/// A file that appears while the film is read stays, too. The film comes by a pipe, which the command
/// opens when it has looked for the file.
#[test]
fn appearing_file() {
    let folder = fresh("appearing");
    let made = Command::new("mkfifo").arg(folder.join("pipe")).status().expect("mkfifo runs");
    assert!(made.success());
    let mut command = Command::new(program());
    command.args(["play", "pipe", "-o", "out.gif"]).current_dir(&folder).stderr(Stdio::piped());
    let mut child = command.spawn().expect("the command starts");
    let mut pipe = File::options().write(true).open(folder.join("pipe")).expect("a reader");
    write(&folder, "out.gif", "old");
    pipe.write_all(&demo::beginning(1).bytes()).expect("the film is read");
    drop(pipe);
    let mut message = String::new();
    let errors = child.stderr.take().expect("standard error");
    BufReader::new(errors).read_line(&mut message).expect("a message");
    assert_eq!(ended(child).code(), Some(2));
    assert_eq!(message, "mve: out.gif: exists already: give another name, or --force\n");
    fs::remove_file(folder.join("pipe")).expect("the pipe");
    assert_eq!(
        (names(&folder), &files(&folder)["out.gif"][..]),
        (vec!["out.gif".into()], &b"old"[..])
    );
}

/// One file that is there stops all of them; also one that a second format of the sound would need.
#[test]
fn one_of_two() {
    let folder = with_film("one_of_two", &demo::beginning(2).bytes());
    write(&folder, "out.wav", "old");
    let ran = play(&folder, &["-o", "out.gif", "--sound", "out.wav"]);
    assert_eq!(ran.code, Some(2));
    assert_eq!(names(&folder), ["film.mve", "out.wav"]);

    let mut film = demo::beginning(3);
    let mut format = film.chunks[1].opcodes[0].clone();
    format.body[4..6].copy_from_slice(&8000_u16.to_le_bytes());
    film.chunks[3].opcodes.insert(0, format);
    let folder = with_film("second_format", &film.bytes());
    write(&folder, "out.2.wav", "old");
    let ran = play(&folder, &["-o", "out.gif", "--sound", "out.wav"]);
    let message = "mve: out.2.wav: exists already: give another name, or --force\n";
    assert_eq!((ran.code, &*ran.err), (Some(2), message));
    assert_eq!(names(&folder), ["film.mve", "out.2.wav"]);
    play(&folder, &["-o", "out.gif", "--sound", "out.wav", "--force"]).assert_silent();
    assert_eq!(names(&folder), ["film.mve", "out.2.wav", "out.gif", "out.wav"]);
    assert!(files(&folder)["out.2.wav"].starts_with(b"RIFF"));
}

/// A folder may be there, also with other files; with numbered pictures only by --force, which leaves
/// those that are not written again.
#[test]
fn folders() {
    let folder = with_film("folders", &demo::beginning(2).bytes());
    let out = folder.join("out");
    fs::create_dir(&out).expect("a folder");
    play(&folder, &["-o", "out"]).assert_silent();
    assert_eq!(names(&out), ["000000.png", "000001.png"]);
    let ran = play(&folder, &["-o", "out/"]);
    let message = "mve: out/: has numbered pictures already: give another folder, or --force\n";
    assert_eq!((ran.code, &*ran.err), (Some(2), message));

    write(&out, "000001.png", "old");
    write(&out, "000002.png", "old");
    write(&out, "notes.txt", "old");
    play(&folder, &["-o", "out", "--force"]).assert_silent();
    let found = files(&out);
    assert_eq!(names(&out), ["000000.png", "000001.png", "000002.png", "notes.txt"]);
    assert!(found["000001.png"].starts_with(b"\x89PNG") && found["000002.png"] == b"old");

    let others = folder.join("others.d");
    fs::create_dir(&others).expect("a folder");
    write(&others, "title.png", "old");
    play(&folder, &["-o", "others.d"]).assert_silent();
    assert_eq!(names(&others), ["000000.png", "000001.png", "title.png"]);
}

/// A file in place of a folder, and a folder in place of a file, are never overwritten.
#[test]
fn wrong_kinds() {
    let folder = with_film("wrong_kinds", &demo::beginning(1).bytes());
    write(&folder, "out", "old");
    fs::create_dir(folder.join("out.wav")).expect("a folder");
    let before = files(&folder);
    for force in [&[][..], &["--force"]] {
        let ran = play(&folder, &[&["-o", "out"], force].concat());
        assert_eq!((ran.code, &*ran.err), (Some(2), "mve: out: is no folder: give another name\n"));
        let ran = play(&folder, &[&["-o", "out.gif", "--sound", "out.wav"], force].concat());
        assert_eq!(
            (ran.code, &*ran.err),
            (Some(2), "mve: out.wav: is a folder: give another name\n")
        );
        assert!(files(&folder) == before);
    }
}

/// A place that is not there.
#[test]
fn no_such_place() {
    let folder = with_film("no_place", &demo::beginning(1).bytes());
    for (option, name) in
        [("-o", "no/out.gif"), ("-o", "no/out.y4m"), ("-o", "no/out/"), ("--sound", "no/out.wav")]
    {
        let ran = play(&folder, &[option, name]);
        let message = format!("mve: {name}: cannot be written: No such file or directory\n");
        assert_eq!((ran.code, ran.err), (Some(2), message));
        assert_eq!(names(&folder), ["film.mve"]);
    }
}

/// A disk that is full in the middle: the files may not be longer than 8 units of 512 bytes (of 1,024 in
/// some shells), which the first pictures fill. Nothing is left, whole or half.
#[test]
fn full_disk() {
    let folder = with_film("full_disk", &demo::beginning(9).bytes());
    for output in ["-o out.gif", "-o out.y4m", "--sound out.wav", "-o out/ --sound out.wav"] {
        let mut command = Command::new("sh");
        let script = format!("trap '' XFSZ; ulimit -f 8; exec \"$0\" play film.mve {output}");
        command.args(["-c", &script]).arg(program());
        let ran = run(&folder, command);
        assert_eq!(ran.code, Some(2), "{output}: {ran:?}");
        assert!(
            ran.err.ends_with(": cannot be written: File too large\n"),
            "{output}: {}",
            ran.err
        );
        assert_eq!(names(&folder), ["film.mve"], "{output}");
    }
}

/// The current folder, and a path with folders.
#[test]
fn places() {
    let folder = fresh("places");
    fs::create_dir(folder.join("in")).expect("a folder");
    write(&folder.join("in"), "film.mve", "");
    fs::write(folder.join("in/film.mve"), demo::beginning(1).bytes()).expect("the film");
    mve(&folder, &["play", "in/film.mve", "-o", "."]).assert_silent();
    mve(&folder, &["play", "in/film.mve", "-o", "in/out.gif", "--sound", "in/out.wav"])
        .assert_silent();
    let expected = ["000000.png", "in/", "in/film.mve", "in/out.gif", "in/out.wav"];
    assert_eq!(names(&folder), expected);
}
