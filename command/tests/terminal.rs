//! Progress, which only a terminal sees. `script` (Debian: bsdutils) stands for a terminal; where it is
//! not there, the test says so and passes.

mod common;

use common::{names, program, run, say, with_film, Ran};
use maker::avi::{Avi, Item};
use maker::demo;
use std::fs;
use std::path::Path;
use std::process::Command;

/// Runs the command on a terminal; what it shows is standard output then.
fn on_terminal(folder: &Path, words: &str) -> Option<Ran> {
    on_terminal_after(folder, "", words)
}

/// The same behind these words of a shell.
fn on_terminal_after(folder: &Path, before: &str, words: &str) -> Option<Ran> {
    if Command::new("script").arg("--version").output().is_err() {
        say("script is not there (Debian: bsdutils): progress on a terminal is not tested");
        return None;
    }
    let mut command = Command::new("script");
    let line = format!("{before} '{}' {words}", program().display());
    command.args(["-q", "-e", "-c", &line, "/dev/null"]);
    Some(run(folder, command))
}

/// Bars of progress come and go before the report; a slow machine shows more of them.
#[test]
fn progress() {
    let folder = with_film("progress", &demo::beginning(3).bytes());
    let Some(ran) = on_terminal(&folder, "info film.mve") else { return };
    assert_eq!(ran.code, Some(0));
    let (shown, report) = ran.text().split_once("\rfilm.mve\r\n").expect("a report");
    let parts: Vec<_> = shown.split('\r').collect();
    let ["", bars @ .., blank] = &parts[..] else { panic!("{parts:?}") };
    assert_eq!(bars[0], format!("[{}]   0 % film 1 of 1: film.mve", " ".repeat(30)));
    let last = bars[bars.len() - 1].len();
    assert!(blank.len() >= last && blank.chars().all(|character| character == ' '), "{parts:?}");
    assert!(report.contains("plays to its end") && !report.contains('['), "{report}");

    let Some(ran) = on_terminal(&folder, "play film.mve -o out.gif") else { return };
    assert_eq!((ran.code, names(&folder)), (Some(0), vec!["film.mve".into(), "out.gif".into()]));
    let is_blank = ran.text().trim_end_matches('\r').ends_with("     ");
    assert!(ran.text().starts_with("\r[") && ran.text().contains(" pictures\r") && is_blank);
}

/// Pictures and trailers that become films show progress, too, which is gone before what is told.
#[test]
fn progress_of_making() {
    let folder = with_film("progress_of_making", &demo::beginning(3).bytes());
    let mut trailer = Avi::new(8, 8);
    trailer.items = vec![Item::Frame(vec![4, 0x84, 0, 0]); 3];
    fs::write(folder.join("t.avi"), trailer.bytes()).expect("a file");
    let play = program().display().to_string() + " play film.mve -o out/ &&";
    for (before, words, word) in [
        (&*play, "make out -o new.mve", "0 of 3 pictures"),
        ("", "import t.avi -o new.mve --force", "0 of 3 frames"),
    ] {
        let Some(ran) = on_terminal_after(&folder, before, words) else { return };
        let (shown, told) = ran.text().split_once("\rnew.mve\r\n").expect("what is told");
        let bar = format!("\r[{}]   0 % {word}", " ".repeat(30));
        assert!(ran.code == Some(0) && shown.contains(&bar), "{shown:?}");
        assert!(told.contains("  pictures  3\r\n") && !told.contains('['), "{told:?}");
    }
}

/// Pictures and sound as bytes are not for a terminal.
#[test]
fn bytes_on_a_terminal() {
    let folder = with_film("on_terminal", &demo::beginning(3).bytes());
    for (option, what) in [("-o", "Y4M"), ("--sound", "WAV")] {
        let Some(ran) = on_terminal(&folder, &format!("play film.mve {option} -")) else { return };
        let message = "is not for a terminal: send it to a player (| ffplay -) or a file";
        assert_eq!((ran.code, ran.text()), (Some(2), &*format!("mve: {what} {message}\r\n")));
    }
}

/// The names of films are cut where the terminal ends: by the width that it tells, or by COLUMNS.
#[test]
fn widths() {
    let folder = with_film("widths", &demo::beginning(1).bytes());
    let name = format!("{}.mve", "long".repeat(30));
    fs::copy(folder.join("film.mve"), folder.join(&name)).expect("a film");
    let words = format!("info {name} film.mve");
    let told = on_terminal_after(&folder, "stty cols 90;", &words);
    let given = on_terminal_after(&folder, "COLUMNS=110", &words);
    for (ran, width) in [(told, 90), (given, 110)] {
        let Some(ran) = ran else { return };
        assert_eq!(ran.code, Some(0));
        let table = ran.text().split("FILM").nth(1).expect("a table");
        let lines: Vec<_> = table.lines().skip(1).take(2).map(|line| line.trim_end()).collect();
        assert!(lines.iter().all(|line| line.chars().count() == width), "{width}: {lines:?}");
        assert!(lines[0].starts_with('…') && lines[1].starts_with("film.mve "), "{lines:?}");
    }
}
