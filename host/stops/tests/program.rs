//! The program for long runs.

use std::process::{Command, Output};

fn run(arguments: &[&str]) -> Output {
    let program = env!("CARGO_BIN_EXE_stops");
    Command::new(program).args(arguments).output().expect("the program runs")
}

#[test]
fn ends_with_the_counts() {
    let output = run(&["7", "3"]);
    let text = String::from_utf8(output.stdout).expect("text");
    assert!(output.status.success(), "{text}");
    let starts = [
        "drawings: Counts { cases: 6, ",
        "walks: Counts { cases: 15, ",
        "openings: Counts { cases: 3, ",
        "kills: Killed { ",
        "kills in palettes: Killed { ",
        "kills in words: Killed { ",
    ];
    assert!(text.lines().zip(starts).all(|(line, start)| line.starts_with(start)), "{text}");
    assert_eq!(text.lines().count(), starts.len(), "{text}");
}

#[test]
fn tells_its_usage() {
    for arguments in [&[][..], &["7"], &["7", "many"], &["7", "3", "1"]] {
        let output = run(arguments);
        assert_eq!(output.status.code(), Some(2), "{arguments:?}");
        assert_eq!(output.stderr, b"usage: stops SEED COUNT\n", "{arguments:?}");
    }
}
