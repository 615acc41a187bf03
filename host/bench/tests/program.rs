//! The program and its arguments.

use std::process::{Command, Output};

fn run(arguments: &[&str]) -> Output {
    let program = env!("CARGO_BIN_EXE_bench");
    Command::new(program).args(arguments).output().expect("the program runs")
}

#[test]
fn lists_the_kinds() {
    let output = run(&["--kinds"]);
    let text = String::from_utf8(output.stdout).expect("text");
    assert_eq!(text.lines().count(), 17 + 25);
    assert!(text.lines().any(|line| line == "mix 307200"), "{text}");
    assert!(text.lines().any(|line| line == "words:7-2x2 307200"), "{text}");
}

#[test]
fn runs_one_program() {
    assert!(run(&["--one", "B", "draw", "2"]).status.success());
    assert!(run(&["--one", "words:mix", "draw", "2"]).status.success());
    let output = run(&["--one", "B", "drawing", "2"]);
    assert_eq!(output.status.code(), Some(1));
    assert_eq!(output.stderr, b"bench: there is no such program\n");
}

#[test]
fn tells_its_usage() {
    for arguments in [
        &["many"][..],
        &["1", "0"],
        &["1", "2", "3"],
        &["--fast"],
        &["--kinds", "1"],
        &["--one", "B", "draw"],
        &["--one", "6", "draw", "1"],
        &["--one", "words:G", "draw", "1"],
    ] {
        let output = run(arguments);
        assert_eq!(output.status.code(), Some(2), "{arguments:?}");
        assert!(output.stderr.starts_with(b"usage: bench "), "{arguments:?}");
    }
}
