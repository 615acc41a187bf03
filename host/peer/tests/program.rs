//! The program for long runs.

mod common;

use std::process::{Command, Output};

fn run(arguments: &[&str]) -> Output {
    let program = env!("CARGO_BIN_EXE_peer");
    Command::new(program).args(arguments).output().expect("the program runs")
}

/// It ends with the counts; or says that there is nobody to compare with.
#[test]
fn ends_with_the_counts() {
    let output = run(&["20", "7"]);
    if !common::is_there() {
        assert_eq!(output.status.code(), Some(1));
        return assert!(output.stderr.starts_with(b"peer: libavformat was not there "));
    }
    let text = String::from_utf8(output.stdout).expect("text");
    let last = text.lines().last().expect("a line");
    assert!(output.status.success(), "{text}");
    assert!(last.starts_with("libavformat ") && last.contains(", seed 7: 20 films ("), "{text}");
    assert!(last.ends_with(" formats of sound: no difference"), "{text}");
}

#[test]
fn decodes_trailers() {
    let output = run(&["20", "7", "trailers"]);
    if !common::is_there() {
        return assert_eq!(output.status.code(), Some(1));
    }
    let text = String::from_utf8(output.stdout).expect("text");
    assert!(output.status.success(), "{text}");
    assert!(text.contains(", seed 7: 120 frames of "), "{text}");
    assert!(text.ends_with(" sizes: no difference\n"), "{text}");
}

#[test]
fn tells_its_usage() {
    for arguments in [&[][..], &["7"], &["7", "many"], &["7", "60", "films"]] {
        let output = run(arguments);
        assert_eq!(output.status.code(), Some(2), "{arguments:?}");
        assert!(output.stderr.starts_with(b"usage: peer COUNT SEED"), "{arguments:?}");
    }
}
