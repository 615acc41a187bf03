//! The program for long runs.

use std::process::{Command, Output};

fn run(arguments: &[&str]) -> Output {
    let program = env!("CARGO_BIN_EXE_compare");
    Command::new(program).args(arguments).output().expect("the program runs")
}

#[test]
fn ends_with_the_counts() {
    let output = run(&["7", "60"]);
    let text = String::from_utf8(output.stdout).expect("text");
    let last = text.lines().last().expect("a line");
    assert!(output.status.success(), "{text}");
    assert!(last.starts_with("seed 7: 240 packets, "), "{text}");
    assert!(last.ends_with(" sounds: no difference") && !last.contains(" 0 sounds"), "{text}");
}

#[test]
fn runs_one_kind() {
    let output = run(&["7", "60", "packets"]);
    let text = String::from_utf8(output.stdout).expect("text");
    assert_eq!(
        text,
        "seed 7: 60 packets, 0 calls, 0 films, 0 steps, 0 stores, 0 sounds: no difference\n"
    );
    let output = run(&["7", "60", "lists"]);
    let text = String::from_utf8(output.stdout).expect("text");
    assert!(text.starts_with("seed 7: 60 packets, ") && !text.contains(" 0 calls"), "{text}");
    // Each case has a packet that is checked, and one that is drawn.
    let output = run(&["7", "60", "words"]);
    let text = String::from_utf8(output.stdout).expect("text");
    assert!(text.starts_with("seed 7: 120 packets, ") && !text.contains(" 0 calls"), "{text}");
    let output = run(&["7", "60", "films"]);
    let text = String::from_utf8(output.stdout).expect("text");
    assert!(text.starts_with("seed 7: 0 packets, 0 calls, 60 films, "), "{text}");
    assert!(!text.contains(" 0 steps"), "{text}");
    let output = run(&["7", "60", "sounds"]);
    let text = String::from_utf8(output.stdout).expect("text");
    assert!(text.starts_with("seed 7: 0 packets, 0 calls, 60 films, "), "{text}");
    assert!(!text.contains(" 0 sounds"), "{text}");
    let output = run(&["7", "20", "cuts"]);
    let text = String::from_utf8(output.stdout).expect("text");
    assert!(text.starts_with("seed 7: 0 packets, 0 calls, 60 films, "), "{text}");
    assert!(!text.contains(" 0 stores"), "{text}");
    let output = run(&["7", "60", "numbers"]);
    let text = String::from_utf8(output.stdout).expect("text");
    assert!(text.starts_with("seed 7: ") && text.ends_with(": no difference\n"), "{text}");
    assert!(text.contains(" step with a short answer"), "{text}");
    let output = run(&["7", "60", "salvages"]);
    let text = String::from_utf8(output.stdout).expect("text");
    assert!(text.ends_with("\nseed 7: 60 films: no difference\n"), "{text}");
    assert!(text.contains(" refused 19: list too short\n"), "{text}");
    let output = run(&["7", "60", "strips"]);
    let text = String::from_utf8(output.stdout).expect("text");
    assert!(text.ends_with("\nseed 7: 60 films: no difference\n"), "{text}");
    assert!(text.contains(" played to the end\n") && text.contains(" refused 19\n"), "{text}");
    let output = run(&["7", "64", "encodes"]);
    let text = String::from_utf8(output.stdout).expect("text");
    assert!(
        text.starts_with("seed 7: 64 pictures, ") && text.ends_with(": no difference\n"),
        "{text}"
    );
    assert!(!text.contains(" 0 times") && !text.contains(" 0 data"), "{text}");
    let output = run(&["7", "400", "trailers"]);
    let text = String::from_utf8(output.stdout).expect("text");
    assert!(
        text.starts_with("seed 7: 400 frames of ") && text.ends_with(": no difference\n"),
        "{text}"
    );
    for number in ["6", "8", "24", "25", "26"] {
        assert!(text.contains(&format!(" {number}: ")), "{text}");
    }
    assert!(!text.contains(" 0 times"), "{text}");
}

#[test]
fn tells_its_usage() {
    for arguments in
        [&[][..], &["7"], &["7", "many"], &["7", "60", "film"], &["7", "60", "lists", "1"]]
    {
        let output = run(arguments);
        assert_eq!(output.status.code(), Some(2), "{arguments:?}");
        assert!(output.stderr.starts_with(b"usage: compare SEED COUNT"), "{arguments:?}");
    }
}
