//! `mve completions`: a shell reads them and completes the command's words.

mod common;

use common::{fresh, mve, run, say};
use std::fs;
use std::process::Command;

#[test]
fn shells() {
    let folder = fresh("completions");
    for (shell, begin) in
        [("bash", "_mve() {"), ("zsh", "#compdef mve"), ("fish", "complete -c mve")]
    {
        let ran = mve(&folder, &["completions", shell]);
        ran.assert_silent();
        assert!(ran.text().starts_with(begin), "{shell}: {}", ran.text());
        for word in ["info", "salvage", "partial", "--force"] {
            assert!(ran.text().contains(word.trim_start_matches('-')), "{shell}: {word}");
        }
    }
}

/// Where bash is there: it completes a subcommand and an option.
#[test]
fn in_bash() {
    let folder = fresh("completions_bash");
    if Command::new("bash").arg("--version").output().is_err() {
        return say("bash is not there: its completions are not tried");
    }
    let script = mve(&folder, &["completions", "bash"]);
    fs::write(folder.join("script"), script.out).expect("the script");
    let cases = [("mve sal", "salvage"), ("mve play film.mve --par", "--partial")];
    for (line, completed) in cases {
        let mut command = Command::new("bash");
        let read = "source ./script; COMP_WORDS=($0); COMP_CWORD=$((${#COMP_WORDS[@]} - 1)); \
                    _mve mve \"${COMP_WORDS[-1]}\" \"${COMP_WORDS[-2]}\"; echo \"${COMPREPLY[@]}\"";
        command.args(["--norc", "-c", read, line]);
        let ran = run(&folder, command);
        assert_eq!((ran.text().trim_end(), &*ran.err), (completed, ""), "{line}");
    }
}
