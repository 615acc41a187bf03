//! The script `build`, where the crates cannot be had.

mod common;

use common::{fresh, run, Ran};
use std::fs;
use std::os::unix::fs::PermissionsExt;
use std::path::Path;
use std::process::Command;

/// Runs the script with neither Debian's crates nor a network, and with packages that cannot be
/// installed.
fn build(folder: &Path, words: &[&str]) -> Ran {
    let stub = folder.join("apt-get");
    fs::write(&stub, "#!/bin/sh\nexit 100\n").expect("a stub");
    fs::set_permissions(&stub, fs::Permissions::from_mode(0o755)).expect("a program");
    let path = std::env::var("PATH").expect("a path");
    let mut command = Command::new(Path::new(env!("CARGO_MANIFEST_DIR")).join("build"));
    command.args(words).env("PATH", format!("{}:{path}", folder.display()));
    command.env("DEBIAN_CRATES", folder).env("CARGO_HOME", folder).env("CARGO_NET_OFFLINE", "true");
    run(folder, command)
}

/// Status 3, and the last line says what is missing.
#[test]
fn not_to_be_had() {
    let folder = fresh("not_to_be_had");
    for words in [&[][..], &["build"], &["test"]] {
        let ran = build(&folder, words);
        assert_eq!((ran.code, ran.text()), (Some(3), ""), "{words:?}: {ran:?}");
        let last = ran.err.lines().last().expect("a message");
        let begin = "command: not built: these crates are missing: adler-1.0.2 autocfg-1.1.0 ";
        let end = " (apt-get install librust-clap-dev librust-clap-complete-dev \
                   librust-color-quant-dev librust-flate2-dev librust-gif-dev librust-png-dev \
                   librust-serde-json-dev librust-signal-hook-dev, or a network)";
        assert!(last.starts_with(begin) && last.ends_with(end), "{last}");
        assert!(last.contains(" clap-4.0.32 ") && !last.contains(" mve-"), "{last}");
    }
}

#[test]
fn wrong_use() {
    let ran = build(&fresh("build_wrong"), &["install"]);
    let message = "command: usage: build [build|test] [WORDS FOR CARGO..]\n";
    assert_eq!((ran.code, &*ran.err), (Some(2), message));
}
