//! A signal ends the command, and leaves nothing of what was being written.

mod common;

use common::{names, program, with_film};
use maker::demo;
use std::fs;
use std::os::unix::process::ExitStatusExt;
use std::path::Path;
use std::process::{Child, Command, Stdio};
use std::thread;
use std::time::Duration;

/// The command, at work: nobody reads its standard output, so it waits when the pipe is full.
fn start(folder: &Path, words: &[&str]) -> Child {
    let mut command = Command::new(program());
    command.arg("play").arg("film.mve").args(words).current_dir(folder);
    command.env("TMPDIR", folder.join("tmp")).stdin(Stdio::null()).stdout(Stdio::piped());
    command.stderr(Stdio::null()).spawn().expect("the command starts")
}

fn parts(folder: &Path) -> usize {
    names(folder).iter().filter(|name| name.ends_with(".part") || name.ends_with(".part/")).count()
}

#[test]
fn nothing_left() {
    let cases: [(&[&str], usize); 2] =
        [(&["-o", "-", "--sound", "out.wav"], 1), (&["-o", "out/", "--sound", "-"], 2)];
    for (words, count) in cases {
        for (name, number) in [("INT", 2), ("TERM", 15), ("HUP", 1)] {
            let folder = with_film("signals", &demo::film().bytes());
            fs::create_dir(folder.join("tmp")).expect("a folder");
            let mut child = start(&folder, words);
            while parts(&folder) < count {
                assert_eq!(child.try_wait().expect("a child"), None, "{words:?}");
                thread::sleep(Duration::from_millis(1));
            }
            let id = child.id().to_string();
            let sent = Command::new("kill").args(["-s", name, &id]).status().expect("kill runs");
            assert!(sent.success());
            let status = child.wait().expect("a child");
            assert_eq!(status.signal(), Some(number), "{words:?}: {status:?}");
            assert_eq!(names(&folder), ["film.mve", "tmp/"], "{words:?}, {name}");
        }
    }
}
