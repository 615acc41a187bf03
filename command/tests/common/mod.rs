//! The command, run in a folder of its own, and what the second decoder says of a film.

#![allow(dead_code)] // each test file uses a part of it

pub mod browser;
pub mod chains;
pub mod drawings;
pub mod json;
pub mod second;

use std::collections::BTreeMap;
use std::fs::{self, File};
use std::io::{self, ErrorKind, Write};
use std::path::{Path, PathBuf};
use std::process::{Child, Command, ExitStatus, Stdio};
use std::sync::Once;
use std::thread;
use std::time::{Duration, Instant};

/// A command that is slower than this goes on for ever.
const LIMIT: Duration = Duration::from_secs(60);

/// What the command did.
#[derive(Debug)]
pub struct Ran {
    pub code: Option<i32>,
    pub out: Vec<u8>,
    pub err: String,
}

impl Ran {
    /// Standard output as text.
    pub fn text(&self) -> &str {
        std::str::from_utf8(&self.out).expect("text")
    }

    /// It went well, without a word.
    #[track_caller]
    pub fn assert_silent(&self) {
        assert_eq!((self.code, &*self.err), (Some(0), ""));
    }
}

/// The path of the command.
pub fn program() -> PathBuf {
    env!("CARGO_BIN_EXE_mve").into()
}

/// An empty folder.
pub fn fresh(name: &str) -> PathBuf {
    let folder = Path::new(env!("CARGO_TARGET_TMPDIR")).join(name);
    let _ = fs::remove_dir_all(&folder); // there is none at first
    fs::create_dir_all(&folder).expect("a folder");
    folder
}

/// A folder with a film in it, `film.mve`.
pub fn with_film(name: &str, film: &[u8]) -> PathBuf {
    let folder = fresh(name);
    fs::write(folder.join("film.mve"), film).expect("the film is written");
    folder
}

/// Runs the command with these words in a folder.
pub fn mve(folder: &Path, words: &[&str]) -> Ran {
    let mut command = Command::new(program());
    command.args(words);
    run(folder, command)
}

/// Runs a program in a folder. What it writes goes to files, beside that folder.
pub fn run(folder: &Path, mut command: Command) -> Ran {
    let beside = |name| folder.with_extension(name);
    let file = |name| File::create(beside(name)).expect("a file for what it writes");
    command.current_dir(folder).stdin(Stdio::null());
    command.stdout(file("out")).stderr(file("err"));
    let status = ended(command.spawn().expect("the program starts"));
    Ran {
        code: status.code(),
        out: fs::read(beside("out")).expect("what it wrote"),
        err: fs::read_to_string(beside("err")).expect("text"),
    }
}

/// A child's status, within the limit.
pub fn ended(mut child: Child) -> ExitStatus {
    let start = Instant::now();
    loop {
        if let Some(status) = child.try_wait().expect("a child") {
            return status;
        }
        if start.elapsed() > LIMIT {
            child.kill().and_then(|()| child.wait()).expect("a child");
            panic!("the program does not end");
        }
        thread::sleep(Duration::from_micros(300));
    }
}

/// The files of a folder and those of its folders, by name.
pub fn files(folder: &Path) -> BTreeMap<String, Vec<u8>> {
    let mut found = BTreeMap::new();
    for entry in fs::read_dir(folder).expect("a folder") {
        let path = entry.expect("an entry").path();
        let name = path.file_name().expect("a name").to_string_lossy().into_owned();
        if path.is_dir() {
            found.extend(
                files(&path).into_iter().map(|(inner, bytes)| (format!("{name}/{inner}"), bytes)),
            );
            found.insert(format!("{name}/"), Vec::new());
        } else {
            found.insert(name, fs::read(&path).expect("a file"));
        }
    }
    found
}

/// The names of those files.
pub fn names(folder: &Path) -> Vec<String> {
    files(folder).into_keys().collect()
}

/// What another decoder makes of a file: ffmpeg's pictures as red, green and blue. None where it is not
/// there, which is said once.
pub fn ffmpeg(folder: &Path, input: &[&str]) -> Option<Vec<u8>> {
    let mut command = Command::new("ffmpeg");
    command.args(["-v", "error", "-nostdin"]).args(input);
    command.args(["-fps_mode", "passthrough", "-f", "rawvideo", "-pix_fmt", "rgb24", "-"]);
    let output = match command.current_dir(folder).output() {
        Err(error) if error.kind() == ErrorKind::NotFound => {
            static SAID: Once = Once::new();
            SAID.call_once(|| {
                say("ffmpeg is not there (Debian: ffmpeg): it reads no picture back")
            });
            return None;
        }
        other => other.expect("ffmpeg runs"),
    };
    let messages = String::from_utf8_lossy(&output.stderr);
    assert!(output.status.success() && messages.is_empty(), "{input:?}: {messages}");
    Some(output.stdout)
}

/// Says what is missing. Not by a macro: the harness would keep it to itself.
pub fn say(missing: &str) {
    let line = format!("{missing}\n");
    io::stderr().write_all(line.as_bytes()).expect("standard error");
}
