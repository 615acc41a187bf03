//! The script of `make boot`, `examples/boot/run`, where there is no display: the lines that it shows,
//! its status, and what it says is missing.

mod common;

use boot::films;
use boot::machine::one_by_one;
use boot::program::{build, Program};
use common::{folder, STAGE};
use maker::film::{Film, Opcode};
use std::fs;
use std::os::unix::fs::symlink;
use std::path::{Path, PathBuf};
use std::process::Command;

/// What a run gave: its status, standard output and standard error.
type Ran = (Option<i32>, String, String);

fn script() -> PathBuf {
    Path::new(env!("CARGO_MANIFEST_DIR")).join("../../examples/boot/run")
}

/// Runs a command without a display. A run that does not end is ended, with the status 124.
fn ran(command: &mut Command) -> Ran {
    let output = command.env_remove("DISPLAY").env_remove("WAYLAND_DISPLAY").output();
    let output = output.expect("the script runs");
    let text = |bytes: &[u8]| String::from_utf8_lossy(bytes).into_owned();
    (output.status.code(), text(&output.stdout), text(&output.stderr))
}

/// Plays a film by the script. `None` where QEMU cannot be had.
fn run(name: &str, stage: &Program, film: &Film, resets: Option<&str>) -> Option<Ran> {
    one_by_one()?;
    let folder = folder(name);
    fs::create_dir_all(&folder).expect("a folder");
    let file = folder.join("film.mve");
    fs::write(&file, film.bytes()).expect("a file");
    let built = stage.elf.parent().expect("a folder");
    let mut command = Command::new("timeout");
    command.arg("60").arg(script()).arg(built).arg(file).env_remove("RESETS");
    if let Some(seconds) = resets {
        command.env("RESETS", seconds);
    }
    Some(ran(&mut command))
}

#[test]
fn ended() {
    let film = films::all_codes(6, 8);
    for resets in [None, Some("0.3")] {
        let Some((status, lines, said)) = run("ended", &STAGE, &film, resets) else { return };
        assert_eq!(status, Some(0), "{lines}{said}");
        assert!(lines.ends_with("\nended, pictures 8\n"), "{lines}");
        assert_eq!(lines.contains("\ngoes on at byte "), resets.is_some(), "{lines}");
        assert!(said.contains("there is no display"), "{said}");
    }
}

/// A film that is refused ends the run with another status, and a fault with one of its own.
#[test]
fn failed() {
    let mut film = films::all_codes(6, 2);
    let narrow = build(&folder("narrow_stage"), &["-DSTACK=512"]);
    let Some((status, lines, _)) = run("fault", &narrow, &film, None) else { return };
    assert!(
        status == Some(2) && lines.ends_with(": the stack is too small\n"),
        "{status:?}: {lines}"
    );
    film.chunks[3].opcodes.insert(0, Opcode::new(0x0E, 0, Vec::new()));
    let (status, lines, _) = run("refused", &STAGE, &film, None).expect("qemu is there");
    assert!(status == Some(1) && lines.contains("\nrefusal 4 at byte "), "{status:?}: {lines}");
}

/// Without QEMU the script says so.
#[test]
fn missing() {
    let folder = folder("missing");
    let _ = fs::remove_dir_all(&folder); // there is none at first
    fs::create_dir_all(&folder).expect("a folder");
    let tools = std::env::var_os("PATH").expect("a PATH");
    for tool in ["bash", "dirname", "sed"] {
        let found = std::env::split_paths(&tools).map(|path| path.join(tool)).find(|t| t.exists());
        symlink(found.expect(tool), folder.join(tool)).expect("a link");
    }
    let film = folder.join("film.mve");
    fs::write(&film, []).expect("a file");
    let mut command = Command::new(folder.join("bash"));
    let (status, _, said) = ran(command.arg(script()).arg(&folder).arg(film).env("PATH", &folder));
    assert!(status == Some(1) && said.contains("qemu-system-x86_64 is missing"), "{said}");
}
