//! A machine of QEMU that runs the stage. Only processes that are started here are ended here.

use crate::program::Program;
use std::fs;
use std::io::{self, BufRead, BufReader, Read, Write};
use std::os::fd::OwnedFd;
use std::os::unix::net::UnixStream;
use std::path::{Path, PathBuf};
use std::process::{Child, Command, Stdio};
use std::sync::mpsc::{channel, Receiver, RecvTimeoutError};
use std::sync::Once;
use std::thread;
use std::time::Duration;

const QEMU: &str = "qemu-system-x86_64";

/// Addresses and a length of examples/boot/map.h: GIVEN, its second word, FILM, KEPT and KEPT_ROOM.
const FILM_LENGTH: usize = 0x0100_0000;
const FILM_WAIT: usize = FILM_LENGTH + 8;
const FILM: usize = FILM_LENGTH + 16;
const KEPT: usize = 0x0200_0000;
const KEPT_ROOM: usize = 0x20_0000;
/// The bytes that a film may have.
pub const FILM_ROOM: usize = KEPT - FILM;

/// A QEMU that does not answer for so long never does.
const PATIENCE: Duration = Duration::from_secs(300);

/// That QEMU cannot be had is said once.
static SAID: Once = Once::new();

/// The words that make QEMU translate one instruction at a time, so that a reset may fall between any
/// two; or nothing where QEMU cannot be had, which is said on standard error.
pub fn one_by_one() -> Option<&'static [&'static str]> {
    let Ok(told) = Command::new(QEMU).arg("--version").output() else {
        SAID.call_once(|| {
            // not by a macro, which would show it only where the test fails
            let _ =
                writeln!(io::stderr(), "skipped: {QEMU} cannot be had (Debian: qemu-system-x86)");
        });
        return None;
    };
    let told = String::from_utf8_lossy(&told.stdout).into_owned();
    let number = told.split("version ").nth(1).unwrap_or_default();
    let mut parts = number.split('.').map_while(|part| part.parse::<usize>().ok());
    let version = (parts.next().unwrap_or(0), parts.next().unwrap_or(0));
    let is_new = version >= (8, 1);
    Some(if is_new { &["-accel", "tcg,one-insn-per-tb=on"] } else { &["-singlestep"] })
}

/// How the stage is started.
#[derive(Clone, Copy, Debug, PartialEq, Eq)]
pub enum Start {
    /// By its own ROM, within some milliseconds, and one instruction at a time.
    Rom,
    /// By QEMU's firmware, as a kernel.
    Kernel,
}

/// What a machine begins with.
#[derive(Clone, Copy, Debug)]
pub struct Given<'a> {
    /// The stage.
    pub program: &'a Program,
    /// How it is started.
    pub start: Start,
    /// The film.
    pub film: &'a [u8],
    /// Bytes that memory has at `KEPT` when power comes on. They come back at every reset, too, so a
    /// machine that is given any is not to be reset.
    pub kept: &'a [u8],
}

/// A running machine.
pub struct Machine {
    qemu: Child,
    control: BufReader<UnixStream>,
    lines: Receiver<String>,
    folder: PathBuf,
}

impl Machine {
    /// Starts a machine that keeps its files in this folder. `None` where QEMU cannot be had.
    pub fn start(folder: &Path, given: Given<'_>) -> Option<Machine> {
        let one_by_one = one_by_one()?;
        let _ = fs::remove_dir_all(folder); // there is none at first
        fs::create_dir_all(folder).expect("a folder");
        let mut command = Command::new(QEMU);
        command.current_dir(folder);
        command.args(["-M", "q35", "-m", "64", "-nodefaults", "-vga", "std", "-display", "none"]);
        command.args(["-chardev", "socket,id=control,fd=0", "-mon", "control,mode=control"]);
        command.args(["-chardev", "file,id=lines,path=/dev/stdout", "-serial", "chardev:lines"]);
        command.args(["-debugcon", "file:port"]);
        let Program { elf, rom } = given.program;
        match given.start {
            Start::Rom => {
                let program = format!("loader,file={}", elf.display());
                command.args(one_by_one).arg("-bios").arg(rom).arg("-device").arg(program)
            }
            Start::Kernel => command.arg("-kernel").arg(elf),
        };
        load_word(&mut command, FILM_LENGTH, given.film.len());
        load_word(&mut command, FILM_WAIT, 0);
        load(&mut command, &folder.join("film.mve"), FILM, given.film);
        load(&mut command, &folder.join("kept"), KEPT, given.kept);
        Some(Machine::run(command, folder))
    }

    fn run(mut command: Command, folder: &Path) -> Machine {
        let (ours, theirs) = UnixStream::pair().expect("two sockets");
        ours.set_read_timeout(Some(PATIENCE)).expect("a timeout");
        command.stdin(Stdio::from(OwnedFd::from(theirs))).stdout(Stdio::piped());
        let mut qemu = command.spawn().expect("qemu starts");
        let lines = lines_of(qemu.stdout.take().expect("a pipe"));
        let control = BufReader::new(ours);
        let mut machine = Machine { qemu, control, lines, folder: folder.to_path_buf() };
        machine.answer("QMP");
        machine.command("qmp_capabilities", "");
        machine
    }

    /// Resets the machine.
    pub fn reset(&mut self) {
        self.command("system_reset", "");
    }

    /// The next line that the stage wrote, if one comes in this time.
    pub fn line(&self, limit: Duration) -> Option<String> {
        match self.lines.recv_timeout(limit) {
            Ok(line) => Some(line),
            Err(RecvTimeoutError::Timeout) => None,
            Err(RecvTimeoutError::Disconnected) => panic!("qemu has ended"),
        }
    }

    /// The screen, as the bytes of a PPM file.
    pub fn screen(&mut self) -> Vec<u8> {
        self.command("screendump", r#", "arguments": {"filename": "screen.ppm"}"#);
        fs::read(self.folder.join("screen.ppm")).expect("a picture of the screen")
    }

    /// The memory that a reset leaves.
    pub fn kept(&mut self) -> Vec<u8> {
        let area = format!(r#""val": {KEPT}, "size": {KEPT_ROOM}, "filename": "left""#);
        self.command("pmemsave", &format!(r#", "arguments": {{{area}}}"#));
        fs::read(self.folder.join("left")).expect("the memory")
    }

    /// Ends the machine. All bytes that the stage wrote to the port.
    pub fn end(mut self) -> Vec<u8> {
        // qemu may close the connection before its answer is read, so none is awaited
        self.send("quit", "");
        self.qemu.wait().expect("qemu is a child");
        fs::read(self.folder.join("port")).expect("the port's bytes")
    }

    fn command(&mut self, name: &str, arguments: &str) {
        self.send(name, arguments);
        self.answer("return");
    }

    fn send(&mut self, name: &str, arguments: &str) {
        let line = format!("{{\"execute\": \"{name}\"{arguments}}}\n");
        self.control.get_mut().write_all(line.as_bytes()).expect("qemu listens");
    }

    /// Reads answers up to one with this key; events come between them.
    fn answer(&mut self, key: &str) {
        let key = format!("\"{key}\"");
        let mut line = String::new();
        while !line.contains(&key) {
            line.clear();
            let bytes = self.control.read_line(&mut line).expect("qemu answers");
            assert!(bytes > 0 && !line.contains("\"error\""), "qemu answers: {line}");
        }
    }
}

impl Drop for Machine {
    fn drop(&mut self) {
        let _ = self.qemu.kill(); // it has ended, unless a test failed
        let _ = self.qemu.wait();
    }
}

/// The machine finds these bytes at an address, by way of a file.
fn load(command: &mut Command, file: &Path, at: usize, bytes: &[u8]) {
    if !bytes.is_empty() {
        fs::write(file, bytes).expect("a file");
        let loaded = format!("loader,file={},addr={at},force-raw=on", file.display());
        command.arg("-device").arg(loaded);
    }
}

fn load_word(command: &mut Command, at: usize, word: usize) {
    command.arg("-device").arg(format!("loader,addr={at},data={word},data-len=8"));
}

fn lines_of(pipe: impl Read + Send + 'static) -> Receiver<String> {
    let (sender, lines) = channel();
    thread::spawn(move || {
        for line in BufReader::new(pipe).split(b'\n') {
            let Ok(line) = line else { break };
            if sender.send(String::from_utf8_lossy(&line).into_owned()).is_err() {
                break;
            }
        }
    });
    lines
}
