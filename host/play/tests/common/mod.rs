//! Both players, run on a film in a folder of their own, and what must be in the folder then.

#![allow(dead_code)] // each test file uses a part of it

use reference::film::{opcode_head, open, step, Lent, State, Stepped};
use reference::frame::MAX_PIXELS;
use reference::pictures::{Played, Recording};
use std::collections::BTreeMap;
use std::env;
use std::fs::{self, File};
use std::path::{Path, PathBuf};
use std::process::{Child, Command, ExitStatus};
use std::sync::LazyLock;
use std::thread;
use std::time::{Duration, Instant};

/// A player that is slower than this goes on for ever.
const LIMIT: Duration = Duration::from_secs(60);

/// The player in C, compiled.
static C_PLAYER: LazyLock<PathBuf> = LazyLock::new(|| {
    let root = Path::new(env!("CARGO_MANIFEST_DIR")).join("../..");
    let library =
        env::var_os("MVE_LIB_DIR").map_or_else(|| root.join("target/staticlib"), PathBuf::from);
    let name = concat!("play_", env!("CARGO_CRATE_NAME"));
    let program = Path::new(env!("CARGO_TARGET_TMPDIR")).join(name);
    let compiled = Command::new("cc")
        .args(["-std=c11", "-O1", "-Wall", "-Wextra", "-Werror", "-pedantic", "-I"])
        .arg(root.join("include"))
        .arg(root.join("examples/play.c"))
        .arg(library.join("libmve.a"))
        .arg("-o")
        .arg(&program)
        .output()
        .expect("cc runs");
    assert!(compiled.status.success(), "{}", String::from_utf8_lossy(&compiled.stderr));
    program
});

/// The programs by name.
pub fn players() -> [(&'static str, PathBuf); 2] {
    [("C", C_PLAYER.clone()), ("Rust", PathBuf::from(env!("CARGO_BIN_EXE_play")))]
}

/// What a player is told beside film and folder.
#[derive(Clone, Copy, Debug)]
pub struct Options {
    pub allowance: usize,
    pub stream: usize,
    /// At every so many opcodes of sound it is stopped.
    pub every: Option<usize>,
}

impl Options {
    fn words(&self) -> Vec<String> {
        let numbers = [self.allowance, self.stream].into_iter().chain(self.every);
        numbers.map(|number| number.to_string()).collect()
    }
}

/// What a player left.
#[derive(Debug)]
pub struct Left {
    pub code: Option<i32>,
    /// What it wrote to standard error.
    pub messages: String,
    /// The files in the folder of pictures, by name.
    pub files: BTreeMap<String, Vec<u8>>,
}

/// An empty folder for a test, with a folder `pictures` in it.
pub fn fresh(name: &str) -> PathBuf {
    let folder = Path::new(env!("CARGO_TARGET_TMPDIR")).join(name);
    let _ = fs::remove_dir_all(&folder); // there is none at first
    fs::create_dir_all(folder.join("pictures")).expect("a folder");
    folder
}

/// Runs a player in a folder with these arguments.
pub fn run(program: &Path, folder: &Path, arguments: &[&str]) -> Left {
    let messages = folder.join("messages");
    let mut command = Command::new(program);
    command.args(arguments).current_dir(folder);
    command.stderr(File::create(&messages).expect("a file for messages"));
    let status = ended(command.spawn().expect("the player starts"));
    let messages = fs::read(messages).expect("messages");
    Left {
        code: status.code(),
        messages: String::from_utf8(messages).expect("text"),
        files: files(&folder.join("pictures")),
    }
}

/// Plays a film in a fresh folder, as `film.mve` into `pictures`.
pub fn play(program: &Path, name: &str, film: &[u8], options: &Options) -> Left {
    let folder = fresh(name);
    fs::write(folder.join("film.mve"), film).expect("the film is written");
    let words = options.words();
    let words = words.iter().map(String::as_str);
    run(program, &folder, &["film.mve", "pictures"].into_iter().chain(words).collect::<Vec<_>>())
}

/// How often a player is stopped: where stores are missing, of which a step that came no further gets
/// twice as many, and at every so many opcodes of sound, of which one that is taken again counts again.
pub fn stops(film: &[u8], options: &Options) -> usize {
    let (mut palette, mut place, mut room) = ([0; 768], 0, vec![0; 131_070]);
    let (mut a, mut b) = (vec![0; MAX_PIXELS], vec![0; MAX_PIXELS]);
    let mut words = [(); 3].map(|()| vec![0; MAX_PIXELS]);
    // By the separate calls: a palette or an opcode of sound before the size may stop a player, too.
    let Ok(mut state) = open(film, options.stream) else { return 0 };
    let (mut stops, mut sounds, mut allowed) = (0, 0, options.allowance);
    loop {
        let found = place;
        let lent = Lent {
            palette: &mut palette,
            picture_a: &mut a,
            picture_b: &mut b,
            place: &mut place,
            room: &mut room,
            words: words.each_mut().map(Vec::as_mut_slice),
        };
        match step(film, state, lent, allowed) {
            Stepped::Taken(next, _, bytes) => {
                if bytes > 0 || is_format(film, &state) {
                    sounds += 1;
                    if options.every.is_some_and(|every| sounds % every == 0) {
                        stops += 1;
                        sounds += 1;
                    }
                }
                state = next;
            }
            Stepped::Whole(next, ..) => state = next,
            Stepped::Unfinished(..) => {
                stops += 1;
                if place == found {
                    allowed = allowed.saturating_mul(2);
                    continue;
                }
            }
            Stepped::Ended(_) | Stepped::Refused(_) => return stops,
        }
        allowed = options.allowance;
    }
}

fn is_format(film: &[u8], state: &State) -> bool {
    let head = opcode_head(film, state.position, state.chunk_end);
    head.is_ok_and(|head| head.kind == 0x03) && state.sound.stream < 16
}

/// The folder holds the pictures and the recordings, in order, under their numbers, and nothing else;
/// and there was a progress line for each picture, before the last message.
#[track_caller]
pub fn assert_files(left: &Left, played: &Played, case: &str) {
    let numbered = |end| (0..).map(move |number| format!("{number:06}.{end}"));
    let pictures: BTreeMap<_, _> = numbered("ppm").zip(&played.pictures).collect();
    let recordings: BTreeMap<_, _> = numbered("wav").zip(&played.recordings).collect();
    let mut names: Vec<_> = pictures.keys().chain(recordings.keys()).collect();
    names.sort();
    assert!(left.files.keys().eq(names), "{case}: {:?}", left.files.keys());
    for (name, bytes) in pictures {
        assert!(left.files[&name] == *bytes, "{case}: {name}");
    }
    for (name, recording) in recordings {
        let found = wav(&left.files[&name]);
        let found = found.unwrap_or_else(|| panic!("{case}: {name} is no WAV file"));
        let Recording { stereo, wide, rate, samples } = &found;
        let (lengths, format) = ((samples.len(), recording.samples.len()), (stereo, wide, rate));
        assert!(found == *recording, "{case}: {name}: {lengths:?} bytes, {format:?}");
    }
    let progress: Vec<_> = left.messages.split("\rfilm.mve: byte ").skip(1).collect();
    assert_eq!(progress.len(), played.pictures.len(), "{case}: {}", left.messages);
}

/// The sound in a WAV file of just a format and samples, all of whose lengths are right; none where it
/// is no such file.
fn wav(bytes: &[u8]) -> Option<Recording> {
    let number = |at: usize| Some(u32::from_le_bytes(bytes.get(at..at + 4)?.try_into().ok()?));
    let word = |at: usize| Some(u16::from_le_bytes(bytes.get(at..at + 2)?.try_into().ok()?));
    let is = |at: usize, text: &[u8]| bytes.get(at..)?.starts_with(text).then_some(());
    is(0, b"RIFF")?;
    is(8, b"WAVEfmt ")?;
    is(36, b"data")?;
    let (channels, rate, bits) = (word(22)?, number(24)?, word(34)?);
    let (stereo, wide) = (channels == 2, bits == 16);
    let length = number(40)? as usize;
    // An odd length has a byte behind it.
    let samples = bytes.get(44..44 + length)?.to_vec();
    let frame = channels * bits / 8;
    let is_right = number(4)? as usize == bytes.len() - 8
        && bytes.len() == 44 + length + length % 2
        && number(16)? == 16
        && word(20)? == 1
        && matches!((channels, bits), (1 | 2, 8 | 16))
        && number(28)? == rate * u32::from(frame)
        && word(32)? == frame;
    is_right.then_some(Recording { stereo, wide, rate: rate.try_into().ok()?, samples })
}

/// The last message of a player, from the beginning of its line.
pub fn last_message(left: &Left) -> &str {
    let start = left.messages.rfind('\r').expect("a message");
    &left.messages[start + 1..]
}

/// Both players play a good film, in a folder of this name. How often each was stopped.
pub fn assert_played(folder: &str, film: &[u8], played: &Played, options: &Options) -> usize {
    let (pictures, sounds) = (played.pictures.len(), played.recordings.len());
    let (length, stops) = (film.len(), stops(film, options));
    let ended = format!(
        "film.mve: ended at byte {length}, pictures: {pictures}, sound files: {sounds}, \
         stops: {stops}\n"
    );
    for (name, program) in players() {
        let case = format!("{options:?}, {name}");
        let left = play(&program, folder, film, options);
        assert_eq!((left.code, last_message(&left)), (Some(0), &*ended), "{case}");
        assert_files(&left, played, &case);
    }
    stops
}

/// A refused film: the pictures and the samples that came before stay, and the message names the
/// number, the block where there is one, and the position.
pub fn assert_refused(folder: &str, film: &[u8], played: &Played, options: &Options) {
    let refusal = played.refusal.expect("a refused film");
    let block = match refusal.number {
        12..=14 => format!(" in block {}", refusal.block),
        _ => String::new(),
    };
    let begin = format!("film.mve: refusal {}{block}: ", refusal.number);
    let (pictures, sounds) = (played.pictures.len(), played.recordings.len());
    let position = played.position;
    let end = format!(", at byte {position}, pictures: {pictures}, sound files: {sounds}\n");
    let both = players().map(|(name, program)| {
        let left = play(&program, folder, film, options);
        assert_eq!(left.code, Some(1), "{name}");
        assert_files(&left, played, name);
        let message = last_message(&left);
        let reason = message.strip_prefix(&*begin).and_then(|rest| rest.strip_suffix(&*end));
        assert!(reason.is_some_and(|reason| reason.len() > 10), "{name}: {message}");
        left.messages
    });
    assert_eq!(both[0], both[1], "the players' words differ");
}

fn ended(mut child: Child) -> ExitStatus {
    let start = Instant::now();
    loop {
        if let Some(status) = child.try_wait().expect("the player is a child") {
            return status;
        }
        if start.elapsed() > LIMIT {
            child.kill().and_then(|()| child.wait()).expect("the player is a child");
            panic!("the player does not end");
        }
        thread::sleep(Duration::from_micros(300));
    }
}

fn files(folder: &Path) -> BTreeMap<String, Vec<u8>> {
    let Ok(entries) = fs::read_dir(folder) else { return BTreeMap::new() };
    let paths = entries.map(|entry| entry.expect("an entry").path());
    let named = |path: PathBuf| {
        let name = path.file_name().expect("a name").to_string_lossy().into_owned();
        (name, fs::read(&path).expect("a file"))
    };
    paths.map(named).collect()
}
