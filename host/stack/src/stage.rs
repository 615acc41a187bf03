//! Whole stages: a least caller in C of each call, its pushed arguments and the library together. Each is
//! compiled twice, for speed and for size, and measured twice: by the disassembly, with the deepest chain
//! of the archive behind it, and by a painted stack, on which it runs.
//!
//! The caller of `mve_step` is `examples/synopsis.c` itself, under another name than `main`; its other
//! variants are made from its text. The other callers are in `c/callers.c`. The C library's functions that
//! the example calls are outside the stage, as `memset` is: of each its return address counts.

use crate::archive::{Texts, LIMIT};
use crate::frames::{deepest, frames, Chain, Frame};
use crate::listing::Listing;
use maker::packet::Draft;
use maker::trailers::{self, Codes};
use maker::words::{WordDraft, WordForm, WordProfile, LONG};
use maker::{demo, scratches, strips, true_colour, Form, Packet, Profile, Seeded, Size};
use std::collections::BTreeMap;
use std::env;
use std::fs;
use std::io::Write;
use std::path::{Path, PathBuf};
use std::process::{self, Command, Stdio};
use std::sync::atomic::{AtomicUsize, Ordering};

/// For speed, and for size.
const LEVELS: [&str; 2] = ["-O2", "-Os"];

/// As a stage without an operating system is compiled. A function in two parts cannot be followed.
const FLAGS: [&str; 9] = [
    "-std=c11",
    "-fPIE",
    "-ffunction-sections",
    "-fdata-sections",
    "-fno-stack-protector",
    "-fno-asynchronous-unwind-tables",
    "-fno-reorder-blocks-and-partition",
    "-U_FORTIFY_SOURCE",
    "-fcf-protection=none",
];

/// The functions that are not the stage's: of the C library, under the names that painted.c has for them.
const OUTSIDE: [(&str, &str); 3] =
    [("fread", "stage_fread"), ("printf", "stage_printf"), ("fprintf", "stage_fprintf")];

/// The example as it stands, and with other texts: fewer stores, the strict form, the sound.
pub const VARIANTS: [(&str, &[(&str, &str)]); 4] = [
    ("as it stands", &[]),
    ("1,000 stores a step", &[("MVE_ALL_STORES", "1000")]),
    ("strict", &[("MVE_DEFAULT", "MVE_STRICT")]),
    ("with sound", &[("MVE_NO_STREAM", "0"), ("room[1]", "room[MVE_ROOM_BYTES]")]),
];

/// The stores that a drawing call is allowed: few, and all.
const ALLOWED: [usize; 2] = [1000, 312_000];

/// Which of the films is the demonstration's.
const DEMO: usize = 0;
/// The refusal of bytes that are left over.
const DATA_LEFT: u64 = 15;

/// Bytes that a stack is painted with, one at a time.
const PAINTS: [u8; 2] = [0x5A, 0xA7];

/// What a whole stage takes.
#[derive(Clone, Debug, Default, PartialEq, Eq)]
pub struct Whole {
    /// The deepest chain by the disassembly, from the caller on.
    pub chain: Chain,
    /// The most bytes that were written on a painted stack.
    pub painted: u64,
}

impl Whole {
    /// The larger of two.
    fn join(&mut self, other: Whole) {
        if other.chain.bytes() > self.chain.bytes() {
            self.chain = other.chain;
        }
        self.painted = self.painted.max(other.painted);
    }

    /// The bytes of the stage, by either measurement.
    pub fn bytes(&self) -> u64 {
        self.chain.bytes().max(self.painted)
    }
}

/// The whole stages of all calls, by the call.
#[derive(Clone, Debug, Default, PartialEq, Eq)]
pub struct Stages {
    /// What compiled the callers.
    pub compiler: String,
    /// The stage of each call.
    pub calls: BTreeMap<String, Whole>,
}

impl Stages {
    /// Compiles and measures a least caller of each of these calls. `synopsis` is the text of the
    /// example.
    pub fn new(archive: &Path, synopsis: &str, calls: &[&str]) -> Result<Stages, String> {
        let mut stages = Stages { compiler: compiler()?, calls: BTreeMap::new() };
        for call in calls {
            stages.calls.insert(call.to_string(), Whole::default());
        }
        let (films, openings, deep) = (films(), openings(), deep_films());
        let (packets, words, frames) = (packets(), word_packets(), frames_of_video1());
        let (scratched, padded) = (scratched(&films), padded(&films));
        let library = Library::new(archive)?;
        for (level, (name, changes)) in LEVELS.iter().flat_map(|level| VARIANTS.map(|v| (level, v)))
        {
            let built = library.build(level, &changed(synopsis, changes)?)?;
            let whole = built.stage(&films, name == "strict");
            let whole = whole.map_err(|fault| format!("the example {name}: {fault}"))?;
            stages.calls.entry("mve_step".to_string()).or_default().join(whole);
            let is_first = changes.is_empty(); // the other callers are the same beside each
            for call in calls.iter().filter(|call| is_first && **call != "mve_step") {
                let films = match *call {
                    "mve_salvage" => &scratched,
                    "mve_strip" => &padded,
                    "mve_shown_words" => &deep,
                    _ => &openings,
                };
                let packets = match *call {
                    "mve_video1" => &frames,
                    name if name.contains("_words") => &words,
                    _ => &packets,
                };
                let whole = built.caller(call, films, packets)?;
                stages.calls.entry(call.to_string()).or_default().join(whole);
            }
        }
        Ok(stages)
    }

    /// The calls whose whole stage is above the limit.
    pub fn too_deep(&self) -> Vec<&str> {
        let deep = self.calls.iter().filter(|(_, whole)| whole.bytes() > LIMIT);
        deep.map(|(name, _)| &**name).collect()
    }
}

/// A text in which each of the first ones stands once, with the second ones instead.
pub fn changed(text: &str, changes: &[(&str, &str)]) -> Result<String, String> {
    let mut text = text.to_string();
    for (old, new) in changes {
        match text.matches(old).count() {
            1 => text = text.replace(old, new),
            times => return Err(format!("{old} stands {times} times in the example, not once")),
        }
    }
    Ok(text)
}

/// The compiler and its version.
fn compiler() -> Result<String, String> {
    let said = |argument: &str| run(Command::new("cc").env("LC_ALL", "C").arg(argument), &[]);
    let name = if said("--version")?.contains("clang") { "clang" } else { "gcc" };
    let version = said("-dumpfullversion").or_else(|_| said("-dumpversion"))?;
    Ok(format!("{name} {}", version.trim()))
}

/// What a command writes, given this.
fn run(command: &mut Command, input: &[u8]) -> Result<String, String> {
    let name = command.get_program().to_string_lossy().into_owned();
    let piped = command.stdin(Stdio::piped()).stdout(Stdio::piped()).stderr(Stdio::piped());
    let mut child = piped.spawn().map_err(|fault| format!("{name} does not run: {fault}"))?;
    let given = child.stdin.take().map_or(Ok(()), |mut stdin| stdin.write_all(input));
    let output = child.wait_with_output().map_err(|fault| format!("{name}: {fault}"))?;
    if !output.status.success() {
        let said = String::from_utf8_lossy(&output.stderr).into_owned();
        return Err(format!("{name} fails ({}): {said}", output.status));
    }
    given.map_err(|fault| format!("{name} does not read what it is given: {fault}"))?;
    String::from_utf8(output.stdout).map_err(|_| format!("{name} writes no text"))
}

/// The archive, and a folder for what is built.
struct Library {
    archive: PathBuf,
    frames: BTreeMap<String, Frame>,
    folder: Folder,
}

/// A folder that goes when it is dropped.
struct Folder(PathBuf);

impl Drop for Folder {
    fn drop(&mut self) {
        let _ = fs::remove_dir_all(&self.0); // nobody asks for it any more
    }
}

impl Library {
    fn new(archive: &Path) -> Result<Library, String> {
        static FOLDERS: AtomicUsize = AtomicUsize::new(0);
        let number = FOLDERS.fetch_add(1, Ordering::Relaxed);
        // Beside this program: programs may be run there.
        let own = env::current_exe().map_err(|fault| format!("this program: {fault}"))?;
        let path = own.with_file_name(format!("stack-{}-{number}", process::id()));
        let frames = frames_of(archive)?;
        fs::create_dir_all(&path).map_err(|fault| format!("{}: {fault}", path.display()))?;
        Ok(Library { archive: archive.to_path_buf(), frames, folder: Folder(path) })
    }

    /// Compiles a text of the example, and once for each level the other callers and the program that runs
    /// them.
    fn build(&self, level: &str, synopsis: &str) -> Result<Built<'_>, String> {
        let folder = &self.folder.0;
        let path = |name: &str| folder.join(format!("{name}{level}"));
        let [stage, callers, runner] = ["stage", "callers", "painted"].map(path);
        let [stage, callers, runner] =
            [stage, callers, runner].map(|path| path.with_extension("o"));
        let source = folder.join("synopsis.c");
        fs::write(&source, synopsis).map_err(|fault| format!("{}: {fault}", source.display()))?;
        let names = OUTSIDE.map(|(name, stand_in)| format!("-D{name}={stand_in}"));
        compile(level, &source, &stage, &[&names[..], &["-Dmain=stage".to_string()]].concat())?;
        let own = crate::root().join("host/stack/c");
        if !runner.exists() {
            compile(level, &own.join("callers.c"), &callers, &[])?;
            compile(level, &own.join("painted.c"), &runner, &["-fno-builtin".to_string()])?;
        }
        let painted = folder.join("painted");
        let mut link = Command::new("cc");
        link.args(["-pie", "-Wl,-z,now"]).args([&runner, &stage, &callers, &self.archive]);
        run(link.arg("-o").arg(&painted), &[])?;
        let mut frames = self.frames.clone();
        for object in [&stage, &callers] {
            frames.extend(frames_of(object)?);
        }
        Ok(Built { frames, painted, library: self })
    }
}

/// Compiles a source to an object.
fn compile(level: &str, source: &Path, object: &Path, flags: &[String]) -> Result<(), String> {
    let mut command = Command::new("cc");
    command.args(FLAGS).arg(level).args(flags).arg("-I").arg(crate::root().join("include"));
    run(command.arg("-c").arg(source).arg("-o").arg(object), &[]).map(drop)
}

/// The frames of the functions in an archive or an object.
fn frames_of(object: &Path) -> Result<BTreeMap<String, Frame>, String> {
    let [disassembly, relocations] = Texts::code_of(object)?;
    frames(&Listing::new(&disassembly, &relocations)?)
}

/// The callers, compiled.
struct Built<'l> {
    frames: BTreeMap<String, Frame>,
    painted: PathBuf,
    library: &'l Library,
}

impl Built<'_> {
    /// The whole of the example, as it plays these films. Some have padded packets, which the strict form
    /// refuses by 15.
    fn stage(&self, films: &[Vec<u8>], strict: bool) -> Result<Whole, String> {
        let mut whole = Whole { chain: self.chain("stage", "mve_step")?, painted: 0 };
        for (number, film) in films.iter().enumerate() {
            let (painted, pictures, refusal) = self.painted("mve_step", 0, film)?;
            let is_good = match number {
                DEMO => refusal == 0 && pictures > 0,
                _ => refusal == 0 || strict && refusal == DATA_LEFT,
            };
            if !is_good {
                return Err(format!("film {number}: {pictures} pictures, refused by {refusal}"));
            }
            whole.painted = whole.painted.max(painted);
        }
        Ok(whole)
    }

    /// The whole of another caller.
    fn caller(&self, call: &str, films: &[Vec<u8>], packets: &[u8]) -> Result<Whole, String> {
        let of_film =
            ["mve_open", "mve_begin", "mve_shown", "mve_shown_words", "mve_salvage", "mve_strip"];
        let is_of_film = of_film.contains(&call);
        let inputs: Vec<(&[u8], usize)> = match is_of_film {
            true => films.iter().map(|film| (&film[..], 0)).collect(),
            false => ALLOWED.map(|allowed| (packets, allowed)).to_vec(),
        };
        let mut whole = Whole { chain: self.chain(&format!("call_{call}"), call)?, painted: 0 };
        for (input, allowed) in inputs {
            let (painted, runs, _) = self.painted(call, allowed, input)?;
            if runs == 0 {
                return Err(format!("{call} refuses all that it is given"));
            }
            whole.painted = whole.painted.max(painted);
        }
        Ok(whole)
    }

    /// The deepest chain from a caller on, which must call the library.
    fn chain(&self, caller: &str, call: &str) -> Result<Chain, String> {
        let inside: Vec<&Frame> = self.reached(caller).map(|name| &self.frames[name]).collect();
        let called: Vec<&str> =
            inside.iter().flat_map(|frame| &frame.calls).map(|call| &*call.to).collect();
        if !called.contains(&call) || !self.library.frames.contains_key(call) {
            return Err(format!("{caller} does not call {call} of the archive"));
        }
        let is_known = |name: &str| {
            self.frames.contains_key(name)
                || name == "memset"
                || OUTSIDE.iter().any(|(_, stand_in)| *stand_in == name)
        };
        match called.iter().find(|name| !is_known(name)) {
            Some(name) => Err(format!("{caller} calls {name}, of which nothing is known")),
            None => deepest(&self.frames, caller),
        }
    }

    /// The functions of the callers' objects that a caller reaches, with itself.
    fn reached(&self, caller: &str) -> impl Iterator<Item = &str> {
        let mut found: Vec<&str> = Vec::new();
        let mut open = self.frames.get_key_value(caller).map(|(name, _)| &**name);
        let mut waiting = Vec::new();
        while let Some(name) = open {
            if !found.contains(&name) && !self.library.frames.contains_key(name) {
                found.push(name);
                waiting.extend(self.frames[name].calls.iter().filter_map(|call| {
                    self.frames.get_key_value(&call.to).map(|(name, _)| &**name)
                }));
            }
            open = waiting.pop();
        }
        found.into_iter()
    }

    /// What a run writes on a painted stack, and what the caller left: see painted.c.
    fn painted(&self, call: &str, allowed: usize, input: &[u8]) -> Result<(u64, u64, u64), String> {
        let mut most = (0, 0, 0);
        for paint in PAINTS {
            let mut command = Command::new(&self.painted);
            command.args([call, &allowed.to_string(), &paint.to_string()]);
            let said = run(&mut command, input)?;
            let numbers: Vec<u64> = said.split_whitespace().flat_map(str::parse).collect();
            let [bytes, left, refusal] = numbers[..] else {
                return Err(format!("painted writes {said}"));
            };
            most = (bytes.max(most.0), left, refusal);
        }
        Ok(most)
    }
}

/// These films, and scratched ones of every kind.
fn scratched(films: &[Vec<u8>]) -> Vec<Vec<u8>> {
    let made = (0..20).map(|seed| scratches::make(&mut Seeded::new(seed)).bytes());
    films.iter().cloned().chain(made).collect()
}

/// These films, and films with much to drop.
fn padded(films: &[Vec<u8>]) -> Vec<Vec<u8>> {
    let made = (0..20).map(|seed| strips::make(&mut Seeded::new(seed)).bytes());
    films.iter().cloned().chain(made).collect()
}

/// The film of the demonstration, and small films of every form of block, with palettes and sound of
/// stream 0; some of them with true colour.
fn films() -> Vec<Vec<u8>> {
    let mut films = vec![demo::film().bytes()];
    films
        .extend((0..6).map(|seed| maker::sound::with_frames(&mut Seeded::new(seed), 0, 4).bytes()));
    films.extend(deep_films());
    films
}

/// Films with true colour, with palettes and sound of stream 0.
fn deep_films() -> Vec<Vec<u8>> {
    (0..6).map(|seed| true_colour::with_sound(&mut Seeded::new(seed), 0, 4).bytes()).collect()
}

/// Films with palettes and sound of stream 0 before their size.
fn openings() -> Vec<Vec<u8>> {
    let film = |seed| maker::beginning::film(&mut Seeded::new(seed), 0).bytes();
    (0..40)
        .map(film)
        .filter(|film| reference::begin::begin(film, 0, &mut [0; 768], &mut 0).is_ok())
        .take(4)
        .collect()
}

/// Packets of every form of block, and of all together.
fn packets() -> Vec<u8> {
    let rng = &mut Seeded::new(1);
    let only = Form::ALL.map(Profile::Only);
    let profiles = only.into_iter().chain(Profile::MANY);
    let packet = |profile| {
        let Packet { columns, rows, map, data } =
            Draft::make(rng, Size::new(6, 5), profile).packet();
        packed((columns, rows), &map, &data)
    };
    profiles.flat_map(packet).collect()
}

/// Packets with true colour of every form of block, and of all together.
fn word_packets() -> Vec<u8> {
    let rng = &mut Seeded::new(1);
    let only = WordForm::ALL.map(WordProfile::Only);
    let profiles = only.into_iter().chain(WordProfile::MANY);
    let packet = |profile| {
        let Packet { columns, rows, map, data } =
            WordDraft::make(rng, Size::new(6, 5), profile, LONG).packet();
        packed((columns, rows), &map, &data)
    };
    profiles.flat_map(packet).collect()
}

/// A packet as painted.c reads it.
fn packed((columns, rows): (usize, usize), map: &[u8], data: &[u8]) -> Vec<u8> {
    let numbers =
        [columns, rows, map.len(), data.len()].map(|number| (number as u32).to_le_bytes());
    [&numbers.concat(), map, data].concat()
}

/// Frames of Microsoft Video 1 of every code, and of all together.
fn frames_of_video1() -> Vec<u8> {
    let rng = &mut Seeded::new(1);
    let kinds = [Codes::One, Codes::Two, Codes::Eight, Codes::Skips, Codes::Mix];
    let frame = |kind| packed((6, 5), &[], &trailers::valid(rng, Size::new(6, 5), kind));
    kinds.into_iter().flat_map(frame).collect()
}
