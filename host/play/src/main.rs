//! An example player: a film to numbered pictures and its sound to WAV files, through stops.
//!
//! `play FILM FOLDER ALLOWANCE [STREAM [EVERY]]` writes each picture that the film sends to FOLDER,
//! as 000000.ppm, 000001.ppm and so on, and the sound of stream STREAM (0 to 15, 0 if it is not
//! given; above 15 none) as 000000.wav; where format or rate changes 000001.wav begins, and so on.
//! The heading of each picture says, in a line like "# rows 3 to 5" or "# rows none", which rows of
//! blocks were touched since this one of the film's pictures was last sent: all that a display with a
//! copy of each needs to be sent. A second line, like "# at 400000 us", says when to show it: so many
//! microseconds after the film's begin, by its timer (opcode 0x02). 8-bit films and films with true
//! colour are played alike.
//! FOLDER must be there and hold no name that ends in .ppm or .wav. Every step is allowed ALLOWANCE
//! stores; when they do not suffice, the player is stopped as a watchdog would stop it, and goes on. A
//! drawing goes on from its place. A palette begins again with its first store; so a step that came no
//! further is allowed twice as many stores when it is taken again.
//! If EVERY is given, the player is also stopped at every so many opcodes of sound, when what they give
//! is written and the state is not saved yet. It exits with 0 where the film ended, 1 where it was
//! refused or a file or the folder failed, 2 on bad arguments. `examples/play.c` is the same player
//! in C.

mod sound;
mod unsent;

use mve::{Form, Pictures, Refusal, Rows, State, Step};
use mve::{PALETTE_BYTES, PICTURE_BYTES, PICTURE_WORDS, ROOM_BYTES};
use sound::{Failed, Format, Sound};
use std::env;
use std::ffi::{OsStr, OsString};
use std::fmt;
use std::fs;
use std::io;
use std::path::{Path, PathBuf};
use std::process::ExitCode;
use std::sync::atomic::{AtomicUsize, Ordering};
use unsent::Unsent;

/// A player that is stopped at every opcode of sound never gets on.
const LEAST_EVERY: usize = 2;

/// Where a player is: what it must not lose at a stop.
#[derive(Clone, Copy)]
struct Saved {
    state: State,
    sound: Sound,
    /// A stop may fall between drawing and sending.
    unsent: Unsent,
    clock: Clock,
}

/// When to show a picture, in microseconds: the time of the next one, and how long it stays.
#[derive(Clone, Copy)]
struct Clock {
    now: u64,
    stays: u64,
}

impl Clock {
    /// Where the film has no timer yet, a picture stays for the usual time.
    const FIRST: Clock = Clock { now: 0, stays: 66_728 };

    /// The time of a picture that is sent; the next one is shown when it has stayed.
    fn show(&mut self) -> u64 {
        let at = self.now;
        self.now = at.wrapping_add(self.stays);
        at
    }
}

/// All that a stop leaves, beside the files. In a real player it lies in memory that outlives the
/// stop.
struct Kept {
    records: [Saved; 2],
    /// Which of the two is the saved one.
    holds: AtomicUsize,
    palette: [u8; PALETTE_BYTES],
    /// Of an 8-bit film.
    bytes: [Vec<u8>; 2],
    /// Of a film with true colour.
    words: [Vec<u16>; 3],
    place: usize,
}

/// The command line, which every run is given anew.
struct Arguments {
    film: PathBuf,
    folder: PathBuf,
    allowance: usize,
    stream: usize,
    /// At every so many opcodes of sound the player is stopped; never if none.
    every: Option<usize>,
}

/// What stops a run. It outlives the runs and knows nothing of the film.
struct Watchdog {
    stops: usize,
    /// Opcodes of sound; one that is taken again counts again.
    sounds: usize,
    /// The stores of a step after which it stops a run.
    allowed: usize,
}

impl Watchdog {
    /// Stops a run in a step. One that came no further is given twice the stores next time.
    fn stop_in_step(&mut self, is_further: bool, arguments: &Arguments) {
        let twice = self.allowed.saturating_mul(2);
        self.allowed = if is_further { arguments.allowance } else { twice };
    }

    /// Whether it stops a run that has just written what an opcode of sound gave.
    fn stops_at_sound(&mut self, every: Option<usize>) -> bool {
        self.sounds += 1;
        every.is_some_and(|every| self.sounds % every == 0)
    }
}

/// How a run went.
enum Run {
    Stopped,
    Ended,
}

/// Why a film is not played to its end.
enum Failure {
    Folder(PathBuf, io::Error),
    HasOutput(PathBuf),
    Film(io::Error),
    Output(PathBuf, io::Error),
    Refused { refusal: Refusal, position: usize, pictures: usize, sounds: usize },
}

impl From<Failed> for Failure {
    fn from((path, error): Failed) -> Failure {
        Failure::Output(path, error)
    }
}

impl Kept {
    fn new(first: State) -> Kept {
        Kept {
            records: [Saved {
                state: first,
                sound: Sound::NONE,
                unsent: Unsent::NONE,
                clock: Clock::FIRST,
            }; 2],
            holds: AtomicUsize::new(0),
            palette: [0; PALETTE_BYTES],
            bytes: [(); 2].map(|()| vec![0; PICTURE_BYTES]),
            words: [(); 3].map(|()| vec![0; PICTURE_WORDS]),
            place: 0,
        }
    }

    fn load(&self) -> Saved {
        self.records[self.holds.load(Ordering::SeqCst)]
    }

    /// The new state is written in full to the spare record, with the sound and the rows that belong
    /// to it; then one store makes it the one that holds, an atomic one, which stays behind the others.
    /// A stop before it leaves the old record, and the step that gave the new one is taken again.
    fn save(&mut self, next: Saved) {
        let spare = 1 - self.holds.load(Ordering::SeqCst);
        self.records[spare] = next;
        self.holds.store(spare, Ordering::SeqCst);
    }
}

fn main() -> ExitCode {
    let words: Vec<OsString> = env::args_os().skip(1).collect();
    let arguments = match read_arguments(&words) {
        Ok(arguments) => arguments,
        Err(message) => {
            eprintln!("{message}");
            return ExitCode::from(2);
        }
    };
    match watch(&arguments) {
        Ok(()) => ExitCode::SUCCESS,
        Err(failure) => {
            tell(&arguments, format_args!("{failure}\n"));
            ExitCode::FAILURE
        }
    }
}

/// The watchdog: it starts a run after every stop.
fn watch(arguments: &Arguments) -> Result<(), Failure> {
    let mut kept = begin(arguments)?;
    let mut watchdog = Watchdog { stops: 0, sounds: 0, allowed: arguments.allowance };
    while let Run::Stopped = run(&mut kept, arguments, &mut watchdog)? {
        watchdog.stops += 1;
    }
    let Saved { state: State { position, .. }, sound: Sound { files, .. }, .. } = kept.load();
    let (pictures, stops) = (count_pictures(&arguments.folder), watchdog.stops);
    tell(
        arguments,
        format_args!(
            "ended at byte {position}, pictures: {pictures}, sound files: {files}, stops: {stops}\n"
        ),
    );
    Ok(())
}

/// Before the first run: looks into the folder and opens the film; its first state is kept.
fn begin(arguments: &Arguments) -> Result<Kept, Failure> {
    let folder = &arguments.folder;
    if find_output(folder).map_err(|error| Failure::Folder(folder.clone(), error))? {
        return Err(Failure::HasOutput(folder.clone()));
    }
    let film = fs::read(&arguments.film).map_err(Failure::Film)?;
    // Not `mve::begin`, which drops the samples before the size.
    let first = mve::open(&film, arguments.stream)
        .map_err(|refusal| refused(refusal, 0, Sound::NONE, arguments))?;
    Ok(Kept::new(first))
}

/// A run of the player, up to its stop. All that it knows besides `kept` it finds out anew, the
/// film included.
///
/// Steps are of the default form: many films pad their packets by a byte, and are to be played
/// ([`Form::Strict`] is for those who make films). What a step gives is written before the state is
/// saved: a stop in between writes a picture twice, but loses none; samples go to the same place of the
/// file again.
fn run(kept: &mut Kept, arguments: &Arguments, watchdog: &mut Watchdog) -> Result<Run, Failure> {
    kept.load().sound.cut(&arguments.folder)?;
    let film = fs::read(&arguments.film).map_err(Failure::Film)?;
    let mut room = vec![0; ROOM_BYTES]; // need not outlive a stop
    let form = Form::Default;
    loop {
        let Saved { state, sound, mut unsent, mut clock } = kept.load();
        let found = kept.place;
        let Kept { palette, bytes: [a, b], words: [c, d, e], place, .. } = kept;
        let (pictures, allowed) = (&mut Pictures { a, b, c, d, e }, watchdog.allowed);
        let step = mve::step(&film, state, palette, pictures, place, &mut room, allowed, form);
        let step = match step {
            Ok(step) => step,
            Err(refusal) => {
                sound.finish(&arguments.folder)?;
                return Err(refused(refusal, state.position, sound, arguments));
            }
        };
        let (next, bytes) = match step {
            // The next run takes the step again; of a drawing it is told the same rows at its end.
            Step::Unfinished { .. } => {
                watchdog.stop_in_step(kept.place != found, arguments);
                return Ok(Run::Stopped);
            }
            Step::Ended { .. } => {
                sound.finish(&arguments.folder)?;
                return Ok(Run::Ended);
            }
            Step::Taken { state: next, bytes, .. } => (next, bytes),
            Step::Whole { state: next, rows, .. } => {
                unsent.touch(&state, rows);
                (next, 0)
            }
        };
        clock.stays = mve::timer(&film, &state).unwrap_or(clock.stays);
        let format = format_of(&film, &state, &next);
        let sound = write_sound(sound, format, &room[..bytes], &arguments.folder)?;
        if mve::is_sent(&state, &next) {
            let picture = ppm(kept, &next, unsent.send(next.front), clock.show());
            write_picture(&picture, next.position, arguments, film.len())?;
        }
        if (format.is_some() || bytes > 0) && watchdog.stops_at_sound(arguments.every) {
            return Ok(Run::Stopped);
        }
        kept.save(Saved { state: next, sound, unsent, clock });
        watchdog.allowed = arguments.allowance;
    }
}

/// The format that a step gave, where it took a 03 of the stream. The rate is the third word of its
/// body, which the library does not read.
fn format_of(film: &[u8], before: &State, after: &State) -> Option<Format> {
    let at_opcode = before.position != before.chunk_end;
    let is_format = at_opcode && film[before.position + 2] == 0x03;
    (is_format && before.sound.stream < mve::NO_STREAM).then(|| {
        let rate = &film[before.position + 8..][..2];
        let rate = u16::from_le_bytes([rate[0], rate[1]]);
        Format { stereo: after.sound.stereo, wide: after.sound.wide, rate }
    })
}

/// Writes what a step gave of sound: the beginning of a file, or samples.
fn write_sound(
    sound: Sound,
    format: Option<Format>,
    samples: &[u8],
    folder: &Path,
) -> Result<Sound, Failed> {
    match (format, samples) {
        (Some(format), _) => sound.take_format(folder, format),
        (None, []) => Ok(sound),
        (None, samples) => sound.write_samples(folder, samples),
    }
}

/// Writes a picture under the first free number. It gets its number when it is written in full, so that
/// a stop leaves no half picture that counts.
fn write_picture(
    picture: &[u8],
    position: usize,
    arguments: &Arguments,
    film_length: usize,
) -> Result<(), Failure> {
    let number = count_pictures(&arguments.folder);
    let path = picture_path(&arguments.folder, number);
    let part = arguments.folder.join("picture.part");
    let written = fs::write(&part, picture).and_then(|()| fs::rename(&part, &path));
    if let Err(error) = written {
        let _ = fs::remove_file(&part); // it is the first error that is told
        return Err(Failure::Output(path, error));
    }
    let pictures = number + 1;
    tell(arguments, format_args!("byte {position} of {film_length}, pictures: {pictures}"));
    Ok(())
}

/// The shown picture as a PPM file, whose heading has the rows touched since it was last sent and the
/// time when it is to be shown, as comments, and the size in pixels.
fn ppm(kept: &Kept, state: &State, rows: Option<Rows>, at: u64) -> Vec<u8> {
    let rows = match rows {
        Some(Rows { first, last }) => format!("{first} to {last}"),
        None => "none".to_string(),
    };
    let (width, height) = (state.width(), state.height());
    let heading = format!("P6\n# rows {rows}\n# at {at} us\n{width} {height}\n255\n");
    let ([a, b], [c, d, e]) = (&kept.bytes, &kept.words);
    // Of the film's own kind; of the other one nothing is shown.
    let bytes = mve::shown(state, a, b).iter().map(|&pixel| mve::colour(&kept.palette, pixel));
    let words = mve::shown_words(state, c, d, e).iter().copied().map(mve::word_colour);
    heading.into_bytes().into_iter().chain(bytes.chain(words).flatten()).collect()
}

/// Whether the folder holds a name that ends in .ppm or .wav, whatever its number.
fn find_output(folder: &Path) -> io::Result<bool> {
    for entry in fs::read_dir(folder)? {
        let name = entry?.file_name();
        if [b".ppm", b".wav"].iter().any(|&end| name.as_encoded_bytes().ends_with(end)) {
            return Ok(true);
        }
    }
    Ok(false)
}

/// How many pictures are in the folder. A run cannot know how many the runs before it wrote, so it
/// looks. There were none before the first run, so they are numbered from 0 without a gap: halving
/// finds the first free number.
fn count_pictures(folder: &Path) -> usize {
    let (mut low, mut high) = (0, usize::MAX);
    while low < high {
        let middle = low + (high - low) / 2;
        if picture_path(folder, middle).exists() {
            low = middle + 1;
        } else {
            high = middle;
        }
    }
    low
}

fn picture_path(folder: &Path, number: usize) -> PathBuf {
    folder.join(format!("{number:06}.ppm"))
}

fn refused(refusal: Refusal, position: usize, sound: Sound, arguments: &Arguments) -> Failure {
    let (pictures, sounds) = (count_pictures(&arguments.folder), sound.files);
    Failure::Refused { refusal, position, pictures, sounds }
}

/// Every message about a film begins its line anew, over the progress line.
fn tell(arguments: &Arguments, message: fmt::Arguments<'_>) {
    eprint!("\r{}: {message}", arguments.film.display());
}

impl fmt::Display for Failure {
    fn fmt(&self, f: &mut fmt::Formatter<'_>) -> fmt::Result {
        match self {
            Failure::Folder(folder, error) => {
                write!(f, "cannot read the folder {}: {error}", folder.display())
            }
            Failure::HasOutput(folder) => {
                let folder = folder.display();
                write!(f, "{folder} has pictures or sound already: give a folder without")
            }
            Failure::Film(error) => write!(f, "cannot read the film: {error}"),
            Failure::Output(path, error) => write!(f, "cannot write {}: {error}", path.display()),
            Failure::Refused { refusal, position, pictures, sounds } => {
                write!(f, "{refusal}, at byte {position}, ")?;
                write!(f, "pictures: {pictures}, sound files: {sounds}")
            }
        }
    }
}

fn read_arguments(words: &[OsString]) -> Result<Arguments, String> {
    let (film, folder, allowance, options) = match words {
        [film, folder, allowance, options @ ..] if options.len() <= 2 => {
            (film, folder, allowance, options)
        }
        _ => return Err("usage: play FILM FOLDER ALLOWANCE [STREAM [EVERY]]".to_string()),
    };
    let allowance = read_number(allowance, 1)
        .map_err(|text| format!("play: allowance {text}: give a number of stores, 1 or more"))?;
    let stream = options.first().map_or(Ok(0), |stream| read_number(stream, 0));
    let stream = stream.map_err(|text| {
        format!("play: stream {text}: give a number, 0 to 15, or more for no sound")
    })?;
    let every = options.get(1).map(|every| read_number(every, LEAST_EVERY)).transpose();
    let every = every.map_err(|text| {
        format!(
            "play: every {text}: give a number of opcodes, {LEAST_EVERY} or more, \
             or the first one is never saved"
        )
    })?;
    Ok(Arguments { film: film.into(), folder: folder.into(), allowance, stream, every })
}

/// A decimal number that is no less; else the text.
fn read_number(word: &OsStr, least: usize) -> Result<usize, String> {
    let text = word.to_string_lossy();
    let is_decimal = text.bytes().all(|byte| byte.is_ascii_digit());
    let number = text.parse().ok().filter(|&number| is_decimal && number >= least);
    number.ok_or_else(|| text.into_owned())
}
