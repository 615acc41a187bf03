//! A player that is killed at random moments. The next process goes on with what is kept.

use crate::cases::{self, Step};
use crate::ffi;
use crate::kept::{Kept, Shared};
use crate::list::{self, Prefix, Store};
use crate::made;
use crate::stopped;
use maker::colours::Change;
use maker::film::{init_video, Film};
use maker::{Form, Profile, Seeded, Size, WordProfile};
use mve::NO_STREAM;
use reference::CallForm;
use std::env;
use std::fs::{self, File};
use std::io::{self, Read, Seek, Write};
use std::os::fd::AsFd;
use std::os::unix::process::ExitStatusExt;
use std::path::{Path, PathBuf};
use std::process::{self, Command};
use std::sync::atomic::{AtomicUsize, Ordering};
use std::thread;
use std::time::{Duration, Instant};

/// The frame, 320x200 pixels.
const SIZE: Size = Size { columns: 40, rows: 25 };
/// The bytes or words of each picture that are lent.
const LENT: usize = 64 * SIZE.columns * SIZE.rows;
/// The frames of the film.
const FRAMES: usize = 96;
/// Of so many frames the last is sent; the others are drawn over.
const SENT: usize = 12;
/// Allowances of the players: of no limit, of some, and the least one that finishes a block, or any
/// palette.
const ALLOWANCES: [usize; 6] = [usize::MAX, usize::MAX, 20_000, 5000, 1000, 65];
const COLOUR_ALLOWANCES: [usize; 6] = [usize::MAX, usize::MAX, 312_000, 20_000, 1536, 1536];
/// The frames of the film of palettes, all of them sent, and the palettes in front of each.
const COLOUR_FRAMES: usize = 12;
const PALETTES: usize = 60;
/// Bytes that are sent at a time: a kill cuts a picture anywhere.
const PIECE: usize = 512;
/// A process plays for less than this before it is killed; one that plays palettes for less, since its
/// film is shorter.
const LONGEST: Duration = Duration::from_micros(1000);
const COLOUR_LONGEST: Duration = Duration::from_micros(300);
/// A process that has not begun its first step by then, or not ended when it is let, hangs.
const LIMIT: Duration = Duration::from_secs(60);
/// The signal that kills.
const SIGKILL: i32 = 9;

/// What was done, and seen.
#[derive(Clone, Copy, Debug, Default, PartialEq, Eq)]
pub struct Killed {
    /// Processes killed.
    pub kills: usize,
    /// Of them, inside a step.
    pub inside: usize,
    /// Of these, with some blocks of a frame finished and some not.
    pub drawing: usize,
    /// Of these, with a palette changed in part: some of its stores made and some not.
    pub colouring: usize,
    /// Films played to their end.
    pub films: usize,
    /// Pictures sent.
    pub sent: usize,
    /// Of them, again, since the first time was not saved.
    pub again: usize,
    /// Sends cut off.
    pub cut_off: usize,
}

/// How a player goes on.
#[derive(Clone, Copy, Debug, PartialEq, Eq)]
pub enum Player {
    /// From the place that is kept.
    Right,
    /// With the frame anew, from its first block: wrong, since blocks would then be copied from what
    /// was drawn over already.
    BeginsAnew,
}

impl Player {
    /// The player that is called so.
    pub fn named(name: &str) -> Option<Player> {
        [Player::Right, Player::BeginsAnew].into_iter().find(|player| player.name() == name)
    }

    fn name(self) -> String {
        format!("{self:?}")
    }
}

/// The process that is killed: plays a film from the saved state on and sends its pictures to its
/// standard output.
pub fn play(player: Player, film: &str, allowed: usize) -> io::Result<()> {
    let film = fs::read(film)?;
    let mut output = File::from(io::stdout().as_fd().try_clone_to_owned()?);
    let kept = Kept::<LENT>::given()?;
    if player == Player::BeginsAnew {
        kept.place = 0;
    }
    stopped::walk(CallForm::Default, kept, &film, allowed, Kept::save, |kept, next| {
        let position = (next.position as u64).to_le_bytes();
        let picture = mve::shown(next, &kept.a, &kept.b);
        let [c, d, e] = &kept.words;
        let words = mve::shown_words(next, c, d, e).iter().flat_map(|word| word.to_le_bytes());
        let words: Vec<u8> = words.collect();
        let bytes = [&position[..], &kept.palette, picture, &words].concat();
        bytes.chunks(PIECE).try_for_each(|piece| output.write_all(piece))
    })?;
    Ok(())
}

/// What the film of a player is rich in.
#[derive(Clone, Copy, Debug, PartialEq, Eq)]
pub enum Rich {
    /// Every kind of block.
    Blocks,
    /// Palettes of every kind, and sends.
    Palettes,
    /// Every kind of block with true colour.
    Words,
}

impl Rich {
    fn film(self, rng: &mut Seeded) -> Film {
        match self {
            Rich::Blocks => film(rng),
            Rich::Palettes => film_of_palettes(rng),
            Rich::Words => film_of_words(rng),
        }
    }

    fn longest(self) -> Duration {
        match self {
            Rich::Blocks | Rich::Words => LONGEST,
            Rich::Palettes => COLOUR_LONGEST,
        }
    }

    fn allowances(self) -> [usize; 6] {
        match self {
            Rich::Blocks | Rich::Words => ALLOWANCES,
            Rich::Palettes => COLOUR_ALLOWANCES,
        }
    }
}

/// A film in which a player is mostly in a palette or sends.
fn film_of_palettes(rng: &mut Seeded) -> Film {
    let mut chunks = vec![made::chunk(vec![init_video(SIZE)])];
    let long = [Change::Longest, Change::AllEntries, Change::AllMasks];
    for _ in 0..COLOUR_FRAMES {
        let [map, video, send] = made::frame(rng, SIZE, Profile::Only(Form::Solid), 0);
        chunks.push(made::chunk(vec![map, video]));
        for number in 0..PALETTES {
            // A map may be any: the next frame brings its own.
            let change = if number % 4 == 3 { rng.pick(&Change::ALL) } else { rng.pick(&long) };
            chunks.push(made::chunk(vec![change.opcode(rng)]));
        }
        chunks.push(made::chunk(vec![send]));
    }
    Film { size: SIZE, stream: NO_STREAM, chunks, tail: Vec::new() }
}

/// A film of every kind of block, and of palettes that change.
fn film(rng: &mut Seeded) -> Film {
    let mut chunks = vec![made::chunk(vec![init_video(SIZE)])];
    for frame in 1..=FRAMES {
        let profile = Profile::MANY[frame % Profile::MANY.len()];
        let over = rng.below(2); // half of the packets are padded
        let [map, video, send] = made::frame(rng, SIZE, profile, over);
        let mut opcodes = vec![map, video];
        if frame % SENT == 0 {
            opcodes.extend([made::gradients(rng), made::set_palette(rng)]);
            opcodes.extend([made::set_palette_compressed(rng), send]);
        }
        chunks.push(made::chunk(opcodes));
    }
    Film { size: SIZE, stream: NO_STREAM, chunks, tail: Vec::new() }
}

/// The same with true colour, so that each of the three pictures is drawn on and sent.
fn film_of_words(rng: &mut Seeded) -> Film {
    let mut chunks = vec![made::chunk(vec![made::init_words(SIZE)])];
    for frame in 1..=FRAMES {
        let profile = WordProfile::MANY[frame % WordProfile::MANY.len()];
        let over = rng.below(2);
        let [map, video, send] = made::word_frame(rng, SIZE, profile, over);
        let mut opcodes = vec![map, video];
        if frame % SENT == 0 {
            opcodes.extend([made::gradients(rng), made::set_palette(rng), send]);
        }
        chunks.push(made::chunk(opcodes));
    }
    Film { size: SIZE, stream: NO_STREAM, chunks, tail: Vec::new() }
}

/// Plays a film again and again, until players have been killed so often; the last one is let play to
/// the end. Every picture that was sent is compared with the second decoder's.
pub fn kill(program: &Path, player: Player, seed: u64, kills: usize) -> io::Result<Killed> {
    kill_in(program, player, Rich::Blocks, seed, kills)
}

/// The same of a film that is rich in something.
pub fn kill_in(
    program: &Path,
    player: Player,
    rich: Rich,
    seed: u64,
    kills: usize,
) -> io::Result<Killed> {
    let rng = &mut Seeded::new(seed);
    let bytes = rich.film(rng).bytes();
    let film = Stored::new(&bytes)?;
    let steps = cases::steps(CallForm::Default, &bytes, NO_STREAM, made::memory(rng, LENT));
    let sent = pictures(&steps);
    let mut killed = Killed::default();
    while killed.kills < kills {
        if killed.films > 4 * kills + 20 {
            return Err(io::Error::other(format!(
                "films end before players are killed: {killed:?}"
            )));
        }
        let mut shared = Shared::new(&steps[0].before)?;
        let mut receiver = Receiver::new(&sent);
        loop {
            let allowed = rng.pick(&rich.allowances()).to_string();
            let mut command = Command::new(program);
            command.args(["--play", &player.name()]).arg(&film.0).arg(allowed);
            let nanos = rng.below(rich.longest().as_nanos() as usize) as u64;
            let time = (killed.kills < kills).then_some(Duration::from_nanos(nanos));
            let run = run(command, &shared, time)?;
            receiver.take(&run.output, &mut killed).map_err(io::Error::other)?;
            if !run.killed {
                break;
            }
            killed.kills += 1;
            look(&bytes, &steps, &mut shared, &mut killed).map_err(io::Error::other)?;
        }
        receiver.end().map_err(io::Error::other)?;
        killed.films += 1;
    }
    Ok(killed)
}

/// A film in a file, which goes when it is dropped.
struct Stored(PathBuf);

impl Stored {
    fn new(bytes: &[u8]) -> io::Result<Stored> {
        static STORED: AtomicUsize = AtomicUsize::new(0);
        let number = STORED.fetch_add(1, Ordering::Relaxed);
        let path = env::temp_dir().join(format!("stops-{}-{number}.mve", process::id()));
        fs::write(&path, bytes)?;
        Ok(Stored(path))
    }
}

impl Drop for Stored {
    fn drop(&mut self) {
        let _ = fs::remove_file(&self.0); // nobody asks for it any more
    }
}

/// How a process went.
struct Run {
    killed: bool,
    output: Vec<u8>,
}

/// Starts a player, and kills it so long after its first step began, if it has not ended then; or, if
/// no time is given, when it should long have ended.
fn run(mut command: Command, shared: &Shared<LENT>, time: Option<Duration>) -> io::Result<Run> {
    let calls = shared.calls_now()?;
    // Sent to memory, not to a pipe: a player that waits to send is not inside a step.
    let mut sent = ffi::memory(0)?;
    let mut child = command.stdin(shared.file()?).stdout(sent.try_clone()?).spawn()?;
    let start = Instant::now();
    let mut waits = || Ok::<_, io::Error>(child.try_wait()?.is_none() && start.elapsed() < LIMIT);
    while waits()? && shared.calls_now()? == calls {
        thread::yield_now();
    }
    match time {
        Some(time) => thread::sleep(time),
        None => {
            while waits()? {
                thread::sleep(Duration::from_millis(1));
            }
        }
    }
    child.kill()?;
    let status = child.wait()?;
    let mut output = Vec::new();
    sent.rewind()?;
    sent.read_to_end(&mut output)?;
    match (status.code(), status.signal()) {
        (Some(0), _) => Ok(Run { killed: false, output }),
        (_, Some(SIGKILL)) if time.is_some() => Ok(Run { killed: true, output }),
        _ => Err(io::Error::other(format!("the player went wrong: {status}"))),
    }
}

/// Looks at what a kill left: a prefix of the stores that the step was to make.
fn look(
    film: &[u8],
    steps: &[Step],
    shared: &mut Shared<LENT>,
    killed: &mut Killed,
) -> Result<(), String> {
    shared.look().map_err(|error| error.to_string())?;
    let left = shared.memory();
    let Step { state, before, .. } = &steps[cases::at(steps, left.state)?];
    let stores = list::step(film, state, before);
    Prefix::new(before.clone(), &stores).reach(&left)?;
    let in_step = shared.in_call();
    let is_colour = |store: &Store| matches!(store, Store::Palette { .. } | Store::Black { .. });
    let in_palette = stores.first().is_some_and(is_colour);
    let mut after = before.clone();
    stores.iter().for_each(|&store| after.make(store));
    let in_part = left.palette != before.palette && left.palette != after.palette;
    killed.colouring += usize::from(in_step && in_palette && in_part);
    let in_drawing =
        list::packet_at(film, state).is_some() && (1..SIZE.blocks()).contains(&left.place);
    killed.inside += usize::from(in_step);
    killed.drawing += usize::from(in_step && in_drawing);
    Ok(())
}

/// The pictures that a film sends, as a player sends them: by opcode 07, where a frame is unsent.
fn pictures(steps: &[Step]) -> Vec<Vec<u8>> {
    let sends = steps.windows(2).filter(|two| two[0].state.unsent && !two[1].state.unsent);
    let picture = |two: &[Step]| {
        let Step { state, before: after, .. } = &two[1];
        let position = (state.position as u64).to_le_bytes();
        let picture = match state.true_colour {
            false => after.pictures[state.front].clone(),
            true => after.words[state.front].iter().flat_map(|word| word.to_le_bytes()).collect(),
        };
        [&position[..], &after.palette, &picture].concat()
    };
    sends.map(picture).collect()
}

/// What receives the pictures of a film: it must get each, in order. A process may begin with the
/// picture that the one before it sent last, and did not save that it had.
struct Receiver<'a> {
    expected: &'a [Vec<u8>],
    got: usize,
}

impl Receiver<'_> {
    fn new(expected: &[Vec<u8>]) -> Receiver<'_> {
        Receiver { expected, got: 0 }
    }

    /// Takes what one process sent. A send that was cut off counts for nothing.
    fn take(&mut self, output: &[u8], killed: &mut Killed) -> Result<(), String> {
        let pictures = output.chunks_exact(self.expected[0].len());
        killed.cut_off += usize::from(!pictures.remainder().is_empty());
        for (number, picture) in pictures.enumerate() {
            let is_again = number == 0 && self.got > 0 && picture == self.expected[self.got - 1];
            if is_again {
                killed.again += 1;
            } else if self.expected.get(self.got).is_some_and(|expected| expected == picture) {
                self.got += 1;
            } else {
                return Err(format!("not picture {} of the second decoder", self.got));
            }
            killed.sent += 1;
        }
        Ok(())
    }

    /// The film has ended.
    fn end(self) -> Result<(), String> {
        match self.expected.len() - self.got {
            0 => Ok(()),
            lost => Err(format!("{lost} pictures were not sent")),
        }
    }
}

#[cfg(test)]
mod tests {
    use super::*;

    /// What each process sent, of three pictures of four bytes: whether it is taken, and how many
    /// were sent again and cut off.
    fn received(processes: &[&[u8]]) -> Result<(usize, usize), String> {
        let expected = [b"aaaa", b"bbbb", b"cccc"].map(|picture| picture.to_vec());
        let mut receiver = Receiver::new(&expected);
        let mut killed = Killed::default();
        for output in processes {
            receiver.take(output, &mut killed)?;
        }
        receiver.end().map(|()| (killed.again, killed.cut_off))
    }

    #[test]
    fn all_pictures_in_order() {
        assert_eq!(received(&[b"aaaabbbbcccc"]), Ok((0, 0)));
        assert_eq!(received(&[b"aaaab", b"", b"bbbb", b"bbbbcc", b"cccc"]), Ok((1, 2)));
    }

    #[test]
    fn lost_torn_and_surplus_pictures() {
        for output in [&b""[..], b"aaaabbbb", b"aaaacccc", b"bbbbcccc", b"aaaabbbbccc"] {
            assert!(received(&[output]).is_err(), "{output:?}");
        }
        assert!(received(&[b"aaaabbba", b"bbbbcccc"]).is_err(), "torn");
        assert!(received(&[b"aaaaaaaabbbbcccc"]).is_err(), "twice by one process");
        assert!(received(&[b"aaaabbbbcccc", b"bbbb"]).is_err(), "an earlier one again");
        assert!(received(&[b"aaaabbbbcccc", b"ccccdddd"]).is_err(), "one too many");
    }
}
