//! The stage, built, and machines that play a film by it.

#![allow(dead_code)] // each test file uses a part of it

use boot::judge::{expected, judge, Expected, Tally, Wrong};
use boot::machine::{Given, Machine, Start};
use boot::program::{build, Program};
use boot::report::Picture;
use boot::watchdog::{play, End, Played};
use maker::Seeded;
use std::path::{Path, PathBuf};
use std::sync::LazyLock;

/// A folder of this test file.
pub fn folder(name: &str) -> PathBuf {
    Path::new(env!("CARGO_TARGET_TMPDIR")).join(env!("CARGO_CRATE_NAME")).join(name)
}

/// The stage as it is.
pub static STAGE: LazyLock<Program> = LazyLock::new(|| build(&folder("stage"), &[]));

/// What a film gave: how it was played and what was wrong with its pictures.
pub struct Outcome {
    pub played: Played,
    pub verdict: Result<Tally, Wrong>,
    pub expected: Expected,
}

/// Plays a film from power on, with at most so many resets. `None` where QEMU cannot be had.
pub fn run(name: &str, program: &Program, film: &[u8], seed: u64, most: usize) -> Option<Outcome> {
    let given = Given { program, start: Start::Rom, film, kept: &[] };
    let mut machine = Machine::start(&folder(name), given)?;
    let played = play(&mut machine, &mut Seeded::new(seed), most);
    let expected = expected(film);
    let verdict = judge(&machine.end(), &expected.pictures);
    Some(Outcome { played, verdict, expected })
}

impl Outcome {
    /// How many starts found a drawing that was stopped in its middle.
    pub fn in_drawing(&self) -> usize {
        let blocks = self.expected.pictures.first().map_or(0, |first| first.pixels.len() / 64);
        self.played.places.iter().filter(|&&place| 0 < place && place < blocks).count()
    }

    /// What is wrong, if anything is: the film must end, and send its pictures.
    pub fn wrong(&self) -> Option<String> {
        let end = End::Ended(self.expected.pictures.len());
        match &self.verdict {
            _ if self.played.end != end => Some(format!("{:?}", self.played.end)),
            Err(wrong) => Some(format!("{wrong:?}")),
            Ok(_) => None,
        }
    }
}

/// The screen with this picture in its middle, or with none, as the bytes of a PPM file.
pub fn screen_of(picture: Option<&Picture>) -> Vec<u8> {
    const WIDTH: usize = 640;
    const HEIGHT: usize = 480;
    let colour = |x: usize, y: usize| {
        let Some(picture) = picture else { return [0; 3] };
        let (left, above) = ((WIDTH - picture.width) / 2, (HEIGHT - picture.height) / 2);
        let (column, row) = (x.wrapping_sub(left), y.wrapping_sub(above));
        let is_inside = column < picture.width && row < picture.height;
        let pixel = if is_inside { picture.pixels[row * picture.width + column] } else { 0 };
        let entry = &picture.palette[3 * usize::from(pixel)..][..3];
        // QEMU's way from 6 bits to 8
        [entry[0], entry[1], entry[2]].map(|c| c << 2 | (c & 1) << 1 | c & 1)
    };
    let pixels = (0..WIDTH * HEIGHT).flat_map(|i| colour(i % WIDTH, i / WIDTH));
    b"P6\n640 480\n255\n".iter().copied().chain(pixels).collect()
}
