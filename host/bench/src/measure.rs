//! Rounds over the frames of a kind: every program is timed, every picture compared.

use crate::fault::{same_picture, Fault};
use crate::kind::{frames, Kind, PRIMERS};
use crate::program::{draw_second, programs, zeros, Program, SECOND};
use maker::{Packet, Size};
use std::time::{Duration, Instant};

/// A kind's programs, and their times up to now.
pub struct Bench {
    name: &'static str,
    size: Size,
    seed: u64,
    /// The picture of each frame, by the second decoder.
    wanted: Vec<Vec<u8>>,
    programs: Vec<Box<dyn Program>>,
    /// The least time of each program on each frame.
    least: Vec<Vec<Duration>>,
}

impl Bench {
    /// The programs at the first frame.
    pub fn new(kind: Kind, seed: u64) -> Result<Bench, Fault> {
        let frames = frames(kind, seed);
        let wanted = wanted(kind, seed, &frames)?;
        Ok(Bench::of((kind.name, kind.size), seed, wanted, programs(kind.size, &frames)))
    }

    /// These programs at the first frame of a kind of this name and size, which gives these pictures.
    pub fn of(
        (name, size): (&'static str, Size),
        seed: u64,
        wanted: Vec<Vec<u8>>,
        programs: Vec<Box<dyn Program>>,
    ) -> Bench {
        let least = vec![vec![Duration::MAX; wanted.len()]; programs.len()];
        Bench { name, size, seed, wanted, programs, least }
    }

    /// Each program takes the frames once, one program after the other; another is the first in
    /// each round. A program has its frames in a row, so that its pictures are in the cache as far
    /// as they would be if it ran alone.
    pub fn round(&mut self, round: usize) -> Result<(), Fault> {
        let count = self.programs.len();
        for which in (0..count).map(|turn| (round + turn) % count) {
            let program = &mut self.programs[which];
            for (number, least) in self.least[which].iter_mut().enumerate() {
                let frame = frame_text(self.name, self.seed, number);
                let (taken, time) = timed(|| program.run(number));
                taken.map_err(|why| Fault::not_taken(&frame, program.name(), why))?;
                *least = time.min(*least);
                let (name, wanted) = (program.name(), &self.wanted[number][..]);
                if let Some(picture) = program.picture() {
                    same_picture(&frame, self.size, (name, picture), (SECOND, wanted))?;
                }
            }
        }
        Ok(())
    }

    /// What the rounds up to now come to.
    pub fn measured(&self) -> Measured {
        let pixels = self.size.pixels() as f64;
        let time = |least: &Vec<Duration>| {
            let least = least[PRIMERS..].iter().map(|time| time.as_nanos() as f64);
            least.clone().sum::<f64>() / least.count() as f64 / pixels
        };
        let names = self.programs.iter().map(|program| program.name());
        let times = names.zip(self.least.iter().map(time)).collect();
        Measured { name: self.name, size: self.size, times }
    }
}

/// What was measured of a kind.
pub struct Measured {
    /// The kind's name.
    pub name: &'static str,
    /// The size of its frames.
    pub size: Size,
    /// Nanoseconds a pixel by program: the least time of each frame, their mean.
    pub times: Vec<(&'static str, f64)>,
}

impl Measured {
    /// Nanoseconds a pixel of a program, if it was there.
    pub fn of(&self, program: &str) -> Option<f64> {
        self.times.iter().find(|(name, _)| *name == program).map(|&(_, time)| time)
    }

    /// The time of one program by that of another.
    pub fn ratio(&self, one: &str, other: &str) -> Option<f64> {
        Some(self.of(one)? / self.of(other)?)
    }
}

/// What it gives, and how long it took.
pub fn timed<T>(run: impl FnOnce() -> T) -> (T, Duration) {
    let start = Instant::now();
    let given = run();
    (given, start.elapsed())
}

/// The pictures of the frames. The primers read none, so they are the same in every round.
fn wanted(kind: Kind, seed: u64, frames: &[Packet]) -> Result<Vec<Vec<u8>>, Fault> {
    let mut pictures = zeros(kind.size);
    let mut wanted = Vec::new();
    for (number, frame) in frames.iter().enumerate() {
        let drawn = draw_second(frame, &mut pictures);
        drawn.map_err(|why| Fault::not_taken(&frame_text(kind.name, seed, number), SECOND, why))?;
        pictures.swap();
        wanted.push(pictures.front.clone());
    }
    Ok(wanted)
}

/// What a frame is called in a fault.
pub fn frame_text(kind: &str, seed: u64, number: usize) -> String {
    format!("seed {seed}, kind {kind}, frame {number}")
}

#[cfg(test)]
mod tests {
    use super::*;
    use crate::kind::MIX;

    /// The last of the programs, wrong in one frame.
    struct Wrong {
        right: Box<dyn Program>,
        at: Option<usize>,
        picture: Vec<u8>,
    }

    impl Program for Wrong {
        fn name(&self) -> &'static str {
            "wrong"
        }

        fn run(&mut self, number: usize) -> Result<(), String> {
            let Some(at) = self.at else { return Err("refused".to_owned()) };
            self.right.run(number)?;
            self.picture = self.right.picture().expect("a picture").to_vec();
            if number == 3 {
                self.picture[at] ^= 0xFF;
            }
            Ok(())
        }

        fn picture(&mut self) -> Option<&[u8]> {
            Some(&self.picture)
        }
    }

    fn fault(at: Option<usize>) -> String {
        let kind = MIX.sized(Size::new(4, 3));
        let mut bench = Bench::new(kind, 7).expect("valid frames");
        bench.round(0).expect("programs that agree");
        let right = bench.programs.pop().expect("programs");
        bench.programs.push(Box::new(Wrong { right, at, picture: Vec::new() }));
        bench.round(1).expect_err("a program that does not").to_string()
    }

    #[test]
    fn faults_are_found() {
        let different = fault(Some(32 * 9 + 17));
        assert!(different.starts_with("seed 7, kind mix, frame 3, block 6: "), "{different}");
        assert!(different.contains("pixel (17, 9) is "), "{different}");
        assert!(different.contains(" by wrong, "), "{different}");
        let not_taken = fault(None);
        assert!(not_taken.starts_with("seed 7, kind mix, frame 0: "), "{not_taken}");
        assert!(not_taken.ends_with("by wrong: refused"), "{not_taken}");
    }
}
