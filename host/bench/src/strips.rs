//! Times of dropping what the player passes over, beside a copy of the film: from 1 KiB to 64 MiB, every new
//! film compared.

use crate::measure::timed;
use crate::program::{MEMCPY, STRIP};
use crate::salvages::{Chunks, LONG, LONG_ROUNDS, SIZES};
use maker::film::{Chunk, Opcode, HEADER};
use maker::Seeded;
use reference::strip::strip;
use std::hint::black_box;
use std::time::Duration;

/// The stream that is kept.
const STREAM: usize = 0;
/// One small chunk of so many is kept.
const KEPT: usize = 2;

/// A film, what is left of it by the second program, and the least times up to now.
pub struct Strips {
    /// What its chunks are.
    pub chunks: Chunks,
    seed: u64,
    film: Vec<u8>,
    new: Vec<u8>,
    room: Vec<u8>,
    /// Of the copy and of the call.
    least: [Duration; 2],
}

/// A frame with a timer and sound for another stream, or an opcode without a body, which is kept or not.
fn make(chunks: Chunks, rng: &mut Seeded) -> Chunk {
    let opcodes = match chunks {
        Chunks::Frames => {
            let length = rng.between(100, 700);
            let silence = [0, 0, 2, 0, 0, 1].to_vec();
            vec![
                Opcode::new(0x02, 0, rng.bytes(6)),
                Opcode::new(0x09, 0, silence),
                Opcode::new(0x0F, 0, rng.bytes(24)),
                Opcode::new(0x11, 0, rng.bytes(14 + length)),
                Opcode::new(0x07, 0, vec![0; 4]),
                Opcode::new(0x01, 0, Vec::new()),
            ]
        }
        Chunks::Small => {
            let kind = if rng.one_in(KEPT) { 0x0F } else { 0x02 };
            vec![Opcode::new(kind, 0, Vec::new())]
        }
    };
    Chunk { opcodes, ..Chunk::default() }
}

impl Strips {
    /// Films of each kind in each size; without times that count, those that are not long.
    pub fn all(seed: u64, is_timed: bool) -> Result<Vec<Strips>, String> {
        let sizes = SIZES.into_iter().filter(|&size| is_timed || size <= LONG);
        let kinds = [Chunks::Frames, Chunks::Small];
        sizes.flat_map(|size| kinds.map(|kind| Strips::new(kind, size, seed))).collect()
    }

    fn new(chunks: Chunks, size: usize, seed: u64) -> Result<Strips, String> {
        let rng = &mut Seeded::new(seed);
        let mut film = HEADER.to_vec();
        while film.len() < size {
            film.extend(make(chunks, rng).bytes());
        }
        let new = strip(&film, STREAM, usize::MAX).map_err(|refusal| refusal.to_string())?;
        let room = vec![0; film.len()];
        Ok(Strips { chunks, seed, film, new, room, least: [Duration::MAX; 2] })
    }

    /// The copy and the call once; another is the first in each round.
    pub fn round(&mut self, round: usize) -> Result<(), String> {
        if self.film.len() > 2 * LONG && round >= LONG_ROUNDS {
            return Ok(());
        }
        for which in [round % 2, (round + 1) % 2] {
            let time = match which {
                0 => self.copy(),
                _ => self.strip()?,
            };
            self.least[which] = time.min(self.least[which]);
        }
        Ok(())
    }

    fn copy(&mut self) -> Duration {
        let Strips { film, room, .. } = self;
        timed(|| black_box(room).copy_from_slice(black_box(film))).1
    }

    fn strip(&mut self) -> Result<Duration, String> {
        let Strips { film, room, .. } = self;
        let (told, time) = timed(|| mve::strip(black_box(film), STREAM, black_box(room)));
        let wrong = |what: &str| {
            let (chunks, bytes, seed) = (self.chunks.name(), self.film.len(), self.seed);
            format!("seed {seed}, a film of {chunks}, {bytes} bytes: {what}")
        };
        let length = told.map_err(|error| wrong(error.text()))?;
        match self.room[..length] == self.new {
            true => Ok(time),
            false => Err(wrong("not what the second program leaves")),
        }
    }

    /// Bytes of the film.
    pub fn bytes(&self) -> usize {
        self.film.len()
    }

    /// Bytes of the new film.
    pub fn left(&self) -> usize {
        self.new.len()
    }

    /// Nanoseconds by program.
    pub fn measured(&self) -> [(&'static str, f64); 2] {
        let [copy, strip] = self.least.map(|time| time.as_nanos() as f64);
        [(MEMCPY, copy), (STRIP, strip)]
    }
}

#[cfg(test)]
mod tests {
    use super::*;

    /// Another new film is found, and there is something to drop.
    #[test]
    fn differences() {
        for kind in [Chunks::Frames, Chunks::Small] {
            let strips = || Strips::new(kind, 5000, 1).expect("a film");
            assert!(26 < strips().left() && strips().left() < strips().bytes());
            assert_eq!(strips().round(0), Ok(()));
            let mut wrong = strips();
            wrong.new[30] ^= 1;
            assert!(wrong.round(0).is_err());
        }
    }
}
