//! Times of saving what is left of scratched films, beside a copy of the film: from 1 KiB to 64 MiB, every
//! new film and every list compared.

use crate::measure::timed;
use crate::program::{MEMCPY, SALVAGE};
use maker::film::{Chunk, Opcode, HEADER};
use maker::Seeded;
use reference::salvage::{salvage, NUMBERS};
use std::hint::black_box;
use std::time::Duration;

/// Bytes of a film, at least: each four times the one before.
pub const SIZES: [usize; 9] =
    [1 << 10, 1 << 12, 1 << 14, 1 << 16, 1 << 18, 1 << 20, 1 << 22, 1 << 24, 1 << 26];
/// Films above this are saved in few rounds, and not at all where times do not count.
pub const LONG: usize = 1 << 20;
/// Rounds of long films.
pub const LONG_ROUNDS: usize = 10;
/// One chunk of so many is scratched.
const SCRATCHED: usize = 8;

/// What the chunks are.
#[derive(Clone, Copy, Debug, PartialEq, Eq)]
pub enum Chunks {
    /// A frame each: a map, a packet, its sending and the chunk's end.
    Frames,
    /// One opcode that has no body: the most heads for so many bytes.
    Small,
}

impl Chunks {
    /// What the table calls them.
    pub fn name(self) -> &'static str {
        match self {
            Chunks::Frames => "frames",
            Chunks::Small => "small",
        }
    }

    fn make(self, rng: &mut Seeded) -> Chunk {
        let mut opcodes = Vec::new();
        if rng.one_in(SCRATCHED) {
            opcodes.push(Opcode::new(0x06, 0, Vec::new()));
        }
        match self {
            Chunks::Frames => {
                let length = rng.between(100, 700);
                opcodes.push(Opcode::new(0x0F, 0, rng.bytes(24)));
                opcodes.push(Opcode::new(0x11, 0, rng.bytes(14 + length)));
                opcodes.push(Opcode::new(0x07, 0, vec![0; 4]));
                opcodes.push(Opcode::new(0x01, 0, Vec::new()));
            }
            Chunks::Small => opcodes.push(Opcode::new(0x02, 0, Vec::new())),
        }
        Chunk { opcodes, ..Chunk::default() }
    }
}

/// A film, what is left of it by the second program, and the least times up to now.
pub struct Salvages {
    /// What its chunks are.
    pub chunks: Chunks,
    seed: u64,
    film: Vec<u8>,
    new: Vec<u8>,
    numbers: Vec<usize>,
    room: Vec<u8>,
    list: Vec<usize>,
    /// Of the copy and of the call.
    least: [Duration; 2],
}

impl Salvages {
    /// Films of each kind in each size; without times that count, those that are not long.
    pub fn all(seed: u64, is_timed: bool) -> Result<Vec<Salvages>, String> {
        let sizes = SIZES.into_iter().filter(|&size| is_timed || size <= LONG);
        let kinds = [Chunks::Frames, Chunks::Small];
        sizes.flat_map(|size| kinds.map(|kind| Salvages::new(kind, size, seed))).collect()
    }

    fn new(chunks: Chunks, size: usize, seed: u64) -> Result<Salvages, String> {
        let rng = &mut Seeded::new(seed);
        let mut film = HEADER.to_vec();
        while film.len() < size {
            film.extend(chunks.make(rng).bytes());
        }
        let saved =
            salvage(&film, usize::MAX, usize::MAX).map_err(|refusal| refusal.to_string())?;
        let (numbers, new) = (saved.numbers(), saved.film);
        let (room, list) = (vec![0; film.len() + 8], vec![0; numbers.len()]);
        let least = [Duration::MAX; 2];
        Ok(Salvages { chunks, seed, film, new, numbers, room, list, least })
    }

    /// The copy and the call once; another is the first in each round.
    pub fn round(&mut self, round: usize) -> Result<(), String> {
        if self.film.len() > 2 * LONG && round >= LONG_ROUNDS {
            return Ok(());
        }
        for which in [round % 2, (round + 1) % 2] {
            let time = match which {
                0 => self.copy(),
                _ => self.save()?,
            };
            self.least[which] = time.min(self.least[which]);
        }
        Ok(())
    }

    fn copy(&mut self) -> Duration {
        let Salvages { film, room, .. } = self;
        timed(|| black_box(&mut room[..film.len()]).copy_from_slice(black_box(film))).1
    }

    fn save(&mut self) -> Result<Duration, String> {
        self.list.fill(0);
        let Salvages { film, room, list, .. } = self;
        let (told, time) = timed(|| mve::salvage(black_box(film), black_box(room), list));
        let wrong = |what: &str| {
            let (chunks, bytes, seed) = (self.chunks.name(), self.film.len(), self.seed);
            format!("seed {seed}, a film of {chunks}, {bytes} bytes: {what}")
        };
        let told = told.map_err(|refusal| wrong(&refusal.to_string()))?;
        if self.room[..told.bytes] != self.new || self.list != self.numbers {
            return Err(wrong("not what the second program saves"));
        }
        Ok(time)
    }

    /// Bytes of the film.
    pub fn bytes(&self) -> usize {
        self.film.len()
    }

    /// Chunks left out.
    pub fn left_out(&self) -> usize {
        self.numbers.len() / NUMBERS
    }

    /// Nanoseconds by program.
    pub fn measured(&self) -> [(&'static str, f64); 2] {
        let [copy, save] = self.least.map(|time| time.as_nanos() as f64);
        [(MEMCPY, copy), (SALVAGE, save)]
    }
}

#[cfg(test)]
mod tests {
    use super::*;

    /// Another new film, and another list, are found.
    #[test]
    fn differences() {
        let salvages = || Salvages::new(Chunks::Frames, 5000, 1).expect("a film");
        assert_eq!(salvages().round(0), Ok(()));
        let mut wrong = salvages();
        wrong.new[30] ^= 1;
        assert!(wrong.round(0).is_err());
        let mut wrong = salvages();
        assert!(wrong.left_out() > 0);
        wrong.numbers[0] += 1;
        assert!(wrong.round(0).is_err());
    }
}
