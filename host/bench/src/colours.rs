//! Times of palettes: opcodes 0B, 0C and 0D over all entries, each by one step, every palette compared.

use crate::measure::timed;
use crate::program::{ALL_STORES, SECOND, STEP};
use maker::colours::Change;
use maker::film::{Chunk, Film};
use maker::{Seeded, Size};
use mve::NO_STREAM;
use reference::film as second;
use std::hint::black_box;
use std::time::Duration;

/// The opcodes that are timed: all entries by one gradient over the other, by a run, by masks.
const KINDS: [(&str, Change); 3] =
    [("0B", Change::Longest), ("0C", Change::AllEntries), ("0D", Change::AllMasks)];

/// Opcodes of each kind.
const OPCODES: usize = 16;

/// Opcodes of one kind, and the times of each program up to now.
pub struct Colours {
    /// The opcode's type.
    pub name: &'static str,
    seed: u64,
    film: Vec<u8>,
    /// Where each opcode stands in the film, the palette behind it and its stores, by the second decoder.
    opcodes: Vec<(second::State, Vec<u8>, usize)>,
    /// The least time of each program on each opcode.
    least: [Vec<Duration>; 2],
}

impl Colours {
    /// Each opcode of the palette.
    pub fn all(seed: u64) -> Result<Vec<Colours>, String> {
        KINDS.map(|(name, change)| Colours::new(name, change, seed)).into_iter().collect()
    }

    fn new(name: &'static str, change: Change, seed: u64) -> Result<Colours, String> {
        let rng = &mut Seeded::new(seed);
        let opcodes = (0..OPCODES).map(|_| change.opcode(rng)).collect();
        let chunks = vec![Chunk { opcodes, ..Chunk::default() }];
        let size = Size::new(1, 1);
        let film = Film { size, stream: NO_STREAM, chunks, tail: Vec::new() }.bytes();
        let (mut palette, mut opcodes) = (vec![0; 768], Vec::new());
        let mut state = second::open(&film, NO_STREAM).map_err(|refusal| refusal.to_string())?;
        while opcodes.len() < OPCODES {
            match second_step(&film, state, &mut palette) {
                second::Stepped::Taken(next, stores, _) => {
                    if state.position < state.chunk_end {
                        opcodes.push((state, palette.clone(), stores));
                    }
                    state = next;
                }
                other => return Err(format!("a palette by the second decoder: {other:?}")),
            }
        }
        let least = [(); 2].map(|()| vec![Duration::MAX; OPCODES]);
        Ok(Colours { name, seed, film, opcodes, least })
    }

    /// Each program takes the opcodes once; another is the first in each round.
    pub fn round(&mut self, round: usize) -> Result<(), String> {
        for which in [round % 2, (round + 1) % 2] {
            for number in 0..OPCODES {
                // All entries are stored, so nothing of this is left.
                let mut palette = vec![0xFF; 768];
                let (state, wanted, _) = &self.opcodes[number];
                let time = match which {
                    0 => self.proved(state, &mut palette),
                    _ => timed(|| second_step(&self.film, *state, black_box(&mut palette))).1,
                };
                if palette != *wanted {
                    let Colours { name, seed, .. } = self;
                    let program = [STEP, SECOND][which];
                    return Err(format!("seed {seed}, {name} {number}, by {program}: palette"));
                }
                let least = &mut self.least[which][number];
                *least = time.min(*least);
            }
        }
        Ok(())
    }

    /// A step of the proved library.
    fn proved(&self, state: &second::State, palette: &mut [u8]) -> Duration {
        let opened = mve::open(&self.film, NO_STREAM).expect("the second decoder opened it");
        let state = mve::State { position: state.position, chunk_end: state.chunk_end, ..opened };
        let (film, mut place) = (&self.film, 0);
        let form = mve::Form::Default;
        let mut step = || {
            mve::step(
                film,
                state,
                palette,
                &mut mve::Pictures::default(),
                &mut place,
                &mut [],
                ALL_STORES,
                form,
            )
        };
        timed(|| black_box(step())).1
    }

    /// Stores of an opcode; those of one kind have as many.
    pub fn stores(&self) -> usize {
        self.opcodes[0].2
    }

    /// Nanoseconds a store by program: the least time of each opcode, their mean.
    pub fn measured(&self) -> [(&'static str, f64); 2] {
        let time = |which: usize| {
            let all = self.least[which].iter().sum::<Duration>().as_nanos() as f64;
            all / (OPCODES * self.stores()) as f64
        };
        [(STEP, time(0)), (SECOND, time(1))]
    }
}

fn second_step(film: &[u8], state: second::State, palette: &mut [u8]) -> second::Stepped {
    let (picture_a, picture_b): (&mut [u8], &mut [u8]) = (&mut [], &mut []);
    let (place, room, words) = (&mut 0, &mut [], [(); 3].map(|()| &mut [][..]));
    let lent = second::Lent { palette, picture_a, picture_b, place, room, words };
    second::step(film, state, lent, ALL_STORES)
}
