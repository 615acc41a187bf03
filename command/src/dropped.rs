//! What a stripped film lacks, found by walking over both films. Which opcodes go is the library's; that
//! an opcode of the film is kept shows in the new film, where it comes next.

use crate::chunks::{chunks, opcodes, HEADER};
use crate::clock::LONGEST;
use crate::opcodes::HEAD;
use std::collections::BTreeMap;

/// The bytes of a film by what becomes of them. They add up to its length.
#[derive(Clone, Debug, Default, PartialEq, Eq)]
pub struct Dropped {
    pub header: usize,
    /// Opcodes, and the heads of their chunks.
    pub kept: usize,
    /// The opcodes dropped, by type, with their heads.
    pub kinds: BTreeMap<u8, Kind>,
    /// The heads of chunks that nothing is left of.
    pub empty: Kind,
    /// What follows the chunk with opcode 00.
    pub behind: usize,
    /// The microseconds that a picture stays by the timers (opcode 02) of the film, each where it changes. A
    /// timer that no player can follow tells nothing.
    pub timers: Vec<u64>,
}

/// How many, and how many bytes.
#[derive(Clone, Copy, Debug, Default, PartialEq, Eq)]
pub struct Kind {
    pub count: usize,
    pub bytes: usize,
}

impl Kind {
    fn add(&mut self, bytes: usize) {
        self.count += 1;
        self.bytes += bytes;
    }
}

impl Dropped {
    /// Between a film that the library has stripped, and the new one.
    pub fn between(film: &[u8], new_film: &[u8]) -> Dropped {
        let mut dropped = Dropped { header: HEADER, ..Dropped::default() };
        let mut left = chunks(new_film).flat_map(|chunk| opcodes(new_film, chunk)).peekable();
        let mut end = HEADER;
        for chunk in chunks(film) {
            end = chunk.chunk_end;
            let mut is_empty = true;
            for (state, opcode) in opcodes(film, chunk) {
                let bytes = HEAD + opcode.body.len();
                if left.next_if(|(_, next)| *next == opcode).is_some() {
                    dropped.kept += bytes;
                    is_empty = false;
                } else {
                    dropped.kinds.entry(opcode.kind).or_default().add(bytes);
                    dropped.take_timer(mve::timer(film, &state));
                }
            }
            match is_empty {
                true => dropped.empty.add(HEAD),
                false => dropped.kept += HEAD,
            }
        }
        dropped.behind = film.len() - end;
        dropped
    }

    fn take_timer(&mut self, timer: Option<u64>) {
        let timer = timer.filter(|&microseconds| microseconds <= LONGEST);
        self.timers.extend(timer.filter(|timer| self.timers.last() != Some(timer)));
    }

    /// The bytes of the film.
    pub fn sum(&self) -> usize {
        let kinds: usize = self.kinds.values().map(|kind| kind.bytes).sum();
        self.header + self.kept + kinds + self.empty.bytes + self.behind
    }
}

#[cfg(test)]
mod tests {
    use super::*;

    const START: &[u8] = b"Interplay MVE File\x1A\0\x1A\0\0\x01\x33\x11";

    /// Two equal opcodes, of which both are kept; timers, of which one tells nothing new; a chunk that
    /// nothing is left of; and two bytes behind the end.
    #[test]
    fn sums() {
        let timer = |low: u8| [6, 0, 0x02, 0, low, 0, 0, 0, 1, 0];
        let send = [0, 0, 0x0F, 0];
        let film = [
            START,
            &[38, 0, 3, 0],
            &send,
            &timer(7),
            &send,
            &timer(7),
            &timer(9),
            &[0, 0, 1, 0, 4, 0, 3, 0, 0, 0, 0x15, 1, 4, 0, 3, 0, 0, 0, 0, 0, 1, 2],
        ]
        .concat();
        let mut room = vec![0; film.len()];
        let length = mve::strip(&film, 0, &mut room).expect("a sane film");
        let dropped = Dropped::between(&film, &room[..length]);
        let kinds = [(0x02, Kind { count: 3, bytes: 30 }), (0x15, Kind { count: 1, bytes: 4 })];
        assert_eq!(dropped.kinds, kinds.into());
        assert_eq!(dropped.empty, Kind { count: 2, bytes: 8 });
        assert_eq!((dropped.kept, dropped.behind, dropped.sum()), (20, 2, film.len()));
        assert_eq!(dropped.header + dropped.kept, length);
        assert_eq!(dropped.timers, [7, 9]);
    }
}
