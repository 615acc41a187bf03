//! The cost of a picture that is drawn by many calls.

use crate::fault::{same_picture, Fault};
use crate::kind::{frames, Kind, PRIMERS};
use crate::measure::{frame_text, timed};
use crate::program::{draw, draw_second, zeros, Pictures, ALL_STORES, DRAW, SECOND};
use maker::Packet;
use std::time::Duration;

/// Stores that a call is allowed: a block's, some blocks', a sixth of the largest frame's, all.
const ALLOWANCES: [usize; 4] = [65, 1_000, 52_000, ALL_STORES];

/// A picture by the least allowance takes thousands of calls, so it is drawn once in so many
/// rounds.
const SELDOM: usize = 4;

/// A picture drawn by calls of one allowance.
pub struct Pieces {
    /// The kind of the frame.
    pub kind: Kind,
    /// Stores allowed a call.
    pub allowed: usize,
    /// The least time of each call until the frame is whole.
    pub calls: Vec<Duration>,
}

impl Pieces {
    /// Draws the frame by as many calls as it takes.
    fn draw(&mut self, packet: &Packet, pictures: &mut Pictures) -> Result<(), String> {
        let (mut place, mut call) = (0, 0);
        loop {
            let (whole, time) = timed(|| draw(packet, pictures, &mut place, self.allowed));
            match self.calls.get_mut(call) {
                Some(least) => *least = time.min(*least),
                None => self.calls.push(time),
            }
            if whole? {
                return Ok(());
            }
            call += 1;
        }
    }
}

/// A frame of a kind, drawn by calls of each allowance.
pub struct Cuts {
    kind: Kind,
    frame: String,
    packet: Packet,
    /// The pictures as the frame finds them, and what it leaves, by the second decoder.
    found: Pictures,
    wanted: Vec<u8>,
    /// The times up to now.
    pub pieces: Vec<Pieces>,
}

impl Cuts {
    /// The first frame of a kind, with its primers drawn.
    pub fn new(kind: Kind, seed: u64) -> Result<Cuts, Fault> {
        let mut frames = frames(kind, seed);
        let packet = frames.swap_remove(PRIMERS);
        let frame = frame_text(kind.name, seed, PRIMERS);
        let second = |why| Fault::not_taken(&frame, SECOND, why);
        let mut found = zeros(kind.size);
        for primer in &frames[..PRIMERS] {
            draw_second(primer, &mut found).map_err(second)?;
            found.swap();
        }
        let mut drawn = found.clone();
        draw_second(&packet, &mut drawn).map_err(second)?;
        let pieces = ALLOWANCES.map(|allowed| Pieces { kind, allowed, calls: Vec::new() });
        Ok(Cuts { kind, frame, packet, found, wanted: drawn.back, pieces: pieces.into() })
    }

    /// Draws the frame by calls of each allowance; every picture is compared.
    pub fn round(&mut self, round: usize) -> Result<(), Fault> {
        let first = if round % SELDOM == 0 { 0 } else { 1 };
        for pieces in &mut self.pieces[first..] {
            let frame = format!("{}, {} stores a call", self.frame, pieces.allowed);
            let mut pictures = self.found.clone();
            let drawn = pieces.draw(&self.packet, &mut pictures);
            drawn.map_err(|why| Fault::not_taken(&frame, DRAW, why))?;
            let (ours, theirs) = ((DRAW, &pictures.back[..]), (SECOND, &self.wanted[..]));
            same_picture(&frame, self.kind.size, ours, theirs)?;
        }
        Ok(())
    }
}
