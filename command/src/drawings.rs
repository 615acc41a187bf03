//! The drawings of a film up to a picture that is sent: where each one's map and packet stand in the
//! film. Where a pixel comes from follows from the packets alone: pictures are held only to be shown.

use crate::messages::{Failure, Kept};
use crate::opcodes::{kind, HEAD, SKIPPED};
use crate::progress::Progress;
use crate::refusals::Refused;
use crate::walk::{Picture, Rules, Walk};
use mve::{Form, Refusal, Traced, ALL_STORES, NO_STREAM, PALETTE_BYTES};
use std::collections::VecDeque;
use std::path::Path;

/// A packet that is drawn, by an opcode 0x11.
#[derive(Clone, Copy, Debug)]
pub struct Drawing<'a> {
    /// The number of the picture that it is drawn for: the next that is sent.
    pub picture: usize,
    /// Which of the two pictures in memory it is drawn on: 0 or 1.
    pub on: usize,
    /// Blocks in a row, rows of blocks.
    pub size: (usize, usize),
    pub map: &'a [u8],
    pub packet: &'a [u8],
    /// Where the packet begins in the film.
    pub start: usize,
}

impl Drawing<'_> {
    /// How many blocks its picture has.
    pub fn blocks(&self) -> usize {
        let (columns, rows) = self.size;
        columns * rows
    }

    /// How many pixels.
    pub fn pixels(&self) -> usize {
        64 * self.blocks()
    }

    /// What the library says of a pixel. Of the pictures it tests the lengths and no more, so a blank one
    /// does, of as many pixels: no earlier picture is needed.
    pub fn traced(&self, blank: &[u8], x: usize, y: usize) -> Result<Traced, Refusal> {
        let (columns, rows) = self.size;
        mve::origin(columns, rows, self.map, self.packet, blank, blank, x, y)
    }
}

/// The picture that a packet was drawn on, afterwards.
#[derive(Clone, Debug)]
pub struct Drawn {
    /// A palette entry for each pixel, row by row.
    pub pixels: Vec<u8>,
    /// The colours at that time, 0 to 63.
    pub palette: [u8; PALETTE_BYTES],
}

/// A film that was played to a picture.
pub struct Played<'a> {
    walk: Walk<'a>,
    /// The drawings so far; the last one drew the picture that is shown.
    pub drawings: Vec<Drawing<'a>>,
    /// What the last of them left, as many as were to be held.
    pub held: VecDeque<Drawn>,
}

impl<'a> Played<'a> {
    /// Plays an 8-bit film until it sends the picture with this number, counted from 0, for this subcommand.
    pub fn to(
        path: &Path,
        film: &'a [u8],
        number: usize,
        subcommand: &'static str,
    ) -> Result<Played<'a>, Failure> {
        Played::holding(path, film, number, 0, subcommand)
    }

    /// The same, and holds so many pictures as they were drawn.
    pub fn holding(
        path: &Path,
        film: &'a [u8],
        number: usize,
        pictures: usize,
        subcommand: &'static str,
    ) -> Result<Played<'a>, Failure> {
        let refused =
            |refused: Refused, sent| Failure::Refused(path.into(), refused, Kept::OnlyBefore(sent));
        let rules = Rules { stream: NO_STREAM, form: Form::Default, allowance: ALL_STORES };
        let mut walk = Walk::open(film, rules).map_err(|why| refused(why, 0))?;
        let (mut drawings, mut held, mut sent) = (Vec::new(), VecDeque::new(), 0);
        let mut progress = Progress::new();
        while sent <= number {
            let before = *walk.state();
            let Some(passed) = walk.pass().map_err(|why| refused(why, sent))? else {
                return Err(Failure::NotSent(path.into(), sent));
            };
            if walk.state().true_colour {
                return Err(Failure::TrueColour(path.into(), subcommand));
            }
            let video = passed.opcode.filter(|opcode| opcode.kind == kind::VIDEO);
            if let (Some(video), Some((start, length))) = (video, before.map) {
                drawings.push(Drawing {
                    picture: sent,
                    on: 1 - before.front,
                    size: (before.columns, before.rows),
                    map: &film[start..start + length],
                    packet: &video.body[SKIPPED..],
                    start: before.position + HEAD + SKIPPED,
                });
                if pictures > 0 {
                    let Picture { pixels, palette, .. } = walk.drawn();
                    held.push_back(Drawn { pixels: pixels.to_vec(), palette: *palette });
                    held.drain(..held.len().saturating_sub(pictures));
                }
            }
            sent += usize::from(passed.sent);
            progress.show(before.position, film.len(), || format!("picture {sent}"));
        }
        Ok(Played { walk, drawings, held })
    }

    /// The picture that is shown.
    pub fn picture(&self) -> Picture<'_> {
        self.walk.picture()
    }
}
