//! What is timed.

use crate::libav;
use maker::{Packet, Size};
use std::hint::black_box;
use std::mem;

/// A copy of the whole picture.
pub const MEMCPY: &str = "memcpy";
/// The check of the proved library alone.
pub const CHECK: &str = "check";
/// The drawing call of the proved library, which checks, too.
pub const DRAW: &str = "draw";
/// The film step of the proved library, which takes a packet of sound.
pub const STEP: &str = "step";
/// The call of the proved library that saves what is left of a film.
pub const SALVAGE: &str = "salvage";
/// The call of the proved library that drops what the player passes over.
pub const STRIP: &str = "strip";
/// The call of the proved library that encodes a picture.
pub const ENCODE: &str = "encode";
/// The call of the proved library that draws a frame of Microsoft Video 1.
pub const VIDEO1: &str = "video1";
/// libavcodec's decoder.
pub const LIBAV: &str = "libavcodec";
/// The second decoder.
pub const SECOND: &str = "second";

/// The stores of the largest frame.
pub use mve::ALL_STORES;

/// A program that takes the frames of one kind, from pictures of zeros on.
pub trait Program {
    /// What the tables call it.
    fn name(&self) -> &'static str;

    /// Takes a frame, by its number: what is timed. Else why it is not taken.
    fn run(&mut self, number: usize) -> Result<(), String>;

    /// The picture of the last frame; `None` of a program that draws none.
    fn picture(&mut self) -> Option<&[u8]> {
        None
    }
}

/// Every program that is there, in the order of the tables. Each has its own copies of the packets
/// and its own pictures, so that none finds in the cache what another has just read.
pub fn programs(size: Size, frames: &[Packet]) -> Vec<Box<dyn Program>> {
    let packets = || frames.to_vec();
    let drawing = |name, draw| Drawing { name, draw, packets: packets(), pictures: zeros(size) };
    let mut programs: Vec<Box<dyn Program>> =
        vec![memcpy(size), Box::new(Check(packets())), Box::new(drawing(DRAW, draw_whole))];
    programs.extend(libav::program(size, frames));
    programs.push(Box::new(drawing(SECOND, draw_second)));
    programs
}

/// The two pictures of a player.
#[derive(Clone)]
pub struct Pictures {
    /// The one shown.
    pub front: Vec<u8>,
    /// The one drawn on.
    pub back: Vec<u8>,
}

impl Pictures {
    /// Shows what was drawn.
    pub fn swap(&mut self) {
        mem::swap(&mut self.front, &mut self.back);
    }
}

/// Pictures of zeros.
pub fn zeros(size: Size) -> Pictures {
    Pictures { front: vec![0; size.pixels()], back: vec![0; size.pixels()] }
}

/// Draws by the proved library from `place` on; whether the frame is whole.
pub fn draw(
    packet: &Packet,
    pictures: &mut Pictures,
    place: &mut usize,
    allowed: usize,
) -> Result<bool, String> {
    let Packet { columns, rows, map, data } = packet;
    let Pictures { front, back } = pictures;
    match mve::draw(*columns, *rows, map, data, front, back, place, allowed) {
        Ok(drawn) => Ok(matches!(drawn, mve::Drawn::Whole { .. })),
        Err(refusal) => Err(refusal.to_string()),
    }
}

/// Draws a frame by one call of the proved library.
pub fn draw_whole(packet: &Packet, pictures: &mut Pictures) -> Result<(), String> {
    let whole = draw(packet, pictures, &mut 0, ALL_STORES)?;
    whole.then_some(()).ok_or_else(|| "unfinished".to_owned())
}

/// Draws a frame by the second decoder.
pub fn draw_second(packet: &Packet, pictures: &mut Pictures) -> Result<(), String> {
    let Packet { columns, rows, map, data } = packet;
    let Pictures { front, back } = pictures;
    match reference::draw(*columns, *rows, map, data, front, back, &mut 0, ALL_STORES) {
        Ok(drawn) if drawn.whole => Ok(()),
        other => Err(format!("{other:?}")),
    }
}

/// The copy of a picture of this size.
pub fn memcpy(size: Size) -> Box<dyn Program> {
    Box::new(Memcpy(zeros(size)))
}

struct Memcpy(Pictures);

impl Program for Memcpy {
    fn name(&self) -> &'static str {
        MEMCPY
    }

    fn run(&mut self, _number: usize) -> Result<(), String> {
        let Pictures { front, back } = &mut self.0;
        black_box(back).copy_from_slice(black_box(front));
        self.0.swap();
        Ok(())
    }
}

struct Check(Vec<Packet>);

impl Program for Check {
    fn name(&self) -> &'static str {
        CHECK
    }

    fn run(&mut self, number: usize) -> Result<(), String> {
        let Packet { columns, rows, map, data } = &self.0[number];
        mve::check(*columns, *rows, map, data).map(|_| ()).map_err(|refusal| refusal.to_string())
    }
}

/// One of the decoders that draw on pictures that are lent to them.
struct Drawing {
    name: &'static str,
    draw: fn(&Packet, &mut Pictures) -> Result<(), String>,
    packets: Vec<Packet>,
    pictures: Pictures,
}

impl Program for Drawing {
    fn name(&self) -> &'static str {
        self.name
    }

    fn run(&mut self, number: usize) -> Result<(), String> {
        (self.draw)(&self.packets[number], &mut self.pictures)?;
        self.pictures.swap();
        Ok(())
    }

    fn picture(&mut self) -> Option<&[u8]> {
        Some(&self.pictures.front)
    }
}
