//! What a page tells of pixels: each one's origin, asked of the library when the page is made.

use crate::chain::last_on;
use crate::drawings::Drawing;
use crate::progress::Progress;
use mve::{Origin, Traced};
use std::ops::Range;
use std::thread;

/// The drawings that a page goes back over, its own among them.
pub const DRAWINGS: usize = 32;
/// Where so many pixels were asked for, no further drawing is looked into.
pub const PIXELS: usize = 1 << 20;

const BLOCK_PIXELS: usize = 64;

/// A drawing, and what is told of its pixels.
pub struct Told {
    /// Which of the film's drawings it is.
    pub number: usize,
    /// Block by block, 64 pixels each, row by row. None: no chain leads there.
    pub traced: Vec<Option<Traced>>,
}

impl Told {
    fn new(number: usize, drawing: &Drawing<'_>) -> Told {
        Told { number, traced: vec![None; drawing.pixels()] }
    }

    fn has(&self, block: usize) -> bool {
        self.traced[BLOCK_PIXELS * block].is_some()
    }

    /// Tells these blocks, and those of the same picture that their chains lead to. How many pixels.
    fn tell(&mut self, drawing: &Drawing<'_>, blocks: &[bool]) -> usize {
        let mut wanted = numbers(blocks);
        let mut count = 0;
        while !wanted.is_empty() {
            let answers = ask(drawing, &wanted);
            count += answers.len();
            for (block, answers) in wanted.iter().zip(answers.chunks(BLOCK_PIXELS)) {
                self.traced[pixels_of(*block)].copy_from_slice(answers);
            }
            let mut next = vec![false; drawing.blocks()];
            mark(drawing, &answers, &mut next, |origin| match origin {
                Origin::New { x, y } => Some((x, y)),
                _ => None,
            });
            wanted = numbers(&next).into_iter().filter(|block| !self.has(*block)).collect();
        }
        count
    }
}

/// The last drawing, told whole, and earlier ones as far as its chains lead there: the last one first.
pub fn told(drawings: &[Drawing<'_>]) -> Vec<Told> {
    let mut wanted: Vec<Vec<bool>> =
        drawings.iter().map(|drawing| vec![false; drawing.blocks()]).collect();
    let (mut all, mut asked) = (Vec::new(), 0);
    if let Some(last) = wanted.last_mut() {
        last.fill(true);
    }
    let mut progress = Progress::new();
    for (number, drawing) in drawings.iter().enumerate().rev().take(DRAWINGS) {
        if asked >= PIXELS {
            break;
        }
        progress.show(asked, PIXELS, || format!("back to picture {}", drawing.picture));
        if !wanted[number].contains(&true) {
            continue;
        }
        let mut told = Told::new(number, drawing);
        asked += told.tell(drawing, &wanted[number]);
        for on in [0, 1] {
            let Some(source) = last_on(&drawings[..number], on) else { continue };
            mark(&drawings[source], &told.traced, &mut wanted[source], |origin| match origin {
                Origin::Back { x, y } if on == drawing.on => Some((x, y)),
                Origin::Front { x, y } if on != drawing.on => Some((x, y)),
                _ => None,
            });
        }
        all.push(told);
    }
    all
}

/// Marks the blocks of a drawing that hold the pixels which are picked of the origins.
fn mark(
    drawing: &Drawing<'_>,
    traced: &[Option<Traced>],
    blocks: &mut [bool],
    pick: impl Fn(Origin) -> Option<(usize, usize)>,
) {
    let (columns, rows) = drawing.size;
    for (x, y) in traced.iter().flatten().filter_map(|traced| pick(traced.origin)) {
        if x / 8 < columns && y / 8 < rows {
            blocks[y / 8 * columns + x / 8] = true;
        }
    }
}

fn numbers(blocks: &[bool]) -> Vec<usize> {
    blocks.iter().enumerate().filter_map(|(block, is_in)| is_in.then_some(block)).collect()
}

fn pixels_of(block: usize) -> Range<usize> {
    BLOCK_PIXELS * block..BLOCK_PIXELS * (block + 1)
}

/// Asks for every pixel of some blocks. The library looks over the whole packet for each, which takes
/// its time with large pictures: every processor asks for a part.
fn ask(drawing: &Drawing<'_>, blocks: &[usize]) -> Vec<Option<Traced>> {
    let processors = thread::available_parallelism().map_or(1, usize::from);
    let blank = vec![0; drawing.pixels()];
    let part = |blocks: &[usize]| -> Vec<Option<Traced>> {
        let pixels = blocks.iter().flat_map(|block| (0..BLOCK_PIXELS).map(move |at| (block, at)));
        let columns = drawing.size.0;
        let asked = pixels.map(|(block, at)| {
            let (x, y) = (block % columns * 8 + at % 8, block / columns * 8 + at / 8);
            drawing.traced(&blank, x, y).ok() // the packet was drawn, and the pixel is inside
        });
        asked.collect()
    };
    thread::scope(|scope| {
        let parts = blocks.chunks(blocks.len().div_ceil(processors).max(1));
        let threads: Vec<_> = parts.map(|blocks| scope.spawn(move || part(blocks))).collect();
        let joined = threads.into_iter().map(|thread| thread.join().unwrap_or_default());
        joined.flatten().collect()
    })
}
