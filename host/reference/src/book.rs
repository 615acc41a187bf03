//! The book of demand 3 (01, "Book of demand 3"): what a list of drawing calls must leave and
//! answer, worked out without drawing.
//!
//! Drawing reads memory as its own earlier stores left it. The book does not: it works out the
//! frame once, from the pictures as the list of calls finds them, and every call stores values of
//! that frame. That both come to the same is what demand 3 claims, for any allowances and cuts.
//! The claim is about lists whose accepted calls all have one packet, map, size and front; with true
//! colour also one oldest picture (02, W7).

use crate::frame::{FrameSize, BLOCK_PIXELS};
use crate::packet::{self, Block, CallForm, Drawn};
use crate::refusal::Refusal;
use crate::word_packet::{self, WordBlock};

/// One drawing call as the book is fed it. A call cut at j is fed as one allowed j.
#[derive(Clone, Copy, Debug)]
pub struct Call<'a> {
    /// Its form. Demand 3 reads the default (02, W6); the strict form keeps it, too.
    pub form: CallForm,
    /// Blocks in a row of the frame.
    pub columns: usize,
    /// Rows of blocks.
    pub rows: usize,
    /// The map, one nibble a block.
    pub map: &'a [u8],
    /// The packet's data.
    pub data: &'a [u8],
    /// The shown picture.
    pub front: &'a [u8],
    /// Stores allowed.
    pub allowed: usize,
}

/// One drawing call of words, likewise.
#[derive(Clone, Copy, Debug)]
pub struct WordCall<'a> {
    /// Its form.
    pub form: CallForm,
    /// Blocks in a row of the frame.
    pub columns: usize,
    /// Rows of blocks.
    pub rows: usize,
    /// The map, one nibble a block.
    pub map: &'a [u8],
    /// The packet with its offset word.
    pub packet: &'a [u8],
    /// The shown picture.
    pub last: &'a [u16],
    /// The picture before it.
    pub oldest: &'a [u16],
    /// Stores allowed.
    pub allowed: usize,
}

/// The book, kept over a list of calls that draw on a picture of bytes or of words.
#[derive(Clone, Debug)]
pub struct Book<P> {
    /// The picture drawn on as the list of calls finds it.
    found: Vec<P>,
    /// The picture drawn on as the calls up to now leave it.
    picture: Vec<P>,
    /// The place as the calls up to now leave it; 0 at first.
    place: usize,
}

impl<P: Copy> Book<P> {
    /// Opens the book for a list of calls that finds this picture, and the place 0.
    pub fn open(found: &[P]) -> Book<P> {
        Book { found: found.to_vec(), picture: found.to_vec(), place: 0 }
    }

    /// The picture drawn on, after the calls entered.
    pub fn picture(&self) -> &[P] {
        &self.picture
    }

    /// The place, after the calls entered.
    pub fn place(&self) -> usize {
        self.place
    }

    /// Makes the stores of a call: of each block from the place on its pixels, which stand at these indices,
    /// each with its value in the decoded frame, then the place. How many were made.
    fn make(&mut self, blocks: &[Vec<usize>], frame: &[P], allowed: usize) -> usize {
        let mut left = allowed;
        for (number, pixels) in blocks.iter().enumerate().skip(self.place) {
            for &index in pixels {
                if left == 0 {
                    return allowed;
                }
                self.picture[index] = frame[index];
                left -= 1;
            }
            if left == 0 {
                return allowed;
            }
            self.place = number + 1;
            left -= 1;
        }
        allowed - left
    }
}

impl Book<u8> {
    /// Enters one call: makes the stores that are due of it and gives its answer. A call that
    /// meets a refusal makes none.
    pub fn enter(&mut self, call: &Call<'_>) -> Result<Drawn, Refusal> {
        let size = FrameSize::new(call.columns, call.rows)?;
        let blocks = packet::accepted_blocks(
            call.form,
            size,
            call.map,
            call.data,
            call.front,
            &self.found,
            self.place,
        )?;
        let frame = decoded(size, &blocks, call.front, &self.found);
        let pixels = |block: &Block<'_>| {
            (0..block.pixel_stores()).map(|i| block.target(size, i)).collect::<Vec<_>>()
        };
        let listed: Vec<_> = blocks.iter().map(pixels).collect();
        let stores = self.make(&listed, &frame, call.allowed);
        Ok(Drawn::new(&blocks, self.place, stores))
    }
}

impl Book<u16> {
    /// Enters one call of words, likewise.
    pub fn enter_words(&mut self, call: &WordCall<'_>) -> Result<Drawn, Refusal> {
        let WordCall { form, columns, rows, map, packet, last, oldest, allowed } = *call;
        let size = FrameSize::new(columns, rows)?;
        let pictures = [last, oldest, &self.found[..]];
        let blocks = word_packet::accepted_words(form, size, map, packet, pictures, self.place)?;
        let frame = decoded_words(size, &blocks, last, oldest, &self.found);
        let pixels = |block: &WordBlock| {
            (0..BLOCK_PIXELS).map(|i| block.target(size, i)).collect::<Vec<_>>()
        };
        let listed: Vec<_> = blocks.iter().map(pixels).collect();
        let stores = self.make(&listed, &frame, allowed);
        Ok(word_packet::words_drawn(size, rows, self.place, stores))
    }
}

/// The picture of demand 2: each block drawn once, in order, on the picture that was found.
fn decoded(size: FrameSize, blocks: &[Block<'_>], front: &[u8], found: &[u8]) -> Vec<u8> {
    let mut picture = found.to_vec();
    for block in blocks {
        for i in 0..block.pixel_stores() {
            picture[block.target(size, i)] = block.value(size, i, front, &picture);
        }
    }
    picture
}

/// The same in words.
fn decoded_words(
    size: FrameSize,
    blocks: &[WordBlock],
    last: &[u16],
    oldest: &[u16],
    found: &[u16],
) -> Vec<u16> {
    let mut picture = found.to_vec();
    for block in blocks {
        for i in 0..BLOCK_PIXELS {
            picture[block.target(size, i)] = block.value(size, i, last, oldest, &picture);
        }
    }
    picture
}
