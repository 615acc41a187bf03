//! A packet of a film with true colour (02, W7): checking it, and drawing it store by store.
//!
//! It begins with a word: where its second part begins, counted from its own start. The part between has
//! the blocks' data, the second one the offsets of codes 2 to 4.

use crate::frame::{FrameSize, BLOCK_PIXELS, BLOCK_SIDE};
use crate::packet::{check_map_length, map_code, CallForm, Drawn, Rows};
use crate::refusal::{self, Refusal};
use crate::word_block::{stored, Content, Parts, Picture};

/// Bytes of the word in front.
const OFFSET: usize = 2;

/// A block of an accepted packet.
#[derive(Clone, Debug, PartialEq, Eq)]
pub struct WordBlock {
    /// Number of the block, left to right, then down.
    pub number: usize,
    /// Its code in the map.
    pub code: u8,
    /// Its leftmost pixel.
    pub x: usize,
    /// Its topmost pixel.
    pub y: usize,
    /// What its pixels become.
    pub content: Content,
}

impl WordBlock {
    /// Index in the picture of the block's pixel `i`, row by row.
    pub fn target(&self, size: FrameSize, i: usize) -> usize {
        (self.y + i / BLOCK_SIDE) * size.width() + self.x + i % BLOCK_SIDE
    }

    /// Value of the block's pixel `i`, read from the pictures as they are now.
    pub fn value(
        &self,
        size: FrameSize,
        i: usize,
        last: &[u16],
        oldest: &[u16],
        new: &[u16],
    ) -> u16 {
        stored(match &self.content {
            Content::Coloured(colours) => colours[i],
            Content::Copied(from, (dx, dy)) => {
                let from = match from {
                    Picture::Last => last,
                    Picture::New => new,
                    Picture::Oldest => oldest,
                };
                let way = dy * size.width() as isize + dx;
                let source = self.target(size, i).checked_add_signed(way);
                from[source.expect("a copy of an accepted block lies inside the picture")]
            }
        })
    }
}

/// What a packet leaves over behind its last block, in the first part and in the second.
#[derive(Clone, Copy, Debug, PartialEq, Eq)]
pub struct Left {
    /// No byte may be left there.
    pub first: usize,
    /// One may be in the default form, as W6 has it.
    pub second: usize,
}

/// Checks a packet for a frame of so many columns and rows of blocks, in the default form: 6, 10, 20, then
/// block by block 13 and 14, then 15. An accepted packet touches every row.
pub fn check_words(
    columns: usize,
    rows: usize,
    map: &[u8],
    packet: &[u8],
) -> Result<Rows, Refusal> {
    check_words_as(CallForm::Default, columns, rows, map, packet)
}

/// [`check_words`] in this form.
pub fn check_words_as(
    form: CallForm,
    columns: usize,
    rows: usize,
    map: &[u8],
    packet: &[u8],
) -> Result<Rows, Refusal> {
    let size = FrameSize::new(columns, rows)?;
    check_map_length(size, map)?;
    let (_, left) = split(size, map, packet)?;
    check_left_over(form, left)?;
    Ok(all_rows(rows))
}

/// The blocks of a packet that [`check_words`] accepts, in order.
pub fn word_blocks(
    columns: usize,
    rows: usize,
    map: &[u8],
    packet: &[u8],
) -> Result<Vec<WordBlock>, Refusal> {
    let size = FrameSize::new(columns, rows)?;
    check_map_length(size, map)?;
    let (blocks, left) = split(size, map, packet)?;
    check_left_over(CallForm::Default, left)?;
    Ok(blocks)
}

/// What a packet leaves over, whether or not so much may be; or the refusal of a check that comes before
/// 15.
pub fn words_left_over(
    columns: usize,
    rows: usize,
    map: &[u8],
    packet: &[u8],
) -> Result<Left, Refusal> {
    let size = FrameSize::new(columns, rows)?;
    check_map_length(size, map)?;
    split(size, map, packet).map(|(_, left)| left)
}

/// Draws a packet on `new`, going on from `place`, with at most `allowed` stores, in the default form: 65
/// a block, its pixels and the place. Refusals come in the order 6, 8, 10, 11, 20, 13 and 14, 15.
#[allow(clippy::too_many_arguments)] // the packet, three pictures, the place and a number
pub fn draw_words(
    columns: usize,
    rows: usize,
    map: &[u8],
    packet: &[u8],
    last: &[u16],
    oldest: &[u16],
    new: &mut [u16],
    place: &mut usize,
    allowed: usize,
) -> Result<Drawn, Refusal> {
    let form = CallForm::Default;
    draw_words_as(form, columns, rows, map, packet, last, oldest, new, place, allowed)
}

/// [`draw_words`] in this form.
#[allow(clippy::too_many_arguments)] // those of `draw_words`
pub fn draw_words_as(
    form: CallForm,
    columns: usize,
    rows: usize,
    map: &[u8],
    packet: &[u8],
    last: &[u16],
    oldest: &[u16],
    new: &mut [u16],
    place: &mut usize,
    allowed: usize,
) -> Result<Drawn, Refusal> {
    let size = FrameSize::new(columns, rows)?;
    let blocks = accepted_words(form, size, map, packet, [last, oldest, new], *place)?;
    let mut stores = 0;
    'drawing: for block in &blocks[*place..] {
        for i in 0..BLOCK_PIXELS {
            if stores == allowed {
                break 'drawing;
            }
            new[block.target(size, i)] = block.value(size, i, last, oldest, new);
            stores += 1;
        }
        if stores == allowed {
            break 'drawing;
        }
        *place = block.number + 1;
        stores += 1;
    }
    Ok(words_drawn(size, rows, *place, stores))
}

/// The answer of a call that leaves this place.
pub(crate) fn words_drawn(size: FrameSize, rows: usize, place: usize, stores: usize) -> Drawn {
    Drawn { whole: place == size.blocks(), stores, rows: Some(all_rows(rows)) }
}

/// "Every block [..] counts as touched in W2" (02).
fn all_rows(rows: usize) -> Rows {
    Rows { first: 0, last: rows - 1 }
}

/// The tests of a drawing call behind that of the size: 8, 10, 11, 20, 13 and 14, 15.
pub(crate) fn accepted_words(
    form: CallForm,
    size: FrameSize,
    map: &[u8],
    packet: &[u8],
    pictures: [&[u16]; 3],
    place: usize,
) -> Result<Vec<WordBlock>, Refusal> {
    if pictures.iter().any(|picture| picture.len() < size.pixels()) {
        return Err(Refusal::new(refusal::LENT));
    }
    check_map_length(size, map)?;
    if place > size.blocks() {
        return Err(Refusal::new(refusal::PLACE));
    }
    let (blocks, left) = split(size, map, packet)?;
    check_left_over(form, left)?;
    Ok(blocks)
}

/// The two parts, or 20. An offset equal to the packet's length leaves the second one empty.
pub fn parts(packet: &[u8]) -> Result<Parts<'_>, Refusal> {
    let refused = Refusal::new(refusal::PARTS);
    let &[low, high, ..] = packet else { return Err(refused) };
    let offset = usize::from(u16::from_le_bytes([low, high]));
    if offset < OFFSET || offset > packet.len() {
        return Err(refused);
    }
    let (first, second) = packet.split_at(offset);
    Ok(Parts { first: &first[OFFSET..], second })
}

/// Gives each block its bytes, from block 0 on, and tells what is left of the parts: 20, then the lowest
/// block with 13 or 14.
fn split(size: FrameSize, map: &[u8], packet: &[u8]) -> Result<(Vec<WordBlock>, Left), Refusal> {
    let mut parts = parts(packet)?;
    let mut blocks = Vec::with_capacity(size.blocks());
    for number in 0..size.blocks() {
        let code = map_code(map, number);
        let short = Refusal::in_block(refusal::DATA_SHORT, number);
        let content = parts.block(code).ok_or(short)?;
        let (x, y) = size.corner(number);
        if !content.is_inside(size, x, y) {
            return Err(Refusal::in_block(refusal::COPY_OUTSIDE, number));
        }
        blocks.push(WordBlock { number, code, x, y, content });
    }
    Ok((blocks, Left { first: parts.first.len(), second: parts.second.len() }))
}

/// 15: "both parts must be used up, and W6's odd byte is allowed at the end of the second" (02).
fn check_left_over(form: CallForm, left: Left) -> Result<(), Refusal> {
    if left.first > 0 || left.second > form.may_be_left() {
        Err(Refusal::new(refusal::DATA_LEFT))
    } else {
        Ok(())
    }
}
