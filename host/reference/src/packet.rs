//! A packet: the map and the data of one frame. Checking it, and drawing it store by store
//! (01, "Packet, blocks, place"; touched rows: 02, W2; what may be left over: 02, W6).

use crate::block::{self, Source};
use crate::frame::{FrameSize, BLOCK_PIXELS, BLOCK_SIDE};
use crate::refusal::{self, Refusal};

/// The code that is refused in 8-bit films.
const REFUSED_CODE: u8 = 0x6;
/// "Untouched" (01): the only code without pixel stores.
const UNTOUCHED: u8 = 0x1;

/// The form of a call that takes a packet (02, W6): how many bytes may be left over behind the last
/// block's data.
#[derive(Clone, Copy, Debug, PartialEq, Eq, PartialOrd, Ord)]
pub enum CallForm {
    /// One, since films pad packets to an even length. A call is of this form where none is named.
    Default,
    /// None, as those who make films ask.
    Strict,
}

impl CallForm {
    /// Both forms.
    pub const ALL: [CallForm; 2] = [CallForm::Default, CallForm::Strict];

    /// The bytes that may be left over: 1 or 0.
    pub const fn may_be_left(self) -> usize {
        match self {
            CallForm::Default => 1,
            CallForm::Strict => 0,
        }
    }
}

/// The rows of blocks that an accepted packet touches (02, W2): the first and the last one, counted
/// from 0, that holds a block other than code 1. Code 0 counts.
#[derive(Clone, Copy, Debug, PartialEq, Eq)]
pub struct Rows {
    /// The first row.
    pub first: usize,
    /// The last row.
    pub last: usize,
}

impl Rows {
    /// Those of a packet's blocks; none where every block is code 1.
    fn touched(blocks: &[Block<'_>]) -> Option<Rows> {
        let touched = || blocks.iter().filter(|block| block.code != UNTOUCHED);
        let rows = || touched().map(|block| block.y / BLOCK_SIDE);
        Some(Rows { first: rows().min()?, last: rows().max()? })
    }
}

/// A block of an accepted packet.
#[derive(Clone, Copy, Debug, PartialEq, Eq)]
pub struct Block<'a> {
    /// Number of the block, left to right, then down.
    pub number: usize,
    /// Its code in the map.
    pub code: u8,
    /// Its leftmost pixel.
    pub x: usize,
    /// Its topmost pixel.
    pub y: usize,
    /// Its data bytes, no more and no fewer.
    pub data: &'a [u8],
}

impl Block<'_> {
    /// Pixel stores that drawing the block makes; the store of the place comes on top.
    pub fn pixel_stores(&self) -> usize {
        if self.code == UNTOUCHED {
            0
        } else {
            BLOCK_PIXELS
        }
    }

    /// Index in the picture of the block's pixel `i`, row by row.
    pub fn target(&self, size: FrameSize, i: usize) -> usize {
        let (column, row) = (i % BLOCK_SIDE, i / BLOCK_SIDE);
        (self.y + row) * size.width() + self.x + column
    }

    /// Value of the block's pixel `i`, read from the pictures as they are now.
    pub fn value(&self, size: FrameSize, i: usize, front: &[u8], back: &[u8]) -> u8 {
        let source = block::source(size.columns(), self.code, self.data, self.x, self.y, i);
        match source.expect("each pixel of an accepted block has a source") {
            Source::Data(index) => self.data[index],
            Source::Front(index) => front[index],
            Source::Back(index) => back[index],
        }
    }
}

/// Checks a packet for a frame of so many columns and rows of blocks, in the default form: 6, 10, then
/// block by block 12, 13, 14, then 15. Of an accepted packet the rows that it touches, if any.
pub fn check(
    columns: usize,
    rows: usize,
    map: &[u8],
    data: &[u8],
) -> Result<Option<Rows>, Refusal> {
    check_as(CallForm::Default, columns, rows, map, data)
}

/// [`check`] in this form.
pub fn check_as(
    form: CallForm,
    columns: usize,
    rows: usize,
    map: &[u8],
    data: &[u8],
) -> Result<Option<Rows>, Refusal> {
    let (blocks, left) = split_packet(columns, rows, map, data)?;
    check_left_over(form, left)?;
    Ok(Rows::touched(&blocks))
}

/// The blocks of a packet that [`check`] accepts, in order.
pub fn blocks<'a>(
    columns: usize,
    rows: usize,
    map: &[u8],
    data: &'a [u8],
) -> Result<Vec<Block<'a>>, Refusal> {
    let (blocks, left) = split_packet(columns, rows, map, data)?;
    check_left_over(CallForm::Default, left)?;
    Ok(blocks)
}

/// The bytes behind the data of a packet's last block, whether or not so many may be left over; or the
/// refusal of a check that comes before 15.
pub fn left_over(columns: usize, rows: usize, map: &[u8], data: &[u8]) -> Result<usize, Refusal> {
    split_packet(columns, rows, map, data).map(|(_, left)| left)
}

/// The tests of a check in front of 15.
fn split_packet<'a>(
    columns: usize,
    rows: usize,
    map: &[u8],
    data: &'a [u8],
) -> Result<(Vec<Block<'a>>, usize), Refusal> {
    let size = FrameSize::new(columns, rows)?;
    check_map_length(size, map)?;
    split(size, map, data)
}

/// What a drawing call did.
#[derive(Clone, Copy, Debug, PartialEq, Eq)]
pub struct Drawn {
    /// "Whole" (01): the place is now the block count. Else the drawing is "unfinished".
    pub whole: bool,
    /// Stores made, those of the place included.
    pub stores: usize,
    /// The rows that the whole packet touches, whatever the place and the stores (02, W2).
    pub rows: Option<Rows>,
}

impl Drawn {
    /// The answer of a call that leaves this place, for a packet of these blocks.
    pub(crate) fn new(blocks: &[Block<'_>], place: usize, stores: usize) -> Drawn {
        Drawn { whole: place == blocks.len(), stores, rows: Rows::touched(blocks) }
    }
}

/// Draws a packet on `back`, going on from `place`, with at most `allowed` stores, in the default form.
///
/// The place (01) is the number of blocks that are finished: the block to draw next. It is stored
/// once behind each block, so a call that ends inside a block has that block drawn again from its
/// first pixel. Refusals come in the order 6, 8, 10, 11, 12 to 15.
#[allow(clippy::too_many_arguments)] // document 01's arguments, each a plain slice or number
pub fn draw(
    columns: usize,
    rows: usize,
    map: &[u8],
    data: &[u8],
    front: &[u8],
    back: &mut [u8],
    place: &mut usize,
    allowed: usize,
) -> Result<Drawn, Refusal> {
    draw_as(CallForm::Default, columns, rows, map, data, front, back, place, allowed)
}

/// [`draw`] in this form.
#[allow(clippy::too_many_arguments)] // those of `draw`
pub fn draw_as(
    form: CallForm,
    columns: usize,
    rows: usize,
    map: &[u8],
    data: &[u8],
    front: &[u8],
    back: &mut [u8],
    place: &mut usize,
    allowed: usize,
) -> Result<Drawn, Refusal> {
    let size = FrameSize::new(columns, rows)?;
    let blocks = accepted_blocks(form, size, map, data, front, back, *place)?;
    let mut stores = 0;
    'drawing: for block in &blocks[*place..] {
        for i in 0..block.pixel_stores() {
            if stores == allowed {
                break 'drawing;
            }
            back[block.target(size, i)] = block.value(size, i, front, back);
            stores += 1;
        }
        if stores == allowed {
            break 'drawing;
        }
        *place = block.number + 1;
        stores += 1;
    }
    Ok(Drawn::new(&blocks, *place, stores))
}

/// The tests of a drawing call behind that of the size: 8, 10, 11, then 12 to 15.
pub(crate) fn accepted_blocks<'a>(
    form: CallForm,
    size: FrameSize,
    map: &[u8],
    data: &'a [u8],
    front: &[u8],
    back: &[u8],
    place: usize,
) -> Result<Vec<Block<'a>>, Refusal> {
    if front.len() < size.pixels() || back.len() < size.pixels() {
        return Err(Refusal::new(refusal::LENT));
    }
    check_map_length(size, map)?;
    if place > size.blocks() {
        return Err(Refusal::new(refusal::PLACE));
    }
    let (blocks, left) = split(size, map, data)?;
    check_left_over(form, left)?;
    Ok(blocks)
}

pub(crate) fn check_map_length(size: FrameSize, map: &[u8]) -> Result<(), Refusal> {
    if map.len() == size.map_length() {
        Ok(())
    } else {
        Err(Refusal::new(refusal::MAP_LENGTH))
    }
}

/// Gives each block its part of the data, and tells how many bytes are left over. All blocks are
/// tested from block 0 on, whatever the place, and the lowest one with a fault is named (01, "Numbers of
/// refusal").
fn split<'a>(
    size: FrameSize,
    map: &[u8],
    data: &'a [u8],
) -> Result<(Vec<Block<'a>>, usize), Refusal> {
    let mut blocks = Vec::with_capacity(size.blocks());
    let mut rest = data;
    for number in 0..size.blocks() {
        let block = next_block(size, number, map_code(map, number), rest)?;
        rest = &rest[block.data.len()..];
        blocks.push(block);
    }
    Ok((blocks, rest.len()))
}

/// 15: more bytes are left over than may be.
fn check_left_over(form: CallForm, left: usize) -> Result<(), Refusal> {
    if left > form.may_be_left() {
        Err(Refusal::new(refusal::DATA_LEFT))
    } else {
        Ok(())
    }
}

/// The block whose data starts `rest`, or 12, 13 or 14, in this order.
fn next_block(size: FrameSize, number: usize, code: u8, rest: &[u8]) -> Result<Block<'_>, Refusal> {
    let refuse = |why| Err(Refusal::in_block(why, number));
    if code == REFUSED_CODE {
        return refuse(refusal::CODE_6);
    }
    let Some(data) = block::length(code, rest).and_then(|length| rest.get(..length)) else {
        return refuse(refusal::DATA_SHORT);
    };
    let (x, y) = size.corner(number);
    if block::copy(code, data).is_some_and(|copy| !copy.is_inside(size, x, y)) {
        return refuse(refusal::COPY_OUTSIDE);
    }
    Ok(Block { number, code, x, y, data })
}

/// The code of a block: one nibble each, low nibble first (01). A spare last nibble is not read.
pub(crate) fn map_code(map: &[u8], block: usize) -> u8 {
    let byte = map[block / 2];
    if block % 2 == 0 {
        byte & 0x0F
    } else {
        byte >> 4
    }
}
