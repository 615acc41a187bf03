//! A packet, the map and the data of one frame of an 8-bit film: checking and drawing it.

use crate::answer::{Answer, Taken};
use crate::form::Form;
use crate::numbers::kind;
use crate::{ffi, Refusal, Rows};

/// Checks a packet of an 8-bit film for a frame of `columns` by `rows` blocks, each 8x8 pixels.
///
/// The map has one nibble for each block, low nibble first; the data has the blocks' bytes in the
/// same order. One byte may be left over behind them, since many films pad a packet to an even length;
/// it is not read. [`check_strict`] accepts none.
///
/// Of an accepted packet it tells the rows of blocks that drawing touches: from the first to the last
/// one, counted from 0, that holds a block other than code 1; `None` where every block is code 1.
///
/// # Errors
///
/// In this order: 6 for the size, 10 for the length of the map, then block by block 12, 13 and 14,
/// then 15 for two bytes or more left over. The first block with a fault is named.
///
/// # Examples
///
/// A frame has 1 to 80 columns and 1 to 60 rows.
///
/// ```
/// use mve::{check, Error, Refusal};
///
/// assert_eq!(check(80, 1, &[0x11; 40], &[]), Ok(None));
/// assert_eq!(check(1, 60, &[0x11; 30], &[]), Ok(None));
/// for (columns, rows) in [(0, 1), (81, 1), (1, 0), (1, 61)] {
///     let map = [0x11; 41];
///     assert_eq!(check(columns, rows, &map, &[]), Err(Refusal { error: Error::FrameSize, block: 0 }));
/// }
/// ```
///
/// A copied block must lie inside the picture. In a frame of one block, code 5 can copy only the
/// block itself.
///
/// ```
/// # use mve::{check, Error, Refusal, Rows};
/// assert_eq!(check(1, 1, &[0x05], &[0x00, 0x00]), Ok(Some(Rows { first: 0, last: 0 })));
/// assert_eq!(check(1, 1, &[0x05], &[0x01, 0x00]), Err(Refusal { error: Error::CopyOutside, block: 0 }));
/// ```
///
/// Code E has one data byte. A second one pads the packet; a third is too many.
///
/// ```
/// # use mve::{check, Error, Refusal};
/// assert!(check(1, 1, &[0x0E], &[7, 0]).is_ok());
/// assert_eq!(check(1, 1, &[0x0E], &[7, 0, 0]), Err(Refusal { error: Error::DataLeft, block: 0 }));
/// ```
///
/// Two columns and four rows. The second row has a block of code 0, the third one of code E; the
/// others stay as they are.
///
/// ```
/// # use mve::{check, Rows};
/// assert_eq!(check(2, 4, &[0x11, 0x01, 0x1E, 0x11], &[7]), Ok(Some(Rows { first: 1, last: 2 })));
/// ```
pub fn check(
    columns: usize,
    rows: usize,
    map: &[u8],
    data: &[u8],
) -> Result<Option<Rows>, Refusal> {
    accepted(ffi::check(Form::Default, columns, rows, map, data))
}

/// Checks a packet as [`check`] does, in the strict form: no byte may be left over.
///
/// It is for those who make films and want every byte accounted for. The two forms answer the same,
/// unless exactly one byte is left over and nothing else is wrong.
///
/// # Errors
///
/// Those of [`check`], and 15 for one byte left over, too.
///
/// # Examples
///
/// ```
/// use mve::{check, check_strict, Error, Refusal};
///
/// assert!(check_strict(1, 1, &[0x0E], &[7]).is_ok());
/// assert_eq!(check_strict(1, 1, &[0x0E], &[7, 0]), Err(Refusal { error: Error::DataLeft, block: 0 }));
/// assert!(check(1, 1, &[0x0E], &[7, 0]).is_ok());
/// ```
pub fn check_strict(
    columns: usize,
    rows: usize,
    map: &[u8],
    data: &[u8],
) -> Result<Option<Rows>, Refusal> {
    accepted(ffi::check(Form::Strict, columns, rows, map, data))
}

/// What a check answers.
pub(crate) fn accepted(answer: Answer) -> Result<Option<Rows>, Refusal> {
    match answer.taken()? {
        Taken { kind: kind::TAKEN, stores: 0, rows } => Ok(rows),
        _ => answer.unknown(),
    }
}

/// The stores of the largest picture: a call or a step that is allowed so many is never unfinished.
pub const ALL_STORES: usize = 312_000;

/// The stores of the longest palette, opcode 0x0B with 256 entries in both of its gradients: a step over a
/// palette that is allowed so many is never unfinished. One that is cut begins again with its first
/// store, so it is never done by steps that are all allowed fewer than it has.
pub const PALETTE_STORES: usize = 1_536;

/// The stores of a block that has pixels to store, 64 pixels and the place: a call that is allowed fewer
/// finishes none.
pub const BLOCK_STORES: usize = 65;

/// How far a drawing call came.
///
/// The rows are those that [`check`] tells of the packet, wherever the call began and ended: `None`
/// where it touches none.
#[derive(Clone, Copy, Debug, PartialEq, Eq, Hash)]
pub enum Drawn {
    /// The frame is drawn: the place is the block count.
    Whole {
        /// Stores that the call made.
        stores: usize,
        /// Rows of blocks that the packet touches.
        rows: Option<Rows>,
    },
    /// The stores allowed were used up before.
    Unfinished {
        /// Stores that the call made.
        stores: usize,
        /// Rows of blocks that the packet touches.
        rows: Option<Rows>,
    },
}

impl Drawn {
    /// What a drawing call answers.
    pub(crate) fn of(answer: Answer) -> Result<Drawn, Refusal> {
        match answer.taken()? {
            Taken { kind: kind::WHOLE, stores, rows } => Ok(Drawn::Whole { stores, rows }),
            Taken { kind: kind::UNFINISHED, stores, rows } => {
                Ok(Drawn::Unfinished { stores, rows })
            }
            _ => answer.unknown(),
        }
    }

    /// Stores that the call made: 64 for each block drawn, and one for each place stored.
    ///
    /// ```
    /// // Code 1, which stores no pixel, then code E.
    /// let mut back = [5; 128];
    /// let drawn = mve::draw(2, 1, &[0xE1], &[7], &[0; 128], &mut back, &mut 0, 1000)?;
    /// assert_eq!(drawn.stores(), 1 + 65);
    /// # Ok::<(), mve::Refusal>(())
    /// ```
    pub const fn stores(self) -> usize {
        match self {
            Drawn::Whole { stores, .. } | Drawn::Unfinished { stores, .. } => stores,
        }
    }

    /// Rows of blocks that the packet touches; the call has changed no other.
    ///
    /// ```
    /// // One column of three rows: code 1, code E, code 1. No store is allowed.
    /// let mut back = [5; 192];
    /// let drawn = mve::draw(1, 3, &[0xE1, 0x01], &[7], &[0; 192], &mut back, &mut 0, 0)?;
    /// assert_eq!(drawn.rows(), Some(mve::Rows { first: 1, last: 1 }));
    /// # Ok::<(), mve::Refusal>(())
    /// ```
    pub const fn rows(self) -> Option<Rows> {
        match self {
            Drawn::Whole { rows, .. } | Drawn::Unfinished { rows, .. } => rows,
        }
    }
}

/// Draws a packet of an 8-bit film on `back`, going on from `place`, with at most `allowed` stores. The frame has
/// `columns` by `rows` blocks.
///
/// `front` is the shown picture and `back` the one two frames old; both have a byte a pixel, row by
/// row: 64 bytes for each block. They may be longer than the frame: what lies beyond it is never
/// touched.
///
/// The place is the number of the block to draw next. Start a frame with 0 and leave it alone: it
/// is stored once behind each block, after the block's pixels. A call that ends inside a block
/// leaves that block's first pixels drawn, and the next call draws the block again from its first
/// pixel. So a drawing can be stopped after any store and taken up again, and comes out the same.
/// A call that is allowed [`BLOCK_STORES`] or more finishes at least one block of those left; no frame
/// has more than [`ALL_STORES`].
///
/// # Errors
///
/// In this order: 6 for the size, 8 for a picture shorter than the frame, 10 for the length of the
/// map, 11 for a place above the block count, then 12 to 15 as in [`check`]: one byte may be left over.
/// The whole packet is checked at each call, wherever the place is.
///
/// # Examples
///
/// Two blocks: the left one is copied from 8 pixels to its right, the right one is solid. After 75
/// stores the left block is finished and the right one has its first 10 pixels.
///
/// ```
/// use mve::{draw, Drawn, Rows};
///
/// let rows = Some(Rows { first: 0, last: 0 });
/// let (map, data, front) = ([0xE2], [0x00, 0x07], [0; 128]);
/// let (mut back, mut place) = ([5; 128], 0);
/// let drawn = draw(2, 1, &map, &data, &front, &mut back, &mut place, 75)?;
/// assert_eq!(drawn, Drawn::Unfinished { stores: 75, rows });
/// assert_eq!(place, 1);
/// assert_eq!(back[..16], [5, 5, 5, 5, 5, 5, 5, 5, 7, 7, 7, 7, 7, 7, 7, 7]);
/// assert_eq!(back[16..32], [5, 5, 5, 5, 5, 5, 5, 5, 7, 7, 5, 5, 5, 5, 5, 5]);
/// assert_eq!(back[32..], [5; 96]);
///
/// // The left block is not drawn again: it would now be 7.
/// let drawn = draw(2, 1, &map, &data, &front, &mut back, &mut place, 75)?;
/// assert_eq!(drawn, Drawn::Whole { stores: 65, rows });
/// assert_eq!(place, 2);
/// for row in back.chunks(16) {
///     assert_eq!(row, [[5; 8], [7; 8]].concat());
/// }
/// # Ok::<(), mve::Refusal>(())
/// ```
///
/// The same in one call.
///
/// ```
/// # use mve::draw;
/// let (mut back, mut place) = ([5; 128], 0);
/// let drawn = draw(2, 1, &[0xE2], &[0, 7], &[0; 128], &mut back, &mut place, 312_000)?;
/// assert_eq!(drawn.stores(), 130);
/// # Ok::<(), mve::Refusal>(())
/// ```
#[allow(clippy::too_many_arguments)] // a packet, what is lent, and how far to go
pub fn draw(
    columns: usize,
    rows: usize,
    map: &[u8],
    data: &[u8],
    front: &[u8],
    back: &mut [u8],
    place: &mut usize,
    allowed: usize,
) -> Result<Drawn, Refusal> {
    let form = Form::Default;
    Drawn::of(ffi::draw(form, columns, rows, map, data, front, back, place, allowed))
}

/// Draws a packet as [`draw`] does, in the strict form: no byte may be left over.
///
/// The two forms give the same picture, place and answer, unless exactly one byte is left over and
/// nothing else is wrong.
///
/// # Errors
///
/// Those of [`draw`], and 15 for one byte left over, too.
///
/// # Examples
///
/// ```
/// use mve::{draw, draw_strict, Error, Refusal};
///
/// // A solid block, and a byte that pads the packet.
/// let (map, padded, front) = ([0x0E], [7, 99], [0; 64]);
/// let (mut back, mut place) = ([5; 64], 0);
/// let refused = draw_strict(1, 1, &map, &padded, &front, &mut back, &mut place, 65);
/// assert_eq!(refused, Err(Refusal { error: Error::DataLeft, block: 0 }));
/// assert_eq!((back, place), ([5; 64], 0));
///
/// let drawn = draw(1, 1, &map, &padded, &front, &mut back, &mut place, 65)?;
/// assert_eq!(drawn.stores(), 65);
/// assert_eq!((back, place), ([7; 64], 1));
/// # Ok::<(), mve::Refusal>(())
/// ```
#[allow(clippy::too_many_arguments)] // those of `draw`
pub fn draw_strict(
    columns: usize,
    rows: usize,
    map: &[u8],
    data: &[u8],
    front: &[u8],
    back: &mut [u8],
    place: &mut usize,
    allowed: usize,
) -> Result<Drawn, Refusal> {
    let form = Form::Strict;
    Drawn::of(ffi::draw(form, columns, rows, map, data, front, back, place, allowed))
}
