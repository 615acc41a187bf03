//! A packet of a film with true colour: checking and drawing it.

use crate::form::Form;
use crate::packet::{accepted, Drawn};
use crate::{ffi, Refusal, Rows};

/// Checks a packet with true colour for a frame of `columns` by `rows` blocks, each 8x8 pixels.
///
/// The map is that of [`check`](crate::check). The packet begins with a word, the offset, counted from the
/// packet's first byte: what stands between this word and the offset is the first part, with colours of two
/// bytes, low byte first, with the bits of patterns and with the vectors of codes 5 and 6; from the offset on
/// stands the second part, with the bytes of codes 2 to 4. One byte may be left over at the end of the second
/// part, none in the first. [`check_words_strict`] accepts none.
///
/// Of an accepted packet it tells the rows of blocks that drawing touches: all of them, since every block is
/// stored.
///
/// # Errors
///
/// In this order: 6 for the size, 10 for the length of the map, 20 for a packet under 2 bytes, an offset below
/// 2 or one behind the packet's end, then block by block 13 and 14, then 15 for what is left over.
///
/// # Examples
///
/// One block of one colour: code E has two bytes in the first part.
///
/// ```
/// use mve::{check_words, Error, Refusal, Rows};
///
/// let all = Ok(Some(Rows { first: 0, last: 0 }));
/// assert_eq!(check_words(1, 1, &[0x0E], &[4, 0, 0x1F, 0x7C]), all);
/// assert_eq!(check_words(1, 1, &[0x0E], &[4, 0, 0x1F, 0x7C, 0]), all); // padded
///
/// let refused = |error| Err(Refusal { error, block: 0 });
/// assert_eq!(check_words(1, 1, &[0x0E], &[4]), refused(Error::Parts));
/// assert_eq!(check_words(1, 1, &[0x0E], &[1, 0, 0x1F, 0x7C]), refused(Error::Parts));
/// assert_eq!(check_words(1, 1, &[0x0E], &[5, 0, 0x1F, 0x7C]), refused(Error::Parts));
/// // A byte left over in the first part.
/// assert_eq!(check_words(1, 1, &[0x0E], &[5, 0, 0x1F, 0x7C, 0]), refused(Error::DataLeft));
/// // The colour stands in the second part.
/// assert_eq!(check_words(1, 1, &[0x0E], &[2, 0, 0x1F, 0x7C]), refused(Error::DataShort));
/// ```
///
/// Codes 1, 6 and F, which stand for copies of the oldest picture.
///
/// ```
/// # use mve::{check_words, Rows};
/// assert_eq!(check_words(3, 1, &[0x61, 0x0F], &[4, 0, 0, 0]), Ok(Some(Rows { first: 0, last: 0 })));
/// ```
pub fn check_words(
    columns: usize,
    rows: usize,
    map: &[u8],
    data: &[u8],
) -> Result<Option<Rows>, Refusal> {
    accepted(ffi::check_words(Form::Default, columns, rows, map, data))
}

/// Checks a packet as [`check_words`] does, in the strict form: no byte may be left over.
///
/// # Errors
///
/// Those of [`check_words`], and 15 for one byte left over in the second part, too.
///
/// # Examples
///
/// ```
/// use mve::{check_words_strict, Error, Refusal};
///
/// assert!(check_words_strict(1, 1, &[0x0E], &[4, 0, 0x1F, 0x7C]).is_ok());
/// let refused = check_words_strict(1, 1, &[0x0E], &[4, 0, 0x1F, 0x7C, 0]);
/// assert_eq!(refused, Err(Refusal { error: Error::DataLeft, block: 0 }));
/// ```
pub fn check_words_strict(
    columns: usize,
    rows: usize,
    map: &[u8],
    data: &[u8],
) -> Result<Option<Rows>, Refusal> {
    accepted(ffi::check_words(Form::Strict, columns, rows, map, data))
}

/// Draws a packet with true colour on `drawn`, going on from `place`, with at most `allowed` stores. The frame
/// has `columns` by `rows` blocks.
///
/// `last` is the shown picture, `oldest` the one that was shown before it, and `drawn` becomes the new one. All
/// have a word a pixel, row by row: 64 words for each block. They may be longer than the frame: what lies beyond
/// it is never touched. A word has 15 bits of colour; every word that is stored has the highest bit cleared,
/// also where it is copied.
///
/// Place and stores are those of [`draw`](crate::draw); every block has 65 stores, one of each word and one of
/// the place.
///
/// # Errors
///
/// In this order: 6 for the size, 8 for a picture shorter than the frame, 10 for the length of the map, 11 for a
/// place above the block count, then 20 and 13 to 15 as in [`check_words`].
///
/// # Examples
///
/// Two blocks: the left one is copied from 8 pixels to its right in the oldest picture, the right one is solid.
/// The vector of code 2 stands in the second part.
///
/// ```
/// use mve::{draw_words, Drawn, Rows};
///
/// let rows = Some(Rows { first: 0, last: 0 });
/// let (map, data) = ([0xE2], [4, 0, 0x1F, 0xFC, 0x00]);
/// let (last, oldest) = ([1; 128], [0x8005; 128]);
/// let (mut drawn, mut place) = ([7; 128], 0);
/// let answer = draw_words(2, 1, &map, &data, &last, &oldest, &mut drawn, &mut place, 75)?;
/// assert_eq!((answer, place), (Drawn::Unfinished { stores: 75, rows }, 1));
/// let answer = draw_words(2, 1, &map, &data, &last, &oldest, &mut drawn, &mut place, 312_000)?;
/// assert_eq!((answer, place), (Drawn::Whole { stores: 65, rows }, 2));
/// for row in drawn.chunks(16) {
///     assert_eq!(row, [[5; 8], [0x7C1F; 8]].concat());
/// }
/// # Ok::<(), mve::Refusal>(())
/// ```
#[allow(clippy::too_many_arguments)] // a packet, what is lent, and how far to go
pub fn draw_words(
    columns: usize,
    rows: usize,
    map: &[u8],
    data: &[u8],
    last: &[u16],
    oldest: &[u16],
    drawn: &mut [u16],
    place: &mut usize,
    allowed: usize,
) -> Result<Drawn, Refusal> {
    let form = Form::Default;
    Drawn::of(ffi::draw_words(form, columns, rows, map, data, last, oldest, drawn, place, allowed))
}

/// Draws a packet as [`draw_words`] does, in the strict form: no byte may be left over.
///
/// # Errors
///
/// Those of [`draw_words`], and 15 for one byte left over in the second part, too.
///
/// # Examples
///
/// ```
/// use mve::{draw_words, draw_words_strict, Error, Refusal};
///
/// let (map, padded, older) = ([0x0E], [4, 0, 0x1F, 0x7C, 99], [0; 64]);
/// let (mut drawn, mut place) = ([5; 64], 0);
/// let refused = draw_words_strict(1, 1, &map, &padded, &older, &older, &mut drawn, &mut place, 65);
/// assert_eq!(refused, Err(Refusal { error: Error::DataLeft, block: 0 }));
/// assert_eq!((drawn, place), ([5; 64], 0));
///
/// let answer = draw_words(1, 1, &map, &padded, &older, &older, &mut drawn, &mut place, 65)?;
/// assert_eq!(answer.stores(), 65);
/// assert_eq!((drawn, place), ([0x7C1F; 64], 1));
/// # Ok::<(), mve::Refusal>(())
/// ```
#[allow(clippy::too_many_arguments)] // those of `draw_words`
pub fn draw_words_strict(
    columns: usize,
    rows: usize,
    map: &[u8],
    data: &[u8],
    last: &[u16],
    oldest: &[u16],
    drawn: &mut [u16],
    place: &mut usize,
    allowed: usize,
) -> Result<Drawn, Refusal> {
    let form = Form::Strict;
    Drawn::of(ffi::draw_words(form, columns, rows, map, data, last, oldest, drawn, place, allowed))
}
