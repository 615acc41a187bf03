//! Frames of Microsoft Video 1.

use crate::{ffi, Error};

/// Draws a frame of Microsoft Video 1 with 8-bit pixels on the picture, to be stored in a film.
///
/// The size is counted in blocks of 8x8 pixels, as of a film. A frame has blocks of 4x4 pixels, from the
/// bottom row of the picture up: of one, two or eight colours, or skipped, and then they stay as lent.
/// Behind the last of them stands the end mark, two bytes 0, and nothing else.
///
/// # Errors
///
/// In this order: 6 for the size, 8 for a picture that is too short, the first met of 24 for data that ends
/// before all blocks are passed and 25 for a skip that passes the last block, then 26 where not the end mark
/// alone follows. The picture is then as it was.
///
/// # Examples
///
/// A picture of one block of 8x8, so four of 4x4: lower left of two colours, its bottom row in the first of
/// them; then two that are skipped; and the upper right one in one colour.
///
/// ```
/// use mve::{video1, Error};
///
/// let data = [0x0F, 0x00, 7, 8, 0x02, 0x84, 9, 0x80, 0, 0];
/// let mut picture = [1; 64];
/// video1(1, 1, &data, &mut picture)?;
/// for row in picture[..32].chunks(8) {
///     assert_eq!(row, [1, 1, 1, 1, 9, 9, 9, 9]);
/// }
/// for row in picture[32..56].chunks(8) {
///     assert_eq!(row, [8, 8, 8, 8, 1, 1, 1, 1]);
/// }
/// assert_eq!(picture[56..], [7, 7, 7, 7, 1, 1, 1, 1]);
///
/// // Without the end mark.
/// assert_eq!(video1(1, 1, &data[..8], &mut picture), Err(Error::EndMark));
/// # Ok::<(), Error>(())
/// ```
pub fn video1(columns: usize, rows: usize, data: &[u8], picture: &mut [u8]) -> Result<(), Error> {
    let number = ffi::video1(columns, rows, data, picture);
    read(number).unwrap_or_else(|| unknown(number))
}

/// What the number says; none where the library does not give such a number.
fn read(number: usize) -> Option<Result<(), Error>> {
    match number {
        0 => Some(Ok(())),
        _ => Error::from_number(number).map(Err),
    }
}

/// The library is proved not to give such a number: another version of it is linked.
fn unknown(number: usize) -> ! {
    panic!("libmve.a is not of the version that this crate is written for: {number}")
}

#[cfg(test)]
mod tests {
    use super::*;

    #[test]
    fn numbers() {
        assert_eq!(read(0), Some(Ok(())));
        assert_eq!(read(26), Some(Err(Error::EndMark)));
        assert_eq!(read(27), None);
    }
}
