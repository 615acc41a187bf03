//! A film without what the player passes over.

use crate::{ffi, Error};

/// The library's answer.
#[repr(C)]
#[derive(Clone, Copy, Debug)]
pub(crate) struct Numbers {
    pub number: usize,
    pub length: usize,
}

/// Writes a film without what a player of a stream passes over to the room's front, and gives the bytes
/// of the new film. The rest of the room stays.
///
/// Kept are the opcodes that are acted on: of sound, where the stream is 0 to 15, 0x03 and those of 0x08
/// and 0x09 whose mask has the stream; where it is [`NO_STREAM`](crate::NO_STREAM) or above, none. All
/// others go, 0x02 among them, which tells how long a picture stays. Then empty chunks go, and what follows
/// the chunk with opcode 0x00. A chunk keeps its type, and its length is put right.
///
/// Played from equal memory, with [`ALL_STORES`](crate::ALL_STORES) a step, both films send the same
/// pictures with the same palettes, give the same samples of the stream and end alike: that is proved. The
/// new film is never longer, so a room of as many bytes is always enough, and stripped again it stays as
/// it is.
///
/// # Errors
///
/// Refusal 1 for the header; then the first of 2 to 5 that is met, as [`salvage`](crate::salvage()) tests:
/// sound whatever the stream, and nothing behind the chunk with 0x00; then 19 for a room that is too short.
/// The room is then as it was.
///
/// # Examples
///
/// A chunk with a timer and an opcode 0x07, then one with a timer alone.
///
/// ```
/// use mve::{strip, Error, NO_STREAM};
///
/// let header = b"Interplay MVE File\x1A\0\x1A\0\0\x01\x33\x11";
/// let timer = [6, 0, 0x02, 0, 0x50, 0xC3, 0, 0, 2, 0];
/// let send = [4, 0, 0x07, 0, 0, 0, 0, 0];
/// let film = [&header[..], &[18, 0, 3, 0], &timer, &send, &[10, 0, 3, 0], &timer].concat();
///
/// let mut room = vec![0; film.len()];
/// let length = strip(&film, NO_STREAM, &mut room)?;
/// assert_eq!(room[..length], [&header[..], &[8, 0, 3, 0], &send].concat());
///
/// assert_eq!(strip(&film, NO_STREAM, &mut room[..length - 1]), Err(Error::Room));
/// # Ok::<(), Error>(())
/// ```
pub fn strip(film: &[u8], stream: usize, room: &mut [u8]) -> Result<usize, Error> {
    let answer = ffi::strip(film, stream, room);
    answer.read().unwrap_or_else(|| answer.unknown())
}

impl Numbers {
    /// What the numbers say; none where the library does not give such numbers.
    fn read(self) -> Option<Result<usize, Error>> {
        match self {
            Numbers { number: 0, length } => Some(Ok(length)),
            Numbers { number, length: 0 } => Error::from_number(number).map(Err),
            _ => None,
        }
    }

    /// The library is proved not to give such an answer: another version of it is linked.
    fn unknown(self) -> ! {
        panic!("libmve.a is not of the version that this crate is written for: {self:?}")
    }
}

#[cfg(test)]
mod tests {
    use super::*;

    /// Each number at its place; numbers that the library does not give must not pass.
    #[test]
    fn answers() {
        let read = |number, length| Numbers { number, length }.read();
        assert_eq!(read(0, 26), Some(Ok(26)));
        assert_eq!(read(0, usize::MAX), Some(Ok(usize::MAX)));
        assert_eq!(read(2, 0), Some(Err(Error::Chunk)));
        assert_eq!(read(19, 0), Some(Err(Error::Room)));
        assert_eq!((read(19, 1), read(27, 0), read(99, 0)), (None, None, None));
    }
}
