//! Map and packet of a picture of one's own.

use crate::{ffi, Error, Refusal};

/// Bytes of the largest map: half a byte for each of 4,800 blocks.
pub const MAP_BYTES: usize = 2_400;

/// Bytes of the longest body of opcode 0x11 that [`encode`] writes: what the opcode can hold behind its head
/// in a chunk.
pub const BODY_BYTES: usize = 65_531;

/// How much [`encode`] wrote, each from its room's front on.
#[derive(Clone, Copy, Debug, PartialEq, Eq, Hash)]
pub struct Encoded {
    /// Bytes of the map, the body of opcode 0x0F.
    pub map_length: usize,
    /// Bytes of the body of opcode 0x11: 14 zero bytes, then the packet.
    pub body_length: usize,
}

/// The library's answer.
#[repr(C)]
#[derive(Clone, Copy, Debug)]
pub(crate) struct Numbers {
    pub number: usize,
    pub map_length: usize,
    pub body_length: usize,
}

/// Writes map and packet of a picture of `columns` by `rows` blocks, so that drawing them in strict form
/// on `back`, with `front` as the picture shown, gives the `wanted` picture exactly. The packet goes to
/// `body` with 14 zero bytes in front of it, as opcode 0x11 has it.
///
/// For each block no choice among codes 0, 1, 7 and B to F gives its pixels by fewer data bytes, and none
/// by as many has a lower code.
///
/// A map of [`MAP_BYTES`] and a body of [`BODY_BYTES`] are always enough.
///
/// # Errors
///
/// 6 for the size, 8 where one of the three pictures is shorter than it, 23 where the body would be longer
/// than [`BODY_BYTES`], then 19 where `map` or `body` is too short. Both are then as they were.
///
/// # Examples
///
/// Two blocks: the left one is as back has it, code 1, the right one of one colour, code E.
///
/// ```
/// use mve::{draw_strict, encode, Error, Refusal};
///
/// let row = [5, 5, 5, 5, 5, 5, 5, 5, 7, 7, 7, 7, 7, 7, 7, 7];
/// let (wanted, front, mut back) = (row.repeat(8), [0; 128], [5; 128]);
/// let (mut map, mut body) = ([0xAA; 2], [0xAA; 20]);
/// let encoded = encode(2, 1, &wanted, &front, &back, &mut map, &mut body)?;
/// assert_eq!((encoded.map_length, encoded.body_length), (1, 15));
/// assert_eq!(map, [0xE1, 0xAA]);
/// assert_eq!(body[..14], [0; 14]);
/// assert_eq!(body[14..], [7, 0xAA, 0xAA, 0xAA, 0xAA, 0xAA]);
///
/// let (map, packet) = (&map[..1], &body[14..15]);
/// draw_strict(2, 1, map, packet, &front, &mut back, &mut 0, 130)?;
/// assert_eq!(back[..], wanted[..]);
///
/// // A body of a byte less.
/// let refused = encode(2, 1, &wanted, &front, &[5; 128], &mut [0; 1], &mut [0; 14]);
/// assert_eq!(refused, Err(Refusal { error: Error::Room, block: 0 }));
/// # Ok::<(), Refusal>(())
/// ```
pub fn encode(
    columns: usize,
    rows: usize,
    wanted: &[u8],
    front: &[u8],
    back: &[u8],
    map: &mut [u8],
    body: &mut [u8],
) -> Result<Encoded, Refusal> {
    let answer = ffi::encode(columns, rows, wanted, front, back, map, body);
    answer.read().unwrap_or_else(|| answer.unknown())
}

impl Numbers {
    /// What the numbers say; none where the library does not give such numbers.
    fn read(self) -> Option<Result<Encoded, Refusal>> {
        let Numbers { number, map_length, body_length } = self;
        if number == 0 {
            return Some(Ok(Encoded { map_length, body_length }));
        }
        let error = Error::from_number(number).filter(|_| (map_length, body_length) == (0, 0))?;
        Some(Err(Refusal { error, block: 0 }))
    }

    /// The library is proved not to give such an answer: another version of it is linked.
    fn unknown(self) -> ! {
        panic!("libmve.a is not of the version that this crate is written for: {self:?}")
    }
}

#[cfg(test)]
mod tests {
    use super::*;

    /// Each number of an answer at its place; numbers that the library does not give must not pass.
    #[test]
    fn places() {
        let of =
            |number, map_length, body_length| Numbers { number, map_length, body_length }.read();
        assert_eq!(of(0, 1, 15), Some(Ok(Encoded { map_length: 1, body_length: 15 })));
        let refusal = Refusal { error: Error::PacketLength, block: 0 };
        assert_eq!(of(23, 0, 0), Some(Err(refusal)));
        for wrong in [of(27, 0, 0), of(23, 1, 0), of(19, 0, 15)] {
            assert_eq!(wrong, None);
        }
    }
}
