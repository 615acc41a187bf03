//! What is left of a scratched film.

use crate::{ffi, Error, Refusal};

/// How many numbers the list has for each chunk left out: position, length and refusal.
pub const LOSS_NUMBERS: usize = 3;

/// What is left of a film, in bytes: `header`, `kept`, `lost` and `rest` add up to the film's length.
#[derive(Clone, Copy, Debug, PartialEq, Eq, Hash)]
pub struct Salvaged {
    /// Bytes of the new film, at the room's front.
    pub bytes: usize,
    /// Chunks left out; the list has [`LOSS_NUMBERS`] for each.
    pub left_out: usize,
    /// How the walk over the chunks stopped.
    pub stop: Stop,
    /// Bytes of the header.
    pub header: usize,
    /// Bytes of the chunks kept, with their heads.
    pub kept: usize,
    /// Bytes of the chunks left out, with their heads.
    pub lost: usize,
    /// Bytes that were not walked.
    pub rest: usize,
}

/// How the walk over a film's chunks stopped.
#[derive(Clone, Copy, Debug, PartialEq, Eq, Hash)]
pub enum Stop {
    /// At the end of the film.
    FilmEnd,
    /// Behind a kept chunk with opcode 0x00, which ends the film.
    BehindEnd,
    /// Where a chunk or its head passes the end of the film (refusal 2).
    PastEnd,
}

/// A chunk left out.
#[derive(Clone, Copy, Debug, PartialEq, Eq, Hash)]
pub struct LeftOut {
    /// Where its head stands in the film.
    pub position: usize,
    /// Its length, without the head.
    pub length: usize,
    /// The refusal first met in it: [`Error::Opcode`], [`Error::Type`] or [`Error::BodyLength`].
    pub error: Error,
}

/// The library's answer.
#[repr(C)]
#[derive(Clone, Copy, Debug)]
pub(crate) struct Numbers {
    pub number: usize,
    pub bytes: usize,
    pub left_out: usize,
    /// One of [`stop`].
    pub stop: usize,
    pub header: usize,
    pub kept: usize,
    pub lost: usize,
    pub rest: usize,
}

mod stop {
    pub const FILM_END: usize = 0;
    pub const BEHIND_END: usize = 1;
    pub const PAST_END: usize = 2;
}

/// Writes what is left of a scratched film to the room: its header and each chunk whose opcodes are not
/// refused by 3, 4 or 5, with the same bytes in the same order; then a chunk with opcode 0x00, unless the
/// last kept chunk has one. Three numbers for each chunk left out go to the list ([`Salvaged::losses`]).
///
/// No other refusal is tested, so the new film may be refused where it is played. Saved again it is kept
/// whole.
///
/// A room of 8 bytes more than the film is always enough, and so is a list of three numbers for each five
/// bytes of the film.
///
/// # Errors
///
/// 1 for the header, then 19 where the room or the list is too short. Both are then as they were.
///
/// # Examples
///
/// Three chunks: one without opcodes, one whose opcode has a type that films do not have, and one with an
/// opcode 0x07 that is a byte too short. Nothing ends the film, so a chunk with opcode 0x00 is added.
///
/// ```
/// use mve::{salvage, Error, LeftOut, Refusal, Stop};
///
/// let header = b"Interplay MVE File\x1A\0\x1A\0\0\x01\x33\x11";
/// let chunks = [0, 0, 2, 0, 4, 0, 3, 0, 0, 0, 0x99, 0, 7, 0, 3, 0, 3, 0, 0x07, 0, 0, 0, 0];
/// let film = [&header[..], &chunks].concat();
///
/// let (mut room, mut list) = ([0; 64], [0; 6]);
/// let saved = salvage(&film, &mut room, &mut list)?;
/// assert_eq!(room[..26], header[..]);
/// assert_eq!(room[26..saved.bytes], [0, 0, 2, 0, 4, 0, 5, 0, 0, 0, 0, 0]);
/// assert_eq!(list, [30, 4, 4, 38, 7, 5]);
/// let losses: Vec<_> = saved.losses(&list).collect();
/// assert_eq!(losses[1], LeftOut { position: 38, length: 7, error: Error::BodyLength });
/// assert_eq!(saved.stop, Stop::FilmEnd);
/// assert_eq!((saved.header, saved.kept, saved.lost, saved.rest), (26, 4, 19, 0));
///
/// // A list for one chunk.
/// let refused = salvage(&film, &mut room, &mut list[..3]);
/// assert_eq!(refused, Err(Refusal { error: Error::Room, block: 0 }));
/// # Ok::<(), Refusal>(())
/// ```
pub fn salvage(film: &[u8], room: &mut [u8], list: &mut [usize]) -> Result<Salvaged, Refusal> {
    let answer = ffi::salvage(film, room, list);
    answer.read().unwrap_or_else(|| answer.unknown())
}

impl Salvaged {
    /// The chunks left out, in the order of the film, from the list that the call wrote. Numbers that no
    /// call writes are passed over.
    pub fn losses<'a>(&self, list: &'a [usize]) -> impl Iterator<Item = LeftOut> + 'a {
        list.chunks_exact(LOSS_NUMBERS).take(self.left_out).filter_map(|numbers| {
            let &[position, length, number] = numbers else { return None };
            Some(LeftOut { position, length, error: Error::from_number(number)? })
        })
    }
}

impl Numbers {
    /// What the numbers say; none where the library does not give such numbers.
    fn read(self) -> Option<Result<Salvaged, Refusal>> {
        let Numbers { number, bytes, left_out, stop, header, kept, lost, rest } = self;
        if number != 0 {
            let is_zero = [bytes, left_out, stop, header, kept, lost, rest] == [0; 7];
            let error = Error::from_number(number).filter(|_| is_zero)?;
            return Some(Err(Refusal { error, block: 0 }));
        }
        let stop = match stop {
            stop::FILM_END => Stop::FilmEnd,
            stop::BEHIND_END => Stop::BehindEnd,
            stop::PAST_END => Stop::PastEnd,
            _ => return None,
        };
        Some(Ok(Salvaged { bytes, left_out, stop, header, kept, lost, rest }))
    }

    /// The library is proved not to give such an answer: another version of it is linked.
    fn unknown(self) -> ! {
        panic!("libmve.a is not of the version that this crate is written for: {self:?}")
    }
}

#[cfg(test)]
mod tests {
    use super::*;

    const SAVED: Numbers = Numbers {
        number: 0,
        bytes: 1,
        left_out: 2,
        stop: 1,
        header: 26,
        kept: 3,
        lost: 4,
        rest: 5,
    };

    const REFUSED: Numbers = Numbers {
        number: 19,
        bytes: 0,
        left_out: 0,
        stop: 0,
        header: 0,
        kept: 0,
        lost: 0,
        rest: 0,
    };

    /// Each number of an answer at its place.
    #[test]
    fn places() {
        let saved = SAVED.read().expect("known").expect("no refusal");
        let Salvaged { bytes, left_out, stop, header, kept, lost, rest } = saved;
        assert_eq!((bytes, left_out, stop), (1, 2, Stop::BehindEnd));
        assert_eq!((header, kept, lost, rest), (26, 3, 4, 5));
        let refusal = Refusal { error: Error::Room, block: 0 };
        assert_eq!(REFUSED.read(), Some(Err(refusal)));
    }

    /// Numbers that the library does not give must not pass.
    #[test]
    fn unknown_numbers() {
        for stop in 0..4 {
            let read = Numbers { stop, ..SAVED }.read();
            assert_eq!(read.is_some(), stop < 3, "{stop}");
        }
        for wrong in [
            Numbers { number: 27, ..REFUSED },
            Numbers { bytes: 1, ..REFUSED },
            Numbers { header: 26, ..REFUSED },
            Numbers { number: 1, ..SAVED },
        ] {
            assert_eq!(wrong.read(), None, "{wrong:?}");
        }
    }

    /// As many chunks as were left out, and no number that is not a refusal's.
    #[test]
    fn losses() {
        let saved = SAVED.read().expect("known").expect("no refusal");
        let of = |list: &[usize], expected: &[usize]| {
            let positions = saved.losses(list).map(|loss| loss.position);
            assert!(positions.eq(expected.iter().copied()), "{list:?}");
        };
        of(&[30, 4, 4, 38, 7, 5, 50, 1, 3], &[30, 38]);
        of(&[30, 4, 4, 38, 7], &[30]);
        of(&[30, 4, 99, 38, 7, 5], &[38]);
        of(&[], &[]);
    }
}
