//! The film's calls with states and answers as numbers, as C has them.
//!
//! They are for hosts that keep these numbers in memory of their own, such as memory that outlives a stop.
//! Others use [`open`](crate::open), [`begin`](crate::begin()), [`step`](crate::step) and
//! [`shown`](crate::shown), which give the numbers names.
//!
//! A state has [`STATE_NUMBERS`], in the order of C's `struct mve_state`. An answer has [`STEPPED_NUMBERS`]
//! in the order of `struct mve_stepped`: kind, number, block, stores, bytes, touched, first row, last row,
//! and the [state](STATE). Each call gives back the answer's [`kind`], its first number.
//!
//! What is lent as `out` may have any length. Where it has fewer numbers than an answer, the call is refused
//! and touches nothing; numbers behind the answer stay as they are. The state that goes in is only read, so a
//! stop between two stores of the new one loses nothing.
//!
//! ```
//! use mve::{numbers, State};
//!
//! let film = b"Interplay MVE File\x1A\0\x1A\0\0\x01\x33\x11\0\0\x05\0";
//! let mut answers = [[0; numbers::STEPPED_NUMBERS]; 2];
//! assert_eq!(numbers::open(film, mve::NO_STREAM, &mut answers[0]), numbers::kind::TAKEN);
//! let [from, out] = &mut answers;
//! let (palette, place) = (&mut [0; mve::PALETTE_BYTES], &mut 0);
//! let pictures = &mut mve::Pictures::default();
//! let form = mve::Form::Default.number();
//! let kind = numbers::step(
//!     film, &from[numbers::STATE], out, palette, pictures, place, &mut [], 0, form,
//! );
//! assert_eq!((kind, out[0]), (numbers::kind::TAKEN, numbers::kind::TAKEN));
//! let state = State::from_numbers(&out[numbers::STATE]).expect("a state");
//! assert_eq!((state.position, state.chunk_end), (30, 30));
//!
//! // No state has 17 numbers: refused by 16.
//! let kind = numbers::step(
//!     film, &from[9..], out, palette, pictures, place, &mut [], 0, form,
//! );
//! assert_eq!((kind, out[1], &out[8..]), (numbers::kind::REFUSED, 16, &[0; 18][..]));
//! ```

use crate::ffi;
use crate::{Pictures, Sound, State};
use core::ops::Range;

/// How many numbers a state has.
pub const STATE_NUMBERS: usize = 18;

/// How many numbers an answer about a film has.
pub const STEPPED_NUMBERS: usize = 26;

/// Where the numbers of the state stand in an answer.
pub const STATE: Range<usize> = STEPPED_NUMBERS - STATE_NUMBERS..STEPPED_NUMBERS;

/// The kinds of answer.
pub mod kind {
    /// Of an opening, and of a step that does not draw: done.
    pub const TAKEN: usize = 0;
    /// Opcode 0x11's frame is drawn to its end.
    pub const WHOLE: usize = 1;
    /// The stores allowed were made before that.
    pub const UNFINISHED: usize = 2;
    /// The film is at its end.
    pub const ENDED: usize = 3;
    /// Nothing is changed; the answer's second number says why.
    pub const REFUSED: usize = 4;
}

/// Opens a film, as [`open`](crate::open) does.
pub fn open(film: &[u8], stream: usize, out: &mut [usize]) -> usize {
    ffi::open(film, stream, out)
}

/// Opens a film and steps until its size is known, as [`begin`](crate::begin()) does.
pub fn begin(
    film: &[u8],
    stream: usize,
    out: &mut [usize],
    palette: &mut [u8],
    place: &mut usize,
) -> usize {
    ffi::begin(film, stream, out, palette, place)
}

/// Takes one step over a film, as [`step`](crate::step) does. Every `form` but 0 is the strict one.
///
/// Where `from` has not as many numbers as a state, or one of the two last samples is above 65,535, the step is refused by 16, and the state of the answer is zeros.
#[allow(clippy::too_many_arguments)] // those of the library's function
pub fn step(
    film: &[u8],
    from: &[usize],
    out: &mut [usize],
    palette: &mut [u8],
    pictures: &mut Pictures<'_>,
    place: &mut usize,
    room: &mut [u8],
    allowed: usize,
    form: usize,
) -> usize {
    ffi::step(film, from, out, palette, pictures, place, room, allowed, form)
}

/// How many bytes of the front picture of an 8-bit film are shown; 0 also for what is no state.
pub fn shown(from: &[usize], a: &[u8], b: &[u8]) -> usize {
    ffi::shown(from, a, b)
}

/// How many words of the front picture of a film with true colour are shown; 0 also for what is no state.
pub fn shown_words(from: &[usize], c: &[u16], d: &[u16], e: &[u16]) -> usize {
    ffi::shown_words(from, c, d, e)
}

impl State {
    /// The state's numbers, in the order of C's `struct mve_state`.
    pub fn numbers(&self) -> [usize; STATE_NUMBERS] {
        let State { position, chunk_end, columns, rows, true_colour, front, map, unsent, sound } =
            *self;
        let (map_start, map_length) = map.unwrap_or((0, 0));
        let Sound { stream, has_format, stereo, wide, compressed, begun, left, right } = sound;
        [
            position,
            chunk_end,
            columns,
            rows,
            front,
            map.is_some().into(),
            map_start,
            map_length,
            unsent.into(),
            stream,
            has_format.into(),
            stereo.into(),
            wide.into(),
            compressed.into(),
            begun.into(),
            left.into(),
            right.into(),
            true_colour.into(),
        ]
    }

    /// The state of these numbers; none where the library does not give such numbers back: of another
    /// count, a flag that is neither 0 nor 1, a map's start or length without a map, or a last sample
    /// above 65,535.
    pub fn from_numbers(numbers: &[usize]) -> Option<State> {
        let numbers: [usize; STATE_NUMBERS] = numbers.try_into().ok()?;
        let [position, chunk_end, columns, rows, front, has_map, map_start, map_length, ..] =
            numbers;
        let [.., unsent, stream, has_format, stereo, wide, compressed, begun, left, right, deep] =
            numbers;
        let map = match (has_map, map_start, map_length) {
            (0, 0, 0) => None,
            (1, start, length) => Some((start, length)),
            _ => return None,
        };
        let (unsent, true_colour) = (flag(unsent)?, flag(deep)?);
        let sound = Sound {
            stream,
            has_format: flag(has_format)?,
            stereo: flag(stereo)?,
            wide: flag(wide)?,
            compressed: flag(compressed)?,
            begun: flag(begun)?,
            left: left.try_into().ok()?,
            right: right.try_into().ok()?,
        };
        Some(State { position, chunk_end, columns, rows, true_colour, front, map, unsent, sound })
    }
}

fn flag(number: usize) -> Option<bool> {
    match number {
        0 => Some(false),
        1 => Some(true),
        _ => None,
    }
}

#[cfg(test)]
mod tests {
    use super::*;

    /// Each field at its place: the numbers are those of the fields, in the order of the header.
    #[test]
    fn places() {
        let sound = Sound {
            stream: 9,
            has_format: true,
            stereo: true,
            wide: true,
            compressed: true,
            begun: true,
            left: 15,
            right: 16,
        };
        let state = State {
            position: 20,
            chunk_end: 21,
            columns: 22,
            rows: 23,
            true_colour: true,
            front: 24,
            map: Some((26, 27)),
            unsent: true,
            sound,
        };
        let numbers = [20, 21, 22, 23, 24, 1, 26, 27, 1, 9, 1, 1, 1, 1, 1, 15, 16, 1];
        assert_eq!(state.numbers(), numbers);
        assert_eq!(State::from_numbers(&numbers), Some(state));
        let flags = [
            (5, State { map: None, ..state }),
            (8, State { unsent: false, ..state }),
            (10, State { sound: Sound { has_format: false, ..sound }, ..state }),
            (11, State { sound: Sound { stereo: false, ..sound }, ..state }),
            (12, State { sound: Sound { wide: false, ..sound }, ..state }),
            (13, State { sound: Sound { compressed: false, ..sound }, ..state }),
            (14, State { sound: Sound { begun: false, ..sound }, ..state }),
            (17, State { true_colour: false, ..state }),
        ];
        for (flag, other) in flags {
            let mut numbers = numbers;
            numbers[flag] = 0;
            if flag == 5 {
                numbers[6..8].fill(0);
            }
            assert_eq!(other.numbers(), numbers, "{flag}");
            assert_eq!(State::from_numbers(&numbers), Some(other), "{flag}");
            numbers[flag] = 2;
            assert_eq!(State::from_numbers(&numbers), None, "{flag}");
        }
    }

    /// Numbers that no call gives back are no state: another count, what stands behind a map that is not
    /// there, a sample that has more than 16 bits.
    #[test]
    fn no_states() {
        let state = State { map: None, ..State::default() };
        let numbers = state.numbers();
        assert_eq!(State::from_numbers(&numbers[..17]), None);
        assert_eq!(State::from_numbers(&[&numbers[..], &[0]].concat()), None);
        for (at, number) in [(6, 1), (7, 1), (15, 65_536), (16, 65_536), (16, usize::MAX)] {
            let mut wrong = numbers;
            wrong[at] = number;
            assert_eq!(State::from_numbers(&wrong), None, "{at}");
        }
        for at in [15, 16] {
            let mut most = numbers;
            most[at] = 65_535;
            assert_eq!(State::from_numbers(&most).map(|state| state.numbers()), Some(most));
        }
    }
}
