//! One call that opens a film and steps until it has a size.

use crate::answer::Moved;
use crate::numbers::STEPPED_NUMBERS;
use crate::{ffi, Refusal, State};
use core::fmt;

/// Why a film was not begun, and where in the film.
///
/// ```
/// let film = b"Interplay MVE File\x1A\0\x1A\0\0\x01\x33\x11\0\0\x05\0";
/// let unbegun = mve::begin(film, mve::NO_STREAM, &mut [0; 768], &mut 0).unwrap_err();
/// let message = "refusal 21: the film ends without a frame size, at byte 30";
/// assert_eq!(unbegun.to_string(), message);
/// ```
#[derive(Clone, Copy, Debug, PartialEq, Eq, Hash)]
pub struct Unbegun {
    /// The first refusal that [`open`](crate::open) and [`step`](crate::step) meet, or 21 where the
    /// film ends before a size.
    pub refusal: Refusal,
    /// The state that the refused step was given: its position is that of the head that the step
    /// read. Zeros where the header is refused (1), the film's last state where it ends (21).
    pub state: State,
}

impl fmt::Display for Unbegun {
    fn fmt(&self, f: &mut fmt::Formatter<'_>) -> fmt::Result {
        write!(f, "{}, at byte {}", self.refusal, self.state.position)
    }
}

impl core::error::Error for Unbegun {}

/// Opens a film for a stream of its sound and steps until a size appears: the state just after opcode
/// 0x05. The palette and the place are as the steps up to there leave them.
///
/// Then lend [`Pictures`](crate::Pictures) of the film's kind, which [`State::true_colour`] tells: two of 64
/// bytes a block, or three of 64 words a block. Go on with [`step`](crate::step) and this palette and
/// place. Sound before the size is decoded for the state and its samples are dropped, so 19 is not
/// met. Whoever wants those samples, or reads opcodes 0x02 ([`timer`](crate::timer())) and 0x03 for timing and
/// rate, uses [`open`](crate::open) and [`step`](crate::step).
///
/// # Errors
///
/// 1 where the film's header is wrong or short, then what the steps meet: 8 for a palette that has not
/// 768 bytes, 2 to 7, 9 for video data before a size, 17 and 18 for sound; 21 where the film ends
/// before a size. A refusal leaves palette and place as they were and tells where it was met.
///
/// # Examples
///
/// A film with a palette entry, then the size, then a frame of one block.
///
/// ```
/// use mve::{begin, shown, step, Form, Pictures, Step, NO_STREAM};
///
/// let film = [
///     &b"Interplay MVE File\x1A\0\x1A\0\0\x01\x33\x11"[..],
///     &[19, 0, 2, 0, 7, 0, 0x0c, 0, 5, 0, 1, 0, 63, 0, 9, 4, 0, 0x05, 0, 1, 0, 1, 0],
///     &[32, 0, 3, 0, 1, 0, 0x0f, 0, 0x0e, 15, 0, 0x11, 0],
///     &[0; 14],
///     &[0x2a, 4, 0, 0x07, 0, 0, 0, 0, 0],
/// ]
/// .concat();
///
/// let (mut palette, mut place) = ([0; 768], 0);
/// let mut state = begin(&film, NO_STREAM, &mut palette, &mut place)?;
/// assert_eq!((state.position, state.columns, state.rows), (49, 1, 1));
/// assert_eq!(palette[15..18], [63, 0, 9]);
///
/// let bytes = 64 * state.columns * state.rows;
/// let (mut a, mut b) = (vec![0; bytes], vec![0; bytes]);
/// loop {
///     let (pictures, form) = (&mut Pictures::bytes(&mut a, &mut b), Form::Default);
///     match step(&film, state, &mut palette, pictures, &mut place, &mut [], 312_000, form)? {
///         Step::Ended { .. } => break,
///         next => state = next.state(),
///     }
/// }
/// assert_eq!(shown(&state, &a, &b), [0x2a; 64]);
///
/// // The second byte of the size's height is 1: 257 rows. The palette stays as it is.
/// let mut wrong = film.clone();
/// wrong[48] = 1;
/// let mut palette = [7; 768];
/// let unbegun = begin(&wrong, NO_STREAM, &mut palette, &mut place).unwrap_err();
/// assert_eq!((unbegun.refusal.number(), unbegun.state.position), (6, 41));
/// assert_eq!(palette, [7; 768]);
/// # Ok::<(), Box<dyn std::error::Error>>(())
/// ```
pub fn begin(
    film: &[u8],
    stream: usize,
    palette: &mut [u8],
    place: &mut usize,
) -> Result<State, Unbegun> {
    let mut out = [0; STEPPED_NUMBERS];
    let returned = ffi::begin(film, stream, &mut out, palette, place);
    match Moved::new(returned, &out).begun() {
        (state, None) => Ok(state),
        (state, Some(refusal)) => Err(Unbegun { refusal, state }),
    }
}
