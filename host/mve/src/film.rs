//! A film: opening it, stepping over it, its sound, and the picture that it shows.

use crate::answer::{Moved, Taken};
use crate::numbers::{kind, STEPPED_NUMBERS};
use crate::{ffi, Form, Pictures, Refusal, Rows};

/// The bytes of the palette: 256 entries of red, green and blue.
pub const PALETTE_BYTES: usize = 768;

/// The bytes of the largest picture of an 8-bit film, 640x480 pixels: pictures of this length are always enough.
pub const PICTURE_BYTES: usize = 307_200;

/// The words of the largest picture of a film with true colour, 640x480 pixels: pictures of this length are
/// always enough.
pub const PICTURE_WORDS: usize = 307_200;

/// The bytes of a room that is always enough: a word counts the samples of a packet, and each has two
/// bytes at most.
pub const ROOM_BYTES: usize = 131_070;

/// A stream number that no film has: opcodes 0x03, 0x08 and 0x09 are passed over, as with every larger
/// number.
pub const NO_STREAM: usize = 16;

/// The state of a film between two steps.
///
/// It goes into a step, and the next state comes back. Any numbers may stand in it: those that no film
/// gives are refused by 16. The fields have the names of C's `struct mve_state`. The map's three are one
/// here, `map`, and those of the sound are in [`Sound`].
#[derive(Clone, Copy, Debug, Default, PartialEq, Eq, Hash)]
pub struct State {
    /// Where the next chunk head or opcode is read.
    pub position: usize,
    /// The end of the chunk that is being read.
    pub chunk_end: usize,
    /// Blocks in a row of the frame, each 8x8 pixels; 0 before opcode 0x05.
    pub columns: usize,
    /// Rows of blocks of the frame; 0 before opcode 0x05.
    pub rows: usize,
    /// Whether the film has true colour: three pictures of words. Else it has two of bytes, or no size yet.
    pub true_colour: bool,
    /// Which lent picture of the film's kind is the shown one: 0 the first, 1 the second, 2 the third. The next
    /// one is drawn on, which behind the last is the first.
    pub front: usize,
    /// The start and the length of the map that waits in the film for its video data.
    pub map: Option<(usize, usize)>,
    /// Whether a frame is finished and not sent to the display yet.
    pub unsent: bool,
    /// The stream, the format and the last samples of the sound.
    pub sound: Sound,
}

/// The sound in a state.
///
/// Before an opcode 0x03 nothing reads the fields behind `has_format`. A step that moves the state then
/// makes them 0 and false.
#[derive(Clone, Copy, Debug, Default, PartialEq, Eq, Hash)]
pub struct Sound {
    /// The stream that the film was opened with; above 15 its sound is passed over.
    pub stream: usize,
    /// Whether an opcode 0x03 was taken, which gives the format.
    pub has_format: bool,
    /// Two channels, left and right in turn; else one.
    pub stereo: bool,
    /// Samples of 16 bits, low byte first; else of 8 bits.
    pub wide: bool,
    /// Whether data comes compressed, as steps from sample to sample.
    pub compressed: bool,
    /// Whether a compressed packet was taken since the last 0x03.
    pub begun: bool,
    /// The last sample of the left channel, or of the only one, of compressed sound.
    pub left: u16,
    /// The last sample of the right channel.
    pub right: u16,
}

impl State {
    /// The width of the pictures in pixels; 0 before opcode 0x05.
    pub const fn width(&self) -> usize {
        8 * self.columns
    }

    /// The height of the pictures in pixels; 0 before opcode 0x05.
    pub const fn height(&self) -> usize {
        8 * self.rows
    }
}

/// How a step went that was not refused. The fields are named as in C's `struct mve_stepped`.
#[derive(Clone, Copy, Debug, PartialEq, Eq, Hash)]
pub enum Step {
    /// A chunk head, or an opcode other than 11, is taken.
    Taken {
        /// The state for the next step.
        state: State,
        /// Stores that the step made: bytes of the palette, or the place, which opcode 0x0F sets to 0.
        stores: usize,
        /// The bytes of samples that the step wrote to the room's front. Only opcodes 0x08 and 0x09 of the
        /// stream write any.
        bytes: usize,
    },
    /// Opcode 0x11 is taken and its frame drawn.
    Whole {
        /// The state for the next step.
        state: State,
        /// Stores that the step made.
        stores: usize,
        /// The rows of blocks that the whole packet touches.
        rows: Option<Rows>,
    },
    /// The stores allowed were made, and more are due. The next step goes on with the frame of opcode 0x11;
    /// a palette or opcode 0x0F it begins again.
    Unfinished {
        /// The state for the next step: the one that went in.
        state: State,
        /// Stores that the step made.
        stores: usize,
        /// The rows of blocks that the whole packet touches; none where no frame is drawn.
        rows: Option<Rows>,
    },
    /// The film is at its end. Nothing has changed.
    Ended {
        /// The state that went in.
        state: State,
    },
}

impl Step {
    /// The state for the next step.
    ///
    /// ```
    /// // A film of no chunk: it ends where it opens.
    /// let film = b"Interplay MVE File\x1A\0\x1A\0\0\x01\x33\x11";
    /// let (state, form) = (mve::open(film, mve::NO_STREAM)?, mve::Form::Default);
    /// let pictures = &mut mve::Pictures::default();
    /// let step = mve::step(film, state, &mut [0; 768], pictures, &mut 0, &mut [], 0, form)?;
    /// assert_eq!(step, mve::Step::Ended { state });
    /// assert_eq!(step.state(), state);
    /// # Ok::<(), mve::Refusal>(())
    /// ```
    pub const fn state(self) -> State {
        match self {
            Step::Taken { state, .. }
            | Step::Whole { state, .. }
            | Step::Unfinished { state, .. }
            | Step::Ended { state } => state,
        }
    }

    /// The rows of blocks that the step's packet touches, in the picture that is drawn on. A step that
    /// does not draw has none.
    pub const fn rows(self) -> Option<Rows> {
        match self {
            Step::Whole { rows, .. } | Step::Unfinished { rows, .. } => rows,
            Step::Taken { .. } | Step::Ended { .. } => None,
        }
    }
}

/// Whether the step from one state to the next sent a picture, which is to be shown now.
///
/// A picture is sent by the step that leaves no frame unsent where one was finished and unsent: opcode
/// 0x07. It is C's `mve_is_sent`.
pub const fn is_sent(before: &State, after: &State) -> bool {
    before.unsent && !after.unsent
}

/// Opens a film for a stream of its sound, 0 to 15: its first state. With [`NO_STREAM`], or any other
/// number above 15, all sound is passed over.
///
/// # Errors
///
/// 1 where the film's header is wrong or short.
///
/// # Examples
///
/// ```
/// use mve::{open, Error, Refusal, Sound, State};
///
/// let film = b"Interplay MVE File\x1A\0\x1A\0\0\x01\x33\x11";
/// let first = State {
///     position: 26,
///     chunk_end: 26,
///     columns: 0,
///     rows: 0,
///     true_colour: false,
///     front: 0,
///     map: None,
///     unsent: false,
///     sound: Sound { stream: 3, ..Sound::default() },
/// };
/// assert_eq!(open(film, 3), Ok(first));
/// assert_eq!(open(&film[..25], 3), Err(Refusal { error: Error::Header, block: 0 }));
/// ```
pub fn open(film: &[u8], stream: usize) -> Result<State, Refusal> {
    let mut out = [0; STEPPED_NUMBERS];
    let moved = Moved::new(ffi::open(film, stream, &mut out), &out);
    match moved.taken(State::default())? {
        (state, Taken { kind: kind::TAKEN, stores: 0, rows: None }) if moved.bytes == 0 => {
            Ok(state)
        }
        _ => moved.unknown(),
    }
}

/// Takes one step over a film: a chunk head where position and chunk end are equal, else an opcode.
///
/// Lend the same film, palette, pictures and place to every step, and give each step the state that
/// the one before gave; the room is only written. The palette has 256 entries of red, green and
/// blue, 0 to 63. The [`Pictures`] have a byte or a word a pixel, row by row, 64 for each block; one is shown,
/// the next one drawn on, and [`State::front`] tells which. They may be longer than the frame: what lies
/// beyond it is never touched. The place is that of [`draw`](crate::draw); start with 0.
///
/// Opcodes 0x08 and 0x09 of the stream write their samples to the room's front: of 16 bits low byte
/// first, or of 8 bits, left and right in turn; [`State::sound`] tells which. The rest of the room
/// stays as it is. A room of [`ROOM_BYTES`] is always enough; after 19 the step can be taken again
/// with more, since nothing has changed.
///
/// `allowed` limits the stores of a step: the pixels and places of opcode 0x11, the bytes of a palette, and
/// the place of opcode 0x0F. Every other step makes none; the room is not counted. A step that runs short
/// makes the first of its stores and keeps its state. Taken again, opcode 0x11 goes on from the place, and
/// any other begins with its first store. No frame has more than 312,000 stores, and no palette more than
/// [`PALETTE_STORES`](crate::PALETTE_STORES). The step over opcode 0x11 tells the rows of blocks that its
/// packet touches in the picture that is drawn on; all pictures stay as they are outside them.
///
/// `form` says how many bytes a packet may leave over. The two forms give the same, except at an opcode
/// 11 whose packet leaves exactly one byte over and has no other fault: [`Form::Strict`] refuses it.
///
/// # Errors
///
/// In this order: 16 for the state, 8 for a palette that has not 768 bytes or, once a size is known,
/// for a picture of the film's kind shorter than the frame, then what is wrong with the film: 2 to 7, 9, and
/// 10 to 15 as in [`draw`](crate::draw), or in [`draw_strict`](crate::draw_strict); with true colour those of
/// [`draw_words`](crate::draw_words). Of sound 17 to 19. A refused step changes nothing, so the state that went
/// in still holds.
///
/// # Examples
///
/// A film of one frame of one block. Its opcodes are 0x05, the size in blocks; 0x01, the chunk's end; 0x0F,
/// a map of code E; 0x11, that block's colour; 0x07, which sends the frame to the display; 0x01.
///
/// ```
/// use mve::{open, shown, step, Error, Form, Pictures, Refusal, Rows, State, Step, NO_STREAM};
///
/// let film = [
///     &b"Interplay MVE File\x1A\0\x1A\0\0\x01\x33\x11"[..],
///     &[0x0c, 0, 2, 0, 4, 0, 0x05, 0, 1, 0, 1, 0, 0, 0, 0x01, 0],
///     &[0x24, 0, 3, 0, 1, 0, 0x0f, 0, 0x0e, 15, 0, 0x11, 0],
///     &[0; 14],
///     &[0x2a, 4, 0, 0x07, 0, 0, 0, 0, 0, 0, 0, 0x01, 0],
/// ]
/// .concat();
/// assert_eq!(film.len(), 82);
///
/// let (mut palette, mut a, mut b, mut place) = ([0; 768], [0; 64], [0; 64], 0);
/// let (mut state, form) = (open(&film, NO_STREAM)?, Form::Default);
/// let mut opcodes = Vec::new();
/// loop {
///     if state.position < state.chunk_end {
///         opcodes.push((state.position, film[state.position + 2]));
///     }
///     let pictures = &mut Pictures::bytes(&mut a, &mut b);
///     match step(&film, state, &mut palette, pictures, &mut place, &mut [], 312_000, form)? {
///         Step::Ended { .. } => break,
///         Step::Whole { state: next, stores, rows } => {
///             assert_eq!((stores, rows), (65, Some(Rows { first: 0, last: 0 })));
///             assert_eq!(shown(&next, &a, &b), [0; 64]); // drawn, but not sent yet
///             state = next;
///         }
///         next => state = next.state(),
///     }
/// }
/// assert_eq!(opcodes, [(30, 5), (38, 1), (46, 15), (51, 17), (70, 7), (78, 1)]);
/// assert_eq!(state, State { position: 82, chunk_end: 82, front: 1, map: None, ..state });
/// assert_eq!(shown(&state, &a, &b), [0x2a; 64]);
///
/// // No film gives this state.
/// let wrong = State { position: 83, ..state };
/// let pictures = &mut Pictures::bytes(&mut a, &mut b);
/// let refused = step(&film, wrong, &mut palette, pictures, &mut place, &mut [], 312_000, form);
/// assert_eq!(refused, Err(Refusal { error: Error::State, block: 0 }));
/// # Ok::<(), Refusal>(())
/// ```
///
/// A film with sound for stream 0: opcode 0x03 says 16-bit, stereo and compressed; opcode 0x08 has a
/// start word for each channel and a byte for the sample behind each of them.
///
/// ```
/// use mve::{open, step, Error, Form, Pictures, Refusal, Sound, Step, ROOM_BYTES};
///
/// let film = [
///     &b"Interplay MVE File\x1A\0\x1A\0\0\x01\x33\x11"[..],
///     &[0x1e, 0, 3, 0, 10, 0, 0x03, 1, 0, 0, 0b111, 0, 0x22, 0x56, 0, 0, 0, 0],
///     &[12, 0, 0x08, 0, 0, 0, 0x01, 0, 4, 0, 0xff, 0x7f, 100, 0, 0x80, 3],
/// ]
/// .concat();
///
/// let (mut palette, mut place, mut room) = ([0; 768], 0, vec![0; ROOM_BYTES]);
/// let (mut state, form) = (open(&film, 0)?, Form::Default);
/// let mut samples: Vec<u8> = Vec::new();
/// loop {
///     let pictures = &mut Pictures::default();
///     match step(&film, state, &mut palette, pictures, &mut place, &mut room, 0, form)? {
///         Step::Taken { state: next, bytes, .. } => {
///             samples.extend(&room[..bytes]);
///             state = next;
///         }
///         Step::Ended { .. } => break,
///         other => unreachable!("no picture is drawn: {other:?}"),
///     }
/// }
/// // 32767 and entry 128 of the table, 1, are -32768: added in 16 bits, with wrap-around.
/// let expected = [32767, 100, -32768, 103].map(i16::to_le_bytes);
/// assert_eq!(samples, expected.concat());
/// let Sound { stereo, wide, left, right, .. } = state.sound;
/// assert_eq!((stereo, wide, left, right), (true, true, 0x8000, 103));
/// # Ok::<(), Refusal>(())
/// ```
///
/// A film of one frame of one block, whose opcode 0x11 has 14 bytes that are skipped, the block's colour
/// and a byte that pads it to an even length.
///
/// ```
/// use mve::{open, step, Error, Form, Pictures, Refusal, Step, NO_STREAM};
///
/// let film = [
///     &b"Interplay MVE File\x1A\0\x1A\0\0\x01\x33\x11"[..],
///     &[33, 0, 3, 0, 4, 0, 0x05, 0, 1, 0, 1, 0, 1, 0, 0x0f, 0, 0x0e, 16, 0, 0x11, 0],
///     &[0; 14],
///     &[0x2a, 0],
/// ]
/// .concat();
///
/// let (mut palette, mut a, mut b, mut place) = ([0; 768], [0; 64], [0; 64], 0);
/// let mut state = open(&film, NO_STREAM)?;
/// let mut pictures = Pictures::bytes(&mut a, &mut b);
/// let mut take = |state, form| {
///     step(&film, state, &mut palette, &mut pictures, &mut place, &mut [], 65, form)
/// };
/// for _ in 0..3 {
///     // A chunk's head, 05 and 0F: the forms do not differ.
///     let default = take(state, Form::Default)?;
///     assert_eq!(take(state, Form::Strict)?, default);
///     state = default.state();
/// }
/// let refused = take(state, Form::Strict);
/// assert_eq!(refused, Err(Refusal { error: Error::DataLeft, block: 0 }));
/// assert!(matches!(take(state, Form::Default)?, Step::Whole { stores: 65, .. }));
/// assert_eq!(b, [0x2a; 64]);
/// # Ok::<(), Refusal>(())
/// ```
///
/// A film with true colour of one frame of one block: the size has version 2 and a true-colour word that is not
/// 0; the packet begins with the offset of its second part, which is empty here, and has the block's colour.
///
/// ```
/// use mve::{open, shown, shown_words, step, Form, Pictures, Refusal, Step, NO_STREAM};
///
/// let film = [
///     &b"Interplay MVE File\x1A\0\x1A\0\0\x01\x33\x11"[..],
///     &[47, 0, 3, 0, 8, 0, 0x05, 2, 1, 0, 1, 0, 1, 0, 1, 0, 1, 0, 0x0f, 0, 0x0e, 18, 0, 0x11, 0],
///     &[0; 14],
///     &[4, 0, 0x1f, 0xfc, 4, 0, 0x07, 0, 0, 0, 0, 0],
/// ]
/// .concat();
///
/// let (mut palette, mut place) = ([0; 768], 0);
/// let (mut c, mut d, mut e) = ([1; 64], [2; 64], [3; 64]);
/// let (mut state, form) = (open(&film, NO_STREAM)?, Form::Default);
/// loop {
///     let pictures = &mut Pictures::words(&mut c, &mut d, &mut e);
///     match step(&film, state, &mut palette, pictures, &mut place, &mut [], 312_000, form)? {
///         Step::Ended { .. } => break,
///         next => state = next.state(),
///     }
/// }
/// assert_eq!((state.true_colour, state.front), (true, 1));
/// assert_eq!(shown_words(&state, &c, &d, &e), [0x7c1f; 64]); // without the highest bit
/// assert_eq!(shown(&state, &[], &[]), []);
/// # Ok::<(), Refusal>(())
/// ```
#[allow(clippy::too_many_arguments)] // a film, its state, what is lent, how far to go, and the form
pub fn step(
    film: &[u8],
    state: State,
    palette: &mut [u8],
    pictures: &mut Pictures<'_>,
    place: &mut usize,
    room: &mut [u8],
    allowed: usize,
    form: Form,
) -> Result<Step, Refusal> {
    let (from, mut out) = (state.numbers(), [0; STEPPED_NUMBERS]);
    let form = form.number();
    let returned = ffi::step(film, &from, &mut out, palette, pictures, place, room, allowed, form);
    let moved = Moved::new(returned, &out);
    let (state, Taken { kind, stores, rows }) = moved.taken(state)?;
    match (kind, moved.bytes, rows) {
        (kind::TAKEN, bytes, None) if stores == 0 || bytes == 0 => {
            Ok(Step::Taken { state, stores, bytes })
        }
        (kind::WHOLE, 0, rows) => Ok(Step::Whole { state, stores, rows }),
        (kind::UNFINISHED, 0, rows) => Ok(Step::Unfinished { state, stores, rows }),
        (kind::ENDED, 0, None) => Ok(Step::Ended { state }),
        _ => moved.unknown(),
    }
}

/// The shown picture of an 8-bit film: the leading part of the lent picture that is front, 64 bytes for each
/// block.
///
/// It is empty where there is no size yet, where front or size is one that no film gives, where that picture is
/// shorter than the frame, and for a film with true colour, which has [`shown_words`].
///
/// # Examples
///
/// ```
/// use mve::{open, shown, State, NO_STREAM};
///
/// let (a, b) = ([1; 200], [2; 128]);
/// let opened = open(b"Interplay MVE File\x1A\0\x1A\0\0\x01\x33\x11", NO_STREAM)?;
/// assert_eq!(shown(&opened, &a, &b), []);
/// let sized = State { columns: 2, rows: 1, ..opened };
/// assert_eq!(shown(&sized, &a, &b), [1; 128]);
/// assert_eq!(shown(&State { front: 1, ..sized }, &a, &b), [2; 128]);
/// assert_eq!(shown(&State { front: 2, ..sized }, &a, &b), []);
/// assert_eq!(shown(&sized, &a[..127], &b), []);
/// # Ok::<(), mve::Refusal>(())
/// ```
pub fn shown<'a>(state: &State, a: &'a [u8], b: &'a [u8]) -> &'a [u8] {
    let count = ffi::shown(&state.numbers(), a, b);
    let front = if state.front == 0 { a } else { b };
    &front[..count]
}

/// The shown picture of a film with true colour: the leading part of the lent picture that is front, 64 words
/// for each block. [`word_colour`](crate::word_colour) gives the colour of a word.
///
/// It is empty where there is no size yet, where front or size is one that no film gives, where that picture is
/// shorter than the frame, and for an 8-bit film, which has [`shown`].
///
/// # Examples
///
/// ```
/// use mve::{open, shown_words, State, NO_STREAM};
///
/// let (c, d, e) = ([1; 200], [2; 128], [3; 128]);
/// let opened = open(b"Interplay MVE File\x1A\0\x1A\0\0\x01\x33\x11", NO_STREAM)?;
/// assert_eq!(shown_words(&opened, &c, &d, &e), []);
/// let sized = State { columns: 2, rows: 1, true_colour: true, ..opened };
/// assert_eq!(shown_words(&sized, &c, &d, &e), [1; 128]);
/// assert_eq!(shown_words(&State { front: 2, ..sized }, &c, &d, &e), [3; 128]);
/// assert_eq!(shown_words(&State { front: 3, ..sized }, &c, &d, &e), []);
/// assert_eq!(shown_words(&State { true_colour: false, ..sized }, &c, &d, &e), []);
/// assert_eq!(shown_words(&sized, &c[..127], &d, &e), []);
/// # Ok::<(), mve::Refusal>(())
/// ```
pub fn shown_words<'a>(state: &State, c: &'a [u16], d: &'a [u16], e: &'a [u16]) -> &'a [u16] {
    let count = ffi::shown_words(&state.numbers(), c, d, e);
    let front = match state.front {
        0 => c,
        1 => d,
        _ => e,
    };
    &front[..count]
}

#[cfg(test)]
mod tests {
    use super::*;
    use crate::numbers::{STATE, STATE_NUMBERS};

    const HEADER: &[u8] = b"Interplay MVE File\x1A\0\x1A\0\0\x01\x33\x11";

    /// The library takes every number but 0 as a flag that is set. A taken step gives 1 back for it,
    /// and zeros for what is not read; a step that leaves the state gives the very numbers back.
    #[test]
    fn flags() {
        [0, 1, usize::MAX].into_iter().for_each(flags_of);
    }

    fn flags_of(form: usize) {
        let state = State {
            map: Some((3, 4)),
            unsent: true,
            sound: Sound { stream: 77, wide: true, left: 5, right: 6, ..Sound::default() },
            ..open(HEADER, 77).expect("a header")
        };
        let with = |mut numbers: [usize; STATE_NUMBERS], changes: &[(usize, usize)]| {
            changes.iter().for_each(|&(at, number)| numbers[at] = number);
            numbers
        };
        // has_map, unsent, has_format, stereo, wide, begun
        let odd = [(5, 7), (8, usize::MAX), (10, 8), (11, 9), (12, 10), (14, 11)];
        let format = with(state.numbers(), &odd);
        let none = with(format, &[(10, 0), (13, 12)]);
        let read = Sound { has_format: true, stereo: true, begun: true, ..state.sound };
        let unread = Sound { stream: 77, ..Sound::default() };
        for (from, sound) in [(format, read), (none, unread)] {
            let step = |film: &[u8], palette: &mut [u8]| {
                let (mut out, room, allowed) = ([7; STEPPED_NUMBERS + 1], &mut [], usize::MAX);
                let (pictures, place) = (&mut Pictures::default(), &mut 0);
                let kind =
                    ffi::step(film, &from, &mut out, palette, pictures, place, room, allowed, form);
                assert_eq!((out[0], out[STEPPED_NUMBERS]), (kind, 7));
                (
                    kind,
                    out[1],
                    <[usize; STATE_NUMBERS]>::try_from(&out[STATE]).expect("a state's numbers"),
                )
            };
            let moved = State { position: 30, chunk_end: 30, sound, ..state };
            let taken = step(&[HEADER, &[0; 4]].concat(), &mut [0; 768]);
            assert_eq!(taken, (kind::TAKEN, 0, moved.numbers()));
            assert_eq!(step(HEADER, &mut [0; 768]), (kind::ENDED, 0, from));
            assert_eq!(step(HEADER, &mut []), (kind::REFUSED, 8, from));
        }
    }
}
