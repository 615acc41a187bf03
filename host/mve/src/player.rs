//! A loop over a film: one step at a time, told as an event.

use crate::begin::{begin, Unbegun};
use crate::colour::{colour, word_colour};
use crate::film::{is_sent, open, shown, shown_words, step, State, Step};
use crate::timer::timer;
use crate::{Form, Pictures, Refusal, Rows, ALL_STORES};
use core::fmt;

/// The memory that a film is played in. The library allocates none, so the host lends it.
///
/// Let palette, pictures and place be 0 at first. The lengths are those of
/// [`PALETTE_BYTES`](crate::PALETTE_BYTES), [`PICTURE_BYTES`](crate::PICTURE_BYTES),
/// [`PICTURE_WORDS`](crate::PICTURE_WORDS) and [`ROOM_BYTES`](crate::ROOM_BYTES), which are enough for every
/// film; pictures may be shorter where the frame is smaller, those of the other kind of film may be empty, and
/// the room may be shorter where packets of sound are, or where no sound is wanted.
///
/// To lend no more than a film needs, [`begin`](crate::begin()) it first: its state tells size and kind. Then
/// [`Player::resume`] from this state.
///
/// ```
/// use mve::{begin, Memory, Pictures, Player, NO_STREAM, PALETTE_BYTES};
///
/// fn play(film: &[u8]) -> Result<(), Box<dyn std::error::Error>> {
///     let (mut palette, mut place) = ([0; PALETTE_BYTES], 0);
///     let state = begin(film, NO_STREAM, &mut palette, &mut place)?;
///     let pixels = 64 * state.columns * state.rows;
///     let (bytes, words) = if state.true_colour { (0, pixels) } else { (pixels, 0) };
///     let (mut a, mut b) = (vec![0; bytes], vec![0; bytes]);
///     let (mut c, mut d, mut e) = (vec![0; words], vec![0; words], vec![0; words]);
///     let memory = Memory {
///         palette: &mut palette,
///         pictures: Pictures { a: &mut a, b: &mut b, c: &mut c, d: &mut d, e: &mut e },
///         place: &mut place,
///         room: &mut [],
///     };
///     let mut player = Player::resume(film, state, memory);
///     while let Some(event) = player.step()? {
///         println!("{event:?}");
///     }
///     Ok(())
/// }
/// ```
#[derive(Debug)]
pub struct Memory<'m> {
    /// 256 entries of red, green and blue, 0 to 63.
    pub palette: &'m mut [u8],
    /// Two pictures of bytes and three of words; a film uses those of its kind.
    pub pictures: Pictures<'m>,
    /// The first block that is not finished.
    pub place: &'m mut usize,
    /// Where samples are written.
    pub room: &'m mut [u8],
}

/// A film that is being played: the film, the state between two steps, and the lent memory.
///
/// [`step`](Player::step) makes one call of the library and tells what it gave, so a loop over it is a
/// loop over the film. It decides nothing else and allocates nothing. The first example of this crate
/// shows it.
///
/// A player that must go on after a stop saves [`state`](Player::state) after every step, and comes back
/// by [`resume`](Player::resume) with palette, pictures and place as the stop left them.
#[derive(Debug)]
pub struct Player<'f, 'm> {
    film: &'f [u8],
    state: State,
    memory: Memory<'m>,
    allowed: usize,
    form: Form,
}

/// Why a step of a player was refused, and where in the film.
///
/// ```
/// use mve::{Error, Refusal, RefusedAt};
///
/// let refused = RefusedAt { refusal: Refusal { error: Error::Code6, block: 1 }, position: 51 };
/// let message = "refusal 12 in block 1: the block has code 6, which 8-bit films do not have, at byte 51";
/// assert_eq!(refused.to_string(), message);
/// ```
#[derive(Clone, Copy, Debug, PartialEq, Eq, Hash)]
pub struct RefusedAt {
    /// What is wrong.
    pub refusal: Refusal,
    /// The head of the chunk or opcode that is refused, counted from the film's first byte.
    pub position: usize,
}

impl fmt::Display for RefusedAt {
    fn fmt(&self, f: &mut fmt::Formatter<'_>) -> fmt::Result {
        write!(f, "{}, at byte {}", self.refusal, self.position)
    }
}

impl core::error::Error for RefusedAt {}

/// What a step gave.
#[derive(Clone, Copy, Debug, PartialEq, Eq)]
pub enum Event<'p> {
    /// A chunk's head or an opcode was taken that gives nothing of what follows.
    Taken,
    /// An opcode 0x02 was passed: from now on a picture stays for so many microseconds. See
    /// [`timer`](crate::timer()).
    Timer(u64),
    /// A frame was drawn to its end; it is not sent yet. With the rows of blocks that it touches.
    Drawn(Option<Rows>),
    /// A picture was sent: it is to be shown.
    Picture(Picture<'p>),
    /// Samples were written.
    Samples(Samples<'p>),
    /// The stores allowed were made, and more are due. The next step goes on with the picture; a palette
    /// or a map it begins again, so allow [`PALETTE_STORES`](crate::PALETTE_STORES) or more.
    Unfinished,
}

/// A picture that is shown.
#[derive(Clone, Copy, Debug, PartialEq, Eq)]
pub struct Picture<'p> {
    /// Of 8x8 blocks: the picture is 8 times as many pixels wide.
    pub columns: usize,
    /// Of 8x8 blocks: the picture is 8 times as many pixels high.
    pub rows: usize,
    /// Of an 8-bit film a palette entry for each pixel, row by row; else empty.
    pub pixels: &'p [u8],
    /// Of a film with true colour a word for each pixel, row by row: see [`word_colour`](crate::word_colour);
    /// else empty.
    pub words: &'p [u16],
    /// 256 entries of red, green and blue, 0 to 63.
    pub palette: &'p [u8],
}

/// The samples of a packet of sound.
#[derive(Clone, Copy, Debug, PartialEq, Eq)]
pub struct Samples<'p> {
    /// Two channels, left and right in turn; else one.
    pub stereo: bool,
    /// Samples of 16 bits, signed, low byte first; else of 8 bits, unsigned.
    pub wide: bool,
    /// The samples.
    pub bytes: &'p [u8],
}

impl Picture<'_> {
    /// The width in pixels.
    pub const fn width(&self) -> usize {
        8 * self.columns
    }

    /// The height in pixels.
    pub const fn height(&self) -> usize {
        8 * self.rows
    }

    /// Red, green and blue of each pixel, 8 bits each, row by row; see [`widened`](crate::widened) and
    /// [`widened_5`](crate::widened_5).
    ///
    /// ```
    /// let palette = [0, 0, 0, 63, 0, 32];
    /// let picture =
    ///     mve::Picture { columns: 1, rows: 1, pixels: &[1; 64], words: &[], palette: &palette };
    /// assert_eq!((picture.width(), picture.height()), (8, 8));
    /// assert!(picture.rgb().eq([[255, 0, 130]; 64]));
    ///
    /// let picture = mve::Picture { pixels: &[], words: &[0x7C10; 64], ..picture };
    /// assert!(picture.rgb().eq([[255, 0, 132]; 64]));
    /// ```
    pub fn rgb(&self) -> impl Iterator<Item = [u8; 3]> + '_ {
        let entries = self.pixels.iter().map(|&entry| colour(self.palette, entry));
        entries.chain(self.words.iter().copied().map(word_colour))
    }
}

impl<'f, 'm> Player<'f, 'm> {
    /// Opens a film for a stream of its sound and steps until its size is known, as
    /// [`begin`](crate::begin()) does. Samples and timers before the size are dropped;
    /// [`open`](Player::open) is for those who want them.
    ///
    /// # Errors
    ///
    /// Those of [`begin`](crate::begin()), with the state at which the film is refused.
    pub fn begin(film: &'f [u8], stream: usize, memory: Memory<'m>) -> Result<Self, Unbegun> {
        let state = begin(film, stream, memory.palette, memory.place)?;
        Ok(Player::resume(film, state, memory))
    }

    /// Opens a film for a stream of its sound, as [`open`](crate::open) does.
    ///
    /// # Errors
    ///
    /// [`Error::Header`](crate::Error::Header) where the film's header is wrong or short.
    pub fn open(film: &'f [u8], stream: usize, memory: Memory<'m>) -> Result<Self, Refusal> {
        Ok(Player::resume(film, open(film, stream)?, memory))
    }

    /// Goes on with a film from a state that was saved.
    pub const fn resume(film: &'f [u8], state: State, memory: Memory<'m>) -> Self {
        Player { film, state, memory, allowed: ALL_STORES, form: Form::Default }
    }

    /// Allows each step so many stores; else it is [`ALL_STORES`], and no step is unfinished.
    /// With fewer than [`PALETTE_STORES`](crate::PALETTE_STORES) at every step, a palette that has more is
    /// never done.
    #[must_use]
    pub const fn allowed(mut self, stores: usize) -> Self {
        self.allowed = stores;
        self
    }

    /// Takes steps of the strict form: no packet may leave a byte over.
    #[must_use]
    pub const fn strict(mut self) -> Self {
        self.form = Form::Strict;
        self
    }

    /// The state for the next step.
    pub const fn state(&self) -> &State {
        &self.state
    }

    /// Takes one step, and tells what it gave; none where the film has ended.
    ///
    /// # Errors
    ///
    /// Those of [`step`](crate::step), with the byte of the film. Nothing has changed, so the same step is
    /// refused again.
    pub fn step(&mut self) -> Result<Option<Event<'_>>, RefusedAt> {
        let Memory { palette, pictures, place, room } = &mut self.memory;
        let (before, allowed, form) = (self.state, self.allowed, self.form);
        let stepped = step(self.film, before, palette, pictures, place, room, allowed, form)
            .map_err(|refusal| RefusedAt { refusal, position: before.position })?;
        self.state = stepped.state();
        Ok(match stepped {
            Step::Ended { .. } => None,
            Step::Unfinished { .. } => Some(Event::Unfinished),
            Step::Taken { bytes: bytes @ 1.., .. } => Some(Event::Samples(self.samples(bytes))),
            Step::Whole { rows, .. } => Some(Event::Drawn(rows)),
            Step::Taken { .. } if is_sent(&before, &self.state) => {
                Some(Event::Picture(self.picture()))
            }
            Step::Taken { .. } => {
                Some(timer(self.film, &before).map_or(Event::Taken, Event::Timer))
            }
        })
    }

    /// The picture that is shown; it has no pixel before the film has told its size.
    pub fn picture(&self) -> Picture<'_> {
        let (Memory { palette, pictures, .. }, State { columns, rows, .. }) =
            (&self.memory, self.state);
        let Pictures { a, b, c, d, e } = pictures;
        let (pixels, words) = (shown(&self.state, a, b), shown_words(&self.state, c, d, e));
        Picture { columns, rows, pixels, words, palette }
    }

    fn samples(&self, bytes: usize) -> Samples<'_> {
        let sound = self.state.sound;
        Samples { stereo: sound.stereo, wide: sound.wide, bytes: &self.memory.room[..bytes] }
    }
}
