//! The walk over a film: step after step by the proved library, with palette, pictures and samples in
//! memory of its own.

use crate::opcodes::Opcode;
use crate::refusals::Refused;
use mve::{Form, Pictures, State, Step, PALETTE_BYTES, PICTURE_BYTES, PICTURE_WORDS};

/// How a film is walked.
#[derive(Clone, Copy, Debug)]
pub struct Rules {
    /// The stream of its sound; [`mve::NO_STREAM`] for none.
    pub stream: usize,
    /// How many bytes of a packet may be left over.
    pub form: Form,
    /// The stores that a step is allowed.
    pub allowance: usize,
}

/// A film that is being walked.
pub struct Walk<'a> {
    film: &'a [u8],
    rules: Rules,
    state: State,
    palette: [u8; PALETTE_BYTES],
    /// Of an 8-bit film.
    bytes: [Vec<u8>; 2],
    /// Of a film with true colour; empty until the film has told that it has it.
    words: [Vec<u16>; 3],
    place: usize,
    room: Vec<u8>,
    stops: usize,
}

/// What a step has passed.
#[derive(Clone, Copy, Debug)]
pub struct Passed<'a> {
    /// The opcode; none of a chunk's head.
    pub opcode: Option<Opcode<'a>>,
    /// Where it stands in the film.
    pub position: usize,
    /// The microseconds that pictures stay from now on, where it is a timer.
    pub timer: Option<u64>,
    /// Whether a picture was sent to the display.
    pub sent: bool,
    /// Bytes of samples; see [`Walk::samples`].
    bytes: usize,
}

/// A picture that was sent.
#[derive(Clone, Copy, Debug)]
pub struct Picture<'a> {
    /// In pixels.
    pub width: u16,
    pub height: u16,
    /// Of an 8-bit film a palette entry for each pixel, row by row; else empty.
    pub pixels: &'a [u8],
    /// Of a film with true colour a word for each pixel, row by row; else empty.
    pub words: &'a [u16],
    /// 256 entries of red, green and blue, 0 to 63.
    pub palette: &'a [u8; PALETTE_BYTES],
}

impl Picture<'_> {
    /// Red, green and blue of an entry, 0 to 63.
    pub fn colour(&self, entry: u8) -> [u8; 3] {
        let at = 3 * usize::from(entry);
        [self.palette[at], self.palette[at + 1], self.palette[at + 2]]
    }

    /// Red, green and blue of each pixel, 8 bits each, row by row.
    pub fn rgb(&self) -> impl Iterator<Item = [u8; 3]> + '_ {
        let entries = self.pixels.iter().map(|&entry| mve::colour(self.palette, entry));
        entries.chain(self.words.iter().copied().map(mve::word_colour))
    }
}

impl<'a> Walk<'a> {
    /// Opens a film.
    pub fn open(film: &'a [u8], rules: Rules) -> Result<Walk<'a>, Refused> {
        let state = mve::open(film, rules.stream).map_err(Refused::at_header)?;
        Ok(Walk {
            film,
            rules,
            state,
            palette: [0; PALETTE_BYTES],
            bytes: [(); 2].map(|()| vec![0; PICTURE_BYTES]),
            words: Default::default(),
            place: 0,
            room: vec![0; mve::ROOM_BYTES],
            stops: 0,
        })
    }

    /// Passes the next chunk's head or opcode; none where the film has ended. A step that its stores
    /// do not suffice for is taken again until they do. One that came no further, in a palette or in a
    /// block, begins again, with twice as many.
    pub fn pass(&mut self) -> Result<Option<Passed<'a>>, Refused> {
        let (before, mut allowed) = (self.state, self.rules.allowance);
        let (after, bytes) = loop {
            let found = self.place;
            match self.step(allowed)? {
                Step::Unfinished { .. } => {
                    self.stops += 1;
                    let twice = allowed.saturating_mul(2);
                    allowed = if self.place == found { twice } else { self.rules.allowance };
                }
                Step::Taken { state: after, bytes, .. } => break (after, bytes),
                Step::Whole { state: after, .. } => break (after, 0),
                Step::Ended { .. } => return Ok(None),
            }
        };
        self.state = after;
        if after.true_colour && !before.true_colour {
            self.words = [(); 3].map(|()| vec![0; PICTURE_WORDS]);
        }
        let sent = mve::is_sent(&before, &after);
        let opcode = Opcode::at(self.film, &before);
        let timer = mve::timer(self.film, &before);
        Ok(Some(Passed { opcode, position: before.position, timer, sent, bytes }))
    }

    fn step(&mut self, allowed: usize) -> Result<Step, Refused> {
        let Walk {
            film, rules, state, palette, bytes: [a, b], words: [c, d, e], place, room, ..
        } = self;
        let (pictures, form) = (&mut Pictures { a, b, c, d, e }, rules.form);
        let step = mve::step(film, *state, palette, pictures, place, room, allowed, form);
        step.map_err(|refusal| Refused::new(refusal, film, state))
    }

    /// The samples of what was passed last.
    pub fn samples(&self, passed: &Passed<'_>) -> &[u8] {
        &self.room[..passed.bytes]
    }

    /// The picture that is shown; of no pixel before the film has told its size.
    pub fn picture(&self) -> Picture<'_> {
        self.shown_at(&self.state)
    }

    /// The picture of an 8-bit film that is drawn on.
    pub fn drawn(&self) -> Picture<'_> {
        self.shown_at(&State { front: 1 - self.state.front, ..self.state })
    }

    fn shown_at(&self, state: &State) -> Picture<'_> {
        let Walk { palette, bytes: [a, b], words: [c, d, e], .. } = self;
        let [width, height] = [state.width() as u16, state.height() as u16];
        let (pixels, words) = (mve::shown(state, a, b), mve::shown_words(state, c, d, e));
        Picture { width, height, pixels, words, palette }
    }

    pub fn state(&self) -> &State {
        &self.state
    }

    /// How often a step was stopped because its stores did not suffice.
    pub fn stops(&self) -> usize {
        self.stops
    }
}
