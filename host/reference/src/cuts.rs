//! Films played through cuts (02, W11): the stores of each step in one list, what a cut leaves, and what
//! a film sends in spite of it.
//!
//! The list of a step is read from its opcode; the step itself only tells whether it is refused. A cut
//! call makes the first stores of its list and answers nobody. It is called again with the same film and
//! state, on memory as the cut left it.

use crate::film::{self, opcode, Lent, State, Stepped};
use crate::frame::{FrameSize, BLOCK_PIXELS};
use crate::packet::{self, CallForm};
use crate::palette::{self, Entry};
use crate::refusal::Refusal;
use crate::word_packet;

/// Stores that each call is allowed that is not cut: none has more.
pub const STORES_A_STEP: usize = 312_000;
/// Stores of the longest palette opcode: 0B with twice 256 entries.
pub const PALETTE_STORES: usize = 2 * palette::LENGTH;

/// One store of a step.
#[derive(Clone, Copy, Debug, PartialEq, Eq)]
pub enum Store {
    /// A byte of the palette.
    Colour(palette::Store),
    /// A pixel of a picture.
    Pixel {
        /// Which picture: 0 the first, 1 the second.
        picture: usize,
        /// Which pixel.
        index: usize,
        /// Its new value.
        value: u8,
    },
    /// A pixel of a picture of words.
    Word {
        /// Which picture, 0 to 2.
        picture: usize,
        /// Which pixel.
        index: usize,
        /// Its new value.
        value: u16,
    },
    /// The place.
    Place(usize),
}

/// What is lent to the steps of a film and outlives a cut. The room does not.
#[derive(Clone, Debug, PartialEq, Eq)]
pub struct Memory {
    /// The palette.
    pub palette: Vec<u8>,
    /// The two pictures.
    pub pictures: [Vec<u8>; 2],
    /// The three pictures of words.
    pub words: [Vec<u16>; 3],
    /// The place.
    pub place: usize,
}

impl Memory {
    /// Makes a store.
    pub fn make(&mut self, store: Store) {
        match store {
            Store::Colour(palette::Store { index, value }) => self.palette[index] = value,
            Store::Pixel { picture, index, value } => self.pictures[picture][index] = value,
            Store::Word { picture, index, value } => self.words[picture][index] = value,
            Store::Place(place) => self.place = place,
        }
    }

    /// As a call leaves it that is cut after so many of its stores.
    pub fn cut(&self, stores: &[Store], made: usize) -> Memory {
        let mut left = self.clone();
        stores.iter().take(made).for_each(|&store| left.make(store));
        left
    }

    fn lent<'a>(&'a mut self, room: &'a mut [u8]) -> Lent<'a> {
        let Memory { palette, pictures: [picture_a, picture_b], words, place } = self;
        let words = words.each_mut().map(Vec::as_mut_slice);
        Lent { palette, picture_a, picture_b, place, room, words }
    }
}

/// The stores of the step at a state, all that are due, in order. A step that is refused has none, nor
/// has any opcode but 0B, 0C, 0D, 0F and 11.
pub fn listed(form: CallForm, film: &[u8], state: &State, memory: &Memory) -> Vec<Store> {
    let judged = film::step_as(form, film, *state, memory.clone().lent(&mut []), 0);
    if matches!(judged, Stepped::Refused(_) | Stepped::Ended(_)) {
        return Vec::new();
    }
    let Ok(head) = film::opcode_head(film, state.position, state.chunk_end) else {
        return Vec::new(); // a chunk's head
    };
    let body = head.body.of(film).unwrap_or_default();
    let stores = match head.kind {
        opcode::GRADIENT => palette::gradient_entries(body).map(colours),
        opcode::PALETTE => palette::palette_entries(body).map(colours),
        opcode::PALETTE_COMPRESSED => palette::compressed_entries(body).map(colours),
        opcode::MAP => Ok(vec![Store::Place(0)]),
        opcode::VIDEO if state.true_colour => word_drawing(form, film, body, state, memory),
        opcode::VIDEO => drawing(form, film, body, state, memory),
        _ => Ok(Vec::new()),
    };
    stores.unwrap_or_default() // the step is not refused
}

fn colours(entries: Vec<Entry>) -> Vec<Store> {
    palette::stores(&entries).into_iter().map(Store::Colour).collect()
}

/// A drawing's stores from the place on: of each block its pixels, row by row, each from memory as the
/// stores before it left it, then the place.
fn drawing(
    form: CallForm,
    film: &[u8],
    body: &[u8],
    state: &State,
    memory: &Memory,
) -> Result<Vec<Store>, Refusal> {
    let size = FrameSize::new(state.columns, state.rows)?;
    let map = state.map.and_then(|map| map.of(film)).unwrap_or_default();
    let (picture, place) = (1 - state.front, memory.place);
    let front = &memory.pictures[state.front];
    let mut back = memory.pictures[picture].clone();
    let blocks = packet::accepted_blocks(form, size, map, &body[14..], front, &back, place)?;
    let mut stores = Vec::new();
    for block in &blocks[place..] {
        for i in 0..block.pixel_stores() {
            let (index, value) = (block.target(size, i), block.value(size, i, front, &back));
            back[index] = value;
            stores.push(Store::Pixel { picture, index, value });
        }
        stores.push(Store::Place(block.number + 1));
    }
    Ok(stores)
}

/// The same with true colour: every block has its pixels stored.
fn word_drawing(
    form: CallForm,
    film: &[u8],
    body: &[u8],
    state: &State,
    memory: &Memory,
) -> Result<Vec<Store>, Refusal> {
    let size = FrameSize::new(state.columns, state.rows)?;
    let map = state.map.and_then(|map| map.of(film)).unwrap_or_default();
    let (picture, place) = ((state.front + 1) % 3, memory.place);
    let (last, oldest) = (&memory.words[state.front], &memory.words[(state.front + 2) % 3]);
    let mut new = memory.words[picture].clone();
    let pictures = [&last[..], oldest, &new];
    let blocks = word_packet::accepted_words(form, size, map, &body[14..], pictures, place)?;
    let mut stores = Vec::new();
    for block in &blocks[place..] {
        for i in 0..BLOCK_PIXELS {
            let (index, value) = (block.target(size, i), block.value(size, i, last, oldest, &new));
            new[index] = value;
            stores.push(Store::Word { picture, index, value });
        }
        stores.push(Store::Place(block.number + 1));
    }
    Ok(stores)
}

/// A picture that is sent, with the palette that stands then.
#[derive(Clone, Debug, PartialEq, Eq)]
pub struct Sent {
    /// The shown picture; empty of a film with true colour.
    pub picture: Vec<u8>,
    /// The shown picture of a film with true colour; empty of any other.
    pub words: Vec<u16>,
    /// The palette.
    pub palette: Vec<u8>,
}

/// What a film gives that is played to its end.
#[derive(Clone, Debug, Default, PartialEq, Eq)]
pub struct Played {
    /// The pictures sent, in order.
    pub sent: Vec<Sent>,
    /// The samples of its stream, as bytes.
    pub samples: Vec<u8>,
    /// The refusal that ended it; none where it ended by itself.
    pub refusal: Option<Refusal>,
}

impl Played {
    /// Takes what a step gave that led from one state to the next and wrote these samples.
    pub fn take(&mut self, before: &State, after: &State, memory: &Memory, samples: &[u8]) {
        self.samples.extend(samples);
        if before.unsent && !after.unsent {
            let [a, b] = &memory.pictures;
            let picture = film::shown(after, a, b).to_vec();
            let words = memory.words.each_ref().map(Vec::as_slice);
            let words = film::shown_words(after, words).to_vec();
            self.sent.push(Sent { picture, words, palette: memory.palette.clone() });
        }
    }
}

/// A film to play, from a state on.
#[derive(Clone, Copy, Debug)]
pub struct Film<'a> {
    /// Its bytes.
    pub bytes: &'a [u8],
    /// The form of the steps.
    pub form: CallForm,
    /// Where to begin.
    pub state: State,
    /// Bytes of the room that is lent.
    pub room: usize,
}

/// Plays a film to its end. `cut` is asked before each call, with the stores that are due to it: after
/// how many of them the call is cut; none where it is not. A cut call leaves other bytes in the room,
/// and its step is called again.
pub fn play(
    film: &Film<'_>,
    mut memory: Memory,
    mut cut: impl FnMut(&State, &[Store]) -> Option<usize>,
) -> Played {
    let (mut state, mut room) = (film.state, vec![0; film.room]);
    let mut played = Played::default();
    loop {
        let due = listed(film.form, film.bytes, &state, &memory);
        if let Some(made) = cut(&state, &due) {
            memory = memory.cut(&due, made);
            room.fill(made as u8 ^ 0xA5);
            continue;
        }
        let lent = memory.lent(&mut room);
        let (after, bytes) = match film::step_as(film.form, film.bytes, state, lent, STORES_A_STEP)
        {
            Stepped::Taken(after, _, bytes) => (after, bytes),
            Stepped::Whole(after, ..) => (after, 0),
            // Not met: no step has more stores than it is allowed.
            Stepped::Unfinished(same, ..) => (same, 0),
            Stepped::Ended(_) => return played,
            Stepped::Refused(refusal) => return Played { refusal: Some(refusal), ..played },
        };
        played.take(&state, &after, &memory, &room[..bytes]);
        state = after;
    }
}

/// Cuts each step at every one of its stores, one call after the other: behind none, behind the first,
/// and so on to the last.
pub fn at_every_store() -> impl FnMut(&State, &[Store]) -> Option<usize> {
    let mut last: Option<(State, usize, usize)> = None;
    move |state, due| {
        let (next, all) = match last {
            Some((same, next, all)) if same == *state => (next, all),
            _ => (0, due.len()),
        };
        last = Some((*state, next + 1, all));
        (next <= all).then_some(next)
    }
}
