//! What one step of a film is given: states and lent memory, good and hostile.

use crate::calls;
use crate::film::Film;
use crate::seeded::Seeded;
use crate::size::Size;
use reference::film::{self, Lent, Span, State, Stepped};
use reference::sound::{Sound, STREAMS};
use reference::CallForm;

/// Bytes of the longest packet's samples: a word counts them, and each has two bytes at most.
pub const ENOUGH_ROOM: usize = 131_070;

/// Everything that one step is given beside the film.
#[derive(Clone, Debug, PartialEq, Eq)]
pub struct Start {
    /// The state that goes in.
    pub state: State,
    /// The lent palette.
    pub palette: Vec<u8>,
    /// The first lent picture.
    pub picture_a: Vec<u8>,
    /// The second lent picture.
    pub picture_b: Vec<u8>,
    /// The lent place.
    pub place: usize,
    /// The lent room.
    pub room: Vec<u8>,
    /// The three lent pictures of words.
    pub words: [Vec<u16>; 3],
    /// Stores allowed.
    pub allowed: usize,
}

/// The start of a film: the opening state, random pictures, sometimes longer than the frame, a
/// random palette, and for a film with sound room enough. Pictures of the other kind are of any length.
pub fn opening(rng: &mut Seeded, film: &Film) -> Start {
    let spare = rng.pick(&[0, 0, 1, 77]);
    let room = if film.stream < STREAMS { ENOUGH_ROOM } else { 0 };
    let words = lent_words(&mut rng.clone(), film, spare);
    Start {
        state: film::open(&film.bytes(), film.stream).expect("a valid film opens"),
        palette: rng.bytes(768),
        picture_a: rng.bytes(film.size.pixels() + spare),
        picture_b: rng.bytes(film.size.pixels() + spare),
        place: 0,
        room: vec![0; room],
        words,
        allowed: 312_000,
    }
}

/// Three pictures of words: of a film with true colour long enough, of another one seldom so.
fn lent_words(rng: &mut Seeded, film: &Film, spare: usize) -> [Vec<u16>; 3] {
    let fit = film.is_true_colour() || rng.one_in(4);
    [(); 3].map(|()| {
        let length = if fit { film.size.pixels() + spare } else { rng.below(70) };
        rng.words(length)
    })
}

/// A valid film's state after a random number of steps, with what is lent as those steps left it.
/// Drawing is stopped now and then in the middle of a frame. The room is one for the next step.
pub fn middle(rng: &mut Seeded, film: &Film) -> Start {
    let bytes = film.bytes();
    let mut start = opening(rng, film);
    let heads: usize = film.chunks.iter().map(|chunk| 1 + chunk.opcodes.len()).sum();
    for _ in 0..rng.below(heads + 4) {
        start.allowed = calls::allowance(rng, film.size.blocks());
        match start.step(&bytes) {
            Stepped::Taken(state, ..)
            | Stepped::Whole(state, ..)
            | Stepped::Unfinished(state, ..) => start.state = state,
            Stepped::Ended(_) | Stepped::Refused(_) => break,
        }
    }
    start.allowed = calls::allowance(rng, film.size.blocks());
    lend_room(rng, film, &mut start);
    start
}

/// Gives the next step over a film with sound another room.
fn lend_room(rng: &mut Seeded, film: &Film, start: &mut Start) {
    if film.stream < STREAMS {
        start.room = room(rng, start.due(&film.bytes()));
    }
}

/// A room for a step that writes so many bytes: just as long, a byte short, longer, or of any length.
pub fn room(rng: &mut Seeded, due: usize) -> Vec<u8> {
    let length = match rng.below(8) {
        0..=2 => due,
        3 | 4 => due.saturating_sub(1),
        5 | 6 => due + rng.between(1, 9),
        _ => rng.below(due + 40),
    };
    rng.bytes(length)
}

/// A state in the middle of a film with one or two of its numbers, or of what is lent, changed.
pub fn hostile(rng: &mut Seeded, film: &Film) -> Start {
    let length = film.bytes().len();
    let mut start = middle(rng, film);
    for _ in 0..rng.between(1, 2) {
        let state = &mut start.state;
        if film.stream < STREAMS && rng.one_in(2) {
            hostile_sound(rng, &mut state.sound);
            continue;
        }
        match rng.below(if film.is_true_colour() { 14 } else { 11 }) {
            0 => state.position = hostile_number(rng, state.position, length),
            1 => state.chunk_end = hostile_number(rng, state.chunk_end, length),
            2 => {
                // A chunk head is read wherever this is.
                state.position = rng.below(length + 1);
                state.chunk_end = state.position;
            }
            3 => (state.columns, state.rows) = hostile_size(rng),
            4 => state.front = rng.pick(&[0, 1, 0, 1, 2, 255, 256, usize::MAX]),
            5 => state.map = hostile_map(rng, length),
            6 => state.unsent = !state.unsent,
            7 | 8 => start.place = hostile_place(rng, film.size.blocks()),
            9 => hostile_lengths(rng, &mut start, film.size.pixels()),
            _ => hostile_kind(rng, &mut start, film.size.pixels()),
        }
    }
    lend_room(rng, film, &mut start);
    start
}

/// The state says the other kind of film; front is one of three, or none; or a picture of words is short.
fn hostile_kind(rng: &mut Seeded, start: &mut Start, pixels: usize) {
    match rng.below(4) {
        0 => start.state.true_colour ^= true,
        1 => start.state.front = rng.pick(&[0, 1, 2, 2, 3]),
        2 => start.words[rng.below(3)].truncate(pixels - 1),
        _ => {
            start.state.true_colour = true;
            start.words = [(); 3].map(|()| rng.words(pixels));
        }
    }
}

/// A film's bytes with some of those changed that the next step reads: behind the position, or in
/// the pending map.
pub fn scratched_ahead(rng: &mut Seeded, film: &Film, start: &Start) -> Vec<u8> {
    let mut bytes = film.bytes();
    let behind_position = Span { start: start.state.position, length: rng.pick(&[1, 4, 8, 40]) };
    let read = match start.state.map {
        Some(map) if rng.one_in(3) => map,
        _ => behind_position,
    };
    let first = read.start.min(bytes.len() - 1);
    let length = read.length.clamp(1, bytes.len() - first);
    for _ in 0..rng.between(1, 3) {
        bytes[first + rng.below(length)] = rng.byte();
    }
    bytes
}

impl Start {
    /// Takes the step by the second decoder, in the default form; what is lent changes.
    pub fn step(&mut self, film: &[u8]) -> Stepped {
        self.step_as(CallForm::Default, film)
    }

    /// Takes it in this form.
    pub fn step_as(&mut self, form: CallForm, film: &[u8]) -> Stepped {
        let lent = Lent {
            palette: &mut self.palette,
            picture_a: &mut self.picture_a,
            picture_b: &mut self.picture_b,
            place: &mut self.place,
            room: &mut self.room,
            words: self.words.each_mut().map(Vec::as_mut_slice),
        };
        film::step_as(form, film, self.state, lent, self.allowed)
    }

    /// Bytes that the step writes where there is room for them, by the second decoder.
    pub fn due(&self, film: &[u8]) -> usize {
        let mut tried = Start { room: vec![0; ENOUGH_ROOM], ..self.clone() };
        match tried.step(film) {
            Stepped::Taken(_, _, bytes) => bytes,
            _ => 0,
        }
    }
}

/// A number next to the old one or to a limit, far beyond it, or random below it.
fn hostile_number(rng: &mut Seeded, old: usize, limit: usize) -> usize {
    match rng.below(8) {
        0 => old.saturating_add(1),
        1 => old.saturating_sub(1),
        2 => limit,
        3 => limit + 1,
        4 => usize::MAX - rng.below(5),
        5 => 0,
        _ => rng.below(limit + 1),
    }
}

/// One thing about the sound changed: the stream, a flag, a last sample; a format both 8-bit and
/// compressed; or fields that nothing reads.
fn hostile_sound(rng: &mut Seeded, sound: &mut Sound) {
    match rng.below(10) {
        0 => sound.stream = rng.pick(&[0, 1, 14, 15, 16, 17, 32, 64, 256, usize::MAX]),
        1 => sound.has_format ^= true,
        2 => sound.stereo ^= true,
        3 => sound.wide ^= true,
        4 => sound.compressed ^= true,
        5 => sound.begun ^= true,
        6 => sound.left = rng.number() as u16,
        7 => sound.right = rng.number() as u16,
        8 => (sound.has_format, sound.wide, sound.compressed) = (true, false, true),
        _ => {
            let [stereo, wide, compressed, begun] = [(); 4].map(|()| rng.one_in(2));
            let (left, right) = (rng.number() as u16, rng.number() as u16);
            let (stream, has_format) = (sound.stream, false);
            *sound = Sound { stream, has_format, stereo, wide, compressed, begun, left, right };
        }
    }
}

/// A place about the block count, or far above it.
fn hostile_place(rng: &mut Seeded, blocks: usize) -> usize {
    rng.pick(&[blocks - 1, blocks, blocks + 1, blocks + 2, usize::MAX])
}

/// Columns and rows of a legal size that is not the film's, or of one that cannot be. Of some of the
/// latter the product by 8 or 64 is small, if it wraps around.
fn hostile_size(rng: &mut Seeded) -> (usize, usize) {
    if rng.one_in(2) {
        let size = Size::small(rng);
        return (size.columns, size.rows);
    }
    let near = [0, 0, 1, 2, 60, 61, 80, 81, 640];
    let far = [1 << 32, (1 << 58) + 1, 1 << 61, usize::MAX];
    let mut number = || if rng.one_in(4) { rng.pick(&far) } else { rng.pick(&near) };
    (number(), number())
}

fn hostile_map(rng: &mut Seeded, film: usize) -> Option<Span> {
    let start = hostile_number(rng, film / 2, film);
    let length = match rng.below(4) {
        0 => film.saturating_sub(start),
        1 => film.saturating_sub(start) + 1,
        2 => usize::MAX - rng.below(3),
        _ => rng.below(20),
    };
    let none = rng.one_in(3);
    (!none).then_some(Span { start, length })
}

fn hostile_lengths(rng: &mut Seeded, start: &mut Start, pixels: usize) {
    match rng.below(4) {
        0 => start.palette.resize(rng.pick(&[0, 1, 767, 769, 1024]), 0),
        1 => start.picture_a.truncate(pixels - 1),
        2 => start.picture_b.truncate(pixels - 1),
        _ => start.picture_b.clear(),
    }
}
