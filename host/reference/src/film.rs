//! The film: header, chunks, opcodes, one step, the shown picture
//! (01, "Film, chunks, opcodes" and "Numbers of refusal"; 02, W1, W2, W5, W6, W7 and W11).

use crate::frame::FrameSize;
use crate::packet::{self, CallForm, Drawn, Rows};
use crate::palette::{self, Entry};
use crate::refusal::{self, Refusal};
use crate::sound::{self, Sound};
use crate::word_packet;

/// The 26 bytes that every film starts with: a title, then the words 001A, 0100, 1133.
pub const HEADER: [u8; 26] = *b"Interplay MVE File\x1A\x00\x1A\x00\x00\x01\x33\x11";

/// Bytes of a chunk's head: words length and type.
const CHUNK_HEAD: usize = 4;
/// Bytes of an opcode's head: word length, byte type, byte version.
const OPCODE_HEAD: usize = 4;
/// Bytes of the three words in front of the sound of opcodes 08 and 09.
const AUDIO_FRONT: usize = 6;
/// Bytes of opcode 11's body that are skipped in front of the packet.
const VIDEO_FRONT: usize = 14;
/// Bytes of opcode 11's body that a film with true colour has at least: its packet begins with a word.
const TRUE_COLOUR_FRONT: usize = 16;

/// The opcode types that are acted on, by 003's names; 03, 08 and 09 only where a stream is chosen.
pub mod opcode {
    /// 00: end of stream. Ends the film, whatever follows its chunk.
    pub const END_OF_STREAM: u8 = 0x00;
    /// 01: end of chunk.
    pub const END_OF_CHUNK: u8 = 0x01;
    /// 03: initialize audio buffers. Gives the format of the sound.
    pub const INIT_AUDIO: u8 = 0x03;
    /// 05: initialize video buffers. Gives the frame size.
    pub const INIT_VIDEO: u8 = 0x05;
    /// 07: send buffer to display.
    pub const SEND: u8 = 0x07;
    /// 08: audio frame with data.
    pub const AUDIO_DATA: u8 = 0x08;
    /// 09: audio frame of silence.
    pub const AUDIO_SILENCE: u8 = 0x09;
    /// 0B: create gradient.
    pub const GRADIENT: u8 = 0x0B;
    /// 0C: set palette.
    pub const PALETTE: u8 = 0x0C;
    /// 0D: set palette entries compressed.
    pub const PALETTE_COMPRESSED: u8 = 0x0D;
    /// 0F: set decoding map.
    pub const MAP: u8 = 0x0F;
    /// 11: video data.
    pub const VIDEO: u8 = 0x11;
}

/// A part of the film by its place in it.
#[derive(Clone, Copy, Debug, PartialEq, Eq)]
pub struct Span {
    /// Position of its first byte.
    pub start: usize,
    /// Its bytes.
    pub length: usize,
}

impl Span {
    /// The bytes, or none if they do not lie inside the film.
    pub fn of<'a>(&self, film: &'a [u8]) -> Option<&'a [u8]> {
        film.get(self.start..self.start.checked_add(self.length)?)
    }
}

/// The state of a film between two steps. It goes into a step and comes back; any numbers may
/// stand in it, and refusal 16 is met by those that cannot be.
#[derive(Clone, Copy, Debug, PartialEq, Eq)]
pub struct State {
    /// Where the next chunk head or opcode is read.
    pub position: usize,
    /// End of the chunk that is being read.
    pub chunk_end: usize,
    /// Blocks in a row of a frame; 0 before opcode 05.
    pub columns: usize,
    /// Rows of blocks of a frame; 0 before opcode 05.
    pub rows: usize,
    /// Whether the film has true colour; never before opcode 05.
    pub true_colour: bool,
    /// Which lent picture is front, the shown one: 0 the first, 1 the second. The other one is
    /// back, the one that is drawn on. With true colour it is one of three, the next one is drawn on, and
    /// the one behind that is the oldest.
    pub front: usize,
    /// The map of the next frame, given by opcode 0F and not used up yet.
    pub map: Option<Span>,
    /// A frame is finished and not sent to the display yet.
    pub unsent: bool,
    /// The sound: its stream, format and last samples.
    pub sound: Sound,
}

impl State {
    fn has_no_size(&self) -> bool {
        (self.columns, self.rows) == (0, 0)
    }

    /// The legal frame size of the state, if it has one.
    fn size(&self) -> Option<FrameSize> {
        FrameSize::new(self.columns, self.rows).ok()
    }

    /// Pixels of a frame; 0 where the state has no legal size.
    pub fn pixels(&self) -> usize {
        self.size().map_or(0, FrameSize::pixels)
    }

    /// As a step that moves the state gives it back.
    fn settled(self) -> State {
        State { sound: self.sound.settled(), ..self }
    }
}

/// What is lent to a step beside the film.
#[derive(Debug)]
pub struct Lent<'a> {
    /// The palette: 256 entries of red, green and blue.
    pub palette: &'a mut [u8],
    /// The first picture.
    pub picture_a: &'a mut [u8],
    /// The second picture.
    pub picture_b: &'a mut [u8],
    /// The place of the drawing.
    pub place: &'a mut usize,
    /// The room that samples are written to, from its front on.
    pub room: &'a mut [u8],
    /// The three pictures of words, for films with true colour.
    pub words: [&'a mut [u16]; 3],
}

/// What a step is allowed.
#[derive(Clone, Copy)]
struct Allowance {
    /// How many stores.
    stores: usize,
    /// What its packet may leave over.
    form: CallForm,
}

/// The answer to one step. Palettes, 0F and drawing make stores and count them; every other step makes
/// 0 (02, W11). Only 08 and 09 write to the room, which is not counted; every other step writes 0 bytes.
#[derive(Clone, Copy, Debug, PartialEq, Eq)]
pub enum Stepped {
    /// A chunk head or an opcode other than 11 was taken. With the stores made, which only palettes and
    /// 0F have, and the bytes written to the room's front, which only chosen sound has.
    Taken(State, usize, usize),
    /// Opcode 11 was taken: its frame is whole. With the stores made, and the rows that its packet
    /// touches.
    Whole(State, usize, Option<Rows>),
    /// The stores allowed were made, and they are too few: the step is to be taken again. With the
    /// stores made and, of opcode 11, the rows that the whole packet touches.
    Unfinished(State, usize, Option<Rows>),
    /// The film is at its end; nothing changed.
    Ended(State),
    /// The step was refused; nothing changed.
    Refused(Refusal),
}

/// A chunk's head, read.
#[derive(Clone, Copy, Debug, PartialEq, Eq)]
pub struct ChunkHead {
    /// The type word, which the walk does not use.
    pub kind: u16,
    /// The chunk's opcodes.
    pub body: Span,
}

/// An opcode's head, read.
#[derive(Clone, Copy, Debug, PartialEq, Eq)]
pub struct OpcodeHead {
    /// The type byte.
    pub kind: u8,
    /// The version byte.
    pub version: u8,
    /// The body.
    pub body: Span,
}

/// Opens a film for a stream of its sound: the header is tested (refusal 1) and nothing lent is
/// touched. A stream number above 15 has opcodes 03, 08 and 09 passed over.
pub fn open(film: &[u8], stream: usize) -> Result<State, Refusal> {
    if !film.starts_with(&HEADER) {
        return Err(Refusal::new(refusal::HEADER));
    }
    Ok(State {
        position: HEADER.len(),
        chunk_end: HEADER.len(),
        columns: 0,
        rows: 0,
        true_colour: false,
        front: 0,
        map: None,
        unsent: false,
        sound: Sound::new(stream),
    })
}

/// Reads the chunk head at a position; refusal 2 where it or its body passes the film's end.
pub fn chunk_head(film: &[u8], position: usize) -> Result<ChunkHead, Refusal> {
    let past_end = Refusal::new(refusal::CHUNK);
    let rest = film.get(position..).ok_or(past_end)?;
    let &[length_low, length_high, kind_low, kind_high, ref behind @ ..] = rest else {
        return Err(past_end);
    };
    let length = usize::from(u16::from_le_bytes([length_low, length_high]));
    if length > behind.len() {
        return Err(past_end);
    }
    let start = position + CHUNK_HEAD;
    Ok(ChunkHead { kind: u16::from_le_bytes([kind_low, kind_high]), body: Span { start, length } })
}

/// Reads the opcode head at a position of a chunk; refusal 3 where it or its body passes the
/// chunk, and where bytes of the chunk follow opcode 00 or 01.
pub fn opcode_head(film: &[u8], position: usize, chunk_end: usize) -> Result<OpcodeHead, Refusal> {
    let past_chunk = Refusal::new(refusal::OPCODE);
    let rest = film.get(position..chunk_end).ok_or(past_chunk)?;
    let &[length_low, length_high, kind, version, ref behind @ ..] = rest else {
        return Err(past_chunk);
    };
    let length = usize::from(u16::from_le_bytes([length_low, length_high]));
    let must_be_last = matches!(kind, opcode::END_OF_STREAM | opcode::END_OF_CHUNK);
    if length > behind.len() || (must_be_last && length < behind.len()) {
        return Err(past_chunk);
    }
    let start = position + OPCODE_HEAD;
    Ok(OpcodeHead { kind, version, body: Span { start, length } })
}

/// One step, in the default form: takes a chunk head where position and chunk end are equal, else one
/// opcode.
///
/// Refusals come in the order 16, 8, 2 for a chunk head, and 16, 8, 3, 4, 5, then the opcode's
/// own. A step that is allowed too few stores makes the first of them and leaves the state, so that the
/// next step takes the opcode again: a palette or 0F from its first store on, a drawing from its place.
pub fn step(film: &[u8], state: State, lent: Lent<'_>, allowed: usize) -> Stepped {
    step_as(CallForm::Default, film, state, lent, allowed)
}

/// [`step`] in this form: it is that of the drawing.
pub fn step_as(
    form: CallForm,
    film: &[u8],
    state: State,
    mut lent: Lent<'_>,
    allowed: usize,
) -> Stepped {
    let allowance = Allowance { stores: allowed, form };
    match take_step(film, state, &mut lent, allowance) {
        Ok(Stepped::Taken(after, stores, bytes)) => Stepped::Taken(after.settled(), stores, bytes),
        Ok(Stepped::Whole(after, stores, rows)) => Stepped::Whole(after.settled(), stores, rows),
        Ok(stays) => stays,
        Err(refusal) => Stepped::Refused(refusal),
    }
}

/// The shown picture: the leading part of whichever lent picture is front, empty where there is
/// no such part (01), and where the film has true colour.
pub fn shown<'a>(state: &State, picture_a: &'a [u8], picture_b: &'a [u8]) -> &'a [u8] {
    match state.true_colour {
        false => leading_part(state, &[picture_a, picture_b]),
        true => &[],
    }
}

/// The shown picture of a film with true colour; empty of any other.
pub fn shown_words<'a>(state: &State, pictures: [&'a [u16]; 3]) -> &'a [u16] {
    match state.true_colour {
        true => leading_part(state, &pictures),
        false => &[],
    }
}

/// The frame's pixels of the front one of these pictures.
fn leading_part<'a, P>(state: &State, pictures: &[&'a [P]]) -> &'a [P] {
    let part = pictures.get(state.front).zip(state.size());
    part.and_then(|(picture, size)| picture.get(..size.pixels())).unwrap_or(&[])
}

fn take_step(
    film: &[u8],
    state: State,
    lent: &mut Lent<'_>,
    allowance: Allowance,
) -> Result<Stepped, Refusal> {
    check_state(film, &state)?;
    check_lent(&state, lent)?;
    if state.position == state.chunk_end {
        enter_chunk(film, state)
    } else {
        take_opcode(film, state, lent, allowance)
    }
}

/// Refusal 16, and just what it lists. Compared without sums that could wrap around.
fn check_state(film: &[u8], state: &State) -> Result<(), Refusal> {
    let cursor_can_be = state.position <= state.chunk_end && state.chunk_end <= film.len();
    let map_can_be = state.map.is_none_or(|map| map.of(film).is_some());
    let front_can_be = state.front < if state.true_colour { 3 } else { 2 };
    // Only opcode 05 tells that a film has true colour, and it gives a size.
    let size_can_be = state.has_no_size() && !state.true_colour || state.size().is_some();
    let sound_can_be = state.sound.can_be();
    if cursor_can_be && map_can_be && front_can_be && size_can_be && sound_can_be {
        Ok(())
    } else {
        Err(Refusal::new(refusal::STATE))
    }
}

/// Refusal 8. All pictures of the film's own kind are tested at every step once a size is known.
fn check_lent(state: &State, lent: &Lent<'_>) -> Result<(), Refusal> {
    let pixels = state.pixels();
    let pictures_fit = match state.true_colour {
        false => lent.picture_a.len() >= pixels && lent.picture_b.len() >= pixels,
        true => lent.words.iter().all(|words| words.len() >= pixels),
    };
    if lent.palette.len() == palette::LENGTH && pictures_fit {
        Ok(())
    } else {
        Err(Refusal::new(refusal::LENT))
    }
}

fn enter_chunk(film: &[u8], state: State) -> Result<Stepped, Refusal> {
    if state.chunk_end == film.len() {
        return Ok(Stepped::Ended(state));
    }
    let body = chunk_head(film, state.position)?.body;
    let chunk_end = body.start + body.length;
    Ok(taken(State { position: body.start, chunk_end, ..state }))
}

fn take_opcode(
    film: &[u8],
    state: State,
    lent: &mut Lent<'_>,
    allowance: Allowance,
) -> Result<Stepped, Refusal> {
    let head = opcode_head(film, state.position, state.chunk_end)?;
    let moved = State { position: head.body.start + head.body.length, ..state };
    test_shape(&head, &state.sound)?;
    if is_passed_over(head.kind, &state.sound) {
        return Ok(taken(moved));
    }
    let body = &film[head.body.start..][..head.body.length];
    match head.kind {
        opcode::END_OF_STREAM => Ok(taken(at_end(film, state))),
        opcode::INIT_VIDEO => init_video(body, moved).map(taken),
        opcode::SEND => Ok(taken(send(moved))),
        opcode::GRADIENT => {
            Ok(set_colours(&palette::gradient_entries(body)?, state, moved, lent, allowance))
        }
        opcode::PALETTE => {
            Ok(set_colours(&palette::palette_entries(body)?, state, moved, lent, allowance))
        }
        opcode::PALETTE_COMPRESSED => {
            Ok(set_colours(&palette::compressed_entries(body)?, state, moved, lent, allowance))
        }
        opcode::MAP if allowance.stores == 0 => Ok(Stepped::Unfinished(state, 0, None)),
        opcode::MAP => {
            *lent.place = 0;
            Ok(Stepped::Taken(State { map: Some(head.body), ..moved }, 1, 0))
        }
        opcode::VIDEO if state.true_colour && body.len() < TRUE_COLOUR_FRONT => {
            Err(Refusal::new(refusal::BODY_LENGTH))
        }
        opcode::VIDEO => draw_video(film, &body[VIDEO_FRONT..], state, moved, lent, allowance),
        opcode::INIT_AUDIO => {
            let sound = sound::initialize(state.sound, head.version, body)?;
            Ok(taken(State { sound, ..moved }))
        }
        opcode::AUDIO_DATA => {
            let (sound, bytes) = sound::data(state.sound, body, lent.room)?;
            Ok(Stepped::Taken(State { sound, ..moved }, 0, bytes))
        }
        opcode::AUDIO_SILENCE => {
            let bytes = sound::silence(state.sound, body, lent.room)?;
            Ok(Stepped::Taken(moved, 0, bytes))
        }
        _ => Ok(taken(moved)),
    }
}

/// Refusals 4 and 5, as far as the head tells them.
pub(crate) fn test_shape(head: &OpcodeHead, sound: &Sound) -> Result<(), Refusal> {
    if is_passed_over(head.kind, sound) {
        return Ok(());
    }
    if !takes_version(head.kind, head.version) {
        return Err(Refusal::new(refusal::TYPE_OR_VERSION));
    }
    if !takes_length(head.kind, head.version, head.body.length) {
        return Err(Refusal::new(refusal::BODY_LENGTH));
    }
    Ok(())
}

/// The answer to a step that makes no store and writes nothing to the room.
fn taken(state: State) -> Stepped {
    Stepped::Taken(state, 0, 0)
}

/// Opcodes 0B, 0C and 0D: stores the bytes of these entries, one by one, as far as is allowed. `moved` is
/// the state for when all of them are stored.
fn set_colours(
    entries: &[Entry],
    state: State,
    moved: State,
    lent: &mut Lent<'_>,
    allowance: Allowance,
) -> Stepped {
    let stores = palette::stores(entries);
    let made = stores.len().min(allowance.stores);
    for store in &stores[..made] {
        lent.palette[store.index] = store.value;
    }
    if made < stores.len() {
        Stepped::Unfinished(state, made, None)
    } else {
        Stepped::Taken(moved, made, 0)
    }
}

/// Whether a type is passed over unread, in any version and length: sound where no stream is
/// chosen, and what has no part in pictures and sound.
fn is_passed_over(kind: u8, sound: &Sound) -> bool {
    match kind {
        0x02 | 0x04 | 0x0A | 0x12..=0x15 => true,
        opcode::INIT_AUDIO | opcode::AUDIO_DATA | opcode::AUDIO_SILENCE => !sound.chooses(),
        _ => false,
    }
}

/// Whether a type is acted on in this version (refusal 4).
fn takes_version(kind: u8, version: u8) -> bool {
    match kind {
        opcode::INIT_VIDEO => version <= 2,
        opcode::SEND | opcode::INIT_AUDIO => version <= 1,
        opcode::END_OF_STREAM
        | opcode::END_OF_CHUNK
        | opcode::AUDIO_DATA
        | opcode::AUDIO_SILENCE
        | opcode::GRADIENT
        | opcode::PALETTE
        | opcode::PALETTE_COMPRESSED
        | opcode::MAP
        | opcode::VIDEO => version == 0,
        _ => false,
    }
}

/// Whether a body may have this length (refusal 5). 0C and 0D tell theirs in the body itself,
/// which `palette` tests.
fn takes_length(kind: u8, version: u8, length: usize) -> bool {
    match kind {
        opcode::END_OF_STREAM | opcode::END_OF_CHUNK => length == 0,
        opcode::INIT_VIDEO | opcode::SEND => length == 4 + 2 * usize::from(version),
        opcode::INIT_AUDIO => length == 8 + 2 * usize::from(version),
        opcode::AUDIO_DATA => length >= AUDIO_FRONT,
        opcode::AUDIO_SILENCE => length == AUDIO_FRONT,
        opcode::GRADIENT => length == 6,
        opcode::VIDEO => length >= VIDEO_FRONT,
        _ => true,
    }
}

fn at_end(film: &[u8], state: State) -> State {
    State { position: film.len(), chunk_end: film.len(), ..state }
}

/// Opcode 05: words columns and rows, which count blocks (02, W1), from version 1 a count that is not
/// read, in version 2 a true-colour word: a film has true colour where it is not 0 (02, W7). Only once in a
/// film.
fn init_video(body: &[u8], state: State) -> Result<State, Refusal> {
    let words: Vec<usize> = body
        .chunks_exact(2)
        .map(|word| usize::from(u16::from_le_bytes([word[0], word[1]])))
        .collect();
    if !state.has_no_size() {
        return Err(Refusal::new(refusal::SIZE));
    }
    let (columns, rows) = (words[0], words[1]);
    FrameSize::new(columns, rows)?;
    let true_colour = words.get(3).is_some_and(|&word| word != 0);
    Ok(State { columns, rows, true_colour, ..state })
}

/// Opcode 07: if a frame is finished and unsent, the picture that was drawn on becomes front. So front and
/// back change roles; with true colour the oldest one is drawn on next (02, W7).
fn send(state: State) -> State {
    if !state.unsent {
        return state;
    }
    let pictures = if state.true_colour { 3 } else { 2 };
    State { front: (state.front + 1) % pictures, unsent: false, ..state }
}

/// Opcode 11: draws the packet, going on from the place. `moved` is the state with the
/// position behind the opcode, for when the frame is whole.
fn draw_video(
    film: &[u8],
    packet: &[u8],
    state: State,
    moved: State,
    lent: &mut Lent<'_>,
    allowance: Allowance,
) -> Result<Stepped, Refusal> {
    let map = state.map.and_then(|map| map.of(film));
    let (Some(map), false) = (map, state.has_no_size()) else {
        return Err(Refusal::new(refusal::NO_SIZE_OR_MAP));
    };
    let drawn = match state.true_colour {
        false => draw_bytes(map, packet, &state, lent, allowance)?,
        true => draw_words(map, packet, &state, lent, allowance)?,
    };
    Ok(if drawn.whole {
        let after = State { map: None, unsent: true, ..moved };
        Stepped::Whole(after, drawn.stores, drawn.rows)
    } else {
        Stepped::Unfinished(state, drawn.stores, drawn.rows)
    })
}

fn draw_bytes(
    map: &[u8],
    packet: &[u8],
    state: &State,
    lent: &mut Lent<'_>,
    Allowance { stores, form }: Allowance,
) -> Result<Drawn, Refusal> {
    let (front, back) = if state.front == 0 {
        (&*lent.picture_a, &mut *lent.picture_b)
    } else {
        (&*lent.picture_b, &mut *lent.picture_a)
    };
    let State { columns, rows, .. } = *state;
    packet::draw_as(form, columns, rows, map, packet, front, back, lent.place, stores)
}

/// "With front f the last, f+1 the new, f+2 the oldest, modulo 3" (02, W7).
fn draw_words(
    map: &[u8],
    packet: &[u8],
    state: &State,
    lent: &mut Lent<'_>,
    Allowance { stores, form }: Allowance,
) -> Result<Drawn, Refusal> {
    let [first, second, third] = &mut lent.words;
    let (last, new, oldest) = match state.front {
        0 => (&**first, &mut **second, &**third),
        1 => (&**second, &mut **third, &**first),
        _ => (&**third, &mut **first, &**second),
    };
    let (State { columns, rows, .. }, place) = (*state, &mut *lent.place);
    word_packet::draw_words_as(form, columns, rows, map, packet, last, oldest, new, place, stores)
}
