//! Seeded cases: packets and films of every kind of block, of palettes and of sound.

use crate::cases::{Drawing, Walk, NO_STATE};
use crate::kept::Memory;
use crate::once::Once;
use crate::opening::Opening;
use crate::stopped::LENT;
use crate::words::WordDrawing;
use maker::calls::allowance;
use maker::colours::Change;
use maker::film::{init_video, packet_opcodes, Chunk, Film, Opcode};
use maker::packet::Draft;
use maker::sound::{Format, Track};
use maker::words::LONG;
use maker::{Form, Profile, Seeded, Size, WordDraft, WordForm, WordProfile};
use mve::NO_STREAM;
use reference::CallForm;

/// Memory with any colours and any pixels, so that nearly every store changes it.
pub fn memory(rng: &mut Seeded, lent: usize) -> Memory {
    let palette = (0..768).map(|_| rng.byte() % 64).collect();
    let pictures = [rng.bytes(lent), rng.bytes(lent)];
    let rng = &mut rng.clone();
    let words = [(); 3].map(|()| rng.words(lent));
    Memory { palette, pictures, words, place: 0, state: NO_STATE }
}

/// Drawings of blocks of a form. The first draws four blocks at once, of a packet that is padded; the
/// second stops inside the first block; and the third, a strict call, goes on behind one that was
/// stopped so and stops inside the second block. (A copy has no vector in some corner of the frame; a
/// solid block stands in for it there.)
pub fn of_form(rng: &mut Seeded, form: Form) -> [Drawing; 3] {
    // Code 1 has one store a block, all others 65.
    let (block, pixels) = if form == Form::Untouched { (1, 0) } else { (65, 29) };
    let sizes = [Size::new(2, 2), Size::new(2, 1), Size::new(1, 2)];
    let stores = [(0, usize::MAX), (0, pixels), (pixels, block + pixels)];
    let calls = [(CallForm::Default, 1), (CallForm::Default, 0), (CallForm::Strict, 0)];
    std::array::from_fn(|i| {
        let draft = Draft::make(rng, sizes[i], Profile::Only(form));
        let packet = draft.with_over(rng, calls[i].1).packet();
        Drawing::new(calls[i].0, packet, memory(rng, LENT), stores[i].0, stores[i].1)
    })
}

/// A drawing of any blocks, place, form and allowance, in a frame of up to 3x3 blocks.
pub fn drawing(rng: &mut Seeded) -> Drawing {
    let size = Size::new(rng.between(1, 3), rng.between(1, 3));
    let profile = rng.pick(&Profile::MANY);
    let form = rng.pick(&CallForm::ALL);
    let over = if form == CallForm::Default { rng.below(2) } else { 0 };
    let draft = Draft::make(rng, size, profile).with_over(rng, over);
    let earlier = if rng.one_in(2) { rng.below(draft.stores_from(0) + 1) } else { 0 };
    let allowed = allowance(rng, size.blocks());
    Drawing::new(form, draft.packet(), memory(rng, LENT), earlier, allowed)
}

/// Drawings of blocks of a form with true colour, as [`of_form`] has them.
pub fn of_word_form(rng: &mut Seeded, form: WordForm) -> [WordDrawing; 3] {
    let sizes = [Size::new(2, 2), Size::new(2, 1), Size::new(1, 2)];
    let stores = [(0, usize::MAX), (0, 29), (29, 65 + 29)];
    let calls = [(CallForm::Default, 1), (CallForm::Default, 0), (CallForm::Strict, 0)];
    std::array::from_fn(|i| {
        let draft = WordDraft::make(rng, sizes[i], WordProfile::Only(form), LONG);
        let packet = draft.with_over(rng, calls[i].1).packet();
        WordDrawing::new(calls[i].0, packet, memory(rng, LENT), stores[i].0, stores[i].1)
    })
}

/// A drawing of any blocks with true colour, place, form and allowance, in a frame of up to 3x3 blocks.
pub fn word_drawing(rng: &mut Seeded) -> WordDrawing {
    let size = Size::new(rng.between(1, 3), rng.between(1, 3));
    let profile = rng.pick(&WordProfile::MANY);
    let form = rng.pick(&CallForm::ALL);
    let over = if form == CallForm::Default { rng.below(2) } else { 0 };
    let draft = WordDraft::make(rng, size, profile, LONG).with_over(rng, over);
    let earlier = if rng.one_in(2) { rng.below(draft.stores_from(0) + 1) } else { 0 };
    let allowed = allowance(rng, size.blocks());
    WordDrawing::new(form, draft.packet(), memory(rng, LENT), earlier, allowed)
}

/// A walk over a film with true colour of three frames, so that each picture is drawn on, with a palette
/// between. In the default form the first frame's packet is padded.
pub fn word_walk(rng: &mut Seeded, form: CallForm, profile: WordProfile, allowed: usize) -> Walk {
    let size = rng.pick(&[Size::new(2, 1), Size::new(1, 2)]);
    let over = usize::from(form == CallForm::Default);
    let [first, second, third] =
        [over, 0, 0].map(|over| Vec::from(word_frame(rng, size, profile, over)));
    let first = [vec![init_words(size)], first].concat();
    let second = [vec![set_palette(rng)], second, vec![Opcode::new(0x01, 0, Vec::new())]];
    let third = [third, vec![Opcode::new(0x00, 0, Vec::new())]];
    let chunks = vec![chunk(first), chunk(second.concat()), chunk(third.concat())];
    let film = Film { size, stream: NO_STREAM, chunks, tail: Vec::new() };
    Walk::new(form, film.bytes(), NO_STREAM, memory(rng, LENT), allowed)
}

/// Opcode 05 of a film with true colour.
pub fn init_words(size: Size) -> Opcode {
    let body = [init_video(size).body, vec![1, 0, 1, 0]].concat();
    Opcode::new(0x05, 2, body)
}

/// Map, video data with true colour, which leaves so many bytes over, and send.
pub fn word_frame(rng: &mut Seeded, size: Size, profile: WordProfile, over: usize) -> [Opcode; 3] {
    let packet = WordDraft::make(rng, size, profile, FRAME).with_over(rng, over).packet();
    let [map, video] = packet_opcodes(rng, packet);
    [map, video, Opcode::new(0x07, 0, vec![0; 4])]
}

/// The bytes of such a frame's packet, about, so that it fits a chunk.
const FRAME: usize = 40_000;

/// A walk over a film of two frames, so that either picture is drawn on. In the default form the first
/// frame's packet is padded.
pub fn walk(rng: &mut Seeded, form: CallForm, profile: Profile, allowed: usize) -> Walk {
    let size = rng.pick(&[Size::new(2, 1), Size::new(1, 2)]);
    let over = usize::from(form == CallForm::Default);
    let frames = [frame(rng, size, profile, over), frame(rng, size, profile, 0)];
    let [first, second] = frames.map(Vec::from);
    let first = [vec![init_video(size)], first, vec![Opcode::new(0x01, 0, Vec::new())]];
    let second = [second, vec![Opcode::new(0x00, 0, Vec::new())]];
    let chunks = vec![chunk(first.concat()), chunk(second.concat())];
    let film = Film { size, stream: NO_STREAM, chunks, tail: Vec::new() };
    Walk::new(form, film.bytes(), NO_STREAM, memory(rng, LENT), allowed)
}

/// A walk over a film that changes the palette by each of its three opcodes.
pub fn palette_walk(rng: &mut Seeded) -> Walk {
    let opcodes = vec![gradients(rng), set_palette(rng), set_palette_compressed(rng)];
    let film = film_of(NO_STREAM, opcodes);
    Walk::new(CallForm::Default, film, NO_STREAM, memory(rng, LENT), usize::MAX)
}

/// A step at an opcode of this kind, in each form in turn, that is allowed so many of its stores in ten; more than ten
/// are more than all.
pub fn change(rng: &mut Seeded, change: Change, tenths: usize) -> Once {
    let film = film_of(NO_STREAM, vec![change.opcode(rng)]);
    let memory = Memory { place: rng.pick(&[0, 7]), ..memory(rng, LENT) };
    Once::new(rng.pick(&CallForm::ALL), film, memory, tenths)
}

/// A walk over a film with sound of a format: two packets, silence and another packet, for a stream.
pub fn sound_walk(rng: &mut Seeded, format: Format) -> Walk {
    let (stream, channels) = (rng.below(16), format.channels());
    let flags = [format.stereo, format.wide, format.compressed];
    let flags = (0..).zip(flags).map(|(bit, set)| u16::from(set) << bit).sum();
    let words = |words: &[u16]| -> Vec<u8> { words.iter().flat_map(|w| w.to_le_bytes()).collect() };
    let mut opcodes = vec![Opcode::new(0x03, 1, words(&[0, flags, 22_050, 0, 0]))];
    for (number, kind) in [0x08, 0x08, 0x09, 0x08].into_iter().enumerate() {
        let count = channels * rng.between(1, 4);
        let start_words = if number == 0 { channels } else { 0 };
        let length = match kind {
            0x09 => 0,
            _ if format.compressed => count + start_words,
            _ => count * format.sample_bytes(),
        };
        let front = words(&[number as u16, 1 << stream, count as u16]);
        opcodes.push(Opcode::new(kind, 0, [front, rng.bytes(length)].concat()));
    }
    Walk::new(CallForm::Default, film_of(stream, opcodes), stream, memory(rng, LENT), 0)
}

/// The opening of a film that has all of it before the size: the palette's three opcodes, a map,
/// compressed sound and opcodes that are passed over. A film whose opening is refused has a component
/// above 63 behind them.
pub fn opening(rng: &mut Seeded, refused: bool) -> Opening {
    let stream = rng.below(16);
    let mut track = Track::new(stream);
    let format = Format { stereo: rng.one_in(2), wide: true, compressed: true };
    let mut opcodes = vec![gradients(rng), track.start(rng, format), set_palette(rng)];
    opcodes.push(Opcode::new(0x0F, 0, vec![0x11]));
    opcodes.extend([track.data(rng, format), set_palette_compressed(rng), gradients(rng)]);
    opcodes.push(Opcode::new(0x02, 0, rng.bytes(6)));
    if refused {
        opcodes.push(Opcode::new(0x0C, 0, vec![0, 0, 1, 0, 1, 2, 64]));
    }
    opcodes.push(init_video(Size::new(1, 1)));
    let memory = Memory { place: 7, ..memory(rng, LENT) };
    Opening::new(film_of(stream, opcodes), stream, memory)
}

/// A film of one chunk of these opcodes.
fn film_of(stream: usize, opcodes: Vec<Opcode>) -> Vec<u8> {
    let chunks = vec![chunk(opcodes)];
    Film { size: Size::new(1, 1), stream, chunks, tail: Vec::new() }.bytes()
}

/// A chunk of these opcodes.
pub fn chunk(opcodes: Vec<Opcode>) -> Chunk {
    Chunk { opcodes, ..Chunk::default() }
}

/// Map, video data, which leaves so many bytes over, and send.
pub fn frame(rng: &mut Seeded, size: Size, profile: Profile, over: usize) -> [Opcode; 3] {
    let packet = Draft::make(rng, size, profile).with_over(rng, over).packet();
    let [map, video] = packet_opcodes(rng, packet);
    [map, video, Opcode::new(0x07, 0, vec![0; 4])]
}

/// Opcode 0B: gradients of few entries, or of one or none; the second lies over the first, or not.
pub fn gradients(rng: &mut Seeded) -> Opcode {
    let mut gradient = |base| {
        let (rows, columns) = rng.pick(&[(1, 1), (1, 4), (3, 1), (3, 2), (2, 3), (0, 5)]);
        [base, rows, columns]
    };
    Opcode::new(0x0B, 0, [gradient(100), gradient(103)].concat())
}

/// Opcode 0C, with up to eight entries.
pub fn set_palette(rng: &mut Seeded) -> Opcode {
    let (start, count) = (rng.below(249), rng.below(9));
    let words = [start as u16, count as u16].map(u16::to_le_bytes).concat();
    Opcode::new(0x0C, 0, [words, components(rng, 3 * count)].concat())
}

/// Opcode 0D, with some entries in two of its groups.
pub fn set_palette_compressed(rng: &mut Seeded) -> Opcode {
    let groups = [rng.below(16), 16 + rng.below(16)];
    let mut body = Vec::new();
    for group in 0..32 {
        let mask = if groups.contains(&group) { rng.byte() & rng.byte() } else { 0 };
        body.push(mask);
        body.extend(components(rng, 3 * mask.count_ones() as usize));
    }
    Opcode::new(0x0D, 0, body)
}

fn components(rng: &mut Seeded, count: usize) -> Vec<u8> {
    (0..count).map(|_| rng.byte() % 64).collect()
}
