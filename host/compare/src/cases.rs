//! The cases: packets, lists of calls, films, films with sound and films that are cut, with 8-bit pictures or
//! true colour, each made from a seed and a number of its own, so that any one can be made again by itself.

use crate::cuts::CutFilm;
use maker::calls::{self, Call, CallList};
use maker::film::Film;
use maker::packet::{self, Draft};
use maker::packet_damage::{damaged, Damage};
use maker::states::{self, Start};
use maker::true_colour;
use maker::word_calls::{self, WordCall, WordCallList};
use maker::words::{self, WordDraft, WordProfile, LONG};
use maker::{film_damage, sound_damage, word_damage};
use maker::{Form, Packet, Profile, Seeded, Size};
use reference::film::{State, Stepped};
use reference::sound::NO_STREAM;
use reference::CallForm;

/// The packet of a case: valid, damaged or hostile.
pub fn packet(seed: u64, number: u64) -> Packet {
    let rng = &mut chance(seed, number);
    match rng.below(8) {
        0..=2 => draft(rng).packet(),
        3..=6 => damaged_packet(rng).0,
        _ => packet::hostile(rng),
    }
}

/// The list of calls of a case. Most are for a valid packet, with refused calls between; the
/// others bring one damaged or hostile packet again and again.
pub fn list(seed: u64, number: u64) -> CallList {
    let rng = &mut chance(seed, number);
    match rng.below(8) {
        0..=4 => {
            let (size, profile) = (frame_size(rng), profile(rng));
            calls::list(rng, size, profile)
        }
        5 | 6 => {
            let (packet, size) = damaged_packet(rng);
            list_of_packet(rng, packet, size)
        }
        _ => {
            let packet = packet::hostile(rng);
            let size = Size::new(packet.columns, packet.rows);
            list_of_packet(rng, packet, size)
        }
    }
}

/// The packet with true colour of a case: valid, damaged or hostile.
pub fn word_packet(seed: u64, number: u64) -> Packet {
    let rng = &mut chance(seed, number);
    match rng.below(8) {
        0..=2 => word_draft(rng).packet(),
        3..=6 => damaged_words(rng).0,
        _ => words::hostile(rng),
    }
}

/// The list of calls of words of a case, as [`list`] has them.
pub fn word_list(seed: u64, number: u64) -> WordCallList {
    let rng = &mut chance(seed, number);
    match rng.below(8) {
        0..=4 => {
            let (size, profile) = (frame_size(rng), WordProfile::any(rng));
            word_calls::list(rng, size, profile)
        }
        5 | 6 => {
            let (packet, size) = damaged_words(rng);
            list_of_words(rng, packet, size)
        }
        _ => {
            let packet = words::hostile(rng);
            let size = Size::new(packet.columns, packet.rows);
            list_of_words(rng, packet, size)
        }
    }
}

/// A valid packet with true colour, padded or not.
fn word_draft(rng: &mut Seeded) -> WordDraft {
    let (size, profile) = (frame_size(rng), WordProfile::any(rng));
    WordDraft::make(rng, size, profile, LONG).or_padded(rng)
}

/// A damaged one, and the frame size that it had before. Some are cut anywhere.
fn damaged_words(rng: &mut Seeded) -> (Packet, Size) {
    let draft = word_draft(rng);
    let packet = if rng.one_in(6) {
        let (first, second) = (draft.first(), draft.second());
        let (one, other) = (rng.below(first.len() + 1), rng.below(second.len() + 1));
        match rng.below(3) {
            0 => draft.packet_of(&first[..one], &second),
            1 => draft.packet_of(&first, &second[..other]),
            _ => draft.packet_of(&first[..one], &second[..other]),
        }
    } else {
        let damage = rng.pick(&word_damage::Damage::ALL);
        word_damage::damaged(rng, &draft, damage)
    };
    (packet, draft.size)
}

/// Calls of either form that all bring one packet, which may be refused, for pictures of about this size.
fn list_of_words(rng: &mut Seeded, packet: Packet, size: Size) -> WordCallList {
    let [new, last, oldest] = [(); 3].map(|()| word_picture(rng, size.pixels()));
    let calls = (0..rng.between(1, 8)).map(|_| {
        let allowed = calls::allowance(rng, size.blocks());
        let cut = rng.one_in(5).then(|| rng.below(allowed.min(size.pixels()) + 1));
        let (form, packet) = (rng.pick(&CallForm::ALL), packet.clone());
        let (last, oldest) = (last.clone(), oldest.clone());
        WordCall { form, packet, last, oldest, allowed, cut, refused: false }
    });
    WordCallList { calls: calls.collect(), new }
}

/// How many steps over a film are compared at most.
const STEPS: usize = 300;

/// A film to step over.
#[derive(Clone, Debug)]
pub struct Walk {
    /// The film.
    pub film: Vec<u8>,
    /// The stream of its sound that it is opened for.
    pub stream: usize,
    /// Where to start; at the opening if none.
    pub state: Option<State>,
    /// The lent palette.
    pub palette: Vec<u8>,
    /// The two lent pictures.
    pub pictures: [Vec<u8>; 2],
    /// The three lent pictures of words.
    pub words: [Vec<u16>; 3],
    /// The lent place.
    pub place: usize,
    /// The stores allowed, step by step; as many steps are taken at most.
    pub allowances: Vec<usize>,
    /// The form of each step.
    pub forms: Vec<CallForm>,
    /// By how much each step's room is longer than what the step writes; -1 is a byte short. Where
    /// there is no number, no room is lent.
    pub spare: Vec<isize>,
}

/// The film of a case. Most are walked from the opening: valid, damaged in an opcode or in a byte,
/// or hostile. The others are walked on from a state in the middle, good or hostile, and some of
/// them have bytes changed that the next step reads. One in four has true colour.
pub fn film(seed: u64, number: u64) -> Walk {
    let rng = &mut chance(seed, number);
    if number % 4 == 3 {
        return deep_film(rng);
    }
    match rng.below(16) {
        0..=2 => {
            let film = maker::film::valid(rng).bytes();
            from_opening(rng, film)
        }
        3..=7 => {
            let damage = rng.pick(&film_damage::Damage::ALL);
            let film = film_damage::damaged(rng, damage);
            from_opening(rng, film)
        }
        8 | 9 => {
            let film = film_damage::scratched(rng);
            from_opening(rng, film)
        }
        10 => {
            let film = maker::film::hostile(rng);
            from_opening(rng, film)
        }
        _ => {
            let frames = rng.between(1, 2);
            let film = maker::film::with_frames(rng, frames);
            from_middle(rng, &film)
        }
    }
}

/// The film with true colour of a case.
fn deep_film(rng: &mut Seeded) -> Walk {
    match rng.below(16) {
        0..=3 => {
            let film = true_colour::valid(rng).bytes();
            from_opening(rng, film)
        }
        4..=8 => {
            let damage = true_colour::Damage::any(rng);
            let film = true_colour::damaged(rng, damage);
            from_opening(rng, film)
        }
        9 => {
            let film = true_colour::scratched(rng);
            from_opening(rng, film)
        }
        10 => {
            let film = true_colour::hostile(rng);
            from_opening(rng, film)
        }
        _ => {
            let frames = rng.between(1, 3);
            let film = true_colour::with_frames(rng, frames);
            from_middle(rng, &film)
        }
    }
}

/// The film with sound of a case, as [`film`] has them, for any stream; now and then for none, which
/// then passes over what is made for one. One in eight has true colour.
pub fn sound(seed: u64, number: u64) -> Walk {
    let rng = &mut chance(seed, number);
    let stream = rng.below(16);
    let walk = match rng.below(16) {
        _ if number % 16 == 15 => {
            let film = true_colour::scratched_sound(rng, stream);
            from_opening(rng, film)
        }
        _ if number % 16 == 7 => {
            let frames = rng.between(1, 3);
            let film = true_colour::with_sound(rng, stream, frames);
            if rng.one_in(2) {
                from_opening(rng, film.bytes())
            } else {
                from_middle(rng, &film)
            }
        }
        0..=3 => {
            let film = maker::sound::valid(rng, stream).bytes();
            from_opening(rng, film)
        }
        4..=8 => {
            let damage = rng.pick(&sound_damage::Damage::ALL);
            let film = sound_damage::damaged(rng, stream, damage).bytes();
            from_opening(rng, film)
        }
        9 => {
            let film = maker::sound::scratched(rng, stream);
            from_opening(rng, film)
        }
        10 => {
            let film = maker::sound::hostile(rng);
            from_opening(rng, film)
        }
        _ => {
            let frames = rng.between(1, 2);
            let film = maker::sound::with_frames(rng, stream, frames);
            from_middle(rng, &film)
        }
    };
    let stream = if rng.one_in(32) { rng.pick(&[16, 17, usize::MAX]) } else { stream };
    let spare = |_| rng.pick(&[0, 0, 0, -1, -1, 1, 9]);
    Walk { stream, spare: (0..STEPS).map(spare).collect(), ..walk }
}

/// A film to open up to its size.
#[derive(Clone, Debug)]
pub struct Opening {
    /// The film.
    pub film: Vec<u8>,
    /// The stream of its sound.
    pub stream: usize,
    /// The lent palette.
    pub palette: Vec<u8>,
    /// The lent place.
    pub place: usize,
}

/// The opening of a case: of a film whose 05 stands anywhere or nowhere, for a stream or for none. Half
/// of the films have a fault, and some palettes a wrong length.
pub fn opening(seed: u64, number: u64) -> Opening {
    let rng = &mut chance(seed, number);
    let stream = if rng.one_in(2) { rng.below(16) } else { rng.pick(&[NO_STREAM, usize::MAX]) };
    let film = match rng.below(2) {
        0 if number % 4 == 3 => true_colour::beginning(rng, stream).bytes(),
        0 => maker::beginning::film(rng, stream).bytes(),
        _ => maker::beginning::damaged(rng, stream),
    };
    let length = if rng.one_in(16) { rng.pick(&[0, 767, 769]) } else { 768 };
    let (palette, place) = (rng.bytes(length), rng.pick(&[0, 3, usize::MAX]));
    Opening { film, stream, palette, place }
}

/// The film of a case that is played through cuts, in either form: with pictures, with sound, or rich in
/// palettes and maps; from its opening or, one in four, from a state in its middle. One in four has true
/// colour.
pub fn cut_film(seed: u64, number: u64) -> CutFilm {
    let rng = &mut chance(seed, number);
    let (stream, frames) = (rng.below(16), rng.below(4));
    let made = match rng.below(3) {
        0 if number % 4 == 3 => true_colour::with_frames(rng, frames),
        1 if number % 4 == 3 => true_colour::with_sound(rng, stream, frames),
        _ if number % 4 == 3 => true_colour::with_colours(rng, frames),
        0 => maker::film::with_frames(rng, frames),
        1 => maker::sound::with_frames(rng, stream, frames),
        _ => maker::colours::film(rng, frames),
    };
    let mut start = match rng.below(4) {
        0 => states::middle(rng, &made),
        _ => states::opening(rng, &made),
    };
    start.room = rng.bytes(if made.stream < NO_STREAM { states::ENOUGH_ROOM } else { 0 });
    CutFilm { film: made.bytes(), form: rng.pick(&CallForm::ALL), start }
}

fn from_opening(rng: &mut Seeded, film: Vec<u8>) -> Walk {
    let (size, true_colour) = size(&film);
    let words = lent_words(&mut rng.clone(), size, true_colour);
    let pictures = [(); 2].map(|()| {
        let zero = rng.one_in(4);
        let picture = picture(rng, size.pixels());
        if zero {
            vec![0; picture.len()]
        } else {
            picture
        }
    });
    let length = if rng.one_in(32) { rng.pick(&[0, 767, 769]) } else { 768 };
    let palette = if rng.one_in(4) { vec![0; length] } else { rng.bytes(length) };
    let place = if rng.one_in(8) { rng.pick(&[1, 5000, usize::MAX]) } else { 0 };
    let (allowances, forms) = (allowances(rng, size.blocks()), forms(rng));
    let (state, stream, spare) = (None, NO_STREAM, Vec::new());
    Walk { film, stream, state, palette, pictures, words, place, allowances, forms, spare }
}

/// Three pictures of words: of a film with true colour for its size, seldom too short; else of any length.
fn lent_words(rng: &mut Seeded, size: Size, true_colour: bool) -> [Vec<u16>; 3] {
    [(); 3].map(|()| match true_colour {
        true => word_picture(rng, size.pixels()),
        false => {
            let length = rng.below(70);
            rng.words(length)
        }
    })
}

fn from_middle(rng: &mut Seeded, film: &Film) -> Walk {
    let start = match rng.below(4) {
        0 => states::middle(rng, film),
        _ => states::hostile(rng, film),
    };
    let bytes =
        if rng.one_in(4) { states::scratched_ahead(rng, film, &start) } else { film.bytes() };
    let Start { state, palette, picture_a, picture_b, place, words, .. } = start;
    let (allowances, forms) = (allowances(rng, film.size.blocks()), forms(rng));
    let (state, pictures) = (Some(state), [picture_a, picture_b]);
    let (film, stream, spare) = (bytes, film.stream, Vec::new());
    Walk { film, stream, state, palette, pictures, words, place, allowances, forms, spare }
}

/// The size of a film's frames, 0 by 0 where no step gives it one, and whether it has true colour. Pictures
/// without a pixel do until then.
fn size(film: &[u8]) -> (Size, bool) {
    let Ok(state) = reference::film::open(film, NO_STREAM) else {
        return (Size::new(0, 0), false);
    };
    let (palette, picture_a, picture_b) = (vec![0; 768], Vec::new(), Vec::new());
    let (place, room, words, allowed) = (0, Vec::new(), Default::default(), 312_000);
    let mut walk = Start { state, palette, picture_a, picture_b, place, room, words, allowed };
    while let Stepped::Taken(state, ..) = walk.step(film) {
        walk.state = state;
    }
    (Size::new(walk.state.columns, walk.state.rows), walk.state.true_colour)
}

/// Any allowances, all stores at each step, or few at most of them: with few at each a long palette
/// would never be done (02, W11).
fn allowances(rng: &mut Seeded, blocks: usize) -> Vec<usize> {
    let style = rng.below(4);
    let allowance = |_| match style {
        0 => 312_000,
        1 if rng.one_in(8) => rng.between(1500, 1540),
        1 => rng.between(0, 400),
        _ => calls::allowance(rng, blocks),
    };
    (0..STEPS).map(allowance).collect()
}

/// Steps of one form, or of either.
fn forms(rng: &mut Seeded) -> Vec<CallForm> {
    let [default, strict] = CallForm::ALL;
    let of = rng.pick(&[[default; 2], [strict; 2], [default, strict]]);
    (0..STEPS).map(|_| rng.pick(&of)).collect()
}

/// The source of chance of one case. Cases of one seed start side by side, those of two seeds far
/// apart.
pub(crate) fn chance(seed: u64, number: u64) -> Seeded {
    Seeded::new(Seeded::new(seed).number().wrapping_add(number))
}

/// One frame in eight is of any size, one in 64 of the largest; the others have few blocks.
fn frame_size(rng: &mut Seeded) -> Size {
    match rng.below(64) {
        0 => Size::new(80, 60),
        1..=7 => Size::any(rng),
        8..=11 => Size::new(1, 1),
        _ => Size::small(rng),
    }
}

fn profile(rng: &mut Seeded) -> Profile {
    if rng.one_in(4) {
        Profile::Only(rng.pick(&Form::ALL))
    } else {
        rng.pick(&Profile::MANY)
    }
}

/// A valid packet, of all rows or a strip, padded or not. One in eight has a last block of any form, so
/// that each leaves bytes over.
fn draft(rng: &mut Seeded) -> Draft {
    let (size, profile) = (frame_size(rng), profile(rng));
    let draft = Draft::make(rng, size, profile).or_strip(rng);
    let last = rng.pick(&Form::ALL);
    let ending = if rng.one_in(8) { Draft::ending_in(rng, size, profile, last) } else { None };
    ending.unwrap_or(draft).or_padded(rng)
}

/// A damaged packet, and the frame size that it had before. Some are cut anywhere, so that every
/// number of bytes is left for a block of every form.
fn damaged_packet(rng: &mut Seeded) -> (Packet, Size) {
    let draft = draft(rng);
    let packet = if rng.one_in(6) {
        let mut packet = draft.packet();
        packet.data.truncate(rng.below(packet.data.len() + 1));
        packet
    } else {
        let damage = rng.pick(&Damage::ALL);
        damaged(rng, &draft, damage)
    };
    (packet, draft.size)
}

/// Calls of either form that all bring one packet, which may be refused, for pictures of about this
/// size.
fn list_of_packet(rng: &mut Seeded, packet: Packet, size: Size) -> CallList {
    let back = picture(rng, size.pixels());
    let front = picture(rng, size.pixels());
    let calls = (0..rng.between(1, 8)).map(|_| {
        let allowed = calls::allowance(rng, size.blocks());
        let cut = rng.one_in(5).then(|| rng.below(allowed.min(size.pixels()) + 1));
        let (form, packet, front) = (rng.pick(&CallForm::ALL), packet.clone(), front.clone());
        // Not made to be refused, though it may be.
        Call { form, packet, front, allowed, cut, refused: false }
    });
    CallList { calls: calls.collect(), back }
}

/// A picture of any bytes: of the frame's pixels, longer, or, seldom, too short.
fn picture(rng: &mut Seeded, pixels: usize) -> Vec<u8> {
    let length = lent_length(rng, pixels);
    rng.bytes(length)
}

/// The same of words, with the high bit or without.
fn word_picture(rng: &mut Seeded, pixels: usize) -> Vec<u16> {
    let length = lent_length(rng, pixels);
    rng.words(length)
}

fn lent_length(rng: &mut Seeded, pixels: usize) -> usize {
    match rng.below(32) {
        0 => pixels.saturating_sub(1),
        1..=8 => pixels + rng.between(1, 1000),
        _ => pixels,
    }
}
