//! The stores of every step (02, W11): listed and counted, limited by what is allowed, and films played
//! through cuts, on cases worked out by hand.

mod common;

use common::{chunk, film, opcode, send, size, video, word, Lent};
use reference::begin::begin;
use reference::cuts::{self, at_every_store, listed, Film, Memory, Played, Sent, Store};
use reference::film::{open, Span, State, Stepped};
use reference::palette;
use reference::sound::NO_STREAM;
use reference::{CallForm, Refusal, Rows};

/// The film of a chunk with these opcodes, and the state inside it.
fn entered(opcodes: &[Vec<u8>]) -> (Vec<u8>, State) {
    let film = film(&[chunk(opcodes)]);
    let opened = open(&film, NO_STREAM).expect("a good header");
    let state = Lent::zero(64).steps(&film, opened, 1);
    (film, state)
}

/// Memory with bytes that no opcode stores.
fn found() -> Lent {
    Lent { palette: vec![0xAA; 768], place: 5, ..Lent::zero(64) }
}

fn memory(lent: &Lent) -> Memory {
    let pictures = [lent.a.clone(), lent.b.clone()];
    let (palette, words) = (lent.palette.clone(), lent.words.clone());
    Memory { palette, pictures, words, place: lent.place }
}

/// An opcode of the palette has just these stores, byte and value: a step that is allowed n makes the
/// first n of them. With fewer than all it is unfinished and keeps its state.
fn assert_list(kind: u8, body: &[u8], expected: &[(usize, u8)]) {
    let (film, state) = entered(&[opcode(kind, 0, body)]);
    let colour = |&(index, value)| Store::Colour(palette::Store { index, value });
    let list: Vec<Store> = expected.iter().map(colour).collect();
    assert_eq!(listed(CallForm::Default, &film, &state, &memory(&found())), list);
    let moved = State { position: film.len(), ..state };
    for allowed in (0..expected.len() + 3).chain([312_000, usize::MAX]) {
        let mut lent = found();
        let made = allowed.min(expected.len());
        let answer = if made < expected.len() {
            Stepped::Unfinished(state, made, None)
        } else {
            Stepped::Taken(moved, made, 0)
        };
        assert_eq!(lent.step(&film, state, allowed), answer, "{allowed}");
        let mut left = found();
        expected[..made].iter().for_each(|&(index, value)| left.palette[index] = value);
        assert_eq!(lent, left, "{allowed}");
    }
}

/// Red-blue over entries 0 to 3, then red-green over 2 and 3: these have six stores each.
#[test]
fn overlapping_gradients_are_counted_twice() {
    let red_blue = [(0, 0), (1, 0), (2, 0), (3, 0), (4, 0), (5, 39)];
    let both = [(6, 63), (7, 0), (8, 0), (9, 63), (10, 0), (11, 39)];
    let red_green = [(6, 0), (7, 0), (8, 0), (9, 0), (10, 39), (11, 0)];
    assert_list(0x0B, &[0, 2, 2, 2, 1, 2], &[red_blue, both, red_green].concat());
}

#[test]
fn one_gradient_or_none() {
    assert_list(0x0B, &[255, 1, 1, 9, 0, 3], &[(765, 0), (766, 0), (767, 0)]);
    let green = [(765, 0), (766, 0), (767, 0)];
    assert_list(0x0B, &[9, 3, 0, 255, 1, 1], &green);
    assert_list(0x0B, &[255, 0, 255, 255, 255, 0], &[]);
}

#[test]
fn runs_of_entries() {
    let entries = [&word(254)[..], &word(2), &[1, 2, 63, 4, 0, 6]].concat();
    let stores = [(762, 1), (763, 2), (764, 63), (765, 4), (766, 0), (767, 6)];
    assert_list(0x0C, &entries, &stores);
    // Count 0 needs no store, so it is taken with 0 allowed.
    assert_list(0x0C, &[word(256), word(0)].concat(), &[]);
}

/// Bits 0 and 7 of group 0, bit 1 of group 1: entries 0, 7 and 9.
#[test]
fn entries_by_mask() {
    let body = [&[0x81, 1, 2, 3, 4, 5, 6, 0x02, 7, 8, 63][..], &[0; 30]].concat();
    let stores = [(0, 1), (1, 2), (2, 3), (21, 4), (22, 5), (23, 6), (27, 7), (28, 8), (29, 63)];
    assert_list(0x0D, &body, &stores);
    assert_list(0x0D, &[0; 32], &[]);
}

/// No palette opcode has more than 1,536 stores: 0B with 256 entries twice.
#[test]
fn the_longest_palette() {
    let (film, state) = entered(&[opcode(0x0B, 0, &[0, 16, 16, 0, 16, 16])]);
    assert_eq!(listed(CallForm::Default, &film, &state, &memory(&found())).len(), 1536);
    assert_eq!(cuts::PALETTE_STORES, 1536);
    let mut lent = found();
    assert_eq!(lent.step(&film, state, 1535), Stepped::Unfinished(state, 1535, None));
    // The last byte is still that of the red-blue gradient.
    assert_eq!(lent.palette[762..], [63, 36, 0, 63, 39, 39]);
    let moved = State { position: film.len(), ..state };
    assert_eq!(lent.step(&film, state, 1536), Stepped::Taken(moved, 1536, 0));
    assert_eq!(lent.palette[762..], [63, 36, 0, 63, 39, 0]);
}

/// A step that was cut begins with its first store again: a byte that was changed meanwhile is set
/// anew, and an allowance below the list never finishes it.
#[test]
fn a_palette_begins_again() {
    let (film, state) = entered(&[opcode(0x0C, 0, &[0, 0, 2, 0, 1, 2, 3, 4, 5, 6])]);
    let mut lent = found();
    for _ in 0..3 {
        lent.palette[0] = 0xBB;
        assert_eq!(lent.step(&film, state, 5), Stepped::Unfinished(state, 5, None));
        assert_eq!(lent.palette[..6], [1, 2, 3, 4, 5, 0xAA]);
    }
    let moved = State { position: film.len(), ..state };
    assert_eq!(lent.step(&film, state, 6), Stepped::Taken(moved, 6, 0));
    assert_eq!(lent.palette[..7], [1, 2, 3, 4, 5, 6, 0xAA]);
}

/// 0F: one store, the place. With 0 allowed there is no map yet.
#[test]
fn the_place_of_a_map() {
    let (film, state) = entered(&[opcode(0x0F, 0, &[0x1E, 0x01])]);
    let list = listed(CallForm::Default, &film, &state, &memory(&found()));
    assert_eq!(list, [Store::Place(0)]);
    let mut lent = found();
    assert_eq!(lent.step(&film, state, 0), Stepped::Unfinished(state, 0, None));
    assert_eq!(lent, found());
    let map = Some(Span { start: 34, length: 2 });
    let moved = State { position: film.len(), map, ..state };
    for allowed in [1, 2, 312_000] {
        let mut lent = found();
        assert_eq!(lent.step(&film, state, allowed), Stepped::Taken(moved, 1, 0));
        assert_eq!(lent, Lent { place: 0, ..found() });
    }
}

/// All tests come before the first store, whatever is allowed: no number is new, none is lost.
#[test]
fn refusals_come_first() {
    let refused = |number| Stepped::Refused(Refusal { number, block: 0 });
    for (kind, body, number) in [
        (0x0B, vec![0; 5], 5),
        (0x0B, vec![1, 16, 16, 0, 0, 0], 7),
        (0x0C, vec![0, 0, 1, 0, 1, 2], 5),
        (0x0C, vec![0, 0, 1, 0, 1, 2, 64], 7),
        (0x0D, vec![0; 31], 5),
    ] {
        let (film, state) = entered(&[opcode(kind, 0, &body)]);
        assert!(listed(CallForm::Default, &film, &state, &memory(&found())).is_empty());
        for allowed in [0, 1, 312_000] {
            let mut lent = found();
            assert_eq!(lent.step(&film, state, allowed), refused(number), "{kind}, {allowed}");
            assert_eq!(lent, found());
        }
        let mut short = Lent { palette: vec![0; 767], ..found() };
        assert_eq!(short.step(&film, state, 0), refused(8));
    }
}

/// Opening allows 312,000 stores a step, so that nothing in it is unfinished.
#[test]
fn openings_are_not_limited() {
    let opcodes = [opcode(0x0B, 0, &[0, 16, 16, 0, 16, 16]), opcode(0x0F, 0, &[0x0E]), size(1, 1)];
    let film = film(&[chunk(&opcodes)]);
    let (mut palette, mut place) = (vec![0xAA; 768], 5);
    let state = begin(&film, NO_STREAM, &mut palette, &mut place).expect("a size");
    assert_eq!((state.position, state.columns, place), (film.len(), 1, 0));
    assert_eq!(palette[765..], [63, 39, 0]);
}

/// A film of two frames of one block: 7 by a map and a packet, sent with one palette; 9, sent with
/// another.
fn two_frames() -> Vec<u8> {
    let first = [size(1, 1), opcode(0x0C, 0, &[7, 0, 1, 0, 1, 2, 3]), opcode(0x0F, 0, &[0x0E])];
    let second = [video(&[7]), send(), opcode(0x0F, 0, &[0x0E]), video(&[9])];
    let third = [opcode(0x0B, 0, &[7, 1, 1, 7, 2, 1]), send(), opcode(0x00, 0, &[])];
    film(&[chunk(&first), chunk(&second), chunk(&third)])
}

fn play(
    bytes: &[u8],
    stream: usize,
    room: usize,
    cut: impl FnMut(&State, &[Store]) -> Option<usize>,
) -> Played {
    let state = open(bytes, stream).expect("a good header");
    let lent = Lent { palette: vec![0; 768], ..found() };
    cuts::play(&Film { bytes, form: CallForm::Default, state, room }, memory(&lent), cut)
}

/// What the film sends, worked out by hand: it is the same with every step cut at every store.
#[test]
fn a_film_through_cuts() {
    let film = two_frames();
    let mut first = vec![0; 768];
    first[21..24].copy_from_slice(&[1, 2, 3]);
    let mut second = first.clone();
    second[21..27].copy_from_slice(&[0, 0, 0, 63, 0, 0]);
    let sent = vec![
        Sent { picture: vec![7; 64], words: Vec::new(), palette: first },
        Sent { picture: vec![9; 64], words: Vec::new(), palette: second },
    ];
    let expected = Played { sent, samples: Vec::new(), refusal: None };
    assert_eq!(play(&film, NO_STREAM, 0, |_, _| None), expected);
    let mut due = Vec::new();
    let mut cut = at_every_store();
    let cutting = |state: &State, stores: &[Store]| {
        due.push(stores.len());
        cut(state, stores)
    };
    assert_eq!(play(&film, NO_STREAM, 0, cutting), expected);
    // Thirteen steps and the end. Those without a store are cut once, and called again: 05, two sends,
    // 00, three chunk heads and the end.
    let none = due.iter().filter(|&&stores| stores == 0).count();
    // An 11 that was cut behind its last store finds nothing due, and is called once more, too.
    assert_eq!(none, 2 * (1 + 2 + 1 + 3 + 1) + 2);
    // 0C: 3 stores. Each 0F: 1. 0B: 9.
    assert_eq!(due.iter().filter(|&&stores| stores == 3).count(), 3 + 2);
    assert_eq!(due.iter().filter(|&&stores| stores == 1).count(), 2 * (1 + 2));
    assert_eq!(due.iter().filter(|&&stores| stores == 9).count(), 9 + 2);
    // Each 11: 65, until the cut behind the last.
    assert_eq!(due.iter().filter(|&&stores| stores == 65).count(), 2 * 66);
}

/// Cut at one store of one step, at a time.
#[test]
fn one_cut_at_a_time() {
    let film = two_frames();
    let expected = play(&film, NO_STREAM, 0, |_, _| None);
    let mut all = Vec::new();
    play(&film, NO_STREAM, 0, |state, stores| {
        all.extend((0..=stores.len()).map(|made| (*state, made)));
        None
    });
    assert_eq!(all.len(), 8 + 4 + 2 * 2 + 10 + 2 * 66);
    for (at, made) in all {
        let mut cut = false;
        let once = |state: &State, _: &[Store]| {
            let now = !cut && *state == at;
            cut |= now;
            now.then_some(made)
        };
        assert_eq!(play(&film, NO_STREAM, 0, once), expected, "{at:?}, {made}");
        assert!(cut);
    }
}

/// Sound makes no store that is counted, and a step that was cut in it writes the same samples.
#[test]
fn sound_through_cuts() {
    let format = opcode(0x03, 1, &[0, 0, 0b110, 0, 0, 0, 0, 0, 0, 0]);
    let packet = |data: &[u8], count| {
        let front = [&word(0)[..], &word(1), &word(count)].concat();
        opcode(0x08, 0, &[&front, data].concat())
    };
    // Start word 256, then steps 1 and 2; then step 3.
    let opcodes = [format, packet(&[0, 1, 1, 2], 3), packet(&[3], 1)];
    let film = film(&[chunk(&opcodes)]);
    let samples = [256_u16, 257, 259, 262].map(u16::to_le_bytes).concat();
    let expected = Played { samples, ..Played::default() };
    assert_eq!(play(&film, 0, 6, at_every_store()), expected);
    // A room that is too short ends the film by 19, with cuts as without.
    let refused = Played { refusal: Some(Refusal::new(19)), ..Played::default() };
    assert_eq!(play(&film, 0, 5, at_every_store()), refused);
}

/// A film that is refused ends so through cuts, too, behind what it sent.
#[test]
fn a_refused_film_through_cuts() {
    let mut film = two_frames();
    // The second frame's code becomes 6.
    let at = film.windows(5).rposition(|bytes| bytes == [1, 0, 0x0F, 0, 0x0E]).expect("a map");
    film[at + 4] = 0x06;
    let played = play(&film, NO_STREAM, 0, at_every_store());
    assert_eq!(played.refusal, Some(Refusal { number: 12, block: 0 }));
    assert_eq!(played.sent.len(), 1);
    assert_eq!(played, play(&film, NO_STREAM, 0, |_, _| None));
}

/// A drawing goes on from its place, and tells the rows of the whole packet: 2x1 blocks, map E2, data
/// 00 07, back all 5 (01's marked case), cut after 75 stores.
#[test]
fn a_drawing_goes_on() {
    let (film, _) = entered(&[size(2, 1), opcode(0x0F, 0, &[0xE2]), video(&[0, 7])]);
    let mut lent = Lent { b: vec![5; 128], ..Lent::zero(128) };
    let state = lent.steps(&film, open(&film, NO_STREAM).expect("a good header"), 3);
    let list = listed(CallForm::Default, &film, &state, &memory(&lent));
    assert_eq!((list.len(), list[64], list[129]), (130, Store::Place(1), Store::Place(2)));
    assert_eq!(list[0], Store::Pixel { picture: 1, index: 0, value: 5 });
    assert_eq!(list[74], Store::Pixel { picture: 1, index: 25, value: 7 });
    let rows = Some(Rows { first: 0, last: 0 });
    let cut = memory(&lent).cut(&list, 75);
    assert_eq!(lent.step(&film, state, 75), Stepped::Unfinished(state, 75, rows));
    assert_eq!(memory(&lent), cut);
    // From block 1 on.
    let rest = listed(CallForm::Default, &film, &state, &cut);
    assert_eq!(rest, list[65..]);
    let after = State { position: film.len(), map: None, unsent: true, ..state };
    assert_eq!(lent.step(&film, state, 312_000), Stepped::Whole(after, 65, rows));
}
