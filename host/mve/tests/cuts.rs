//! The stores of palettes and of opcode 0F (02, W11), on cases worked out by hand: listed, limited and
//! counted. (`host/compare` has every allowance and every cut, beside the second decoder.)

use mve::{
    begin, open, step, Error, Form, Pictures, Refusal, State, Step, NO_STREAM, PALETTE_STORES,
};

const HEADER: &[u8] = b"Interplay MVE File\x1A\0\x1A\0\0\x01\x33\x11";

/// A film of one chunk with these opcodes.
fn film(opcodes: &[(u8, &[u8])]) -> Vec<u8> {
    let word = |length: usize| (length as u16).to_le_bytes();
    let opcode = |&(kind, body): &(u8, &[u8])| [&word(body.len())[..], &[kind, 0], body].concat();
    let body: Vec<u8> = opcodes.iter().flat_map(opcode).collect();
    [HEADER, &word(body.len()), &[3, 0], &body].concat()
}

/// A film of one opcode, the state at it, and that behind it.
fn at(kind: u8, body: &[u8]) -> (Vec<u8>, State, State) {
    let film = film(&[(kind, body)]);
    let opened = open(&film, NO_STREAM).expect("a header");
    let state = State { position: 30, chunk_end: film.len(), ..opened };
    let behind = State { position: film.len(), ..state };
    (film, state, behind)
}

/// A palette of bytes that no opcode stores, and a place.
const FOUND: ([u8; 768], usize) = ([0xAA; 768], 5);

/// A step that is lent these: its answer, and what it leaves.
fn stepped(
    film: &[u8],
    state: State,
    (mut palette, mut place): ([u8; 768], usize),
    allowed: usize,
) -> (Result<Step, Refusal>, ([u8; 768], usize)) {
    let answer = step(
        film,
        state,
        &mut palette,
        &mut Pictures::default(),
        &mut place,
        &mut [],
        allowed,
        Form::Default,
    );
    (answer, (palette, place))
}

/// An opcode of the palette has just these stores, byte and value, in this order.
fn assert_list(kind: u8, body: &[u8], stores: &[(usize, u8)]) {
    let (film, state, behind) = at(kind, body);
    for allowed in (0..stores.len() + 2).chain([mve::ALL_STORES, usize::MAX]) {
        let made = allowed.min(stores.len());
        let (answer, left) = stepped(&film, state, FOUND, allowed);
        let expected = match made < stores.len() {
            true => Step::Unfinished { state, stores: made, rows: None },
            false => Step::Taken { state: behind, stores: made, bytes: 0 },
        };
        assert_eq!(answer, Ok(expected), "{allowed}");
        let (mut palette, place) = FOUND;
        stores[..made].iter().for_each(|&(index, value)| palette[index] = value);
        assert!(left == (palette, place), "{allowed}");
    }
}

/// Red-blue over entries 0 and 1, then red-green over entry 1, which is stored twice.
#[test]
fn gradients() {
    let red_blue = [(0, 0), (1, 0), (2, 0), (3, 0), (4, 0), (5, 39)];
    let red_green = [(3, 0), (4, 0), (5, 0)];
    assert_list(0x0B, &[0, 1, 2, 1, 1, 1], &[&red_blue[..], &red_green].concat());
    assert_list(0x0B, &[255, 0, 255, 255, 255, 0], &[]);
}

#[test]
fn entries() {
    let stores = [(762, 1), (763, 2), (764, 63), (765, 4), (766, 0), (767, 6)];
    assert_list(0x0C, &[254, 0, 2, 0, 1, 2, 63, 4, 0, 6], &stores);
    assert_list(0x0C, &[0, 1, 0, 0], &[]);
    // Bits 0 and 7 of group 0, bit 1 of group 1: entries 0, 7 and 9.
    let masks = [&[0x81, 1, 2, 3, 4, 5, 6, 0x02, 7, 8, 63][..], &[0; 30]].concat();
    let stores = [(0, 1), (1, 2), (2, 3), (21, 4), (22, 5), (23, 6), (27, 7), (28, 8), (29, 63)];
    assert_list(0x0D, &masks, &stores);
    assert_list(0x0D, &[0; 32], &[]);
}

#[test]
fn maps() {
    let (film, state, behind) = at(0x0F, &[0x1E, 0x01]);
    let unfinished = Step::Unfinished { state, stores: 0, rows: None };
    assert_eq!(stepped(&film, state, FOUND, 0), (Ok(unfinished), FOUND));
    let state_behind = State { map: Some((34, 2)), ..behind };
    let taken = Step::Taken { state: state_behind, stores: 1, bytes: 0 };
    for allowed in [1, 2, mve::ALL_STORES] {
        assert_eq!(stepped(&film, state, FOUND, allowed), (Ok(taken), (FOUND.0, 0)));
    }
}

/// The longest palette: 0B with 256 entries twice. Where it was cut it begins again.
#[test]
fn longest() {
    let (film, state, behind) = at(0x0B, &[0, 16, 16, 0, 16, 16]);
    let short = |stores| Ok(Step::Unfinished { state, stores, rows: None });
    let (answer, mut left) = stepped(&film, state, FOUND, PALETTE_STORES - 1);
    assert_eq!(answer, short(1535));
    assert_eq!(left.0[762..], [63, 36, 0, 63, 39, 39]);
    left.0[0] = 0xBB;
    let (answer, left) = stepped(&film, state, left, 1);
    assert_eq!((answer, left.0[0], left.0[767]), (short(1), 0, 39));
    let (answer, left) = stepped(&film, state, left, PALETTE_STORES);
    assert_eq!(answer, Ok(Step::Taken { state: behind, stores: 1536, bytes: 0 }));
    assert_eq!(left.0[762..], [63, 36, 0, 63, 39, 0]);
}

/// All tests come before the first store, whatever is allowed.
#[test]
fn refusals() {
    let (film, state, _) = at(0x0C, &[0, 0, 1, 0, 1, 2, 64]);
    for allowed in [0, 2, mve::ALL_STORES] {
        let refused = Err(Refusal { error: Error::Palette, block: 0 });
        assert_eq!(stepped(&film, state, FOUND, allowed), (refused, FOUND));
    }
}

/// The opening allows enough for every palette.
#[test]
fn openings() {
    let film = film(&[(0x0B, &[0, 16, 16, 0, 16, 16]), (0x0F, &[1]), (0x05, &[1, 0, 1, 0])]);
    let (mut palette, mut place) = FOUND;
    let state = begin(&film, NO_STREAM, &mut palette, &mut place).expect("a size");
    assert_eq!((state.position, state.columns, place), (film.len(), 1, 0));
    assert_eq!(palette[762..], [63, 36, 0, 63, 39, 0]);
}
