//! What the tests share: bytes written as hex, and films built from their parts.

#![allow(dead_code)] // each test file uses a part of it

use reference::film::{self, State, Stepped};
use reference::sound::NO_STREAM;
use reference::{CallForm, Refusal};

/// Bytes from hex digits; blanks and line ends are skipped.
pub fn hex(text: &str) -> Vec<u8> {
    let digits: Vec<u32> = text
        .chars()
        .filter(|c| !c.is_whitespace())
        .map(|c| c.to_digit(16).expect("hex digit"))
        .collect();
    assert!(digits.len() % 2 == 0, "odd number of hex digits");
    let byte = |pair: &[u32]| (pair[0] * 16 + pair[1]) as u8;
    digits.chunks(2).map(byte).collect()
}

/// A word, little-endian.
pub fn word(value: usize) -> [u8; 2] {
    u16::try_from(value).expect("a word").to_le_bytes()
}

/// A packet with true colour: the offset word and both parts.
pub fn parted(first: &[u8], second: &[u8]) -> Vec<u8> {
    [&word(2 + first.len())[..], first, second].concat()
}

/// An opcode: head and body.
pub fn opcode(kind: u8, version: u8, body: &[u8]) -> Vec<u8> {
    [&word(body.len())[..], &[kind, version], body].concat()
}

/// A chunk: head and opcodes.
pub fn chunk(opcodes: &[Vec<u8>]) -> Vec<u8> {
    let body = opcodes.concat();
    [&word(body.len())[..], &word(3), &body].concat()
}

/// The 26 bytes of 01's header, written out here once more.
pub fn header() -> Vec<u8> {
    [&b"Interplay MVE File"[..], &hex("1a 00 1a 00 00 01 33 11")].concat()
}

/// A film: header and chunks.
pub fn film(chunks: &[Vec<u8>]) -> Vec<u8> {
    [header(), chunks.concat()].concat()
}

/// Opcode 05, version 0.
pub fn size(columns: usize, rows: usize) -> Vec<u8> {
    opcode(0x05, 0, &[word(columns), word(rows)].concat())
}

/// Opcode 05, version 2, of a film with true colour.
pub fn deep_size(columns: usize, rows: usize) -> Vec<u8> {
    opcode(0x05, 2, &[word(columns), word(rows), word(0), word(1)].concat())
}

/// Opcode 11: fourteen bytes that are skipped, then the packet.
pub fn video(packet: &[u8]) -> Vec<u8> {
    opcode(0x11, 0, &[&[0xEE; 14], packet].concat())
}

/// Opcode 07, version 0.
pub fn send() -> Vec<u8> {
    opcode(0x07, 0, &[0; 4])
}

/// What is lent to the steps of a film.
#[derive(Clone, Debug, PartialEq, Eq)]
pub struct Lent {
    pub palette: Vec<u8>,
    pub a: Vec<u8>,
    pub b: Vec<u8>,
    pub place: usize,
    pub room: Vec<u8>,
    pub words: [Vec<u16>; 3],
}

impl Lent {
    /// Zero palette, two zero pictures of this length, place 0, no room, no words.
    pub fn zero(pixels: usize) -> Lent {
        let picture = vec![0; pixels];
        let (palette, room, words) = (vec![0; 768], Vec::new(), Default::default());
        Lent { palette, a: picture.clone(), b: picture, place: 0, room, words }
    }

    /// Zero palette, no bytes, three zero pictures of so many words, place 0, no room.
    pub fn zero_words(pixels: usize) -> Lent {
        Lent { words: [(); 3].map(|()| vec![0; pixels]), ..Lent::zero(0) }
    }

    pub fn step(&mut self, film: &[u8], state: State, allowed: usize) -> Stepped {
        self.step_as(CallForm::Default, film, state, allowed)
    }

    pub fn step_as(
        &mut self,
        form: CallForm,
        film: &[u8],
        state: State,
        allowed: usize,
    ) -> Stepped {
        let lent = film::Lent {
            palette: &mut self.palette,
            picture_a: &mut self.a,
            picture_b: &mut self.b,
            place: &mut self.place,
            room: &mut self.room,
            words: self.words.each_mut().map(Vec::as_mut_slice),
        };
        film::step_as(form, film, state, lent, allowed)
    }

    /// Takes `count` steps that must be taken or whole.
    pub fn steps(&mut self, film: &[u8], mut state: State, count: usize) -> State {
        for number in 0..count {
            state = match self.step(film, state, 312_000) {
                Stepped::Taken(state, ..) | Stepped::Whole(state, ..) => state,
                other => panic!("step {number}: {other:?}"),
            };
        }
        state
    }

    /// Steps from the opening on, with no stream chosen, until the film ends or a step is refused.
    pub fn run(&mut self, film: &[u8]) -> (State, Option<Refusal>) {
        let mut state = film::open(film, NO_STREAM).expect("a good header");
        loop {
            match self.step(film, state, 312_000) {
                Stepped::Taken(after, ..) | Stepped::Whole(after, ..) => state = after,
                Stepped::Ended(after) => return (after, None),
                Stepped::Refused(refusal) => return (state, Some(refusal)),
                Stepped::Unfinished(..) => panic!("312,000 stores are enough for any step"),
            }
        }
    }
}

/// The frame of a single 8x8 block, decoded over a front of 0xF0 and a back of 0xBA.
pub fn block(code: u8, data: &[u8]) -> Vec<u8> {
    let (front, mut back, mut place) = ([0xF0; 64], vec![0xBA; 64], 0);
    let drawn = reference::draw(1, 1, &[code], data, &front, &mut back, &mut place, 312_000)
        .unwrap_or_else(|refusal| panic!("code {code:X}: {refusal}"));
    assert!(drawn.whole);
    back
}
