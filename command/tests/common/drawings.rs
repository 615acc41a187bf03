//! The drawings of a film by the second program, with the pictures before and after each: what the
//! chain from a pixel back is held to.

use reference::film::{opcode_head, open, shown, step, Lent, Stepped};
use reference::frame::MAX_PIXELS;
use reference::sound::NO_STREAM;
use std::ops::Range;

/// A packet that is drawn.
#[derive(Clone, Debug)]
pub struct Drawing {
    /// The pictures that were sent before.
    pub picture: usize,
    /// Which of the two pictures it is drawn on.
    pub on: usize,
    pub columns: usize,
    pub map: Vec<u8>,
    /// Its part of the film.
    pub packet: Range<usize>,
    /// Both pictures before.
    pub before: [Vec<u8>; 2],
    /// The one drawn on, afterwards.
    pub after: Vec<u8>,
}

/// A picture that is sent.
#[derive(Clone, Debug)]
pub struct Sent {
    pub width: usize,
    pub height: usize,
    pub pixels: Vec<u8>,
    pub palette: Vec<u8>,
    /// How many drawings came before.
    pub drawings: usize,
}

/// All drawings of a film, and the pictures that it sends.
pub fn drawings(film: &[u8]) -> (Vec<Drawing>, Vec<Sent>) {
    let (mut drawings, mut sent) = (Vec::new(), Vec::new());
    let mut state = open(film, NO_STREAM).expect("a header");
    let (mut palette, mut place) = ([0; 768], 0);
    let mut pictures = [(); 2].map(|()| vec![0; MAX_PIXELS]);
    loop {
        let before = pictures.clone();
        let [picture_a, picture_b] = &mut pictures;
        let (palette, place) = (&mut palette, &mut place);
        let (room, words) = (&mut [], [(); 3].map(|()| &mut [][..])); // an 8-bit film
        let lent = Lent { palette, picture_a, picture_b, place, room, words };
        let found = state;
        match step(film, state, lent, usize::MAX) {
            Stepped::Whole(after, ..) => {
                let head = opcode_head(film, found.position, found.chunk_end).expect("opcode 11");
                let map = found.map.and_then(|map| map.of(film)).expect("a map").to_vec();
                let (on, start) = (1 - found.front, found.position + 18);
                let packet = start..start - 14 + head.body.of(film).expect("a body").len();
                let (columns, picture) = (found.columns, sent.len());
                let after_it = pictures[on].clone();
                drawings.push(Drawing {
                    picture,
                    on,
                    columns,
                    map,
                    packet,
                    before,
                    after: after_it,
                });
                state = after;
            }
            Stepped::Taken(after, ..) => {
                if after.front != found.front {
                    let [a, b] = &pictures;
                    sent.push(Sent {
                        width: 8 * after.columns,
                        height: 8 * after.rows,
                        pixels: shown(&after, a, b).to_vec(),
                        palette: palette.to_vec(),
                        drawings: drawings.len(),
                    });
                }
                state = after;
            }
            _ => return (drawings, sent),
        }
    }
}
