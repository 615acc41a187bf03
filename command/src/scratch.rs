//! Where a film is scratched that is refused by 2 to 5, whatever would stop a player before.

use crate::chunks::{chunks, HEADER};
use crate::opcodes::{kind, Opcode, HEAD};
use crate::refusals::Refused;
use mve::{Error, Refusal, State, LOSS_NUMBERS};

/// The first chunk or opcode that the tests of `mve_salvage` and `mve_strip` refuse.
pub fn place(film: &[u8], error: Error) -> Refused {
    let refusal = Refusal { error, block: 0 };
    let state = match error {
        Error::Header => return Refused::at_header(refusal),
        Error::Chunk => {
            let end = chunks(film).last().map_or(HEADER, |chunk| chunk.chunk_end);
            Some(State { position: end, chunk_end: end, ..State::default() })
        }
        _ => chunks(film).find_map(|chunk| in_chunk(film, chunk)),
    };
    Refused::new(refusal, film, &state.unwrap_or_default())
}

/// The place of the first opcode of a chunk that is refused.
fn in_chunk(film: &[u8], chunk: State) -> Option<State> {
    let mut state = chunk;
    while state.position < chunk.chunk_end {
        let Some(opcode) = Opcode::at(film, &state) else { return Some(state) };
        let behind = state.position + HEAD + opcode.body.len();
        let must_be_last = matches!(opcode.kind, kind::END | kind::CHUNK_END);
        if must_be_last && behind < chunk.chunk_end || is_refused(film, state.position, behind) {
            return Some(state);
        }
        state.position = behind;
    }
    None
}

/// Whether the library leaves out a chunk of this one opcode.
fn is_refused(film: &[u8], from: usize, to: usize) -> bool {
    let length = (to - from) as u16; // inside a chunk
    let (header, opcode) = (&film[..HEADER], &film[from..to]);
    let alone = [header, &length.to_le_bytes(), &[0, 0], opcode].concat();
    let mut room = vec![0; alone.len() + 8];
    let saved = mve::salvage(&alone, &mut room, &mut [0; LOSS_NUMBERS]);
    saved.is_ok_and(|saved| saved.left_out > 0)
}
