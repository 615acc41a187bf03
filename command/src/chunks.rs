//! A film taken apart without playing it: chunks, and their opcodes.

use crate::opcodes::{kind, Opcode, HEAD};
use mve::State;
use std::iter;

/// The bytes of a film's header.
pub const HEADER: usize = 26;

/// The chunks of a film up to the one with opcode 00, each by the place of its first opcode. Where a chunk
/// passes the end, there are no more.
pub fn chunks(film: &[u8]) -> impl Iterator<Item = State> + '_ {
    let mut at = Some(HEADER);
    iter::from_fn(move || {
        let &[low, high, _, _, ref behind @ ..] = film.get(at?..)? else { return None };
        let length = usize::from(u16::from_le_bytes([low, high]));
        behind.get(..length)?;
        let position = at? + HEAD;
        let chunk = State { position, chunk_end: position + length, ..State::default() };
        let ends = opcodes(film, chunk).any(|(_, opcode)| opcode.kind == kind::END);
        at = (!ends).then_some(chunk.chunk_end);
        Some(chunk)
    })
}

/// The opcodes of a chunk, each with its place, up to one that passes it.
pub fn opcodes(film: &[u8], chunk: State) -> impl Iterator<Item = (State, Opcode<'_>)> {
    let mut state = chunk;
    iter::from_fn(move || {
        let (found, opcode) = (state, Opcode::at(film, &state)?);
        state.position += HEAD + opcode.body.len();
        Some((found, opcode))
    })
}
