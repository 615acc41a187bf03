//! Steps at opcodes whose stores are not those of a drawing.

use maker::colours::Change;
use maker::film::{Chunk, Film};
use maker::states::{self, Start};
use maker::{Seeded, Size};
use reference::sound::NO_STREAM;

/// A film whose only opcode is of this kind, and what the step at it is given. One in two states has a
/// size, a map and a frame that is unsent.
pub fn at_change(rng: &mut Seeded, change: Change) -> (Vec<u8>, Start) {
    let opcodes = vec![change.opcode(rng)];
    let chunks = vec![Chunk { opcodes, ..Chunk::default() }];
    let film = Film { size: Size::new(1, 1), stream: NO_STREAM, chunks, tail: Vec::new() };
    let (bytes, mut start) = (film.bytes(), states::opening(rng, &film));
    (start.state.position, start.state.chunk_end) = (30, bytes.len());
    start.place = rng.pick(&[0, 1, 7, usize::MAX]);
    if rng.one_in(2) {
        (start.state.columns, start.state.rows, start.state.unsent) = (1, 1, true);
        start.state.front = rng.below(2);
        start.state.map = Some(reference::film::Span { start: 3, length: 1 });
    }
    (bytes, start)
}
