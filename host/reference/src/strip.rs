//! A film without what the player passes over (02, W14): taken apart into chunks of opcodes, sorted out,
//! and put together again.

use crate::film::{self, opcode, OpcodeHead};
use crate::refusal::{self, Refusal};
use crate::salvage::test_opcode;
use crate::sound::STREAMS;

/// Bytes of an opcode's head.
const HEAD: usize = 4;
/// Where the mask of an 08 or 09 stands in its body.
const MASK: usize = 2;

/// A chunk, taken apart.
struct Chunk<'a> {
    /// The type word, which stays.
    kind: u16,
    opcodes: Vec<Opcode<'a>>,
}

/// An opcode that no test refuses.
struct Opcode<'a> {
    kind: u8,
    /// With its head.
    bytes: &'a [u8],
}

/// What is left of a film for a stream, where the new film has this much room: refusal 1, the first of 2
/// to 5, then 19.
pub fn strip(film: &[u8], stream: usize, room: usize) -> Result<Vec<u8>, Refusal> {
    let header = film::open(film, stream)?.position;
    let mut chunks = chunks(film, header)?;
    for chunk in &mut chunks {
        chunk.opcodes.retain(|opcode| opcode.is_acted_on(stream));
    }
    let left = chunks.iter().filter(|chunk| !chunk.opcodes.is_empty());
    let new_film: Vec<u8> =
        film[..header].iter().copied().chain(left.flat_map(Chunk::bytes)).collect();
    match new_film.len() <= room {
        true => Ok(new_film),
        false => Err(Refusal::new(refusal::ROOM)),
    }
}

/// The chunks from a position up to the one with 00, behind which nothing is read, or the first of 2 to 5
/// that they meet.
fn chunks(film: &[u8], mut at: usize) -> Result<Vec<Chunk<'_>>, Refusal> {
    let mut chunks = Vec::new();
    while at < film.len() {
        let head = film::chunk_head(film, at)?;
        at = head.body.start + head.body.length;
        let opcodes = opcodes(film, head.body.start, at)?;
        let ends = opcodes.iter().any(|found| found.kind == opcode::END_OF_STREAM);
        chunks.push(Chunk { kind: head.kind, opcodes });
        if ends {
            break;
        }
    }
    Ok(chunks)
}

fn opcodes(film: &[u8], mut at: usize, end: usize) -> Result<Vec<Opcode<'_>>, Refusal> {
    let mut opcodes = Vec::new();
    while at < end {
        let OpcodeHead { kind, body, .. } = test_opcode(film, at, end)?;
        let behind = body.start + body.length;
        opcodes.push(Opcode { kind, bytes: &film[at..behind] });
        at = behind;
    }
    Ok(opcodes)
}

impl Opcode<'_> {
    /// Whether a player of the stream does something by it. 003 lists the types that are passed over
    /// whatever the stream; 08 and 09 say in their mask whom they are for.
    fn is_acted_on(&self, stream: usize) -> bool {
        match self.kind {
            0x02 | 0x04 | 0x0A | 0x12..=0x15 => false,
            opcode::INIT_AUDIO => stream < STREAMS,
            opcode::AUDIO_DATA | opcode::AUDIO_SILENCE => {
                let mask = &self.bytes[HEAD + MASK..];
                stream < STREAMS && mask[stream / 8] & 1 << (stream % 8) != 0
            }
            _ => true,
        }
    }
}

impl Chunk<'_> {
    /// The bytes, with a head that counts what is left.
    fn bytes(&self) -> Vec<u8> {
        let body: Vec<u8> = self.opcodes.iter().flat_map(|opcode| opcode.bytes).copied().collect();
        let length = body.len() as u16; // no longer than the chunk was
        [&length.to_le_bytes()[..], &self.kind.to_le_bytes(), &body].concat()
    }
}
