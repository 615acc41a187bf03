//! What is left of a scratched film (02, W13).

use crate::film::{self, ChunkHead, OpcodeHead};
use crate::palette;
use crate::refusal::{self, Refusal};
use crate::sound::Sound;

/// A chunk of type 5 with opcode 00, which ends a film that no kept chunk ends.
pub const END_CHUNK: [u8; 8] = [4, 0, 5, 0, 0, 0, 0, 0];
/// Numbers in the list for each chunk left out.
pub const NUMBERS: usize = 3;

/// Any stream: where one is chosen, sound is tested.
const CHOSEN: usize = 0;

/// How the walk over the chunks stopped.
#[derive(Clone, Copy, Debug, PartialEq, Eq)]
pub enum Stop {
    /// At the end of the film.
    FilmEnd,
    /// Behind a kept chunk with opcode 00.
    BehindEnd,
    /// Where a chunk or its head passes the end of the film (refusal 2).
    PastEnd,
}

/// A chunk left out.
#[derive(Clone, Copy, Debug, PartialEq, Eq)]
pub struct LeftOut {
    /// Position of its head.
    pub position: usize,
    /// Its length word, which does not count the head.
    pub length: usize,
    /// The refusal first met in it: 3, 4 or 5.
    pub number: u8,
}

/// What is left, and what is not. The sums of bytes count chunks with their heads.
#[derive(Clone, Debug, PartialEq, Eq)]
pub struct Salvaged {
    /// The new film.
    pub film: Vec<u8>,
    /// The chunks left out, in order.
    pub left_out: Vec<LeftOut>,
    /// How the walk stopped.
    pub stop: Stop,
    /// Bytes of the chunks kept.
    pub kept: usize,
    /// Bytes of the chunks left out.
    pub lost: usize,
    /// Bytes behind the last chunk walked.
    pub rest: usize,
}

impl Salvaged {
    /// The list: position, length and refusal of each chunk left out.
    pub fn numbers(&self) -> Vec<usize> {
        let of = |chunk: &LeftOut| [chunk.position, chunk.length, usize::from(chunk.number)];
        self.left_out.iter().flat_map(of).collect()
    }
}

/// What a chunk is for the new film.
enum Chunk {
    /// Kept; whether opcode 00 is in it.
    Kept(bool),
    /// Left out, by this refusal.
    LeftOut(u8),
}

/// What is left of a film, where the new film has this much room and the list that for so many
/// numbers: refusal 1, then 19.
pub fn salvage(film: &[u8], room: usize, numbers: usize) -> Result<Salvaged, Refusal> {
    let mut at = film::open(film, CHOSEN)?.position;
    let mut new_film = film[..at].to_vec();
    let (mut left_out, mut kept, mut lost) = (Vec::new(), 0, 0);
    let stop = loop {
        if at == film.len() {
            break Stop::FilmEnd;
        }
        let Ok(head) = film::chunk_head(film, at) else {
            break Stop::PastEnd;
        };
        let end = head.body.start + head.body.length;
        let (position, bytes) = (at, &film[at..end]);
        at = end;
        match test_chunk(film, head) {
            Chunk::LeftOut(number) => {
                left_out.push(LeftOut { position, length: head.body.length, number });
                lost += bytes.len();
            }
            Chunk::Kept(ends) => {
                new_film.extend(bytes);
                kept += bytes.len();
                if ends {
                    break Stop::BehindEnd;
                }
            }
        }
    };
    if stop != Stop::BehindEnd {
        new_film.extend(END_CHUNK);
    }
    if room < new_film.len() || numbers < NUMBERS * left_out.len() {
        return Err(Refusal::new(refusal::ROOM));
    }
    Ok(Salvaged { film: new_film, left_out, stop, kept, lost, rest: film.len() - at })
}

/// The opcodes of a chunk, up to the first that is refused.
fn test_chunk(film: &[u8], chunk: ChunkHead) -> Chunk {
    let (mut at, end) = (chunk.body.start, chunk.body.start + chunk.body.length);
    let mut ends = false;
    while at < end {
        match test_opcode(film, at, end) {
            Ok(head) => {
                at = head.body.start + head.body.length;
                ends |= head.kind == film::opcode::END_OF_STREAM;
            }
            Err(refused) => return Chunk::LeftOut(refused.number),
        }
    }
    Chunk::Kept(ends)
}

/// The opcode at a position of a chunk, or the first of 3, 4 and 5 that it meets: sound whatever the
/// stream, 0C and 0D by their content.
pub fn test_opcode(film: &[u8], at: usize, chunk_end: usize) -> Result<OpcodeHead, Refusal> {
    let head = film::opcode_head(film, at, chunk_end)?;
    film::test_shape(&head, &Sound::new(CHOSEN))?;
    let body = head.body.of(film).unwrap_or_default();
    let entries = match head.kind {
        film::opcode::PALETTE => palette::palette_entries(body),
        film::opcode::PALETTE_COMPRESSED => palette::compressed_entries(body),
        _ => return Ok(head),
    };
    match entries {
        Err(refused) if refused.number == refusal::BODY_LENGTH => Err(refused),
        _ => Ok(head), // 7 is not tested
    }
}
