//! What the library does not tell of an opcode: its type, and the words in its body that only a
//! player needs.

use mve::State;

/// Types of opcodes.
pub mod kind {
    pub const END: u8 = 0x00;
    pub const CHUNK_END: u8 = 0x01;
    pub const TIMER: u8 = 0x02;
    pub const SOUND_FORMAT: u8 = 0x03;
    pub const START_SOUND: u8 = 0x04;
    pub const SIZE: u8 = 0x05;
    pub const SEND: u8 = 0x07;
    pub const SOUND: u8 = 0x08;
    pub const SILENCE: u8 = 0x09;
    pub const MODE: u8 = 0x0A;
    pub const GRADIENTS: u8 = 0x0B;
    pub const PALETTE: u8 = 0x0C;
    pub const PALETTE_MASKS: u8 = 0x0D;
    pub const MAP: u8 = 0x0F;
    pub const VIDEO: u8 = 0x11;
}

/// The bytes of the head of an opcode, and of a chunk.
pub const HEAD: usize = 4;
/// The bytes in front of the packet of opcode 0x11.
pub const SKIPPED: usize = 14;

/// What the types that films have are for; none for others.
pub fn meaning(kind: u8) -> Option<&'static str> {
    Some(match kind {
        0x00 => "end of the film",
        0x01 => "end of the chunk",
        0x02 => "timer",
        0x03 => "format of the sound",
        0x04 => "start of the sound",
        0x05 => "size",
        0x07 => "sends the picture",
        0x08 => "sound",
        0x09 => "silence",
        0x0A => "display mode",
        0x0B => "palette by gradients",
        0x0C => "palette",
        0x0D => "palette by masks",
        0x0F => "map of the blocks",
        0x11 => "picture",
        0x12..=0x15 => "passed over, its use is not known",
        _ => return None,
    })
}

/// An opcode as it stands in the film.
#[derive(Clone, Copy, Debug, PartialEq, Eq)]
pub struct Opcode<'a> {
    pub kind: u8,
    pub version: u8,
    pub body: &'a [u8],
}

impl<'a> Opcode<'a> {
    /// The opcode where a state is; none at a chunk's head, or where it passes its chunk.
    pub fn at(film: &'a [u8], state: &State) -> Option<Opcode<'a>> {
        let rest = film.get(state.position..state.chunk_end)?;
        let &[low, high, kind, version, ref behind @ ..] = rest else { return None };
        let length = usize::from(u16::from_le_bytes([low, high]));
        Some(Opcode { kind, version, body: behind.get(..length)? })
    }

    pub fn changes_palette(&self) -> bool {
        matches!(self.kind, kind::GRADIENTS | kind::PALETTE | kind::PALETTE_MASKS)
    }

    /// The samples of a channel in a second, of a format.
    pub fn rate(&self) -> Option<u16> {
        self.word(2).filter(|_| self.kind == kind::SOUND_FORMAT)
    }

    /// Whether the size is that of a film with true colour.
    pub fn true_colour(&self) -> bool {
        self.kind == kind::SIZE && self.version == 2 && self.word(3).is_some_and(|word| word != 0)
    }

    /// The streams that sound is for, a bit each. Silence (opcode 09) has a mask, too, but it fills up
    /// the streams that a film does not have.
    pub fn streams(&self) -> Option<u16> {
        self.word(1).filter(|_| self.kind == kind::SOUND)
    }

    /// A word of the body, counted from 0.
    pub fn word(&self, number: usize) -> Option<u16> {
        let bytes = self.body.get(2 * number..)?.first_chunk()?;
        Some(u16::from_le_bytes(*bytes))
    }
}

#[cfg(test)]
mod tests {
    use super::*;

    fn opcode(kind: u8, body: &[u8]) -> Opcode<'_> {
        Opcode { kind, version: 0, body }
    }

    /// An opcode is read as far as its chunk goes.
    #[test]
    fn heads() {
        let film = [0, 0, 2, 0, 0x0C, 0, 7, 8, 9, 9];
        let state =
            mve::open(b"Interplay MVE File\x1A\0\x1A\0\0\x01\x33\x11", 0).expect("a header");
        let at = |position, chunk_end| Opcode::at(&film, &State { position, chunk_end, ..state });
        assert_eq!(at(2, 8), Some(opcode(0x0C, &[7, 8])));
        assert_eq!(at(2, 7), None);
        assert_eq!(at(2, 5), None);
        assert_eq!(at(2, 2), None);
        assert_eq!(at(2, 11), None);
    }
}
