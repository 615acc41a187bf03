//! The format of a film's sound.

use crate::opcodes::Opcode;
use mve::{Sound, State};

/// A format, as opcode 0x03 gives it.
#[derive(Clone, Copy, Debug, PartialEq, Eq)]
pub struct Format {
    /// Samples of a channel in a second.
    pub rate: u16,
    /// One or two.
    pub channels: u16,
    /// 8 or 16, of a sample as it is played.
    pub bits: u16,
    /// Whether the film has it compressed.
    pub compressed: bool,
}

impl Format {
    /// The format that an opcode has given, where it is one, with the state behind it.
    pub fn of(opcode: &Opcode<'_>, after: &State) -> Option<Format> {
        let Sound { has_format, stereo, wide, compressed, .. } = after.sound;
        let rate = opcode.rate().filter(|_| has_format)?;
        let (channels, bits) = (1 + u16::from(stereo), 8 + 8 * u16::from(wide));
        Some(Format { rate, channels, bits, compressed })
    }

    /// The bytes of a sample of each channel.
    pub fn frame_bytes(&self) -> u16 {
        self.channels * self.bits / 8
    }
}
