//! The numbers of refusal (01, "Numbers of refusal"; 17 to 19: 02, W5; 20: W7; 21: W8; 22: W9; 23: W10;
//! 24 to 26: W12).

use std::fmt;

/// Film header wrong or short.
pub const HEADER: u8 = 1;
/// A chunk or its head passes the end of the film.
pub const CHUNK: u8 = 2;
/// An opcode or its head passes its chunk, or bytes follow opcode 00 or 01.
pub const OPCODE: u8 = 3;
/// Opcode type or version not taken.
pub const TYPE_OR_VERSION: u8 = 4;
/// Opcode body of a wrong length.
pub const BODY_LENGTH: u8 = 5;
/// Frame size wrong, or a second 05.
pub const SIZE: u8 = 6;
/// Palette entry or colour component out of range.
pub const PALETTE: u8 = 7;
/// A lent palette or picture has a wrong length.
pub const LENT: u8 = 8;
/// Video data without a frame size or a pending map.
pub const NO_SIZE_OR_MAP: u8 = 9;
/// Map length is not that of the frame size.
pub const MAP_LENGTH: u8 = 10;
/// Place above the block count.
pub const PLACE: u8 = 11;
/// Block code 6.
pub const CODE_6: u8 = 12;
/// Too few data bytes for a block.
pub const DATA_SHORT: u8 = 13;
/// A copied block does not lie inside the picture.
pub const COPY_OUTSIDE: u8 = 14;
/// More data bytes left over behind the last block than may be: two or more, in the strict form one.
pub const DATA_LEFT: u8 = 15;
/// A film state that cannot be.
pub const STATE: u8 = 16;
/// Chosen sound before its format, or a format both 8-bit and compressed.
pub const SOUND_FORMAT: u8 = 17;
/// Sound data not as long as the sample count says, or a count that cannot be.
pub const SOUND_LENGTH: u8 = 18;
/// Room too small for what is to be written.
pub const ROOM: u8 = 19;
/// A true-colour packet without its two parts.
pub const PARTS: u8 = 20;
/// The film ends without a size.
pub const NO_SIZE: u8 = 21;
/// A position outside the picture.
pub const POSITION: u8 = 22;
/// A packet that is longer, with its front, than an opcode's body can be.
pub const PACKET_LENGTH: u8 = 23;
/// The data of a Video 1 frame ends before all blocks are passed.
pub const FRAME_SHORT: u8 = 24;
/// A skip of a Video 1 frame passes the last block.
pub const SKIP_OUTSIDE: u8 = 25;
/// Not the end mark alone behind the last block of a Video 1 frame.
pub const END_MARK: u8 = 26;

/// Why a call was refused. Nothing lent to the call was changed.
#[derive(Clone, Copy, Debug, PartialEq, Eq, PartialOrd, Ord, Hash)]
pub struct Refusal {
    /// The documents' number, 1 to 26.
    pub number: u8,
    /// The block that met 12, 13 or 14; else 0.
    pub block: usize,
}

impl Refusal {
    /// A refusal that no block is named for.
    pub const fn new(number: u8) -> Refusal {
        Refusal { number, block: 0 }
    }

    /// A refusal met in a block: 12, 13 or 14.
    pub const fn in_block(number: u8, block: usize) -> Refusal {
        Refusal { number, block }
    }

    /// What the number means.
    pub const fn reason(&self) -> &'static str {
        match self.number {
            HEADER => "film header wrong or short",
            CHUNK => "chunk passes the end of the film",
            OPCODE => "opcode passes its chunk, or bytes follow the end of the chunk",
            TYPE_OR_VERSION => "opcode type or version not taken",
            BODY_LENGTH => "opcode body of a wrong length",
            SIZE => "frame size not taken, or a second frame size",
            PALETTE => "palette entry or colour component out of range",
            LENT => "palette not 768 bytes, or a picture shorter than the frame",
            NO_SIZE_OR_MAP => "video data without a frame size or a pending map",
            MAP_LENGTH => "map length does not match the frame size",
            PLACE => "place above the block count",
            CODE_6 => "block code 6 is not taken in 8-bit films",
            DATA_SHORT => "too few data bytes for the block",
            COPY_OUTSIDE => "copied block not inside the picture",
            DATA_LEFT => "data bytes left over behind the last block",
            STATE => "film state cannot be",
            SOUND_FORMAT => "sound before its format, or a format both 8-bit and compressed",
            SOUND_LENGTH => "sound data or sample count of a wrong length",
            ROOM => "room too small for what is to be written there",
            PARTS => "true-colour packet without its two parts",
            NO_SIZE => "film ends without a frame size",
            POSITION => "position outside the picture",
            PACKET_LENGTH => "packet longer than an opcode's body can be",
            FRAME_SHORT => "frame ends before all blocks are passed",
            SKIP_OUTSIDE => "skip passes the last block",
            END_MARK => "not the end mark alone behind the last block",
            _ => "unknown number of refusal",
        }
    }
}

impl fmt::Display for Refusal {
    fn fmt(&self, f: &mut fmt::Formatter<'_>) -> fmt::Result {
        write!(f, "refused {}", self.number)?;
        if matches!(self.number, CODE_6 | DATA_SHORT | COPY_OUTSIDE) {
            write!(f, " in block {}", self.block)?;
        }
        write!(f, ": {}", self.reason())
    }
}

impl std::error::Error for Refusal {}
