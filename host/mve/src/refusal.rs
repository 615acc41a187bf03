//! Refusals.

use core::fmt;

/// Why a call was refused. Nothing lent to the call was changed.
///
/// ```
/// use mve::{Error, Refusal};
///
/// // Code 6 in the second of two blocks.
/// let refusal = mve::check(2, 1, &[0x61], &[]).unwrap_err();
/// assert_eq!(refusal, Refusal { error: Error::Code6, block: 1 });
/// assert_eq!(refusal.number(), 12);
/// assert_eq!(
///     refusal.to_string(),
///     "refusal 12 in block 1: the block has code 6, which 8-bit films do not have"
/// );
/// ```
#[derive(Clone, Copy, Debug, PartialEq, Eq, Hash)]
pub struct Refusal {
    /// What is wrong.
    pub error: Error,
    /// The block that met 12, 13 or 14; else 0.
    pub block: usize,
}

impl Refusal {
    /// The number of the refusal: C's `number`.
    pub const fn number(&self) -> u8 {
        self.error.number()
    }
}

impl fmt::Display for Refusal {
    fn fmt(&self, f: &mut fmt::Formatter<'_>) -> fmt::Result {
        write!(f, "refusal {}", self.number())?;
        if self.error.is_of_block() {
            write!(f, " in block {}", self.block)?;
        }
        write!(f, ": {}", self.error)
    }
}

impl core::error::Error for Refusal {}

/// Declares the numbers of refusal with their texts, which are those of `include/mve.h`.
macro_rules! errors {
    ($($(#[$doc:meta])* $name:ident = $number:literal, $text:literal;)*) => {
        /// The numbers of refusal by name: `MVE_ERROR_DATA_LEFT` of C is `DataLeft`. Displayed, each
        /// says what is wrong.
        ///
        /// ```
        /// use mve::Error;
        ///
        /// assert_eq!(Error::Room.number(), 19);
        /// assert_eq!(Error::from_number(19), Some(Error::Room));
        /// assert_eq!(Error::from_number(99), None);
        /// assert_eq!(Error::Room.to_string(), "a room is too small for what is to be written there");
        /// ```
        #[derive(Clone, Copy, Debug, PartialEq, Eq, PartialOrd, Ord, Hash)]
        #[non_exhaustive]
        #[repr(u8)]
        pub enum Error {
            $($(#[$doc])* $name = $number,)*
        }

        impl Error {
            /// All of them, by number.
            pub const ALL: &'static [Error] = &[$(Error::$name,)*];

            /// The error of a number, if there is one.
            pub const fn from_number(number: usize) -> Option<Error> {
                match number {
                    $($number => Some(Error::$name),)*
                    _ => None,
                }
            }

            /// What is wrong, in words.
            pub const fn text(self) -> &'static str {
                match self {
                    $(Error::$name => $text,)*
                }
            }
        }
    };
}

errors! {
    /// The film's header is wrong or short. Only [`open`](crate::open), [`begin`](crate::begin()),
    /// [`salvage`](crate::salvage()) and [`strip`](crate::strip()) meet it.
    Header = 1, "the film does not begin with the header of an MVE film";
    /// A chunk or its head passes the end of the film.
    Chunk = 2, "a chunk or its head passes the end of the film";
    /// An opcode or its head passes its chunk, or bytes follow opcode 0x00 or 0x01.
    Opcode = 3, "an opcode or its head passes its chunk, or bytes follow the chunk's last opcode";
    /// A type or version of opcode that is not taken.
    Type = 4, "this type or version of opcode is not one that the player takes";
    /// An opcode's body of a wrong length.
    BodyLength = 5, "the opcode's body has a wrong length";
    /// Columns not 1 to 80, rows not 1 to 60, or a second size.
    FrameSize = 6, "the frame size is out of bounds or given twice";
    /// A palette range or a colour component that is too large.
    Palette = 7, "a palette range or a colour component is too large";
    /// A palette that has not 768 bytes, or a picture shorter than the frame.
    LentLength = 8, "the palette or a picture that was lent has a wrong length";
    /// Opcode 0x11 without a frame size or a map.
    NoFrame = 9, "video data comes before a frame size or without a map";
    /// A map whose length does not fit the frame size.
    MapLength = 10, "the map's length does not fit the frame size";
    /// A place above the number of blocks.
    Place = 11, "the place is above the number of blocks";
    /// A block of code 6 in an 8-bit film.
    Code6 = 12, "the block has code 6, which 8-bit films do not have";
    /// Too few data bytes for a block.
    DataShort = 13, "the packet's data ends before the block's";
    /// A block that is copied from outside the picture.
    CopyOutside = 14, "the block is copied from outside the picture";
    /// Two data bytes or more left over; in the strict forms one or more.
    DataLeft = 15, "too many data bytes are left over behind the last block";
    /// A state that no film gives.
    State = 16, "the state is one that no film gives";
    /// Sound before its format, or a format both 8-bit and compressed.
    SoundFormat = 17, "sound comes before its format, or a format is both 8-bit and compressed";
    /// Sound whose data is not as long as its count of samples says, or whose count cannot be.
    SoundLength = 18, "the sound's data or its count of samples has a wrong length";
    /// A room that is too small for the samples, for a new film or the list of what it lacks, or for a map or
    /// body that is made.
    Room = 19, "a room is too small for what is to be written there";
    /// A packet with true colour that has not the two bytes of its offset, or whose offset is below 2 or
    /// behind its end.
    Parts = 20, "the packet does not say where its second part begins, or it begins outside the packet";
    /// A film that ends without a frame size. Only [`begin`](crate::begin()) meets it.
    NoSize = 21, "the film ends without a frame size";
    /// A position outside the picture. Only [`origin`](crate::origin()) meets it.
    Position = 22, "the position lies outside the picture";
    /// A picture whose packet is longer, with the 14 bytes in front of it, than opcode 0x11 can hold. Only
    /// [`encode`](crate::encode()) meets it.
    PacketLength = 23, "the picture needs a packet longer than an opcode can be";
    /// A frame's data that ends before all blocks are passed. Only [`video1`](crate::video1()) meets it, and
    /// the next two.
    FrameShort = 24, "the frame's data ends before all blocks are passed";
    /// A skip that passes the frame's last block.
    SkipOutside = 25, "a skip passes the frame's last block";
    /// Not the end mark alone behind the frame's last block.
    EndMark = 26, "the end mark does not stand alone behind the frame's last block";
}

impl Error {
    /// The number.
    pub const fn number(self) -> u8 {
        self as u8
    }

    /// Whether a refusal by this number names a block.
    pub const fn is_of_block(self) -> bool {
        matches!(self, Error::Code6 | Error::DataShort | Error::CopyOutside)
    }
}

impl fmt::Display for Error {
    fn fmt(&self, f: &mut fmt::Formatter<'_>) -> fmt::Result {
        f.write_str(self.text())
    }
}

impl core::error::Error for Error {}

#[cfg(test)]
mod tests {
    use super::*;
    use std::collections::BTreeSet;
    use std::format;
    use std::string::ToString;

    #[test]
    fn each_number_has_a_text_of_its_own() {
        let numbers = Error::ALL.iter().map(|error| error.number());
        assert!(numbers.eq(1..=26));
        let texts: BTreeSet<_> = Error::ALL.iter().map(|error| error.text()).collect();
        assert_eq!(texts.len(), 26);
        for number in 0..=600 {
            let named = Error::from_number(number).map(|error| usize::from(error.number()));
            let is_number = (1..=26).contains(&number);
            assert_eq!(named, is_number.then_some(number));
        }
    }

    #[test]
    fn only_12_to_14_name_the_block() {
        for &error in Error::ALL {
            let number = error.number();
            let message = Refusal { error, block: 3 }.to_string();
            let named = message.starts_with(&format!("refusal {number} in block 3: "));
            assert_eq!(named, (12..=14).contains(&number), "{message}");
            assert!(named || message.starts_with(&format!("refusal {number}: ")), "{message}");
        }
    }
}
