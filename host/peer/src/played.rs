//! What playing a film gives, by either player.

/// Bytes of a palette: red, green and blue of 256 entries.
pub const PALETTE_BYTES: usize = 768;

/// A picture as it is sent.
#[derive(Clone, Debug, PartialEq, Eq)]
pub struct Picture {
    /// Pixels in a row.
    pub width: usize,
    /// Rows of pixels.
    pub height: usize,
    /// Of an 8-bit film a palette entry for each pixel, row by row; else empty.
    pub pixels: Vec<u8>,
    /// Of a film with true colour a word for each pixel, row by row; else empty.
    pub words: Vec<u16>,
    /// Red, green and blue of each palette entry; by libav empty where the film has true colour.
    pub colours: Vec<u8>,
}

/// Sound of one format.
#[derive(Clone, Debug, PartialEq, Eq)]
pub struct Recording {
    /// One or two.
    pub channels: usize,
    /// Bytes of a sample, one or two.
    pub sample_bytes: usize,
    /// The samples as bytes, left and right in turn, low byte first.
    pub samples: Vec<u8>,
}

/// The pictures and the sound of a film.
#[derive(Clone, Debug, Default, PartialEq, Eq)]
pub struct Played {
    /// The pictures sent, in order.
    pub pictures: Vec<Picture>,
    /// The sound: another recording begins where the format changes.
    pub sound: Vec<Recording>,
}

impl Played {
    /// Goes on with samples.
    pub(crate) fn hear(&mut self, heard: Recording) {
        match self.sound.last_mut() {
            Some(last)
                if (last.channels, last.sample_bytes) == (heard.channels, heard.sample_bytes) =>
            {
                last.samples.extend(heard.samples);
            }
            _ => self.sound.push(heard),
        }
    }
}
