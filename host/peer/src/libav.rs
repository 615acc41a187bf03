//! Films as libavformat and libavcodec play them, and frames of Microsoft Video 1 as libavcodec decodes
//! them, where they are there.

use crate::played::Played;

#[cfg(libav)]
pub use there::{play, trailer, versions};

/// What libavformat and libavcodec make of a film.
#[derive(Clone, Debug, Default, PartialEq, Eq)]
pub struct Account {
    /// The pictures, with colour components of 8 bits, and the sound.
    pub played: Played,
    /// libav's numbers for packets that are not decoded.
    pub faults: Vec<i32>,
    /// libav's number where reading did not come to the end of the film.
    pub error: Option<i32>,
}

#[cfg(not(libav))]
const MISSING: &str = "libavformat was not there when peer was built (Debian: libavformat-dev)";

/// The versions of both; else why films cannot be played.
#[cfg(not(libav))]
pub fn versions() -> Result<String, String> {
    Err(MISSING.to_owned())
}

/// Plays a film to its end; else why it cannot be played.
#[cfg(not(libav))]
pub fn play(_film: &[u8]) -> Result<Account, String> {
    Err(MISSING.to_owned())
}

/// The pictures of frames of Microsoft Video 1, decoded one after the other; else why they cannot be.
#[cfg(not(libav))]
pub fn trailer(_pixels: (usize, usize), _frames: &[Vec<u8>]) -> Result<Vec<Decoded>, String> {
    Err(MISSING.to_owned())
}

/// The picture of a frame, or libav's number where it is not decoded.
pub type Decoded = Result<Vec<u8>, i32>;

#[cfg(libav)]
mod there {
    use super::{Account, Decoded};
    use crate::ffi::{self, Event, Player, Trailer};

    /// The pictures of frames of Microsoft Video 1 of this width and height, decoded one after the other;
    /// else why they cannot be.
    pub fn trailer(pixels: (usize, usize), frames: &[Vec<u8>]) -> Result<Vec<Decoded>, String> {
        let decoder = Trailer::open(pixels.0, pixels.1);
        let mut decoder = decoder.ok_or("not opened by libavcodec")?;
        Ok(frames.iter().map(|frame| decoder.next(frame)).collect())
    }

    /// The versions of both; else why films cannot be played.
    pub fn versions() -> Result<String, String> {
        let [format, codec] = ffi::versions().map(|(a, b, c)| format!("{a}.{b}.{c}"));
        Ok(format!("libavformat {format}, libavcodec {codec}"))
    }

    /// Plays a film to its end; else why it cannot be played.
    pub fn play(film: &[u8]) -> Result<Account, String> {
        let opened = Player::open(film);
        let mut player = opened.map_err(|error| format!("not opened by libavformat: {error}"))?;
        let mut account = Account::default();
        loop {
            match player.next() {
                Event::Picture(picture) => account.played.pictures.push(picture),
                Event::Samples(samples) => account.played.hear(samples),
                Event::Fault(error) => account.faults.push(error),
                Event::End(error) => return Ok(Account { error, ..account }),
            }
        }
    }
}
