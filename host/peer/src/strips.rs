//! Films before and after the library has dropped what its player passes over (02, W14): libavformat and
//! libavcodec give the same pictures, colours and samples of both.

use crate::film::{self, STREAM};
use crate::played::Played;
use crate::{comparison, libav, ours};

/// What was compared.
#[derive(Clone, Copy, Debug, Default, PartialEq, Eq)]
pub struct Tally {
    /// Films.
    pub films: usize,
    /// Films with sound.
    pub sounding: usize,
    /// Pictures.
    pub pictures: usize,
    /// Bytes of the films, and of the new ones.
    pub bytes: [usize; 2],
    /// New films whose end libavformat takes for an error: the film ended by its length, and the empty
    /// chunks behind it, whose types say so to libavformat, go.
    pub ends: usize,
}

impl Tally {
    /// Strips the film of a case and plays both by libav; what differs. The film is one on which libav
    /// agrees with the library. Times are not compared: opcode 02 is passed over, so that it goes.
    pub fn compare(&mut self, seed: u64, number: u64) -> Result<(), String> {
        let film = film::plain(seed, number).film.bytes();
        let before = libav::play(&film)?;
        comparison::compare(&ours::play(&film, STREAM), &before)?;
        let new_film = stripped(&film, STREAM)?;
        let after = libav::play(&new_film)?;
        same(&before.played, &after.played)?;
        if !after.faults.is_empty() {
            return Err(format!("libav says {:?}", after.faults));
        }
        self.films += 1;
        self.sounding += usize::from(!before.played.sound.is_empty());
        self.pictures += before.played.pictures.len();
        self.bytes[0] += film.len();
        self.bytes[1] += new_film.len();
        self.ends += usize::from(after.error.is_some());
        Ok(())
    }
}

/// The film without what a player of the stream passes over.
pub fn stripped(film: &[u8], stream: usize) -> Result<Vec<u8>, String> {
    let mut room = vec![0; film.len()];
    let length = mve::strip(film, stream, &mut room).map_err(|error| error.to_string())?;
    room.truncate(length);
    Ok(room)
}

/// Compares what comes out of two films.
pub fn same(before: &Played, after: &Played) -> Result<(), String> {
    let counts = [before, after].map(|played| (played.pictures.len(), played.sound.len()));
    if counts[0] != counts[1] {
        return Err(format!(
            "pictures and formats of sound: {:?}, then {:?}",
            counts[0], counts[1]
        ));
    }
    let mut pictures = before.pictures.iter().zip(&after.pictures);
    if let Some(number) = pictures.position(|(one, other)| one != other) {
        return Err(format!("picture {number} is another one"));
    }
    match before.sound == after.sound {
        true => Ok(()),
        false => Err("the sound is another one".into()),
    }
}
