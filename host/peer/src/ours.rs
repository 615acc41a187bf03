//! Films as the proved library plays them.

use crate::played::{Picture, Played, Recording, PALETTE_BYTES};
use mve::{Event, Memory, Picture as Shown, Pictures, Player, Refusal, Samples};
use mve::{PICTURE_BYTES, PICTURE_WORDS, ROOM_BYTES};

/// What the library makes of a film.
#[derive(Clone, Debug, PartialEq, Eq)]
pub struct Account {
    /// The pictures, with colour components of 6 bits, and the sound.
    pub played: Played,
    /// The refusal, if the film did not end.
    pub refusal: Option<Refusal>,
}

/// Plays a film from zero pictures and palette, with the sound of a stream. The films that are compared
/// have no samples before their size, so one call opens them up to it.
pub fn play(film: &[u8], stream: usize) -> Account {
    let mut played = Played::default();
    let refusal = walk(film, stream, &mut played).err();
    Account { played, refusal }
}

fn walk(film: &[u8], stream: usize, played: &mut Played) -> Result<(), Refusal> {
    let [mut a, mut b] = [(); 2].map(|()| vec![0; PICTURE_BYTES]);
    let [mut c, mut d, mut e] = [(); 3].map(|()| vec![0; PICTURE_WORDS]);
    let pictures = Pictures { a: &mut a, b: &mut b, c: &mut c, d: &mut d, e: &mut e };
    let (mut palette, mut room) = (vec![0; PALETTE_BYTES], vec![0; ROOM_BYTES]);
    let mut place = 0;
    let memory = Memory { palette: &mut palette, pictures, place: &mut place, room: &mut room };
    let mut player = Player::begin(film, stream, memory).map_err(|unbegun| unbegun.refusal)?;
    while let Some(event) = player.step().map_err(|refused| refused.refusal)? {
        match event {
            Event::Picture(shown) => played.pictures.push(picture(shown)),
            Event::Samples(samples) => played.hear(recording(samples)),
            Event::Taken | Event::Timer(_) | Event::Drawn(_) | Event::Unfinished => (),
        }
    }
    Ok(())
}

fn picture(shown: Shown<'_>) -> Picture {
    Picture {
        width: shown.width(),
        height: shown.height(),
        pixels: shown.pixels.to_vec(),
        words: shown.words.to_vec(),
        colours: shown.palette.to_vec(),
    }
}

fn recording(samples: Samples<'_>) -> Recording {
    Recording {
        channels: 1 + usize::from(samples.stereo),
        sample_bytes: 1 + usize::from(samples.wide),
        samples: samples.bytes.to_vec(),
    }
}
