//! The wrapper's loop over a film gives the second decoder's pictures, samples and refusal, also where
//! each step is allowed few stores, and where it goes on from a saved state.

use maker::{film, sound, sound_damage, true_colour, Seeded};
use mve::{Error, Event, Memory, Pictures, Player, Refusal};
use mve::{NO_STREAM, PALETTE_BYTES, PICTURE_BYTES, PICTURE_WORDS, ROOM_BYTES};
use reference::film::HEADER;
use reference::{begin, pictures};

/// What a loop gave: the colours of each picture, the samples, how often it was unfinished, and the
/// refusal.
#[derive(Debug, Default)]
struct Given {
    pictures: Vec<Vec<u8>>,
    samples: Vec<u8>,
    unfinished: usize,
    refusal: Option<Refusal>,
}

/// The colours of a picture as the second decoder's PPM files have them, in 8 bits.
fn colours(picture: &mve::Picture<'_>) -> Vec<u8> {
    let pixels = 64 * picture.columns * picture.rows;
    assert!([(pixels, 0), (0, pixels)].contains(&(picture.pixels.len(), picture.words.len())));
    let entries =
        picture.pixels.iter().map(|&pixel| &picture.palette[3 * usize::from(pixel)..][..3]);
    let entries = entries.flatten().map(|&component| component * 4 + component / 16);
    // Red in bits 10 to 14, green in 5 to 9, blue in 0 to 4.
    let words = picture.words.iter().flat_map(|&word| [word / 1024, word / 32, word]);
    let words = words.map(|component| (component % 32) as u8).map(|c| c * 8 + c / 4);
    let colours: Vec<u8> = entries.chain(words).collect();
    assert!(picture.rgb().flatten().eq(colours.iter().copied()));
    colours
}

impl Given {
    fn take(&mut self, event: Event<'_>) {
        match event {
            Event::Picture(picture) => self.pictures.push(colours(&picture)),
            Event::Samples(samples) => self.samples.extend(samples.bytes),
            Event::Unfinished => self.unfinished += 1,
            Event::Taken | Event::Timer(_) | Event::Drawn(_) => {}
        }
    }
}

/// A player at the beginning of a film. Without sound, one call opens the film up to its size (02, W8).
/// With sound, separate calls do: the samples before the size are to be heard.
fn opened<'a>(
    film: &'a [u8],
    stream: usize,
    memory: Memory<'a>,
) -> Result<Player<'a, 'a>, Refusal> {
    if stream < NO_STREAM {
        Player::open(film, stream, memory)
    } else {
        Player::begin(film, stream, memory).map_err(|unbegun| unbegun.refusal)
    }
}

/// Plays a film, by a new player after every so many steps: it has the state that the last one gave,
/// and the same memory. One in four is allowed enough for every palette, which begins again where it
/// was cut (02, W11).
fn play(film: &[u8], stream: usize, allowed: usize, steps: usize) -> Given {
    let mut given = Given::default();
    let (mut palette, mut room, mut place) = (vec![0; PALETTE_BYTES], vec![0; ROOM_BYTES], 0);
    let (mut a, mut b) = (vec![0; PICTURE_BYTES], vec![0; PICTURE_BYTES]);
    let [mut c, mut d, mut e] = [(); 3].map(|()| vec![0; PICTURE_WORDS]);
    let mut saved = None;
    for number in 1.. {
        let memory = Memory {
            palette: &mut palette,
            pictures: Pictures { a: &mut a, b: &mut b, c: &mut c, d: &mut d, e: &mut e },
            place: &mut place,
            room: &mut room,
        };
        let player = match saved {
            Some(state) => Ok(Player::resume(film, state, memory)),
            None => opened(film, stream, memory),
        };
        let mut player = match player {
            Ok(player) if number % 4 == 0 => player.allowed(allowed.max(mve::PALETTE_STORES)),
            Ok(player) => player.allowed(allowed),
            Err(refusal) => return Given { refusal: Some(refusal), ..given },
        };
        for _ in 0..steps {
            match player.step() {
                Ok(Some(event)) => given.take(event),
                Ok(None) => return given,
                Err(refused) => return Given { refusal: Some(refused.refusal), ..given },
            }
        }
        saved = Some(*player.state());
    }
    unreachable!("no film has so many steps")
}

fn assert_given(film: &[u8], stream: usize, allowed: usize, steps: usize) -> Given {
    let (given, second) = (play(film, stream, allowed, steps), pictures::play(film, stream));
    // The second decoder plays by separate calls, and those do not refuse a film without a size (21).
    let begun = begin::begin(film, stream, &mut [0; PALETTE_BYTES], &mut 0);
    let unbegun = begun.err().filter(|_| stream >= NO_STREAM).map(|unbegun| unbegun.refusal);
    let expected = unbegun.or(second.refusal);
    let refusal = given.refusal.map(|refusal| (refusal.number(), refusal.block));
    assert_eq!(refusal, expected.map(|refusal| (refusal.number, refusal.block)));
    assert_eq!(given.pictures.len(), second.pictures.len());
    for (number, (picture, ppm)) in given.pictures.iter().zip(&second.pictures).enumerate() {
        assert!(ppm.ends_with(picture) && ppm.len() - picture.len() < 90, "picture {number}");
    }
    let samples = second.recordings.iter().flat_map(|recording| &recording.samples);
    assert!(given.samples.iter().eq(samples), "{} bytes of samples", given.samples.len());
    given
}

#[test]
fn films() {
    let (mut pictures, mut samples, mut unfinished) = (0, 0, 0);
    for seed in 0..60 {
        let rng = &mut Seeded::new(seed);
        let stream = rng.below(16);
        let film = match seed % 3 {
            0 => true_colour::with_sound(rng, stream, 3).bytes(),
            _ => sound::with_frames(rng, stream, 3).bytes(),
        };
        for (allowed, steps) in [(mve::ALL_STORES, usize::MAX), (mve::BLOCK_STORES, 7), (1000, 1)] {
            for stream in [stream, NO_STREAM] {
                let given = assert_given(&film, stream, allowed, steps);
                pictures += given.pictures.len();
                samples += given.samples.len();
                unfinished += given.unfinished;
                assert_eq!(given.refusal, None, "seed {seed}");
            }
        }
    }
    assert!(
        pictures >= 600 && samples >= 10_000 && unfinished >= 2000,
        "{pictures} {samples} {unfinished}"
    );
}

#[test]
fn refused_films() {
    let (mut refused, mut silent, mut unsized_films) = (0, 0, 0);
    for seed in 0..60 {
        let rng = &mut Seeded::new(seed);
        let damage = true_colour::Damage::any(rng);
        let any = [
            film::hostile(rng),
            sound::scratched(rng, 0),
            sound::hostile(rng),
            true_colour::damaged(rng, damage),
            true_colour::scratched_sound(rng, 0),
        ];
        let damaged =
            sound_damage::Damage::ALL.map(|damage| sound_damage::damaged(rng, 0, damage).bytes());
        for film in any.into_iter().chain(damaged).chain([Vec::new(), HEADER.to_vec()]) {
            refused += usize::from(assert_given(&film, 0, 1000, 5).refusal.is_some());
            if let Some(refusal) = assert_given(&film, NO_STREAM, 1000, 5).refusal {
                silent += 1;
                unsized_films += usize::from(refusal.error == Error::NoSize);
            }
        }
    }
    assert!(
        refused >= 200 && silent >= 150 && unsized_films >= 60,
        "{refused} {silent} {unsized_films}"
    );
}
