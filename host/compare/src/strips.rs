//! Films without what the player passes over (02, W14): two programs give the same answer and leave the
//! same bytes in rooms that are long enough and too short. The new film is never longer, stripped again it
//! stays, and both films are played to their end from equal memory: they send the same pictures with the
//! same palettes, give the same samples of the stream, and end alike.

use crate::decoder::{Decoder, Proved, Second, Step};
use maker::states::{Start, ENOUGH_ROOM};
use maker::{film, film_damage, scratches, sound, sound_damage, strips, true_colour, Seeded};
use reference::film::open;
use reference::frame::MAX_PIXELS;
use reference::sound::STREAMS;
use reference::strip::strip;
use reference::{CallForm, Refusal};

/// The length of the new film, or the number of the refusal.
pub type Answer = Result<usize, u8>;

/// A program that strips films.
pub trait Stripper {
    /// What is left of a film for a stream, to the room's front.
    fn strip(&self, film: &[u8], stream: usize, room: &mut [u8]) -> Answer;
}

impl Stripper for Proved {
    fn strip(&self, film: &[u8], stream: usize, room: &mut [u8]) -> Answer {
        mve::strip(film, stream, room).map_err(mve::Error::number)
    }
}

impl Stripper for Second {
    fn strip(&self, film: &[u8], stream: usize, room: &mut [u8]) -> Answer {
        let new_film = strip(film, stream, room.len()).map_err(|refusal| refusal.number)?;
        room[..new_film.len()].copy_from_slice(&new_film);
        Ok(new_film.len())
    }
}

/// A film, the stream that it is stripped for, rooms to strip it to, and memory to play both films from.
#[derive(Clone, Debug)]
pub struct Question {
    /// Padded, plain, damaged, scratched or made up.
    pub film: Vec<u8>,
    /// 0 to 15, or above for none.
    pub stream: usize,
    /// Bytes of rooms. The first is exact where the film is taken.
    pub rooms: Vec<usize>,
    /// Pixels of each picture and bytes of the room for samples, and what fills them.
    pub lent: (usize, usize, u8),
}

/// The question of this number.
pub fn question(number: u64) -> Question {
    let rng = &mut Seeded::new(number);
    let (film, streams) = film_of(rng, number);
    let stream = strips::stream(rng, &streams);
    let rooms = match strip(&film, stream, usize::MAX) {
        Err(_) => vec![0, film.len()],
        Ok(new_film) => {
            let bytes = new_film.len();
            vec![bytes, bytes - 1, bytes + rng.between(1, 40), rng.below(bytes)]
        }
    };
    let pictures = if rng.one_in(16) { rng.below(640) } else { MAX_PIXELS };
    let samples = if rng.one_in(16) { rng.below(40) } else { ENOUGH_ROOM };
    Question { film, stream, rooms, lent: (pictures, samples, rng.byte()) }
}

/// A film, and the streams that it has sound for.
fn film_of(rng: &mut Seeded, number: u64) -> (Vec<u8>, Vec<usize>) {
    let stream = rng.below(STREAMS);
    let film = match number % 16 {
        0 => film::valid(rng).bytes(),
        1 => {
            let damage = rng.pick(&film_damage::Damage::ALL);
            film_damage::damaged(rng, damage)
        }
        2 => scratches::make(rng).bytes(),
        3 => sound::valid(rng, stream).bytes(),
        4 => {
            let damage = rng.pick(&sound_damage::Damage::ALL);
            sound_damage::damaged(rng, stream, damage).bytes()
        }
        5 => match rng.below(3) {
            0 => film::hostile(rng),
            1 => sound::hostile(rng),
            _ => sound::scratched(rng, stream),
        },
        6 => strips::scratched(rng),
        7..=9 => {
            let film = strips::damaged(rng);
            return (film.bytes(), film.streams);
        }
        12 | 14 => {
            let film = true_colour::padded_damaged(rng);
            return (film.bytes(), film.streams);
        }
        13 if rng.one_in(2) => true_colour::scratched_sound(rng, stream),
        13 => true_colour::with_sound(rng, stream, 2).bytes(),
        15 => {
            let film = true_colour::padded(rng);
            return (film.bytes(), film.streams);
        }
        _ => {
            let film = strips::make(rng);
            return (film.bytes(), film.streams);
        }
    };
    (film, vec![stream])
}

/// What comes out of a film that is played.
#[derive(Clone, Debug, PartialEq, Eq)]
pub struct Played {
    /// Pictures and samples, in their order.
    pub events: Vec<Event>,
    /// How it ends: by this refusal, with its block; none where it comes to its end.
    pub refusal: Option<Refusal>,
}

/// What a player sees and hears.
#[derive(Clone, Debug, PartialEq, Eq)]
pub enum Event {
    /// A picture that is sent: columns and rows of blocks, pixels as bytes or as words, and palette.
    Picture((usize, usize), Vec<u8>, Vec<u16>, Vec<u8>),
    /// Samples of an opcode.
    Samples(Vec<u8>),
}

/// Plays a film to its end.
pub fn play(player: &dyn Decoder, film: &[u8], question: &Question) -> Played {
    let mut events = Vec::new();
    let (pictures, samples, filler) = question.lent;
    let state = match open(film, question.stream) {
        Ok(state) => state,
        Err(refusal) => return Played { events, refusal: Some(refusal) },
    };
    let (palette, picture) = (vec![filler; 768], vec![filler; pictures]);
    let (picture_a, picture_b, place) = (picture.clone(), picture, usize::from(filler));
    let (room, allowed) = (vec![filler; samples], 312_000);
    let words = [(); 3].map(|()| vec![u16::from(filler) * 257; pictures]);
    let mut walk = Start { state, palette, picture_a, picture_b, place, room, words, allowed };
    loop {
        let front = walk.state.front;
        match player.step(CallForm::Default, film, &mut walk) {
            Ok(Step::Ended) => return Played { events, refusal: None },
            Ok(Step::Unfinished(..)) => panic!("312,000 stores are enough for a step"),
            Ok(Step::Taken(_, bytes)) if bytes > 0 => {
                events.push(Event::Samples(walk.room[..bytes].to_vec()));
            }
            Ok(_) => (),
            Err(refusal) => return Played { events, refusal: Some(refusal) },
        }
        let Start { state, palette, picture_a, picture_b, words, .. } = &walk;
        if state.front != front {
            let shown = player.shown(state, picture_a, picture_b).to_vec();
            let words = player.shown_words(state, words.each_ref().map(Vec::as_slice)).to_vec();
            let size = (state.columns, state.rows);
            events.push(Event::Picture(size, shown, words, palette.clone()));
        }
    }
}

/// What differs.
#[derive(Clone, Debug, PartialEq, Eq)]
pub struct Differs {
    /// Bytes of the room.
    pub room: usize,
    /// What, in words.
    pub what: String,
}

/// What was compared.
#[derive(Clone, Debug, PartialEq, Eq)]
pub struct Compared {
    /// An answer for each room.
    pub answers: Vec<Answer>,
    /// Both films as they are played, where the film is taken.
    pub played: Option<Played>,
}

/// What a program answers, and what it leaves in a room that held other bytes before.
fn left(program: &dyn Stripper, film: &[u8], stream: usize, room: usize) -> (Answer, Vec<u8>) {
    let mut room: Vec<u8> = (0..room).map(|i| (7 * i + 3) as u8).collect();
    let answer = program.strip(film, stream, &mut room);
    (answer, room)
}

/// Compares two programs on a question, and plays both films.
pub fn compare(
    first: &dyn Stripper,
    second: &dyn Stripper,
    player: &dyn Decoder,
    question: &Question,
) -> Result<Compared, Differs> {
    let Question { film, stream, rooms, .. } = question;
    let (mut answers, mut new_film) = (Vec::new(), None);
    for &room in rooms {
        let differs = |what: String| Err(Differs { room, what });
        let [one, other] = [first, second].map(|program| left(program, film, *stream, room));
        if one != other {
            return differs(format!("{:?} and {:?}, or the room", one.0, other.0));
        }
        let (answer, mut room) = one;
        answers.push(answer);
        let Ok(length) = answer else { continue };
        if length > film.len() {
            return differs(format!("{length} bytes of {}", film.len()));
        }
        room.truncate(length);
        let again = left(first, &room, *stream, length);
        if again != (Ok(length), room.clone()) {
            return differs(format!("stripped again: {:?}, or the room", again.0));
        }
        new_film = new_film.or(Some(room));
    }
    let played = match new_film {
        None => None,
        Some(new_film) => {
            let [one, other] = [film, &new_film].map(|film| play(player, film, question));
            if one != other {
                let count = |played: &Played| (played.events.len(), played.refusal);
                let what = format!("played: {:?} and {:?}", count(&one), count(&other));
                return Err(Differs { room: new_film.len(), what });
            }
            Some(one)
        }
    };
    Ok(Compared { answers, played })
}

/// What a question reaches, each by a name: the answers, how both films end, what comes out of them, and
/// the stream.
pub fn reached(question: &Question, compared: &Compared) -> Vec<String> {
    let mut events: Vec<String> = compared
        .answers
        .iter()
        .map(|answer| match answer {
            Ok(length) if *length == question.film.len() => "written: the same".into(),
            Ok(_) => "written: shorter".into(),
            Err(number) => format!("refused {number}"),
        })
        .collect();
    if let Some(Played { events: all, refusal }) = &compared.played {
        events.push(match refusal {
            None => "played to the end".into(),
            Some(refusal) => format!("played to refusal {}", refusal.number),
        });
        let is_picture = |event: &Event| matches!(event, Event::Picture(..));
        let pictures = all.iter().any(is_picture);
        let samples = !all.iter().all(is_picture);
        events.extend(pictures.then(|| "pictures".into()));
        let is_deep =
            |event: &Event| matches!(event, Event::Picture(_, _, words, _) if !words.is_empty());
        events.extend(all.iter().any(is_deep).then(|| "pictures with true colour".into()));
        events.extend(samples.then(|| "samples".into()));
        events.push(match question.stream {
            stream @ 0..STREAMS => format!("stream {stream}"),
            _ => "no stream".into(),
        });
    }
    events
}
