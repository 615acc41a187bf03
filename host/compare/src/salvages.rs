//! What is left of scratched films (02, W13): two programs give the same answer and leave the same bytes
//! and numbers, in rooms that are long enough and too short; the sums add up, and what is written is kept
//! whole where it is saved again.

use crate::decoder::{Proved, Second};
use maker::{film, film_damage, scratches, sound_damage, true_colour, Seeded};
use reference::salvage::{self, Stop};
use reference::Refusal;

/// What a program tells of a film that it saves.
#[derive(Clone, Copy, Debug, PartialEq, Eq)]
pub struct Account {
    /// Bytes of the new film.
    pub bytes: usize,
    /// Chunks left out.
    pub left_out: usize,
    /// How the walk stopped.
    pub stop: Stop,
    /// Bytes of the header.
    pub header: usize,
    /// Bytes of the chunks kept.
    pub kept: usize,
    /// Bytes of the chunks left out.
    pub lost: usize,
    /// Bytes that are not walked.
    pub rest: usize,
}

/// A program that saves what is left of films.
pub trait Saver {
    /// The new film to the room, and three numbers for each chunk left out to the list.
    fn salvage(&self, film: &[u8], room: &mut [u8], list: &mut [usize])
        -> Result<Account, Refusal>;
}

impl Saver for Proved {
    fn salvage(
        &self,
        film: &[u8],
        room: &mut [u8],
        list: &mut [usize],
    ) -> Result<Account, Refusal> {
        let saved = mve::salvage(film, room, list)
            .map_err(|refusal| Refusal { number: refusal.number(), block: refusal.block })?;
        let mve::Salvaged { bytes, left_out, header, kept, lost, rest, .. } = saved;
        let stop = match saved.stop {
            mve::Stop::FilmEnd => Stop::FilmEnd,
            mve::Stop::BehindEnd => Stop::BehindEnd,
            mve::Stop::PastEnd => Stop::PastEnd,
        };
        Ok(Account { bytes, left_out, stop, header, kept, lost, rest })
    }
}

impl Saver for Second {
    fn salvage(
        &self,
        film: &[u8],
        room: &mut [u8],
        list: &mut [usize],
    ) -> Result<Account, Refusal> {
        let saved = salvage::salvage(film, room.len(), list.len())?;
        let (bytes, numbers) = (saved.film.len(), saved.numbers());
        room[..bytes].copy_from_slice(&saved.film);
        list[..numbers.len()].copy_from_slice(&numbers);
        let salvage::Salvaged { left_out, stop, kept, lost, rest, .. } = saved;
        let header = film::HEADER.len();
        Ok(Account { bytes, left_out: left_out.len(), stop, header, kept, lost, rest })
    }
}

/// A film, and rooms to save it to.
#[derive(Clone, Debug)]
pub struct Question {
    /// Valid, damaged, scratched or made up.
    pub film: Vec<u8>,
    /// Bytes of a room and numbers of a list.
    pub rooms: Vec<(usize, usize)>,
}

/// The question of this number.
pub fn question(number: u64) -> Question {
    let rng = &mut Seeded::new(number);
    let film = match number % 9 {
        0 => film::valid(rng).bytes(),
        1 => {
            let damage = rng.pick(&film_damage::Damage::ALL);
            film_damage::damaged(rng, damage)
        }
        2 => film_damage::scratched(rng),
        3 => film::hostile(rng),
        4 => {
            let (stream, damage) = (rng.below(16), rng.pick(&sound_damage::Damage::ALL));
            sound_damage::damaged(rng, stream, damage).bytes()
        }
        5 if rng.one_in(2) => {
            let damage = true_colour::Damage::any(rng);
            true_colour::damaged(rng, damage)
        }
        5 => true_colour::scratched(rng),
        _ => scratches::make(rng).bytes(),
    };
    let rooms = match salvage::salvage(&film, usize::MAX, usize::MAX) {
        Err(_) => vec![(0, 0), (film.len() + 8, film.len())],
        Ok(saved) => {
            let (bytes, chunks) = (saved.film.len(), saved.left_out.len());
            let numbers = salvage::NUMBERS * chunks;
            let short = (bytes - 1, numbers.saturating_sub(1));
            let more = (bytes + rng.between(1, 40), numbers + rng.between(1, 5));
            let few = (rng.below(bytes), rng.below(numbers + 1));
            vec![(bytes, numbers), (short.0, numbers), (bytes, short.1), (bytes, chunks), more, few]
        }
    };
    Question { film, rooms }
}

/// What differs, in which rooms.
#[derive(Clone, Debug, PartialEq, Eq)]
pub struct Differs {
    /// Bytes of the room and numbers of the list.
    pub rooms: (usize, usize),
    /// Both accounts.
    pub accounts: [String; 2],
}

/// What a program tells, and what it leaves in rooms that held other bytes and numbers before.
type Left = (Result<Account, Refusal>, Vec<u8>, Vec<usize>);

fn left(program: &dyn Saver, film: &[u8], (bytes, numbers): (usize, usize)) -> Left {
    let mut room: Vec<u8> = (0..bytes).map(|i| (7 * i + 3) as u8).collect();
    let mut list: Vec<usize> = (0..numbers).map(|i| 11 * i + 5).collect();
    let answer = program.salvage(film, &mut room, &mut list);
    (answer, room, list)
}

/// Compares two programs on a question; their answers, one for each pair of rooms.
pub fn compare(
    first: &dyn Saver,
    second: &dyn Saver,
    question: &Question,
) -> Result<Vec<Result<Account, Refusal>>, Box<Differs>> {
    let Question { film, rooms } = question;
    let answers = rooms.iter().map(|&rooms| {
        let differs = |accounts| Err(Box::new(Differs { rooms, accounts }));
        let [one, other] = [first, second].map(|program| left(program, film, rooms));
        if one != other {
            return differs([format!("{one:?}"), format!("{other:?}")]);
        }
        let (answer, room, _) = one;
        if let Ok(account) = answer {
            let sum = account.header + account.kept + account.lost + account.rest;
            if sum != film.len() {
                return differs([format!("the sums are {sum}"), format!("of {}", film.len())]);
            }
            let new_film = &room[..account.bytes];
            let again = left(first, new_film, (account.bytes, 0));
            let whole = again.0.is_ok_and(|again| (again.left_out, again.rest) == (0, 0));
            if !whole || again.1 != new_film {
                return differs(["saved again".to_string(), format!("{again:?}")]);
            }
        }
        Ok(answer)
    });
    answers.collect()
}

/// What a question reaches, each by a name: how the walk stopped and how many chunks are left out (3: or
/// more), each refusal of a chunk that is listed, and the refusals, 19 with what is too short.
pub fn reached(question: &Question, answers: &[Result<Account, Refusal>]) -> Vec<String> {
    let needed = salvage::salvage(&question.film, usize::MAX, usize::MAX).ok();
    let answered = question.rooms.iter().zip(answers).map(|(&(bytes, numbers), answer)| {
        match (answer, &needed) {
            (Ok(account), _) => format!("{:?}, {} left out", account.stop, account.left_out.min(3)),
            (Err(refusal), Some(needed)) => {
                let short = (bytes < needed.film.len(), numbers < needed.numbers().len());
                let short = match short {
                    (true, false) => "film",
                    (false, true) => "list",
                    (true, true) => "film and list",
                    (false, false) => "nothing",
                };
                format!("refused {}: {short} too short", refusal.number)
            }
            (Err(refusal), None) => format!("refused {}", refusal.number),
        }
    });
    let losses = needed.iter().flat_map(|needed| &needed.left_out);
    answered.chain(losses.map(|loss| format!("listed {}", loss.number))).collect()
}
