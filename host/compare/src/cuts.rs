//! Comparing films that are played through cuts (02, W11): each step is cut behind any of its stores and
//! called again, and the book of cut films tells what must come of it.

use crate::comparison::Comparison;
use crate::decoder::{Decoder, Step, Walked};
use crate::difference::{first_difference, Difference, Part};
use maker::states::Start;
use maker::Seeded;
use reference::cuts::{self, Film, Memory, Played, Store, STORES_A_STEP};
use reference::CallForm;
use std::fmt::Debug;

/// A film to play through cuts.
#[derive(Clone, Debug)]
pub struct CutFilm {
    /// Its bytes.
    pub film: Vec<u8>,
    /// The form of the steps.
    pub form: CallForm,
    /// Where to begin, with what is lent. The room is long enough for the film's samples, or not.
    pub start: Start,
}

impl CutFilm {
    fn book(&self, cut: impl FnMut(&reference::film::State, &[Store]) -> Option<usize>) -> Played {
        let CutFilm { film, form, start } = self;
        let (state, room) = (start.state, start.room.len());
        cuts::play(&Film { bytes: film, form: *form, state, room }, memory(start), cut)
    }

    fn listed(&self, start: &Start) -> Vec<Store> {
        cuts::listed(self.form, &self.film, &start.state, &memory(start))
    }
}

fn memory(start: &Start) -> Memory {
    let Start { palette, picture_a, picture_b, place, words, .. } = start.clone();
    Memory { palette, pictures: [picture_a, picture_b], words, place }
}

/// Steps that a film is played at most; no film made here has so many.
const MOST_STEPS: usize = 10_000;

impl<A: Decoder, B: Decoder> Comparison<A, B> {
    /// Plays a film to its end. Each step is also cut behind each of its stores, or behind so many of
    /// them at random, each time from what the step found, and called again: the cut call leaves the
    /// first of the listed stores, and answers as the second decoder does; the call made again comes to
    /// what the uncut one comes to, its count apart, whatever the cut left in the room. What the film
    /// sends and how it ends is the book's.
    pub fn cut_each_step(
        &mut self,
        case: &CutFilm,
        mut some: Option<(&mut Seeded, usize)>,
    ) -> Result<(), Difference> {
        self.tally.films += 1;
        let mut found = case.start.clone();
        let mut played = Played::default();
        for number in 1..=MOST_STEPS {
            let stores = case.listed(&found);
            let (answer, left) = self.uncut(number, case, &found)?;
            let points: Vec<usize> = match &mut some {
                Some((rng, count)) => (0..*count).map(|_| rng.below(stores.len() + 1)).collect(),
                None => (0..=stores.len()).collect(),
            };
            for made in points {
                self.again(number, case, &found, &stores, made, (&answer, &left))?;
            }
            let account = Account { by: self.first.name(), number, form: case.form };
            match answer {
                Ok(Step::Ended) => return account.plays(&played, &case.book(|_, _| None)),
                Err(refusal) => {
                    let played = Played { refusal: Some(refusal), ..played };
                    return account.plays(&played, &case.book(|_, _| None));
                }
                Ok(_) => take(&mut played, &found, &left, answer),
            }
            found = Start { room: found.room, ..left };
        }
        panic!("the film does not end")
    }

    /// Plays a film to its end with cuts at random: each call is cut once in `often`, behind any number
    /// of its stores, and its step called again. The book plays it with the same cuts, and without: it
    /// sends the same pictures with the same palettes, gives the same samples and ends alike.
    pub fn cut_at_random(
        &mut self,
        case: &CutFilm,
        seed: u64,
        often: usize,
    ) -> Result<(), Difference> {
        self.tally.films += 1;
        let rng = &mut Seeded::new(seed);
        let mut walk = case.start.clone();
        let mut played = Played::default();
        for number in 1..=MOST_STEPS {
            let found = walk.clone();
            let stores = case.listed(&found);
            if rng.one_in(often) {
                let made = rng.below(stores.len() + 1);
                walk = self.cut(number, case, &found, &stores, made)?;
                continue;
            }
            let (answer, left) = self.uncut(number, case, &found)?;
            let account = Account { by: self.first.name(), number, form: case.form };
            if let Ok(Step::Ended) | Err(_) = answer {
                let played = Played { refusal: answer.err(), ..played };
                let again = &mut Seeded::new(seed);
                let same_cuts = |_: &_, stores: &[Store]| {
                    again.one_in(often).then(|| again.below(stores.len() + 1))
                };
                account.plays(&played, &case.book(same_cuts))?;
                return account.plays(&played, &case.book(|_, _| None));
            }
            take(&mut played, &found, &left, answer);
            walk = left;
        }
        panic!("the film does not end")
    }

    /// Plays a film with cuts at random, by one chance and another; and each step of it cut behind some
    /// of its stores.
    pub(crate) fn cut_film(&mut self, case: &CutFilm, seed: u64) -> Result<(), Difference> {
        let rng = &mut Seeded::new(seed);
        self.cut_each_step(case, Some((rng, 3)))?;
        [2, 10].into_iter().try_for_each(|often| self.cut_at_random(case, seed, often))
    }

    /// A step that is not cut, by both decoders.
    fn uncut(
        &mut self,
        number: usize,
        case: &CutFilm,
        found: &Start,
    ) -> Result<(Walked, Start), Difference> {
        self.stepped(number, case, &Start { allowed: STORES_A_STEP, ..found.clone() })
    }

    /// A step by both decoders, which agree. Its answer and what it leaves.
    fn stepped(
        &mut self,
        number: usize,
        case: &CutFilm,
        found: &Start,
    ) -> Result<(Walked, Start), Difference> {
        let (mut first, mut second) = (found.clone(), found.clone());
        let one = self.first.step(case.form, &case.film, &mut first);
        let other = self.second.step(case.form, &case.film, &mut second);
        let account = Account { by: self.first.name(), number, form: case.form };
        account.same(Part::Answer, &one, self.second.name(), &other)?;
        account.leaves(&first, self.second.name(), &second)?;
        account.bytes(Part::Room, &first.room, self.second.name(), &second.room)?;
        self.tally.stepped(case.form, &case.film, found, &first, one, (false, false));
        Ok((one, first))
    }

    /// A call that is cut behind so many of its stores, which a call that is allowed so many stands for:
    /// it makes the first of the listed stores. What it leaves, with the state that it was given, and
    /// other bytes in the room.
    fn cut(
        &mut self,
        number: usize,
        case: &CutFilm,
        found: &Start,
        stores: &[Store],
        made: usize,
    ) -> Result<Start, Difference> {
        let (_, left) = self.stepped(number, case, &Start { allowed: made, ..found.clone() })?;
        let Memory { palette, pictures: [picture_a, picture_b], words, place } =
            memory(found).cut(stores, made);
        let room = found.room.iter().map(|byte| !byte ^ made as u8).collect();
        let (state, allowed) = (found.state, 0);
        let listed = Start { state, palette, picture_a, picture_b, place, room, words, allowed };
        let account = Account { by: self.first.name(), number, form: case.form };
        let left = Start { state: found.state, ..left };
        account.leaves(&left, "first stores of the list", &listed)?;
        Ok(listed)
    }

    /// The step that was cut, called again, comes to what the uncut one came to, its count apart.
    fn again(
        &mut self,
        number: usize,
        case: &CutFilm,
        found: &Start,
        stores: &[Store],
        made: usize,
        (answer, left): (&Walked, &Start),
    ) -> Result<(), Difference> {
        let mut walk = self.cut(number, case, found, stores, made)?;
        walk.allowed = STORES_A_STEP;
        let again = self.first.step(case.form, &case.film, &mut walk);
        let account = Account { by: "called again", number, form: case.form };
        account.same(Part::Answer, &uncounted(&again), "uncut", &uncounted(answer))?;
        account.leaves(&walk, "uncut", left)?;
        let bytes = written(answer);
        account.bytes(Part::Room, &walk.room[..bytes], "uncut", &left.room[..bytes])
    }
}

/// Takes what a step gave.
fn take(played: &mut Played, found: &Start, left: &Start, answer: Walked) {
    played.take(&found.state, &left.state, &memory(left), &left.room[..written(&answer)]);
}

/// The bytes that a step wrote to the room.
fn written(answer: &Walked) -> usize {
    match answer {
        Ok(Step::Taken(_, bytes)) => *bytes,
        _ => 0,
    }
}

/// An answer but for its count of stores.
fn uncounted(answer: &Walked) -> Walked {
    answer.map(|step| match step {
        Step::Taken(_, bytes) => Step::Taken(0, bytes),
        Step::Whole(_, rows) => Step::Whole(0, rows),
        Step::Unfinished(_, rows) => Step::Unfinished(0, rows),
        Step::Ended => Step::Ended,
    })
}

/// Whose account of which step is held against another.
struct Account {
    by: &'static str,
    number: usize,
    form: CallForm,
}

impl Account {
    fn same<T: PartialEq + Debug>(
        &self,
        part: Part,
        value: &T,
        by: &'static str,
        other: &T,
    ) -> Result<(), Difference> {
        if value == other {
            return Ok(());
        }
        let accounts = [(self.by, format!("{value:?}")), (by, format!("{other:?}"))];
        Err(Difference { call: self.number, form: self.form, part, accounts })
    }

    fn bytes(
        &self,
        part: fn(usize) -> Part,
        bytes: &[u8],
        by: &'static str,
        other: &[u8],
    ) -> Result<(), Difference> {
        match first_difference(bytes, other) {
            None => Ok(()),
            Some(at) => self.same(part(at), &bytes[at], by, &other[at]),
        }
    }

    /// The state, and what is lent but for the room.
    fn leaves(&self, left: &Start, by: &'static str, other: &Start) -> Result<(), Difference> {
        self.same(Part::State, &left.state, by, &other.state)?;
        self.same(Part::Place, &left.place, by, &other.place)?;
        self.bytes(Part::Palette, &left.palette, by, &other.palette)?;
        self.bytes(Part::PictureA, &left.picture_a, by, &other.picture_a)?;
        self.bytes(Part::PictureB, &left.picture_b, by, &other.picture_b)?;
        for (number, (words, others)) in left.words.iter().zip(&other.words).enumerate() {
            if let Some(at) = first_difference(words, others) {
                self.same(Part::Words(number, at), &words[at], by, &others[at])?;
            }
        }
        Ok(())
    }

    /// What a film sends, and how it ends.
    fn plays(&self, played: &Played, book: &Played) -> Result<(), Difference> {
        let by = "book of cut films";
        self.same(Part::End, &played.refusal, by, &book.refusal)?;
        self.same(Part::Sent, &played.sent.len(), by, &book.sent.len())?;
        for (one, other) in played.sent.iter().zip(&book.sent) {
            self.same(Part::Sent, &one.picture, by, &other.picture)?;
            self.same(Part::Sent, &one.words, by, &other.words)?;
            self.bytes(Part::Palette, &one.palette, by, &other.palette)?;
        }
        self.same(Part::Samples, &played.samples, by, &book.samples)
    }
}
