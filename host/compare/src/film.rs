//! Comparing two decoders on films.

use crate::cases::{Opening, Walk};
use crate::comparison::Comparison;
use crate::decoder::{Decoder, Step, Walked};
use crate::difference::{difference_outside, first_difference, Difference, Part};
use maker::states::Start;
use reference::film::State;
use reference::refusal;
use reference::sound::NO_STREAM;
use reference::{CallForm, Rows};
use std::fmt;

impl<A: Decoder, B: Decoder> Comparison<A, B> {
    /// Compares the opening of a film, and all that can be seen after every step: to its end, to
    /// the first refusal, or as many as there are allowances. A step whose room is too small (19) is
    /// taken again with room enough, and one that the strict form refuses for what its packet leaves
    /// over (15) in the default form. Each decoder has memory of its own.
    pub fn walk(&mut self, walk: &Walk) -> Result<(), Difference> {
        self.tally.films += 1;
        let film = &walk.film;
        let Some(mut first) = self.start(walk)? else { return Ok(()) };
        let mut second = first.clone();
        let mut again = None;
        for (number, (&allowed, &form)) in walk.allowances.iter().zip(&walk.forms).enumerate() {
            let form = if again == Some(Again::InDefault) { CallForm::Default } else { form };
            (first.allowed, second.allowed) = (allowed, allowed);
            first.room = room(walk, number, &first, again == Some(Again::WithRoom));
            second.room.clone_from(&first.room);
            let (found, call) = (first.clone(), (number + 1, form));
            let seen = Seen::step(&self.first, call, film, &mut first);
            seen.keeps(&found)?;
            seen.agrees(&Seen::step(&self.second, call, film, &mut second))?;
            let Seen { answer, left, shown, words, .. } = seen;
            let shown = (!shown.is_empty(), !words.is_empty());
            self.tally.stepped(form, film, &found, left, answer, shown);
            again = Again::after(form, answer);
            if matches!(answer, Ok(Step::Ended) | Err(_)) && again.is_none() {
                break;
            }
        }
        Ok(())
    }

    /// Compares the opening. What the first step is given; none where the film cannot be opened.
    ///
    /// A film that is walked without sound is opened up to its size by one call (02, W8). Separate
    /// calls open a film with sound, of which the samples before the size are compared; a film that is
    /// refused before its size, of which every step up to there is compared; and one that is walked
    /// from a state in its middle.
    fn start(&mut self, walk: &Walk) -> Result<Option<Start>, Difference> {
        let Walk { film, stream, state, palette, place, .. } = walk;
        if state.is_none() && *stream >= NO_STREAM {
            let (film, palette) = (film.clone(), palette.clone());
            let left = self.begun(&Opening { film, stream: *stream, palette, place: *place })?;
            if let Ok(state) = left.answer {
                let (palette, place) = (left.palette, left.place);
                return Ok(Some(Start { palette, place, ..lent(walk, state) }));
            }
        }
        let (one, other) = (self.first.open(film, *stream), self.second.open(film, *stream));
        if one != other {
            let (call, names) = ((0, CallForm::Default), (self.first.name(), self.second.name()));
            return differs(call, Part::Answer, (names.0, one), (names.1, other));
        }
        self.tally.opened(one);
        Ok(state.or(one.ok()).map(|state| lent(walk, state)))
    }
}

/// How a refused step is taken again.
#[derive(Clone, Copy, PartialEq, Eq)]
enum Again {
    WithRoom,
    InDefault,
}

impl Again {
    fn after(form: CallForm, answer: Walked) -> Option<Again> {
        match (form, answer.err()?.number) {
            (_, refusal::ROOM) => Some(Again::WithRoom),
            (CallForm::Strict, refusal::DATA_LEFT) => Some(Again::InDefault),
            _ => None,
        }
    }
}

/// The room that a step is lent: as much longer or shorter than what it writes as the walk says, but
/// not shorter where the step was refused for it before.
fn room(walk: &Walk, number: usize, start: &Start, again: bool) -> Vec<u8> {
    let Some(&spare) = walk.spare.get(number) else { return Vec::new() };
    let spare = if again { spare.max(0) } else { spare };
    let length = start.due(&walk.film).saturating_add_signed(spare);
    vec![number as u8 ^ 0x5A; length]
}

/// What the first step is given.
fn lent(walk: &Walk, state: State) -> Start {
    let [picture_a, picture_b] = walk.pictures.clone();
    let (palette, place, words) = (walk.palette.clone(), walk.place, walk.words.clone());
    Start { state, palette, picture_a, picture_b, place, room: Vec::new(), words, allowed: 0 }
}

/// All that can be seen after a step.
struct Seen<'a> {
    by: &'static str,
    /// Number and form of the step.
    call: (usize, CallForm),
    answer: Walked,
    left: &'a Start,
    shown: &'a [u8],
    /// The picture shown of a film with true colour.
    words: &'a [u16],
}

impl<'a> Seen<'a> {
    fn step(
        decoder: &impl Decoder,
        call: (usize, CallForm),
        film: &[u8],
        walk: &'a mut Start,
    ) -> Self {
        let answer = decoder.step(call.1, film, walk);
        let shown = decoder.shown(&walk.state, &walk.picture_a, &walk.picture_b);
        let words = decoder.shown_words(&walk.state, walk.words.each_ref().map(Vec::as_slice));
        Seen { by: decoder.name(), call, answer, left: walk, shown, words }
    }

    /// Two accounts of one step are the same.
    fn agrees(&self, other: &Seen<'_>) -> Result<(), Difference> {
        if self.answer != other.answer {
            return self.differs(Part::Answer, self.answer, other.by, other.answer);
        }
        self.leaves(other.by, other.left)?;
        if self.shown != other.shown {
            return self.differs(Part::Shown, self.shown, other.by, other.shown);
        }
        if self.words != other.words {
            return self.differs(Part::ShownWords, self.words, other.by, other.words);
        }
        Ok(())
    }

    /// A step that is refused, or that finds the film at its end, leaves everything as found; any
    /// other the room behind what it writes, and the pictures but for the rows that it tells of back.
    fn keeps(&self, found: &Start) -> Result<(), Difference> {
        let (written, rows) = match self.answer {
            Ok(Step::Ended) | Err(_) => return self.leaves("as found", found),
            Ok(Step::Taken(_, bytes)) => (bytes.min(found.room.len()), None),
            Ok(Step::Whole(_, rows) | Step::Unfinished(_, rows)) => (0, rows),
        };
        self.keeps_pictures(found, rows)?;
        let (left, kept) = (&self.left.room, &found.room);
        match first_difference(&left[written..], &kept[written..]) {
            None => Ok(()),
            Some(index) => {
                let at = written + index;
                self.differs(Part::Room(at), left[at], "as found", kept[at])
            }
        }
    }

    /// All pictures are left as found, but for these rows of the one that is drawn on.
    fn keeps_pictures(&self, found: &Start, rows: Option<Rows>) -> Result<(), Difference> {
        let State { front, columns, true_colour, .. } = found.state;
        for (number, (left, kept)) in self.left.words.iter().zip(&found.words).enumerate() {
            let rows = rows.filter(|_| true_colour && number == (front + 1) % 3);
            if let Some(at) = difference_outside(rows, columns, left, kept) {
                return self.differs(Part::KeptWords(number, at), left[at], "as found", kept[at]);
            }
        }
        let rows = rows.filter(|_| !true_colour);
        let (of_a, of_b) = if front == 0 { (None, rows) } else { (rows, None) };
        let (a, b) = (&self.left.picture_a, &self.left.picture_b);
        if let Some(at) = difference_outside(of_a, columns, a, &found.picture_a) {
            return self.differs(Part::KeptA(at), a[at], "as found", found.picture_a[at]);
        }
        match difference_outside(of_b, columns, b, &found.picture_b) {
            None => Ok(()),
            Some(at) => self.differs(Part::KeptB(at), b[at], "as found", found.picture_b[at]),
        }
    }

    /// The state and what is lent are left as another account has them.
    fn leaves(&self, by: &'static str, other: &Start) -> Result<(), Difference> {
        let left = self.left;
        if left.state != other.state {
            return self.differs(Part::State, left.state, by, other.state);
        }
        if left.place != other.place {
            return self.differs(Part::Place, left.place, by, other.place);
        }
        self.same_bytes(Part::Palette, &left.palette, by, &other.palette)?;
        self.same_bytes(Part::PictureA, &left.picture_a, by, &other.picture_a)?;
        self.same_bytes(Part::PictureB, &left.picture_b, by, &other.picture_b)?;
        for (number, (words, others)) in left.words.iter().zip(&other.words).enumerate() {
            if let Some(at) = first_difference(words, others) {
                return self.differs(Part::Words(number, at), words[at], by, others[at]);
            }
        }
        self.same_bytes(Part::Room, &left.room, by, &other.room)
    }

    fn same_bytes(
        &self,
        part: fn(usize) -> Part,
        bytes: &[u8],
        by: &'static str,
        others: &[u8],
    ) -> Result<(), Difference> {
        match first_difference(bytes, others) {
            None => Ok(()),
            Some(at) => self.differs(part(at), bytes[at], by, others[at]),
        }
    }

    fn differs<T: fmt::Debug>(
        &self,
        part: Part,
        value: T,
        other: &'static str,
        other_value: T,
    ) -> Result<(), Difference> {
        differs(self.call, part, (self.by, value), (other, other_value))
    }
}

fn differs<R, T: fmt::Debug>(
    (call, form): (usize, CallForm),
    part: Part,
    one: (&'static str, T),
    other: (&'static str, T),
) -> Result<R, Difference> {
    let accounts = [one, other].map(|(by, value)| (by, format!("{value:?}")));
    Err(Difference { call, form, part, accounts })
}
