//! Comparing openings: a film is opened and stepped until there is a size, by one call or by separate
//! ones (02, W8).

use crate::cases::Opening;
use crate::comparison::Comparison;
use crate::decoder::{Answer, Begun, Checked, Decoder, Opened, Step, Walked};
use crate::difference::{first_difference, Difference, Part};
use maker::states::Start;
use maker::Packet;
use reference::begin::Unbegun;
use reference::film::State;
use reference::{refusal, CallForm, Refusal};
use std::fmt::Debug;

/// Bytes of a room that is always enough.
const ROOM: usize = 131_070;
/// Stores that are always enough for a step.
const STORES: usize = 312_000;

impl<A: Decoder, B: Decoder> Comparison<A, B> {
    /// Compares the answer to an opening, with the state, and the palette and the place that it
    /// leaves. A refusal leaves both as found.
    pub fn begin(&mut self, opening: &Opening) -> Result<(), Difference> {
        self.tally.films += 1;
        self.begun(opening).map(drop)
    }

    /// The same, with what the first decoder answers and leaves.
    pub(crate) fn begun(&mut self, opening: &Opening) -> Result<Left, Difference> {
        let one = Left::by(&self.first, opening);
        let other = Left::by(&self.second, opening);
        one.agrees(&other)?;
        if one.answer.is_err() {
            let (palette, place) = (opening.palette.clone(), opening.place);
            one.agrees(&Left { by: "as found", answer: one.answer, palette, place })?;
        }
        self.tally.begun(opening, one.answer);
        Ok(one)
    }
}

/// What an opening answers and leaves.
pub(crate) struct Left {
    by: &'static str,
    pub(crate) answer: Begun,
    pub(crate) palette: Vec<u8>,
    pub(crate) place: usize,
}

impl Left {
    fn by(decoder: &impl Decoder, opening: &Opening) -> Left {
        let Opening { film, stream, palette, place } = opening;
        let (mut palette, mut place) = (palette.clone(), *place);
        let answer = decoder.begin(film, *stream, &mut palette, &mut place);
        Left { by: decoder.name(), answer, palette, place }
    }

    fn agrees(&self, other: &Left) -> Result<(), Difference> {
        if self.answer != other.answer {
            return self.differs(Part::Answer, &self.answer, other.by, &other.answer);
        }
        if self.place != other.place {
            return self.differs(Part::Place, self.place, other.by, other.place);
        }
        match first_difference(&self.palette, &other.palette) {
            None => Ok(()),
            Some(at) => {
                self.differs(Part::Palette(at), self.palette[at], other.by, other.palette[at])
            }
        }
    }

    fn differs<T: Debug>(
        &self,
        part: Part,
        value: T,
        other: &'static str,
        other_value: T,
    ) -> Result<(), Difference> {
        let accounts = [(self.by, format!("{value:?}")), (other, format!("{other_value:?}"))];
        Err(Difference { call: 0, form: CallForm::Default, part, accounts })
    }
}

/// A decoder whose opening is by separate calls: it opens, and steps until there is a size. Each step
/// is lent other pictures and another room that is enough, and is allowed another number of stores that
/// is enough.
#[derive(Clone, Copy, Debug)]
pub struct Separate<D>(pub D);

impl<D: Decoder> Decoder for Separate<D> {
    fn name(&self) -> &'static str {
        "separate calls"
    }

    fn check(&self, form: CallForm, packet: &Packet) -> Checked {
        self.0.check(form, packet)
    }

    fn draw(
        &self,
        form: CallForm,
        packet: &Packet,
        front: &mut [u8],
        back: &mut [u8],
        place: &mut usize,
        allowed: usize,
    ) -> Answer {
        self.0.draw(form, packet, front, back, place, allowed)
    }

    fn open(&self, film: &[u8], stream: usize) -> Opened {
        self.0.open(film, stream)
    }

    fn begin(&self, film: &[u8], stream: usize, palette: &mut [u8], place: &mut usize) -> Begun {
        let state = self.open(film, stream).map_err(|refusal| Unbegun { refusal, state: None })?;
        let mut walk = Start {
            state,
            palette: palette.to_vec(),
            picture_a: Vec::new(),
            picture_b: Vec::new(),
            place: *place,
            room: Vec::new(),
            words: Default::default(),
            allowed: 0,
        };
        while walk.state.columns == 0 {
            let given = walk.state;
            walk.picture_a.resize(given.position % 5, 1);
            walk.picture_b.resize(given.position % 3, 2);
            walk.words[given.position % 3].resize(given.position % 4, 0xFFFF);
            walk.room.resize(ROOM + given.position % 7, 3);
            walk.allowed = STORES + given.position % 11;
            let refusal = match self.0.step(CallForm::Default, film, &mut walk) {
                Ok(Step::Ended) => Refusal::new(refusal::NO_SIZE),
                Ok(_) => continue,
                Err(refusal) => refusal,
            };
            return Err(Unbegun { refusal, state: Some(given) });
        }
        palette.copy_from_slice(&walk.palette);
        *place = walk.place;
        Ok(walk.state)
    }

    fn step(&self, form: CallForm, film: &[u8], walk: &mut Start) -> Walked {
        self.0.step(form, film, walk)
    }

    fn shown<'a>(&self, state: &State, a: &'a [u8], b: &'a [u8]) -> &'a [u8] {
        self.0.shown(state, a, b)
    }

    fn check_words(&self, form: CallForm, packet: &Packet) -> Checked {
        self.0.check_words(form, packet)
    }

    fn draw_words(
        &self,
        form: CallForm,
        packet: &Packet,
        older: [&mut [u16]; 2],
        new: &mut [u16],
        place: &mut usize,
        allowed: usize,
    ) -> Answer {
        self.0.draw_words(form, packet, older, new, place, allowed)
    }

    fn shown_words<'a>(&self, state: &State, pictures: [&'a [u16]; 3]) -> &'a [u16] {
        self.0.shown_words(state, pictures)
    }
}
