//! What is compared: anything that checks packets and draws them, and that walks films.

use maker::states::Start;
use maker::Packet;
use reference::begin::{self, Unbegun};
use reference::film::{self, Span, State, Stepped};
use reference::sound::Sound;
use reference::{check_words_as, draw_words_as, refusal, CallForm, Drawn, Refusal, Rows};

/// What a check answers: the rows that the packet touches, if any.
pub type Checked = Result<Option<Rows>, Refusal>;

/// What a drawing call answers.
pub type Answer = Result<Drawn, Refusal>;

/// What opening a film answers.
pub type Opened = Result<State, Refusal>;

/// What an opening up to the size answers.
pub type Begun = Result<State, Unbegun>;

/// What a step answers, beside the state.
pub type Walked = Result<Step, Refusal>;

/// The kinds of a step that is not refused.
#[derive(Clone, Copy, Debug, PartialEq, Eq)]
pub enum Step {
    /// A chunk head, or an opcode other than 11, is taken. With the stores made and the bytes written to
    /// the room.
    Taken(usize, usize),
    /// Opcode 11 is taken and its frame drawn, with so many stores. With the rows that its packet
    /// touches.
    Whole(usize, Option<Rows>),
    /// The stores allowed are too few. With the stores made and, of opcode 11, the rows that its packet
    /// touches.
    Unfinished(usize, Option<Rows>),
    /// The film is at its end.
    Ended,
}

/// A decoder of packets and films.
pub trait Decoder {
    /// What the decoder is called in a report.
    fn name(&self) -> &'static str;

    /// Checks a packet, in this form.
    fn check(&self, form: CallForm, packet: &Packet) -> Checked;

    /// Draws a packet on `back`, going on from `place`, with at most `allowed` stores, in this form. No
    /// decoder may change `front`; it is lent for writing so that one that does can be found out.
    fn draw(
        &self,
        form: CallForm,
        packet: &Packet,
        front: &mut [u8],
        back: &mut [u8],
        place: &mut usize,
        allowed: usize,
    ) -> Answer;

    /// Opens a film for a stream of its sound.
    fn open(&self, film: &[u8], stream: usize) -> Opened;

    /// Opens a film and steps until there is a size.
    fn begin(&self, film: &[u8], stream: usize, palette: &mut [u8], place: &mut usize) -> Begun;

    /// Takes a step over a film, in this form: from the state in `walk`, with what is lent there. The
    /// state that comes back takes its place.
    fn step(&self, form: CallForm, film: &[u8], walk: &mut Start) -> Walked;

    /// The shown picture.
    fn shown<'a>(&self, state: &State, a: &'a [u8], b: &'a [u8]) -> &'a [u8];

    /// Checks a packet with true colour, in this form. Here and below the second decoder's calls stand for
    /// those of a decoder that has none of its own, as one with a fault elsewhere.
    fn check_words(&self, form: CallForm, packet: &Packet) -> Checked {
        Second.check_words(form, packet)
    }

    /// Draws a packet with true colour on `new`, likewise. No decoder may change the last and the oldest
    /// picture.
    fn draw_words(
        &self,
        form: CallForm,
        packet: &Packet,
        older: [&mut [u16]; 2],
        new: &mut [u16],
        place: &mut usize,
        allowed: usize,
    ) -> Answer {
        Second.draw_words(form, packet, older, new, place, allowed)
    }

    /// The shown picture of a film with true colour.
    fn shown_words<'a>(&self, state: &State, pictures: [&'a [u16]; 3]) -> &'a [u16] {
        Second.shown_words(state, pictures)
    }
}

/// The proved library.
#[derive(Clone, Copy, Debug)]
pub struct Proved;

impl Decoder for Proved {
    fn name(&self) -> &'static str {
        "proved library"
    }

    fn check(&self, form: CallForm, packet: &Packet) -> Checked {
        let Packet { columns, rows, map, data } = packet;
        let check = match form {
            CallForm::Default => mve::check,
            CallForm::Strict => mve::check_strict,
        };
        check(*columns, *rows, map, data).map(common_rows).map_err(common_refusal)
    }

    fn draw(
        &self,
        form: CallForm,
        packet: &Packet,
        front: &mut [u8],
        back: &mut [u8],
        place: &mut usize,
        allowed: usize,
    ) -> Answer {
        let Packet { columns, rows, map, data } = packet;
        let draw = match form {
            CallForm::Default => mve::draw,
            CallForm::Strict => mve::draw_strict,
        };
        draw(*columns, *rows, map, data, front, back, place, allowed)
            .map(common_drawn)
            .map_err(common_refusal)
    }

    fn open(&self, film: &[u8], stream: usize) -> Opened {
        mve::open(film, stream).map(common_state).map_err(common_refusal)
    }

    fn begin(&self, film: &[u8], stream: usize, palette: &mut [u8], place: &mut usize) -> Begun {
        mve::begin(film, stream, palette, place).map(common_state).map_err(common_unbegun)
    }

    fn step(&self, form: CallForm, film: &[u8], walk: &mut Start) -> Walked {
        let Start { state, palette, picture_a: a, picture_b: b, place, room, words, allowed } =
            walk;
        let (found, allowed, form) = (own_state(state), *allowed, own_form(form));
        let [c, d, e] = words;
        let pictures = &mut mve::Pictures { a, b, c, d, e };
        let stepped = mve::step(film, found, palette, pictures, place, room, allowed, form)
            .map_err(common_refusal)?;
        *state = common_state(stepped.state());
        Ok(match stepped {
            mve::Step::Taken { stores, bytes, .. } => Step::Taken(stores, bytes),
            mve::Step::Whole { stores, rows, .. } => Step::Whole(stores, common_rows(rows)),
            mve::Step::Unfinished { stores, rows, .. } => {
                Step::Unfinished(stores, common_rows(rows))
            }
            mve::Step::Ended { .. } => Step::Ended,
        })
    }

    fn shown<'a>(&self, state: &State, a: &'a [u8], b: &'a [u8]) -> &'a [u8] {
        mve::shown(&own_state(state), a, b)
    }

    fn check_words(&self, form: CallForm, packet: &Packet) -> Checked {
        let Packet { columns, rows, map, data } = packet;
        let check = match form {
            CallForm::Default => mve::check_words,
            CallForm::Strict => mve::check_words_strict,
        };
        check(*columns, *rows, map, data).map(common_rows).map_err(common_refusal)
    }

    fn draw_words(
        &self,
        form: CallForm,
        packet: &Packet,
        [last, oldest]: [&mut [u16]; 2],
        new: &mut [u16],
        place: &mut usize,
        allowed: usize,
    ) -> Answer {
        let Packet { columns, rows, map, data } = packet;
        let draw = match form {
            CallForm::Default => mve::draw_words,
            CallForm::Strict => mve::draw_words_strict,
        };
        draw(*columns, *rows, map, data, last, oldest, new, place, allowed)
            .map(common_drawn)
            .map_err(common_refusal)
    }

    fn shown_words<'a>(&self, state: &State, [c, d, e]: [&'a [u16]; 3]) -> &'a [u16] {
        mve::shown_words(&own_state(state), c, d, e)
    }
}

fn own_form(form: CallForm) -> mve::Form {
    match form {
        CallForm::Default => mve::Form::Default,
        CallForm::Strict => mve::Form::Strict,
    }
}

fn common_refusal(refusal: mve::Refusal) -> Refusal {
    Refusal { number: refusal.number(), block: refusal.block }
}

/// A film that is not opened has no state, for which the library gives zeros.
fn common_unbegun(unbegun: mve::Unbegun) -> Unbegun {
    let mve::Unbegun { refusal, state } = unbegun;
    let unopened = refusal.number() == refusal::HEADER && state == mve::State::default();
    let state = (!unopened).then(|| common_state(state));
    Unbegun { refusal: common_refusal(refusal), state }
}

fn common_drawn(drawn: mve::Drawn) -> Drawn {
    let whole = matches!(drawn, mve::Drawn::Whole { .. });
    Drawn { whole, stores: drawn.stores(), rows: common_rows(drawn.rows()) }
}

fn common_rows(rows: Option<mve::Rows>) -> Option<Rows> {
    rows.map(|mve::Rows { first, last }| Rows { first, last })
}

fn common_state(state: mve::State) -> State {
    let mve::State { position, chunk_end, columns, rows, true_colour, front, map, unsent, sound } =
        state;
    let map = map.map(|(start, length)| Span { start, length });
    let mve::Sound { stream, has_format, stereo, wide, compressed, begun, left, right } = sound;
    let sound = Sound { stream, has_format, stereo, wide, compressed, begun, left, right };
    State { position, chunk_end, columns, rows, true_colour, front, map, unsent, sound }
}

fn own_state(state: &State) -> mve::State {
    let State { position, chunk_end, columns, rows, true_colour, front, map, unsent, sound } =
        *state;
    let map = map.map(|Span { start, length }| (start, length));
    let Sound { stream, has_format, stereo, wide, compressed, begun, left, right } = sound;
    let sound = mve::Sound { stream, has_format, stereo, wide, compressed, begun, left, right };
    mve::State { position, chunk_end, columns, rows, true_colour, front, map, unsent, sound }
}

/// The second decoder.
#[derive(Clone, Copy, Debug)]
pub struct Second;

impl Decoder for Second {
    fn name(&self) -> &'static str {
        "second decoder"
    }

    fn check(&self, form: CallForm, packet: &Packet) -> Checked {
        let Packet { columns, rows, map, data } = packet;
        reference::check_as(form, *columns, *rows, map, data)
    }

    fn draw(
        &self,
        form: CallForm,
        packet: &Packet,
        front: &mut [u8],
        back: &mut [u8],
        place: &mut usize,
        allowed: usize,
    ) -> Answer {
        let Packet { columns, rows, map, data } = packet;
        reference::draw_as(form, *columns, *rows, map, data, front, back, place, allowed)
    }

    fn open(&self, film: &[u8], stream: usize) -> Opened {
        film::open(film, stream)
    }

    fn begin(&self, film: &[u8], stream: usize, palette: &mut [u8], place: &mut usize) -> Begun {
        begin::begin(film, stream, palette, place)
    }

    fn step(&self, form: CallForm, film: &[u8], walk: &mut Start) -> Walked {
        let (step, state) = match walk.step_as(form, film) {
            Stepped::Taken(state, stores, bytes) => (Step::Taken(stores, bytes), state),
            Stepped::Whole(state, stores, rows) => (Step::Whole(stores, rows), state),
            Stepped::Unfinished(state, stores, rows) => (Step::Unfinished(stores, rows), state),
            Stepped::Ended(state) => (Step::Ended, state),
            Stepped::Refused(refusal) => return Err(refusal),
        };
        walk.state = state;
        Ok(step)
    }

    fn shown<'a>(&self, state: &State, a: &'a [u8], b: &'a [u8]) -> &'a [u8] {
        film::shown(state, a, b)
    }

    fn check_words(&self, form: CallForm, packet: &Packet) -> Checked {
        let Packet { columns, rows, map, data } = packet;
        check_words_as(form, *columns, *rows, map, data).map(Some)
    }

    fn draw_words(
        &self,
        form: CallForm,
        packet: &Packet,
        [last, oldest]: [&mut [u16]; 2],
        new: &mut [u16],
        place: &mut usize,
        allowed: usize,
    ) -> Answer {
        let Packet { columns, rows, map, data } = packet;
        draw_words_as(form, *columns, *rows, map, data, last, oldest, new, place, allowed)
    }

    fn shown_words<'a>(&self, state: &State, pictures: [&'a [u16]; 3]) -> &'a [u16] {
        film::shown_words(state, pictures)
    }
}
