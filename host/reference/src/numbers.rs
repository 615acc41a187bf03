//! The film's calls with states and answers as numbers of any count, as they cross to C
//! (include/mve.h, "MEMORY").

use crate::begin::{self, Unbegun};
use crate::film::{self, Lent, Span, State, Stepped};
use crate::packet::{CallForm, Rows};
use crate::refusal::{self, Refusal};
use crate::sound::Sound;

/// How many numbers a state has.
pub const STATE_NUMBERS: usize = 18;
/// How many numbers an answer about a film has: eight, and those of the state.
pub const STEPPED_NUMBERS: usize = 8 + STATE_NUMBERS;

/// The kinds of answer.
const TAKEN: usize = 0;
const WHOLE: usize = 1;
const UNFINISHED: usize = 2;
const ENDED: usize = 3;
const REFUSED: usize = 4;

/// The state that these numbers stand for; none where they are more or fewer, or a last sample has more
/// than 16 bits. A flag that is not 0 is set.
pub fn state_of(numbers: &[usize]) -> Option<State> {
    let &[position, chunk_end, columns, rows, front, has_map, start, length, unsent, ref sound @ ..] =
        numbers
    else {
        return None;
    };
    let &[stream, has_format, stereo, wide, compressed, begun, left, right, true_colour] = sound
    else {
        return None;
    };
    let sound = Sound {
        stream,
        has_format: has_format != 0,
        stereo: stereo != 0,
        wide: wide != 0,
        compressed: compressed != 0,
        begun: begun != 0,
        left: u16::try_from(left).ok()?,
        right: u16::try_from(right).ok()?,
    };
    let map = (has_map != 0).then_some(Span { start, length });
    let (unsent, true_colour) = (unsent != 0, true_colour != 0);
    Some(State { position, chunk_end, columns, rows, true_colour, front, map, unsent, sound })
}

/// The numbers of a state: 0 or 1 for a flag, zeros for a map that is not there.
pub fn numbers_of(state: State) -> [usize; STATE_NUMBERS] {
    let State { position, chunk_end, columns, rows, true_colour, front, map, unsent, sound } =
        state;
    let (start, length) = map.map_or((0, 0), |Span { start, length }| (start, length));
    let (has_map, unsent) = (map.is_some().into(), unsent.into());
    let picture = [position, chunk_end, columns, rows, front, has_map, start, length, unsent];
    let Sound { stream, has_format, stereo, wide, compressed, begun, left, right } = sound;
    let flags = [has_format, stereo, wide, compressed, begun].map(usize::from);
    let last = [left.into(), right.into(), true_colour.into()];
    let numbers = [&picture[..], &[stream], &flags, &last].concat();
    numbers.try_into().expect("as many as a state has")
}

/// Writes an answer, if there is room for it. What the call returns: its kind.
fn answer(out: &mut [usize], first: [usize; 8], state: &[usize; STATE_NUMBERS]) -> usize {
    out[..8].copy_from_slice(&first);
    out[8..STEPPED_NUMBERS].copy_from_slice(state);
    first[0]
}

fn refused(out: &mut [usize], refusal: Refusal, state: &[usize; STATE_NUMBERS]) -> usize {
    answer(out, [REFUSED, refusal.number.into(), refusal.block, 0, 0, 0, 0, 0], state)
}

/// Opens a film.
pub fn open(film: &[u8], stream: usize, out: &mut [usize]) -> usize {
    if out.len() < STEPPED_NUMBERS {
        return REFUSED;
    }
    match film::open(film, stream) {
        Ok(state) => answer(out, [TAKEN, 0, 0, 0, 0, 0, 0, 0], &numbers_of(state)),
        Err(refusal) => refused(out, refusal, &[0; STATE_NUMBERS]),
    }
}

/// Opens a film and steps until it has a size.
pub fn begin(
    film: &[u8],
    stream: usize,
    out: &mut [usize],
    palette: &mut [u8],
    place: &mut usize,
) -> usize {
    if out.len() < STEPPED_NUMBERS {
        return REFUSED;
    }
    match begin::begin(film, stream, palette, place) {
        Ok(state) => answer(out, [TAKEN, 0, 0, 0, 0, 0, 0, 0], &numbers_of(state)),
        Err(Unbegun { refusal, state }) => {
            refused(out, refusal, &state.map_or([0; STATE_NUMBERS], numbers_of))
        }
    }
}

/// Takes a step: of the default form where `form` is 0, else of the strict one.
pub fn step(
    film: &[u8],
    from: &[usize],
    out: &mut [usize],
    lent: Lent<'_>,
    allowed: usize,
    form: usize,
) -> usize {
    if out.len() < STEPPED_NUMBERS {
        return REFUSED;
    }
    let Some(state) = state_of(from) else {
        return refused(out, Refusal::new(refusal::STATE), &[0; STATE_NUMBERS]);
    };
    let form = if form == 0 { CallForm::Default } else { CallForm::Strict };
    // Where the state stays, its numbers do, whatever they are.
    let kept = from.try_into().expect("a state's numbers");
    let drawn = |kind, stores, rows: Option<Rows>| {
        let touched = rows.map_or([0; 3], |Rows { first, last }| [1, first, last]);
        [kind, 0, 0, stores, 0, touched[0], touched[1], touched[2]]
    };
    match film::step_as(form, film, state, lent, allowed) {
        Stepped::Taken(next, stores, bytes) => {
            answer(out, [TAKEN, 0, 0, stores, bytes, 0, 0, 0], &numbers_of(next))
        }
        Stepped::Whole(next, stores, rows) => {
            answer(out, drawn(WHOLE, stores, rows), &numbers_of(next))
        }
        Stepped::Unfinished(_, stores, rows) => answer(out, drawn(UNFINISHED, stores, rows), &kept),
        Stepped::Ended(_) => answer(out, [ENDED, 0, 0, 0, 0, 0, 0, 0], &kept),
        Stepped::Refused(refusal) => refused(out, refusal, &kept),
    }
}

/// How many bytes of the front picture are shown.
pub fn shown(from: &[usize], a: &[u8], b: &[u8]) -> usize {
    state_of(from).map_or(0, |state| film::shown(&state, a, b).len())
}

/// How many words of the front picture are shown, of a film with true colour.
pub fn shown_words(from: &[usize], pictures: [&[u16]; 3]) -> usize {
    state_of(from).map_or(0, |state| film::shown_words(&state, pictures).len())
}
