//! One step of a film, stopped, also where it is allowed too few stores: a palette or a map (02, W11).
//! To go on is to take the step again.

use crate::cases::{form_name, hex, own_form, own_step, rows, same, second_step, Case};
use crate::ffi;
use crate::kept::{Kept, Lent, Memory};
use crate::list::{self, Store};
use mve::numbers::{self, kind};
use mve::Step;
use reference::film::{State, Stepped};
use reference::numbers::numbers_of;
use reference::CallForm;
use std::io;

/// A call of `mve_step` at the first opcode of a film, from the state that is kept. No state is saved
/// behind it.
#[derive(Clone, Debug)]
pub struct Once {
    form: CallForm,
    film: Vec<u8>,
    allowed: usize,
    state: State,
    found: Memory,
    stores: Vec<Store>,
    answer: String,
    /// What the step comes to that nothing stops, allowed all its stores.
    undisturbed: Stepped,
    end: Memory,
}

impl Once {
    /// A step that is allowed so many tenths of its stores.
    pub fn new(form: CallForm, film: Vec<u8>, first: Memory, tenths: usize) -> Once {
        let opened = reference::film::open(&film, mve::NO_STREAM).expect("a valid film");
        let mut found = first;
        let Stepped::Taken(state, ..) = second_step(form, &film, opened, &mut found, 0).0 else {
            panic!("a film begins with a chunk");
        };
        found.state = numbers_of(state);
        let mut stores = list::step(&film, &state, &found);
        let allowed = stores.len() * tenths / 10;
        stores.truncate(allowed);
        let answer = answer(second_step(form, &film, state, &mut found.clone(), allowed).0);
        let mut end = found.clone();
        let undisturbed = second_step(form, &film, state, &mut end, usize::MAX).0;
        Once { form, film, allowed, state, found, stores, answer, undisturbed, end }
    }

    /// The opcode that it is at.
    pub fn opcode(&self) -> Option<u8> {
        list::opcode_at(&self.film, &self.state)
    }
}

/// What the second decoder answers, as the process writes it.
fn answer(stepped: Stepped) -> String {
    match stepped {
        Stepped::Taken(_, stores, _) => format!("taken {stores}\n"),
        Stepped::Whole(_, stores, _) => format!("whole {stores}\n"),
        Stepped::Unfinished(_, stores, _) => format!("unfinished {stores}\n"),
        other => panic!("a valid film is answered {other:?}"),
    }
}

/// The process that is stopped: takes the step. What it answers.
pub fn run<const LENT: usize>(
    form: CallForm,
    allowed: usize,
    film: &[u8],
    kept: &mut Kept<LENT>,
) -> io::Result<String> {
    let form = own_form(form).number();
    ffi::stop();
    kept.enter();
    let Lent { from, out, palette, mut pictures, place } = kept.lent();
    let kind =
        numbers::step(film, from, out, palette, &mut pictures, place, &mut [], allowed, form);
    let made = out[3];
    kept.leave();
    ffi::stop();
    match kind {
        kind::TAKEN => Ok(format!("taken {made}\n")),
        kind::WHOLE => Ok(format!("whole {made}\n")),
        kind::UNFINISHED => Ok(format!("unfinished {made}\n")),
        other => Err(io::Error::other(format!("the step is answered {other}"))),
    }
}

impl Case for Once {
    fn arguments(&self) -> Vec<String> {
        let numbers = [form_name(self.form), self.allowed.to_string(), hex(&self.film)];
        [vec!["--once".to_string()], numbers.to_vec()].concat()
    }

    fn found(&self) -> &Memory {
        &self.found
    }

    fn stores(&self) -> &[Store] {
        &self.stores
    }

    fn answer(&self) -> &str {
        &self.answer
    }

    fn go_on(&self, left: &Memory) -> Result<(), String> {
        let mut memory = left.clone();
        let given =
            mve::State::from_numbers(&left.state).ok_or("the saved numbers are no state")?;
        let (allowed, form) = (mve::ALL_STORES, own_form(self.form));
        let step = own_step(form, &self.film, given, &mut memory, &mut [], allowed)
            .map_err(|refusal| format!("the new step is refused: {refusal}"))?;
        let next = match (self.undisturbed, step) {
            (Stepped::Taken(next, made, 0), Step::Taken { stores, bytes: 0, .. })
                if made == stores =>
            {
                next
            }
            (Stepped::Whole(next, _, touched), Step::Whole { rows: told, .. })
                if told == rows(touched) =>
            {
                next
            }
            _ => return Err(format!("the new step answers {step:?}, not {:?}", self.undisturbed)),
        };
        if step.state().numbers() != numbers_of(next) {
            return Err("the state is not as it is when nothing is stopped".to_string());
        }
        same(&memory, &self.end)
    }
}
