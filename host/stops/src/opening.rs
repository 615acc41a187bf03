//! The opening call, stopped: a film is opened up to its size, with stores to the palette, the place and
//! the answer alone. To go on is to open again.

use crate::cases::{hex, same, Case};
use crate::kept::Memory;
use crate::list::{self, Store};
use mve::numbers::{self, kind, STATE, STEPPED_NUMBERS};
use mve::ROOM_BYTES;
use reference::film::{Lent, State, Stepped};
use reference::numbers::numbers_of;

/// A call of `mve_begin`, after which the state that it gives is saved.
#[derive(Clone, Debug)]
pub struct Opening {
    film: Vec<u8>,
    stream: usize,
    found: Memory,
    stores: Vec<Store>,
    answer: String,
    end: Memory,
}

impl Opening {
    /// The opening of a film, for a stream of its sound. Its stores are those of the second decoder's
    /// steps up to the size, and then the state; a film whose opening is refused has none.
    pub fn new(film: Vec<u8>, stream: usize, found: Memory) -> Opening {
        let mut end = found.clone();
        let begun = reference::begin::begin(&film, stream, &mut end.palette, &mut end.place);
        let (answer, stores) = match begun {
            Ok(state) => {
                let mut stores = stores(&film, stream, state, found.clone());
                let saved = Store::State(numbers_of(state));
                stores.push(saved);
                end.make(saved);
                (format!("begun at byte {}\n", state.position), stores)
            }
            Err(unbegun) => {
                let at = unbegun.state.map_or(0, |state| state.position);
                (format!("refused {} at byte {at}\n", unbegun.refusal.number), Vec::new())
            }
        };
        Opening { film, stream, found, stores, answer, end }
    }
}

/// The stores of the steps up to a state.
fn stores(film: &[u8], stream: usize, end: State, mut memory: Memory) -> Vec<Store> {
    let mut state = reference::film::open(film, stream).expect("a film that is opened");
    let (mut stores, mut room) = (Vec::new(), vec![0; ROOM_BYTES]);
    while state != end {
        let listed = list::step(film, &state, &memory);
        let Memory { palette, pictures: [picture_a, picture_b], words, place, .. } = &mut memory;
        let words = words.each_mut().map(Vec::as_mut_slice);
        let lent = Lent { palette, picture_a, picture_b, place, room: &mut room, words };
        state = match reference::film::step(film, state, lent, usize::MAX) {
            Stepped::Taken(next, ..) => next,
            other => panic!("a step up to the size is answered {other:?}"),
        };
        stores.extend(listed);
    }
    stores
}

/// What the library answers, as the process writes it.
pub fn answer(out: &[usize]) -> String {
    match *out {
        [kind::TAKEN, 0, 0, 0, 0, 0, 0, 0, position, ..] => format!("begun at byte {position}\n"),
        [kind::REFUSED, number, 0, 0, 0, 0, 0, 0, position, ..] => {
            format!("refused {number} at byte {position}\n")
        }
        _ => format!("{out:?}\n"),
    }
}

impl Case for Opening {
    fn arguments(&self) -> Vec<String> {
        vec!["--begin".to_string(), self.stream.to_string(), hex(&self.film)]
    }

    fn found(&self) -> &Memory {
        &self.found
    }

    fn stores(&self) -> &[Store] {
        &self.stores
    }

    fn answer(&self) -> &str {
        &self.answer
    }

    fn go_on(&self, left: &Memory) -> Result<(), String> {
        let (mut memory, mut out) = (left.clone(), [0; STEPPED_NUMBERS]);
        let Memory { palette, place, state, .. } = &mut memory;
        let kind = numbers::begin(&self.film, self.stream, &mut out, palette, place);
        let again = answer(&out);
        if again != self.answer || kind != out[0] {
            return Err(format!("the new call answers {again:?}, not {:?}", self.answer));
        }
        if kind == kind::TAKEN {
            state.copy_from_slice(&out[STATE]);
        }
        same(&memory, &self.end)
    }
}
