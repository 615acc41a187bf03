//! What is stopped: a drawing call, and a walk over a film. Everything that is expected of them is
//! the second decoder's.

use crate::kept::{Memory, Numbers};
use crate::list::{self, Packet, Store};
use mve::numbers::STATE_NUMBERS;
use mve::ROOM_BYTES;
use reference::film::{Lent, State, Stepped};
use reference::numbers::numbers_of;
use reference::CallForm;

/// A process to stop, and what is expected at a stop.
pub trait Case {
    /// The arguments that it is started with.
    fn arguments(&self) -> Vec<String>;
    /// What is kept when it starts.
    fn found(&self) -> &Memory;
    /// The stores that it makes.
    fn stores(&self) -> &[Store];
    /// What it writes at its end.
    fn answer(&self) -> &str;
    /// Makes the call anew that was stopped, on a copy of what the stop left and with no limit to its
    /// stores. It ends as if nothing had been stopped, or the difference is told.
    fn go_on(&self, left: &Memory) -> Result<(), String>;
}

/// A call of `mve_draw` or `mve_draw_strict`. The first picture is front, the second one back.
#[derive(Clone, Debug)]
pub struct Drawing {
    form: CallForm,
    packet: maker::Packet,
    allowed: usize,
    found: Memory,
    stores: Vec<Store>,
    answer: String,
    /// The rows that the packet touches, which every call tells.
    rows: Option<mve::Rows>,
    end: Memory,
}

impl Drawing {
    /// A call of this form with a packet that is valid in it, behind an earlier one that made so many
    /// stores.
    pub fn new(
        form: CallForm,
        packet: maker::Packet,
        first: Memory,
        earlier: usize,
        allowed: usize,
    ) -> Drawing {
        let (mut found, mut end) = (first.clone(), first);
        second_draw(form, &packet, &mut found, earlier);
        second_draw(form, &packet, &mut end, usize::MAX);
        let drawn = second_draw(form, &packet, &mut found.clone(), allowed);
        let answer = match drawn.whole {
            true => format!("whole {}\n", drawn.stores),
            false => format!("unfinished {}\n", drawn.stores),
        };
        let mut stores = list::drawing(&listed(&packet), &found).expect("a valid packet");
        stores.truncate(allowed);
        Drawing { form, packet, allowed, found, stores, answer, rows: rows(drawn.rows), end }
    }

    /// The form of the call.
    pub fn form(&self) -> CallForm {
        self.form
    }

    /// The packet.
    pub fn packet(&self) -> &maker::Packet {
        &self.packet
    }
}

/// The rows that the second decoder tells.
pub(crate) fn rows(touched: Option<reference::Rows>) -> Option<mve::Rows> {
    touched.map(|reference::Rows { first, last }| mve::Rows { first, last })
}

fn listed(packet: &maker::Packet) -> Packet<'_> {
    let maker::Packet { columns, rows, map, data } = packet;
    Packet { columns: *columns, rows: *rows, map, data, front: 0 }
}

/// A call of the second decoder.
fn second_draw(
    form: CallForm,
    packet: &maker::Packet,
    memory: &mut Memory,
    allowed: usize,
) -> reference::Drawn {
    let maker::Packet { columns, rows, map, data } = packet;
    let Memory { pictures: [front, back], place, .. } = memory;
    reference::draw_as(form, *columns, *rows, map, data, front, back, place, allowed)
        .expect("a valid packet")
}

impl Case for Drawing {
    fn arguments(&self) -> Vec<String> {
        let maker::Packet { columns, rows, map, data } = &self.packet;
        let mut words = vec!["--draw".to_string(), form_name(self.form)];
        words.extend([*columns, *rows, self.allowed].map(|number| number.to_string()));
        words.extend([hex(map), hex(data)]);
        words
    }

    fn found(&self) -> &Memory {
        &self.found
    }

    fn stores(&self) -> &[Store] {
        &self.stores
    }

    fn answer(&self) -> &str {
        &self.answer
    }

    fn go_on(&self, left: &Memory) -> Result<(), String> {
        let maker::Packet { columns, rows, map, data } = &self.packet;
        let due = list::due(&listed(&self.packet), left.place);
        let mut memory = left.clone();
        let Memory { pictures: [front, back], place, .. } = &mut memory;
        let draw = match self.form {
            CallForm::Default => mve::draw,
            CallForm::Strict => mve::draw_strict,
        };
        let drawn = draw(*columns, *rows, map, data, front, back, place, usize::MAX);
        if drawn != Ok(mve::Drawn::Whole { stores: due, rows: self.rows }) {
            let rows = self.rows;
            return Err(format!("the new call answers {drawn:?}: due are {due} stores, {rows:?}"));
        }
        same(&memory, &self.end)
    }
}

/// A walk over a film to its end by `mve_step`, every step of the same form and with the same allowance,
/// which is enough for its palettes.
/// What is kept begins with the film's first state.
#[derive(Clone, Debug)]
pub struct Walk {
    form: CallForm,
    film: Vec<u8>,
    allowed: usize,
    found: Memory,
    stores: Vec<Store>,
    answer: String,
    steps: Vec<Step>,
}

/// A step that nothing stops, with no limit to its stores.
#[derive(Clone, Debug)]
pub struct Step {
    /// The state that it is given.
    pub state: State,
    /// What it finds. What it leaves, with the new state saved, is what the next step finds.
    pub before: Memory,
    /// Its answer; the stores of a drawing are those from place 0 on.
    pub answer: Stepped,
    /// What it writes to the room's front.
    pub samples: Vec<u8>,
}

impl Walk {
    /// A walk by steps of this form over a film that is valid in it, for a stream of its sound.
    pub fn new(
        form: CallForm,
        film: Vec<u8>,
        stream: usize,
        first: Memory,
        allowed: usize,
    ) -> Walk {
        let opened = reference::film::open(&film, stream).expect("a valid film");
        let found = Memory { state: numbers_of(opened), ..first };
        let (stores, calls) = listed_walk(form, &film, opened, found.clone(), allowed);
        let answer = format!("ended after {calls} steps\n");
        let steps = steps(form, &film, stream, found.clone());
        Walk { form, film, allowed, found, stores, answer, steps }
    }

    /// The steps that nothing stops.
    pub fn steps(&self) -> &[Step] {
        &self.steps
    }

    /// The same, for a fault that is planted in what is expected.
    pub fn steps_mut(&mut self) -> &mut [Step] {
        &mut self.steps
    }
}

/// The stores of a walk, those of the state included, and how many steps it has.
fn listed_walk(
    form: CallForm,
    film: &[u8],
    opened: State,
    mut memory: Memory,
    allowed: usize,
) -> (Vec<Store>, usize) {
    let (mut state, mut stores) = (opened, Vec::new());
    for calls in 1.. {
        let mut listed = list::step(film, &state, &memory);
        listed.truncate(allowed);
        let mut model = memory.clone();
        listed.iter().for_each(|&store| model.make(store));
        let next = match second_step(form, film, state, &mut memory, allowed).0 {
            Stepped::Taken(next, ..) | Stepped::Whole(next, ..) => next,
            Stepped::Unfinished(same, ..) => same,
            Stepped::Ended(_) => return (stores, calls),
            Stepped::Refused(refusal) => panic!("a valid film is refused: {refusal:?}"),
        };
        assert!(model == memory, "the list is not that of the second decoder's step");
        stores.extend(listed);
        if next != state {
            let saved = Store::State(numbers_of(next));
            stores.push(saved);
            memory.make(saved);
        }
        state = next;
    }
    unreachable!("no film has so many steps")
}

/// The steps of a film that nothing stops.
pub fn steps(form: CallForm, film: &[u8], stream: usize, mut memory: Memory) -> Vec<Step> {
    let mut state = reference::film::open(film, stream).expect("a valid film");
    memory.state = numbers_of(state);
    let mut steps = Vec::new();
    loop {
        let before = memory.clone();
        let (answer, samples) = second_step(form, film, state, &mut memory, usize::MAX);
        let next = match answer {
            Stepped::Taken(next, ..) | Stepped::Whole(next, ..) | Stepped::Ended(next) => next,
            other => panic!("a valid film is answered {other:?}"),
        };
        memory.state = numbers_of(next);
        steps.push(Step { state, before, answer, samples });
        if let Stepped::Ended(_) = answer {
            return steps;
        }
        state = next;
    }
}

/// Which step has this state.
pub fn at(steps: &[Step], state: Numbers) -> Result<usize, String> {
    let step = steps.iter().position(|step| numbers_of(step.state) == state);
    step.ok_or_else(|| format!("the saved state is none of the film's: {state:?}"))
}

/// A step of the second decoder, and the samples that it writes.
pub(crate) fn second_step(
    form: CallForm,
    film: &[u8],
    state: State,
    memory: &mut Memory,
    allowed: usize,
) -> (Stepped, Vec<u8>) {
    let Memory { palette, pictures: [picture_a, picture_b], words, place, .. } = memory;
    let mut room = vec![0; ROOM_BYTES];
    let words = words.each_mut().map(Vec::as_mut_slice);
    let lent = Lent { palette, picture_a, picture_b, place, room: &mut room, words };
    let stepped = reference::film::step_as(form, film, state, lent, allowed);
    room.truncate(if let Stepped::Taken(_, _, bytes) = stepped { bytes } else { 0 });
    (stepped, room)
}

/// A step of the library.
pub(crate) fn own_step(
    form: mve::Form,
    film: &[u8],
    state: mve::State,
    memory: &mut Memory,
    room: &mut [u8],
    allowed: usize,
) -> Result<mve::Step, mve::Refusal> {
    let Memory { palette, pictures: [a, b], words: [c, d, e], place, .. } = memory;
    let pictures = &mut mve::Pictures { a, b, c, d, e };
    mve::step(film, state, palette, pictures, place, room, allowed, form)
}

impl Case for Walk {
    fn arguments(&self) -> Vec<String> {
        let form = form_name(self.form);
        vec!["--film".to_string(), form, self.allowed.to_string(), hex(&self.film)]
    }

    fn found(&self) -> &Memory {
        &self.found
    }

    fn stores(&self) -> &[Store] {
        &self.stores
    }

    fn answer(&self) -> &str {
        &self.answer
    }

    fn go_on(&self, left: &Memory) -> Result<(), String> {
        let stopped = at(&self.steps, left.state)?;
        let Step { state, answer: undisturbed, samples, .. } = &self.steps[stopped];
        // Behind the last step nothing is changed.
        let after = self.steps.get(stopped + 1).unwrap_or(&self.steps[stopped]);
        let mut memory = left.clone();
        let given =
            mve::State::from_numbers(&left.state).ok_or("the saved numbers are no state")?;
        let (mut room, form) = (vec![0; samples.len()], own_form(self.form));
        let step = own_step(form, &self.film, given, &mut memory, &mut room, usize::MAX)
            .map_err(|refusal| format!("the new step is refused: {refusal}"))?;
        memory.state = step.state().numbers();
        let due = list::due_at(&self.film, state, left.place).unwrap_or(0);
        match (undisturbed, step) {
            (Stepped::Taken(_, made, bytes), mve::Step::Taken { stores, bytes: again, .. })
                if *made == stores && *bytes == again => {}
            (Stepped::Ended(_), mve::Step::Ended { .. }) => {}
            (Stepped::Whole(_, _, touched), mve::Step::Whole { stores, rows: again, .. })
                if stores == due && again == rows(*touched) => {}
            _ => return Err(format!("the new step answers {step:?}, not {undisturbed:?}")),
        }
        if room != *samples {
            return Err("the samples are not as they are when nothing is stopped".to_string());
        }
        same(&memory, &after.before)
    }
}

/// Whether memory is as it is when nothing stops the call.
pub(crate) fn same(memory: &Memory, undisturbed: &Memory) -> Result<(), String> {
    let Memory { palette, pictures: [a, b], words: [c, d, e], place, state } = undisturbed;
    let differs = [
        (memory.palette != *palette, "palette"),
        (memory.pictures[0] != *a, "first picture"),
        (memory.pictures[1] != *b, "second picture"),
        (memory.words[0] != *c, "first picture of words"),
        (memory.words[1] != *d, "second picture of words"),
        (memory.words[2] != *e, "third picture of words"),
        (memory.place != *place, "place"),
        (memory.state != *state, "state"),
    ];
    match differs.iter().find(|(differs, _)| *differs) {
        Some((_, what)) => Err(format!("the {what} is not as it is when nothing is stopped")),
        None => Ok(()),
    }
}

/// No state: of a drawing call, which has none, and of an opening.
pub const NO_STATE: Numbers = [0; STATE_NUMBERS];

/// The library's form.
pub fn own_form(form: CallForm) -> mve::Form {
    match form {
        CallForm::Default => mve::Form::Default,
        CallForm::Strict => mve::Form::Strict,
    }
}

/// A form as an argument.
pub(crate) fn form_name(form: CallForm) -> String {
    format!("{form:?}")
}

/// The form of an argument.
pub fn form_named(word: &str) -> CallForm {
    CallForm::ALL.into_iter().find(|&form| form_name(form) == word).expect("a form")
}

/// Bytes as an argument.
pub(crate) fn hex(bytes: &[u8]) -> String {
    bytes.iter().map(|byte| format!("{byte:02x}")).collect()
}

/// The bytes of an argument.
pub fn hex_bytes(word: &str) -> Vec<u8> {
    let digit = |i: usize| u8::from_str_radix(&word[i..i + 2], 16).expect("two hex digits");
    (0..word.len()).step_by(2).map(digit).collect()
}
