//! The two forms of a call (02, W6): what a packet leaves over, and how the forms agree.

use crate::decoder::{Answer, Begun, Checked, Decoder, Opened, Step, Walked};
use crate::words;
use maker::states::Start;
use maker::Packet;
use reference::film::{opcode, opcode_head, State};
use reference::refusal::{self, Refusal};
use reference::word_packet::Left;
use reference::CallForm;

/// The bytes that a packet leaves over; none where it has a fault that comes before 15.
pub fn left_over(packet: &Packet) -> Option<usize> {
    let Packet { columns, rows, map, data } = packet;
    reference::packet::left_over(*columns, *rows, map, data).ok()
}

/// The packet that a step at a state of a film draws, if that is at opcode 11 with a map.
pub fn packet_at(film: &[u8], state: &State) -> Option<Packet> {
    let State { position, chunk_end, columns, rows, map, .. } = *state;
    let head = opcode_head(film, position, chunk_end).ok()?;
    let data = head.body.of(film)?.get(14..)?.to_vec();
    let map = map?.of(film)?.to_vec();
    (head.kind == opcode::VIDEO).then_some(Packet { columns, rows, map, data })
}

/// A decoder whose strict form is worked out from its default form, as the two must agree: a call that
/// the default form takes and whose packet leaves exactly one byte over is refused by 15, and changes
/// nothing; every other call comes to the same.
#[derive(Clone, Copy, Debug)]
pub struct FromDefault<D>(pub D);

impl<D: Decoder> Decoder for FromDefault<D> {
    fn name(&self) -> &'static str {
        "default form"
    }

    fn check(&self, form: CallForm, packet: &Packet) -> Checked {
        let answer = self.0.check(CallForm::Default, packet);
        if answer.is_ok() && is_odd(form, Some(packet)) {
            return Err(Refusal::new(refusal::DATA_LEFT));
        }
        answer
    }

    fn draw(
        &self,
        form: CallForm,
        packet: &Packet,
        front: &mut [u8],
        back: &mut [u8],
        place: &mut usize,
        allowed: usize,
    ) -> Answer {
        let found = (front.to_vec(), back.to_vec(), *place);
        let answer = self.0.draw(CallForm::Default, packet, front, back, place, allowed);
        if answer.is_ok() && is_odd(form, Some(packet)) {
            front.copy_from_slice(&found.0);
            back.copy_from_slice(&found.1);
            *place = found.2;
            return Err(Refusal::new(refusal::DATA_LEFT));
        }
        answer
    }

    fn open(&self, film: &[u8], stream: usize) -> Opened {
        self.0.open(film, stream)
    }

    fn begin(&self, film: &[u8], stream: usize, palette: &mut [u8], place: &mut usize) -> Begun {
        self.0.begin(film, stream, palette, place)
    }

    fn step(&self, form: CallForm, film: &[u8], walk: &mut Start) -> Walked {
        let found = walk.clone();
        let answer = self.0.step(CallForm::Default, film, walk);
        let draws = matches!(answer, Ok(Step::Whole(..) | Step::Unfinished(..)));
        let is_odd = if found.state.true_colour { are_odd_words } else { is_odd };
        if draws && is_odd(form, packet_at(film, &found.state).as_ref()) {
            *walk = found;
            return Err(Refusal::new(refusal::DATA_LEFT));
        }
        answer
    }

    fn shown<'a>(&self, state: &State, a: &'a [u8], b: &'a [u8]) -> &'a [u8] {
        self.0.shown(state, a, b)
    }

    fn check_words(&self, form: CallForm, packet: &Packet) -> Checked {
        let answer = self.0.check_words(CallForm::Default, packet);
        if answer.is_ok() && are_odd_words(form, Some(packet)) {
            return Err(Refusal::new(refusal::DATA_LEFT));
        }
        answer
    }

    fn draw_words(
        &self,
        form: CallForm,
        packet: &Packet,
        older: [&mut [u16]; 2],
        new: &mut [u16],
        place: &mut usize,
        allowed: usize,
    ) -> Answer {
        let found = (new.to_vec(), *place);
        let answer = self.0.draw_words(CallForm::Default, packet, older, new, place, allowed);
        if answer.is_ok() && are_odd_words(form, Some(packet)) {
            new.copy_from_slice(&found.0);
            *place = found.1;
            return Err(Refusal::new(refusal::DATA_LEFT));
        }
        answer
    }

    fn shown_words<'a>(&self, state: &State, pictures: [&'a [u16]; 3]) -> &'a [u16] {
        self.0.shown_words(state, pictures)
    }
}

/// Whether the call is strict and the packet leaves exactly one byte over.
fn is_odd(form: CallForm, packet: Option<&Packet>) -> bool {
    form == CallForm::Strict && packet.and_then(left_over) == Some(1)
}

/// The same of a packet with true colour: the byte is left in its second part (02, W7).
fn are_odd_words(form: CallForm, packet: Option<&Packet>) -> bool {
    let odd = Left { first: 0, second: 1 };
    form == CallForm::Strict && packet.and_then(words::left_over) == Some(odd)
}
