//! A drawing call of words, stopped (02, W7). The first picture of words is the last, the second the new one,
//! which is drawn on, the third the oldest: as in a film whose front is 0.

use crate::cases::{form_name, hex, rows, same, Case};
use crate::kept::Memory;
use crate::list::{self, Store};
use reference::CallForm;

/// A call of `mve_draw_words` or `mve_draw_words_strict`.
#[derive(Clone, Debug)]
pub struct WordDrawing {
    form: CallForm,
    packet: maker::Packet,
    allowed: usize,
    found: Memory,
    stores: Vec<Store>,
    answer: String,
    /// The rows that the packet touches, which every call tells.
    rows: Option<mve::Rows>,
    end: Memory,
}

impl WordDrawing {
    /// A call of this form with a packet that is valid in it, behind an earlier one that made so many
    /// stores.
    pub fn new(
        form: CallForm,
        packet: maker::Packet,
        first: Memory,
        earlier: usize,
        allowed: usize,
    ) -> WordDrawing {
        let (mut found, mut end) = (first.clone(), first);
        second_draw(form, &packet, &mut found, earlier);
        second_draw(form, &packet, &mut end, usize::MAX);
        let drawn = second_draw(form, &packet, &mut found.clone(), allowed);
        let answer = match drawn.whole {
            true => format!("whole {}\n", drawn.stores),
            false => format!("unfinished {}\n", drawn.stores),
        };
        let mut stores = list::word_drawing(&packet, &found).expect("a valid packet");
        stores.truncate(allowed);
        WordDrawing { form, packet, allowed, found, stores, answer, rows: rows(drawn.rows), end }
    }

    /// The form of the call.
    pub fn form(&self) -> CallForm {
        self.form
    }

    /// The packet.
    pub fn packet(&self) -> &maker::Packet {
        &self.packet
    }
}

/// A call of the second decoder.
fn second_draw(
    form: CallForm,
    packet: &maker::Packet,
    memory: &mut Memory,
    allowed: usize,
) -> reference::Drawn {
    let maker::Packet { columns, rows, map, data } = packet;
    let Memory { words: [last, new, oldest], place, .. } = memory;
    reference::draw_words_as(form, *columns, *rows, map, data, last, oldest, new, place, allowed)
        .expect("a valid packet")
}

impl Case for WordDrawing {
    fn arguments(&self) -> Vec<String> {
        let maker::Packet { columns, rows, map, data } = &self.packet;
        let mut words = vec!["--draw-words".to_string(), form_name(self.form)];
        words.extend([*columns, *rows, self.allowed].map(|number| number.to_string()));
        words.extend([hex(map), hex(data)]);
        words
    }

    fn found(&self) -> &Memory {
        &self.found
    }

    fn stores(&self) -> &[Store] {
        &self.stores
    }

    fn answer(&self) -> &str {
        &self.answer
    }

    fn go_on(&self, left: &Memory) -> Result<(), String> {
        let maker::Packet { columns, rows, map, data } = &self.packet;
        let due = 65 * (columns * rows - left.place);
        let mut memory = left.clone();
        let Memory { words: [last, new, oldest], place, .. } = &mut memory;
        let draw = match self.form {
            CallForm::Default => mve::draw_words,
            CallForm::Strict => mve::draw_words_strict,
        };
        let drawn = draw(*columns, *rows, map, data, last, oldest, new, place, usize::MAX);
        if drawn != Ok(mve::Drawn::Whole { stores: due, rows: self.rows }) {
            let rows = self.rows;
            return Err(format!("the new call answers {drawn:?}: due are {due} stores, {rows:?}"));
        }
        same(&memory, &self.end)
    }
}
