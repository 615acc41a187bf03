//! Comparing two decoders on packets with true colour (02, W7): checks, and lists of drawing calls after every
//! call, held against the book of demand 3, too.

use crate::comparison::Comparison;
use crate::decoder::{Answer, Decoder};
use crate::difference::{difference_outside, first_difference, Difference, Part};
use maker::word_calls::{WordCall, WordCallList};
use maker::{Packet, WordForm};
use reference::book::{self, Book};
use reference::word_packet::{self, Left};
use reference::CallForm;
use std::fmt::Debug;

/// What a packet leaves over in both parts; none where it has a fault that comes before 15.
pub fn left_over(packet: &Packet) -> Option<Left> {
    let Packet { columns, rows, map, data } = packet;
    word_packet::words_left_over(*columns, *rows, map, data).ok()
}

/// The forms of a packet's blocks, in order; none where it has a fault.
pub fn forms(packet: &Packet) -> Vec<WordForm> {
    let Packet { columns, rows, map, data } = packet;
    let blocks = word_packet::word_blocks(*columns, *rows, map, data).unwrap_or_default();
    let Ok(mut parts) = word_packet::parts(data) else { return Vec::new() };
    let form = |block: &word_packet::WordBlock| {
        let form = WordForm::of(block.code, parts.first);
        parts.block(block.code)?;
        form
    };
    blocks.iter().map_while(form).collect()
}

impl<A: Decoder, B: Decoder> Comparison<A, B> {
    /// Compares the answers to a check of words, in both forms.
    pub fn check_words(&mut self, packet: &Packet) -> Result<(), Difference> {
        self.tally.packets += 1;
        for form in CallForm::ALL {
            let one = self.first.check_words(form, packet);
            let other = self.second.check_words(form, packet);
            if one != other {
                let accounts = [
                    (self.first.name(), format!("{one:?}")),
                    (self.second.name(), format!("{other:?}")),
                ];
                return Err(Difference { call: 0, form, part: Part::Answer, accounts });
            }
            self.tally.checked_words(form, packet, one);
        }
        Ok(())
    }

    /// Compares a list of drawing calls of words, after every call: each decoder draws in memory of its
    /// own, and the book tells what must come of it.
    pub fn draw_words(&mut self, list: &WordCallList) -> Result<(), Difference> {
        let mut first = Drawing::start(&self.first, &list.new);
        let mut second = Drawing::start(&self.second, &list.new);
        let mut book = Book::open(&list.new);
        self.tally.packets += 1;
        for (number, call) in list.calls.iter().enumerate() {
            let (found, place) = (first.new.clone(), first.place);
            let seen = first.call(number, call);
            seen.keeps(&found, call)?;
            seen.agrees(&second.call(number, call))?;
            seen.agrees(&enter(&mut book, number, call))?;
            self.tally.called_words(call, found.len(), place..seen.place, seen.answer);
        }
        Ok(())
    }
}

/// A decoder at work on a list of calls, with memory of its own.
struct Drawing<'a, D> {
    decoder: &'a D,
    older: [Vec<u16>; 2],
    new: Vec<u16>,
    place: usize,
}

impl<'a, D: Decoder> Drawing<'a, D> {
    fn start(decoder: &'a D, new: &[u16]) -> Self {
        Drawing { decoder, older: Default::default(), new: new.to_vec(), place: 0 }
    }

    fn call(&mut self, number: usize, call: &WordCall) -> Seen<'_> {
        self.older = [call.last.clone(), call.oldest.clone()];
        let [last, oldest] = &mut self.older;
        let (new, place, allowed) = (&mut self.new, &mut self.place, call.stores_fed());
        let answer =
            self.decoder.draw_words(call.form, &call.packet, [last, oldest], new, place, allowed);
        let (by, form) = (self.decoder.name(), call.form);
        let older = self.older.each_ref().map(Vec::as_slice);
        Seen { by, call: number, form, answer, place: self.place, older, new: &self.new }
    }
}

/// The book's account of a call: both older pictures stay.
fn enter<'a>(book: &'a mut Book<u16>, number: usize, call: &'a WordCall) -> Seen<'a> {
    let Packet { columns, rows, map, data } = &call.packet;
    let (form, older) = (call.form, [&call.last[..], &call.oldest]);
    let answer = book.enter_words(&book::WordCall {
        form,
        columns: *columns,
        rows: *rows,
        map,
        packet: data,
        last: older[0],
        oldest: older[1],
        allowed: call.stores_fed(),
    });
    let (place, new) = (book.place(), book.picture());
    Seen { by: "book", call: number, form, answer, place, older, new }
}

/// All that can be seen of a drawing call.
struct Seen<'a> {
    by: &'static str,
    call: usize,
    form: CallForm,
    answer: Answer,
    place: usize,
    older: [&'a [u16]; 2],
    new: &'a [u16],
}

impl Seen<'_> {
    /// Two accounts of one call are the same.
    fn agrees(&self, other: &Seen<'_>) -> Result<(), Difference> {
        if self.answer != other.answer {
            return self.differs(Part::Answer, self.answer, other.by, other.answer);
        }
        if self.place != other.place {
            return self.differs(Part::Place, self.place, other.by, other.place);
        }
        let pictures = [
            (Part::Last as fn(usize) -> Part, self.older[0], other.older[0]),
            (Part::Oldest, self.older[1], other.older[1]),
            (Part::New, self.new, other.new),
        ];
        for (part, one, two) in pictures {
            if let Some(at) = first_difference(one, two) {
                return self.differs(part(at), one[at], other.by, two[at]);
            }
        }
        Ok(())
    }

    /// A refused call leaves the picture as it was found, any other all words beyond the frame.
    fn keeps(&self, found: &[u16], call: &WordCall) -> Result<(), Difference> {
        let rows = self.answer.ok().and_then(|drawn| drawn.rows);
        match difference_outside(rows, call.packet.columns, self.new, found) {
            None => Ok(()),
            Some(at) => self.differs(Part::Kept(at), self.new[at], "as found", found[at]),
        }
    }

    fn differs<T: Debug>(
        &self,
        part: Part,
        value: T,
        other: &'static str,
        other_value: T,
    ) -> Result<(), Difference> {
        let accounts = [(self.by, format!("{value:?}")), (other, format!("{other_value:?}"))];
        Err(Difference { call: self.call, form: self.form, part, accounts })
    }
}
