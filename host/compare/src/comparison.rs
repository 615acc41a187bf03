//! Comparing two decoders.

use crate::cases;
use crate::decoder::{Answer, Decoder};
use crate::difference::{difference_outside, first_difference, Difference, Part};
use crate::tally::Tally;
use maker::calls::{Call, CallList};
use maker::Packet;
use reference::book::{self, Book};
use reference::CallForm;
use std::fmt;
use std::ops::Range;

/// Two decoders, and a tally of what they were compared on.
#[derive(Clone, Debug)]
pub struct Comparison<A, B> {
    pub(crate) first: A,
    pub(crate) second: B,
    pub(crate) tally: Tally,
}

impl<A: Decoder, B: Decoder> Comparison<A, B> {
    /// A comparison that has still to be made.
    pub fn new(first: A, second: B) -> Self {
        Comparison { first, second, tally: Tally::default() }
    }

    /// What was compared so far.
    pub fn tally(&self) -> &Tally {
        &self.tally
    }

    /// Compares the answers to a check, in both forms.
    pub fn check(&mut self, packet: &Packet) -> Result<(), Difference> {
        self.tally.packets += 1;
        for form in CallForm::ALL {
            let (one, other) = (self.first.check(form, packet), self.second.check(form, packet));
            if one != other {
                let accounts = [
                    (self.first.name(), format!("{one:?}")),
                    (self.second.name(), format!("{other:?}")),
                ];
                return Err(Difference { call: 0, form, part: Part::Answer, accounts });
            }
            self.tally.checked(form, packet, one);
        }
        Ok(())
    }

    /// Compares a list of drawing calls, after every call: each decoder draws in memory of its own,
    /// and the book tells what must come of it.
    pub fn draw(&mut self, list: &CallList) -> Result<(), Difference> {
        let mut first = Drawing::start(&self.first, &list.back);
        let mut second = Drawing::start(&self.second, &list.back);
        let mut book = Book::open(&list.back);
        self.tally.packets += 1;
        for (number, call) in list.calls.iter().enumerate() {
            let (found, place) = (first.back.clone(), first.place);
            let seen = first.call(number, call);
            seen.keeps(&found, call)?;
            seen.agrees(&second.call(number, call))?;
            seen.agrees(&enter(&mut book, number, call))?;
            self.tally.called(call, found.len(), place..seen.place, seen.answer);
        }
        Ok(())
    }

    /// Compares the cases of these numbers, in order.
    pub fn run(&mut self, kind: Kind, seed: u64, numbers: Range<u64>) -> Result<(), Found> {
        for number in numbers {
            let compared = match kind {
                Kind::Packets => self.check(&cases::packet(seed, number)),
                Kind::Lists => self.draw(&cases::list(seed, number)),
                Kind::Words => self
                    .check_words(&cases::word_packet(seed, number))
                    .and_then(|()| self.draw_words(&cases::word_list(seed, number))),
                Kind::Films => self.walk(&cases::film(seed, number)),
                Kind::Sounds => self.walk(&cases::sound(seed, number)),
                Kind::Openings => self.begin(&cases::opening(seed, number)),
                Kind::Cuts => self.cut_film(&cases::cut_film(seed, number), number),
            };
            compared.map_err(|difference| Found {
                kind,
                seed,
                number,
                difference: Box::new(difference),
            })?;
        }
        Ok(())
    }
}

/// The kinds of cases.
#[derive(Clone, Copy, Debug, PartialEq, Eq)]
pub enum Kind {
    /// Packets to check.
    Packets,
    /// Packets to draw by a list of calls.
    Lists,
    /// Packets with true colour: one to check, and one to draw by a list of calls.
    Words,
    /// Films to step over.
    Films,
    /// Films with sound to step over.
    Sounds,
    /// Films to open up to their size.
    Openings,
    /// Films to play through cuts.
    Cuts,
}

impl Kind {
    /// Every kind.
    pub const ALL: [Kind; 7] = [
        Kind::Packets,
        Kind::Lists,
        Kind::Words,
        Kind::Films,
        Kind::Sounds,
        Kind::Openings,
        Kind::Cuts,
    ];
}

impl fmt::Display for Kind {
    fn fmt(&self, f: &mut fmt::Formatter<'_>) -> fmt::Result {
        f.write_str(match self {
            Kind::Packets => "packets",
            Kind::Lists => "lists",
            Kind::Words => "words",
            Kind::Films => "films",
            Kind::Sounds => "sounds",
            Kind::Openings => "openings",
            Kind::Cuts => "cuts",
        })
    }
}

/// A difference, and the case that shows it: [`cases`] makes it again.
#[derive(Clone, Debug, PartialEq, Eq)]
pub struct Found {
    /// The kind of the case.
    pub kind: Kind,
    /// The seed of the cases.
    pub seed: u64,
    /// The number of the case.
    pub number: u64,
    /// The difference.
    pub difference: Box<Difference>,
}

impl fmt::Display for Found {
    fn fmt(&self, f: &mut fmt::Formatter<'_>) -> fmt::Result {
        let Found { kind, seed, number, difference } = self;
        write!(f, "difference in {kind}, seed {seed}, case {number}, {difference}")
    }
}

impl std::error::Error for Found {}

/// A decoder at work on a list of calls, with memory of its own.
struct Drawing<'a, D> {
    decoder: &'a D,
    front: Vec<u8>,
    back: Vec<u8>,
    place: usize,
}

impl<'a, D: Decoder> Drawing<'a, D> {
    fn start(decoder: &'a D, back: &[u8]) -> Self {
        Drawing { decoder, front: Vec::new(), back: back.to_vec(), place: 0 }
    }

    fn call(&mut self, number: usize, call: &Call) -> Seen<'_> {
        self.front.clone_from(&call.front);
        let answer = self.decoder.draw(
            call.form,
            &call.packet,
            &mut self.front,
            &mut self.back,
            &mut self.place,
            call.stores_fed(),
        );
        Seen {
            by: self.decoder.name(),
            call: number,
            form: call.form,
            answer,
            place: self.place,
            front: &self.front,
            back: &self.back,
        }
    }
}

/// The book's account of a call. "The shown picture stays" (01).
fn enter<'a>(book: &'a mut Book<u8>, number: usize, call: &'a Call) -> Seen<'a> {
    let Packet { columns, rows, map, data } = &call.packet;
    let answer = book.enter(&book::Call {
        form: call.form,
        columns: *columns,
        rows: *rows,
        map,
        data,
        front: &call.front,
        allowed: call.stores_fed(),
    });
    Seen {
        by: "book",
        call: number,
        form: call.form,
        answer,
        place: book.place(),
        front: &call.front,
        back: book.picture(),
    }
}

/// All that can be seen of a drawing call.
struct Seen<'a> {
    by: &'static str,
    call: usize,
    form: CallForm,
    answer: Answer,
    place: usize,
    front: &'a [u8],
    back: &'a [u8],
}

impl Seen<'_> {
    /// Two accounts of one call are the same.
    fn agrees(&self, other: &Seen<'_>) -> Result<(), Difference> {
        if self.answer != other.answer {
            return self.differs(Part::Answer, self.answer, other.by, other.answer);
        }
        if self.place != other.place {
            return self.differs(Part::Place, self.place, other.by, other.place);
        }
        if let Some(at) = first_difference(self.front, other.front) {
            return self.differs(Part::Front(at), self.front[at], other.by, other.front[at]);
        }
        if let Some(at) = first_difference(self.back, other.back) {
            return self.differs(Part::Back(at), self.back[at], other.by, other.back[at]);
        }
        Ok(())
    }

    /// A refused call leaves the picture as it was found, any other all that lies outside the rows that
    /// it tells.
    fn keeps(&self, found: &[u8], call: &Call) -> Result<(), Difference> {
        let rows = self.answer.ok().and_then(|drawn| drawn.rows);
        match difference_outside(rows, call.packet.columns, self.back, found) {
            None => Ok(()),
            Some(at) => self.differs(Part::Kept(at), self.back[at], "as found", found[at]),
        }
    }

    fn differs<T: fmt::Debug>(
        &self,
        part: Part,
        value: T,
        other: &'static str,
        other_value: T,
    ) -> Result<(), Difference> {
        let accounts = [(self.by, format!("{value:?}")), (other, format!("{other_value:?}"))];
        Err(Difference { call: self.call, form: self.form, part, accounts })
    }
}
