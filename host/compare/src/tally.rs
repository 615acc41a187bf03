//! Counts of what the cases reached.

use crate::cases::Opening;
use crate::decoder::{Answer, Begun, Checked, Step, Walked};
use crate::forms::{left_over, packet_at};
use crate::words;
use maker::calls::Call;
use maker::sound::Format;
use maker::states::Start;
use maker::word_calls::WordCall;
use maker::{Form, Packet, WordForm};
use reference::begin::Unbegun;
use reference::film::{chunk_head, opcode, opcode_head, State, HEADER};
use reference::sound::Sound;
use reference::{CallForm, Drawn, Refusal, Rows};
use std::collections::BTreeMap;
use std::fmt;
use std::ops::Range;

/// Something that a case can reach.
#[derive(Clone, Copy, Debug, PartialEq, Eq, PartialOrd, Ord)]
pub enum Event {
    /// A packet is accepted by a check.
    Accepted,
    /// A check, a drawing call, an opening or a step is refused with this number.
    Refused(u8),
    /// A refusal names a block behind the first.
    LaterBlock,
    /// A drawing call or a step finishes the frame.
    Whole,
    /// A drawing call or a step finds the frame finished.
    WholeBefore,
    /// A drawing call or a step leaves the frame unfinished.
    Unfinished,
    /// An accepted drawing call is allowed no store.
    NothingAllowed,
    /// An accepted drawing call is cut.
    Cut,
    /// A drawing call is refused where blocks of the frame are finished.
    RefusedBetween,
    /// The pictures of an accepted drawing call are longer than the frame.
    Longer,
    /// A block of this form is in an accepted packet, or is finished by a drawing call or a step.
    Form(Form),
    /// A frame of one block is accepted, or finished.
    Smallest,
    /// A frame of 80x60 blocks is accepted, or finished.
    Largest,
    /// A film is opened.
    Opened,
    /// A film is opened up to its size, for a stream of its sound or for none.
    Begun(bool),
    /// In a film that is opened up to its size, an opcode of this type stands in front of 05.
    Before(u8),
    /// In a film that is opened up to its size, an empty chunk stands in front of 05.
    EmptyBefore,
    /// In a film whose opening is refused by this number, an opcode of this type was taken before.
    RefusedAfter(u8, u8),
    /// A step takes a chunk head or an opcode other than 11.
    Taken,
    /// A step finds the film at its end.
    Ended,
    /// A step takes an opcode of this type.
    Opcode(u8),
    /// A step at an opcode of this type makes stores and runs short of them.
    Short(u8),
    /// A step at an opcode of this type is allowed no store, and needs some.
    NoneAllowed(u8),
    /// In this form, a packet is accepted, or a drawing call or a step draws it, that leaves so many
    /// bytes over.
    TakenOver(CallForm, usize),
    /// In this form, one is refused by 15 that leaves so many bytes over, 3 standing for more.
    RefusedOver(CallForm, usize),
    /// Of a packet that is accepted, or that a drawing call or a step draws, these rows are touched.
    Touched(Touched),
    /// A drawing call or a step finds rows finished that its packet touches, and tells them.
    TouchedBefore,
    /// A step makes the picture drawn on the shown one.
    Turned,
    /// A step changes the palette.
    Coloured,
    /// A picture is shown after a step.
    Shown,
    /// A step writes samples of this format: of compressed sound, goes on from the last samples or
    /// not.
    Written(Format, bool),
    /// A block of this form is in an accepted packet with true colour, or is finished by a drawing call or
    /// a step.
    WordForm(WordForm),
    /// In this form, a packet with true colour is taken that leaves so many bytes over in its second part.
    TakenWords(CallForm, usize),
    /// In this form, one is refused by 15 that leaves so many bytes over in its first part and in its
    /// second, 2 and 3 standing for more.
    RefusedWords(CallForm, usize, usize),
    /// A packet with true colour is refused by 20 for this.
    Unparted(Unparted),
    /// One is refused by 13 since its first part is short, or its second one.
    ShortPart(u8),
    /// A step at a film with true colour is refused by 5 for a body of 14 or 15 bytes, where a map is
    /// pending or not.
    ShortVideo(bool),
    /// A step makes this picture of words the shown one.
    TurnedTo(usize),
    /// A step sends no frame of a film with true colour, since none is finished.
    NotTurned,
    /// A step at a film with true colour gives this kind of answer: taken, whole, unfinished, ended.
    Deep(&'static str),
    /// A step at a film with true colour is refused with this number.
    DeepRefused(u8),
    /// A picture of words is shown after a step.
    ShownWords,
}

/// Why a packet with true colour has not its two parts.
#[derive(Clone, Copy, Debug, PartialEq, Eq, PartialOrd, Ord)]
pub enum Unparted {
    /// It has fewer than two bytes.
    Short,
    /// The offset is below 2.
    Below,
    /// The offset is past its end.
    Past,
}

impl Unparted {
    /// Every kind.
    pub const ALL: [Unparted; 3] = [Unparted::Short, Unparted::Below, Unparted::Past];

    fn of(packet: &[u8]) -> Unparted {
        match *packet {
            [low, 0, ..] if low < 2 => Unparted::Below,
            [_, _, ..] => Unparted::Past,
            _ => Unparted::Short,
        }
    }
}

/// Which rows of a frame a packet touches.
#[derive(Clone, Copy, Debug, PartialEq, Eq, PartialOrd, Ord)]
pub enum Touched {
    /// None: every block is code 1.
    None,
    /// All rows of several.
    All,
    /// The first row alone of several.
    First,
    /// The last row alone of several.
    Last,
    /// Rows between the first and the last one, which are not touched.
    Between,
    /// A single block of several.
    OneBlock,
    /// Blocks of code 0 and of code 1 alone.
    SameBlocks,
}

impl Touched {
    /// Every kind.
    pub const ALL: [Touched; 7] = [
        Touched::None,
        Touched::All,
        Touched::First,
        Touched::Last,
        Touched::Between,
        Touched::OneBlock,
        Touched::SameBlocks,
    ];

    /// The kinds that an accepted packet with these rows is of.
    fn kinds(packet: &Packet, rows: Option<Rows>) -> Vec<Touched> {
        let Some(Rows { first, last }) = rows else { return vec![Touched::None] };
        let end = packet.rows - 1;
        let codes: Vec<u8> = packet.map.iter().flat_map(|byte| [byte & 0x0F, byte >> 4]).collect();
        let codes = &codes[..packet.columns * packet.rows];
        let touched = || codes.iter().filter(|&&code| code != 1);
        let is = [
            (Touched::All, end > 0 && (first, last) == (0, end)),
            (Touched::First, end > 0 && (first, last) == (0, 0)),
            (Touched::Last, end > 0 && (first, last) == (end, end)),
            (Touched::Between, first > 0 && last < end),
            (Touched::OneBlock, codes.len() > 1 && touched().count() == 1),
            (Touched::SameBlocks, touched().all(|&code| code == 0)),
        ];
        is.into_iter().filter(|(_, is)| *is).map(|(kind, _)| kind).collect()
    }
}

/// How many cases were compared, and what they reached.
#[derive(Clone, Debug, Default)]
pub struct Tally {
    /// Packets checked, or drawn by a list of calls.
    pub packets: usize,
    /// Drawing calls made.
    pub calls: usize,
    /// Films opened, or refused at that.
    pub films: usize,
    /// Steps taken over films.
    pub steps: usize,
    /// Stores made by calls and steps.
    pub stores: usize,
    /// Steps that wrote samples.
    pub sounds: usize,
    reached: BTreeMap<Event, usize>,
}

impl Tally {
    /// How often something was reached.
    pub fn times(&self, event: Event) -> usize {
        self.reached.get(&event).copied().unwrap_or(0)
    }

    fn note(&mut self, event: Event) {
        *self.reached.entry(event).or_insert(0) += 1;
    }

    /// Counts a check.
    pub(crate) fn checked(&mut self, form: CallForm, packet: &Packet, answer: Checked) {
        self.over(form, Some(packet), answer.err());
        match answer {
            Err(refusal) => self.refused(refusal),
            Ok(rows) => {
                self.note(Event::Accepted);
                self.touched(packet, 0, rows);
                self.frame(packet);
                self.forms(packet, 0..usize::MAX);
            }
        }
    }

    /// Counts a check of words.
    pub(crate) fn checked_words(&mut self, form: CallForm, packet: &Packet, answer: Checked) {
        self.words_told(form, Some(packet), answer.err());
        match answer {
            Err(refusal) => self.refused(refusal),
            Ok(_) => {
                self.note(Event::Accepted);
                self.frame(packet);
                self.word_forms(packet, 0..usize::MAX);
            }
        }
    }

    /// Counts a drawing call of words that led from one place to another.
    pub(crate) fn called_words(
        &mut self,
        call: &WordCall,
        new: usize,
        places: Range<usize>,
        answer: Answer,
    ) {
        self.calls += 1;
        self.words_told(call.form, Some(&call.packet), answer.err());
        match answer {
            Err(refusal) => {
                self.refused(refusal);
                if places.start > 0 {
                    self.note(Event::RefusedBetween);
                }
            }
            Ok(drawn) => {
                self.made(&call.packet, drawn);
                self.allowed(call.stores_fed(), call.cut);
                self.word_forms(&call.packet, places);
                if new > call.packet.pixels() {
                    self.note(Event::Longer);
                }
            }
        }
    }

    /// What a packet with true colour is taken or refused for.
    fn words_told(&mut self, form: CallForm, packet: Option<&Packet>, refused: Option<Refusal>) {
        let Some(packet) = packet else { return };
        let left = words::left_over(packet);
        match (refused, left) {
            (None, Some(left)) => self.note(Event::TakenWords(form, left.second)),
            (Some(Refusal { number: 15, .. }), Some(left)) => {
                self.note(Event::RefusedWords(form, left.first.min(2), left.second.min(3)));
            }
            (Some(Refusal { number: 20, .. }), _) => {
                self.note(Event::Unparted(Unparted::of(&packet.data)));
            }
            (Some(Refusal { number: 13, block }), _) => {
                let byte = packet.map[block / 2];
                let code = if block % 2 == 0 { byte & 0x0F } else { byte >> 4 };
                self.note(Event::ShortPart(if (2..=4).contains(&code) { 2 } else { 1 }));
            }
            _ => (),
        }
    }

    /// The blocks of an accepted packet with true colour, or those that were finished.
    fn word_forms(&mut self, packet: &Packet, places: Range<usize>) {
        if places.is_empty() {
            return;
        }
        for form in words::forms(packet).into_iter().take(places.end).skip(places.start) {
            self.note(Event::WordForm(form));
        }
    }

    /// Counts a drawing call that led from one place to another.
    pub(crate) fn called(
        &mut self,
        call: &Call,
        back: usize,
        places: Range<usize>,
        answer: Answer,
    ) {
        self.calls += 1;
        self.over(call.form, Some(&call.packet), answer.err());
        match answer {
            Err(refusal) => {
                self.refused(refusal);
                if places.start > 0 {
                    self.note(Event::RefusedBetween);
                }
            }
            Ok(drawn) => {
                self.touched(&call.packet, places.start, drawn.rows);
                self.drawn(call, places, drawn);
                if back > call.packet.pixels() {
                    self.note(Event::Longer);
                }
            }
        }
    }

    /// Counts an opening.
    pub(crate) fn opened(&mut self, answer: Result<State, Refusal>) {
        match answer {
            Err(refusal) => self.refused(refusal),
            Ok(_) => self.note(Event::Opened),
        }
    }

    /// Counts an opening up to the size, with what the steps up to there took.
    pub(crate) fn begun(&mut self, opening: &Opening, answer: Begun) {
        let Opening { film, stream, .. } = opening;
        let (end, number) = match answer {
            Ok(state) => {
                self.note(Event::Begun(*stream < 16));
                (state.position, None)
            }
            Err(Unbegun { refusal, state }) => {
                self.refused(refusal);
                (state.map_or(0, |state| state.position), Some(refusal.number))
            }
        };
        let (mut position, mut chunk_end) = (HEADER.len(), HEADER.len());
        while position < end {
            if position == chunk_end {
                let Ok(head) = chunk_head(film, position) else { return };
                position = head.body.start;
                chunk_end = position + head.body.length;
                if head.body.length == 0 && number.is_none() {
                    self.note(Event::EmptyBefore);
                }
                continue;
            }
            let Ok(head) = opcode_head(film, position, chunk_end) else { return };
            position = head.body.start + head.body.length;
            match number {
                None if position < end => self.note(Event::Before(head.kind)),
                Some(number) => self.note(Event::RefusedAfter(number, head.kind)),
                None => (),
            }
        }
    }

    /// Counts a step over a film; `shown` tells whether a picture is shown after it, of bytes and of words.
    pub(crate) fn stepped(
        &mut self,
        form: CallForm,
        film: &[u8],
        found: &Start,
        left: &Start,
        answer: Walked,
        shown: (bool, bool),
    ) {
        self.steps += 1;
        if found.state.true_colour {
            self.deep(form, film, found, left, answer);
        } else {
            self.over(form, packet_at(film, &found.state).as_ref(), answer.err());
        }
        match answer {
            Err(refusal) => self.refused(refusal),
            Ok(Step::Taken(stores, bytes)) => {
                self.stores += stores;
                self.note(Event::Taken);
                self.opcode(film, &found.state);
                self.heard(&found.state.sound, bytes);
            }
            Ok(Step::Whole(stores, rows)) => {
                self.stores += stores;
                self.note(if stores > 0 { Event::Whole } else { Event::WholeBefore });
                self.opcode(film, &found.state);
                self.video(film, found, left.place, rows);
            }
            Ok(Step::Unfinished(stores, rows)) => {
                self.stores += stores;
                self.note(Event::Unfinished);
                self.short(film, &found.state, stores);
                self.video(film, found, left.place, rows);
            }
            Ok(Step::Ended) => self.note(Event::Ended),
        }
        if found.state.front != left.state.front {
            self.note(Event::Turned);
        }
        if found.palette != left.palette {
            self.note(Event::Coloured);
        }
        if shown.0 {
            self.note(Event::Shown);
        }
        if shown.1 {
            self.note(Event::ShownWords);
        }
    }

    /// What a step at a film with true colour reaches.
    fn deep(&mut self, form: CallForm, film: &[u8], found: &Start, left: &Start, answer: Walked) {
        let State { position, chunk_end, front, map, .. } = found.state;
        let head = opcode_head(film, position, chunk_end);
        let is_at = |kind| head.is_ok_and(|head| head.kind == kind);
        self.note(match answer {
            Ok(Step::Taken(..)) => Event::Deep("taken"),
            Ok(Step::Whole(..)) => Event::Deep("whole"),
            Ok(Step::Unfinished(..)) => Event::Deep("unfinished"),
            Ok(Step::Ended) => Event::Deep("ended"),
            Err(refusal) => Event::DeepRefused(refusal.number),
        });
        let drawn = matches!(answer, Ok(Step::Whole(..) | Step::Unfinished(..)));
        if drawn || answer.is_err() && is_at(opcode::VIDEO) {
            self.words_told(form, packet_at(film, &found.state).as_ref(), answer.err());
        }
        if answer.is_err_and(|refusal| refusal.number == 5) && is_at(opcode::VIDEO) {
            let length = head.map_or(0, |head| head.body.length);
            if length >= 14 {
                self.note(Event::ShortVideo(map.is_some()));
            }
        }
        if front != left.state.front {
            self.note(Event::TurnedTo(left.state.front));
        } else if answer.is_ok() && is_at(opcode::SEND) {
            self.note(Event::NotTurned);
        }
    }

    /// The samples that a step wrote.
    fn heard(&mut self, sound: &Sound, bytes: usize) {
        let Sound { stereo, wide, compressed, begun, .. } = *sound;
        if bytes > 0 {
            self.sounds += 1;
            self.note(Event::Written(Format { stereo, wide, compressed }, compressed && begun));
        }
    }

    /// The opcode that a step took, if it was no chunk head.
    fn opcode(&mut self, film: &[u8], state: &State) {
        if let Ok(head) = opcode_head(film, state.position, state.chunk_end) {
            self.note(Event::Opcode(head.kind));
        }
    }

    /// The opcode that a step with so many stores ran short at.
    fn short(&mut self, film: &[u8], state: &State, stores: usize) {
        if let Ok(head) = opcode_head(film, state.position, state.chunk_end) {
            let event = if stores > 0 { Event::Short } else { Event::NoneAllowed };
            self.note(event(head.kind));
        }
    }

    /// The blocks that a step over opcode 11 finished, and the rows that it told.
    fn video(&mut self, film: &[u8], found: &Start, place: usize, rows: Option<Rows>) {
        match packet_at(film, &found.state) {
            Some(packet) if found.state.true_colour => self.word_forms(&packet, found.place..place),
            Some(packet) => {
                self.touched(&packet, found.place, rows);
                self.forms(&packet, found.place..place);
            }
            None => (),
        }
    }

    /// The rows told of a packet, by a call that found this place.
    fn touched(&mut self, packet: &Packet, place: usize, rows: Option<Rows>) {
        for kind in Touched::kinds(packet, rows) {
            self.note(Event::Touched(kind));
        }
        if rows.is_some_and(|rows| rows.first < place / packet.columns) {
            self.note(Event::TouchedBefore);
        }
    }

    /// What a packet leaves over that is taken, or refused by 15.
    fn over(&mut self, form: CallForm, packet: Option<&Packet>, refused: Option<Refusal>) {
        let Some(over) = packet.and_then(left_over) else { return };
        match refused {
            None => self.note(Event::TakenOver(form, over)),
            Some(Refusal { number: 15, .. }) => {
                self.note(Event::RefusedOver(form, over.min(3)));
            }
            Some(_) => (),
        }
    }

    fn refused(&mut self, refusal: Refusal) {
        self.note(Event::Refused(refusal.number));
        if refusal.block > 0 {
            self.note(Event::LaterBlock);
        }
    }

    fn drawn(&mut self, call: &Call, places: Range<usize>, drawn: Drawn) {
        self.made(&call.packet, drawn);
        self.allowed(call.stores_fed(), call.cut);
        if !places.is_empty() {
            self.forms(&call.packet, places);
        }
    }

    /// The stores that an accepted call made.
    fn made(&mut self, packet: &Packet, drawn: Drawn) {
        self.stores += drawn.stores;
        match drawn {
            Drawn { whole: true, stores: 0, .. } => self.note(Event::WholeBefore),
            Drawn { whole: true, .. } => {
                self.note(Event::Whole);
                self.frame(packet);
            }
            Drawn { whole: false, .. } => self.note(Event::Unfinished),
        }
    }

    /// What an accepted call was allowed.
    fn allowed(&mut self, stores: usize, cut: Option<usize>) {
        if stores == 0 {
            self.note(Event::NothingAllowed);
        }
        if cut.is_some() {
            self.note(Event::Cut);
        }
    }

    fn frame(&mut self, packet: &Packet) {
        match (packet.columns, packet.rows) {
            (1, 1) => self.note(Event::Smallest),
            (80, 60) => self.note(Event::Largest),
            _ => (),
        }
    }

    fn forms(&mut self, packet: &Packet, places: Range<usize>) {
        let Packet { columns, rows, map, data } = packet;
        let blocks = reference::packet::blocks(*columns, *rows, map, data).unwrap_or_default();
        for block in blocks.iter().take(places.end).skip(places.start) {
            if let Some(form) = Form::of(block.code, block.data) {
                self.note(Event::Form(form));
            }
        }
    }
}

impl fmt::Display for Tally {
    fn fmt(&self, f: &mut fmt::Formatter<'_>) -> fmt::Result {
        let Tally { packets, calls, films, steps, stores, sounds, .. } = self;
        write!(
            f,
            "{packets} packets, {calls} calls, {films} films, {steps} steps, {stores} stores"
        )?;
        write!(f, ", {sounds} sounds")
    }
}
