//! A difference in packets or films with true colour would be found (02, W7): the second decoder with a fault
//! takes the proved library's place, and each fault is reported, as what it is, within the first cases that
//! `words` and `films` go through. Several are readings of the request that look right.

use compare::forms::packet_at;
use compare::{
    Answer, Begun, Checked, Comparison, Decoder, Found, FromDefault, Kind, Opened, Part, Second,
    Step, Walked,
};
use maker::states::Start;
use maker::Packet;
use reference::film::{opcode, opcode_head, State};
use reference::word_packet;
use reference::{draw_words_as, CallForm, Refusal, Rows};

const SEED: u64 = 1;
const CASES: u64 = 1500;

/// A drawing call that was made without fault, for one to be put in.
struct Made<'a> {
    form: CallForm,
    packet: &'a Packet,
    /// The picture and the place that the call found.
    found: (Vec<u16>, usize),
    last: &'a mut [u16],
    oldest: &'a mut [u16],
    new: &'a mut [u16],
    place: &'a mut usize,
    allowed: usize,
    answer: Answer,
}

impl Made<'_> {
    /// Makes the call anew, with another packet and other pictures.
    fn anew(&mut self, packet: &Packet, last: &[u16], oldest: &[u16]) {
        self.new.copy_from_slice(&self.found.0);
        *self.place = self.found.1;
        let Packet { columns, rows, map, data } = packet;
        let (form, new, place) = (self.form, &mut *self.new, &mut *self.place);
        self.answer =
            draw_words_as(form, *columns, *rows, map, data, last, oldest, new, place, self.allowed);
    }

    fn codes(&self) -> Vec<u8> {
        self.packet.map.iter().flat_map(|byte| [byte & 0x0F, byte >> 4]).collect()
    }
}

/// The second decoder with faults in its calls of words, and in its steps.
struct Faulty<C, D, S> {
    check: C,
    draw: D,
    step: S,
}

impl<C, D, S> Decoder for Faulty<C, D, S>
where
    C: Fn(CallForm, &Packet, Checked) -> Checked,
    D: Fn(&mut Made<'_>),
    S: Fn(&[u8], &Start, &mut Start, &mut Walked),
{
    fn name(&self) -> &'static str {
        "faulty decoder"
    }

    fn check(&self, form: CallForm, packet: &Packet) -> Checked {
        Second.check(form, packet)
    }

    fn draw(
        &self,
        form: CallForm,
        packet: &Packet,
        front: &mut [u8],
        back: &mut [u8],
        place: &mut usize,
        allowed: usize,
    ) -> Answer {
        Second.draw(form, packet, front, back, place, allowed)
    }

    fn open(&self, film: &[u8], stream: usize) -> Opened {
        Second.open(film, stream)
    }

    fn begin(&self, film: &[u8], stream: usize, palette: &mut [u8], place: &mut usize) -> Begun {
        Second.begin(film, stream, palette, place)
    }

    fn step(&self, form: CallForm, film: &[u8], walk: &mut Start) -> Walked {
        let found = walk.clone();
        let mut answer = Second.step(form, film, walk);
        (self.step)(film, &found, walk, &mut answer);
        answer
    }

    fn shown<'a>(&self, state: &State, a: &'a [u8], b: &'a [u8]) -> &'a [u8] {
        Second.shown(state, a, b)
    }

    fn check_words(&self, form: CallForm, packet: &Packet) -> Checked {
        (self.check)(form, packet, Second.check_words(form, packet))
    }

    fn draw_words(
        &self,
        form: CallForm,
        packet: &Packet,
        [last, oldest]: [&mut [u16]; 2],
        new: &mut [u16],
        place: &mut usize,
        allowed: usize,
    ) -> Answer {
        let found = (new.to_vec(), *place);
        let older = [&mut *last, &mut *oldest];
        let answer = Second.draw_words(form, packet, older, new, place, allowed);
        let mut made = Made { form, packet, found, last, oldest, new, place, allowed, answer };
        (self.draw)(&mut made);
        made.answer
    }
}

type Unchecked = fn(CallForm, &Packet, Checked) -> Checked;
type Undrawn = fn(&mut Made<'_>);
type Unstepped = fn(&[u8], &Start, &mut Start, &mut Walked);

const CHECK: Unchecked = |_, _, answer| answer;
const DRAW: Undrawn = |_| ();
const STEP: Unstepped = |_, _, _, _| ();

fn words(decoder: impl Decoder) -> Result<(), Found> {
    Comparison::new(decoder, Second).run(Kind::Words, SEED, 0..CASES)
}

#[track_caller]
fn drawn(draw: impl Fn(&mut Made<'_>)) -> Part {
    let faulty = Faulty { check: CHECK, draw, step: STEP };
    words(faulty).expect_err("a difference").difference.part
}

#[track_caller]
fn checked(check: impl Fn(CallForm, &Packet, Checked) -> Checked) -> Part {
    let faulty = Faulty { check, draw: DRAW, step: STEP };
    words(faulty).expect_err("a difference").difference.part
}

#[track_caller]
fn stepped(step: impl Fn(&[u8], &Start, &mut Start, &mut Walked)) -> Part {
    let faulty = Faulty { check: CHECK, draw: DRAW, step };
    let compared = Comparison::new(faulty, Second).run(Kind::Films, SEED, 0..CASES);
    compared.expect_err("a difference").difference.part
}

/// The scaffold itself has no fault, and the strict form follows from the default one.
#[test]
fn no_fault() {
    let faulty = || Faulty { check: CHECK, draw: DRAW, step: STEP };
    assert_eq!(words(faulty()), Ok(()));
    assert_eq!(words(FromDefault(Second)), Ok(()));
    let films = Comparison::new(faulty(), Second).run(Kind::Films, SEED, 0..CASES);
    assert_eq!(films, Ok(()));
    let forms = Comparison::new(Second, FromDefault(Second)).run(Kind::Films, SEED, 0..CASES);
    assert_eq!(forms, Ok(()));
}

/// Stored pixels that keep the high bit: those of data, and those of copies.
#[test]
fn high_bits() {
    for copies in [false, true] {
        let part = drawn(|made| {
            let Ok(_) = made.answer else { return };
            let high = |word: &u16| word & 0x8000 != 0;
            let wanted = if copies { made.last.iter().any(high) } else { true };
            let has = |code: &u8| if copies { *code == 0 } else { *code == 0xE };
            if wanted && *made.place > made.found.1 && made.codes().first().is_some_and(has) {
                made.new[0] |= if copies { made.last[0] & 0x8000 } else { 0x8000 };
            }
        });
        assert!(matches!(part, Part::New(_)), "{part:?}");
    }
}

/// New and oldest swapped, last and oldest swapped, code 6 from the last picture.
#[test]
fn pictures() {
    let part = drawn(|made| {
        if made.answer.is_ok() {
            let (last, oldest) = (made.last.to_vec(), made.oldest.to_vec());
            made.anew(made.packet, &oldest, &last);
        }
    });
    assert!(matches!(part, Part::New(_)), "{part:?}");
    let part = drawn(|made| {
        if made.answer.is_ok() {
            let (last, found) = (made.last.to_vec(), made.found.0.clone());
            made.anew(made.packet, &last, &found);
        }
    });
    assert!(matches!(part, Part::New(_)), "{part:?}");
    let part = drawn(|made| {
        if made.answer.is_ok() {
            let mut packet = made.packet.clone();
            let five = |nibble: u8| if nibble == 6 { 5 } else { nibble };
            let bytes = packet.map.iter_mut();
            bytes.for_each(|byte| *byte = five(*byte & 0x0F) | five(*byte >> 4) << 4);
            let (last, oldest) = (made.last.to_vec(), made.oldest.to_vec());
            made.anew(&packet, &last, &oldest);
        }
    });
    assert!(matches!(part, Part::New(_)), "{part:?}");
}

/// An older picture that is changed.
#[test]
fn older_pictures() {
    let part = drawn(|made| made.last.iter_mut().take(1).for_each(|word| *word ^= 1));
    assert!(matches!(part, Part::Last(0)), "{part:?}");
    let part = drawn(|made| made.oldest.iter_mut().take(1).for_each(|word| *word ^= 0x8000));
    assert!(matches!(part, Part::Oldest(0)), "{part:?}");
    // A word beyond the frame.
    let part = drawn(|made| {
        let pixels = made.packet.pixels();
        if made.answer.is_ok() && made.new.len() > pixels {
            made.new[pixels] ^= 1;
        }
    });
    assert!(matches!(part, Part::Kept(_)), "{part:?}");
}

/// Code 1 that stores nothing; a count without the pixels of code 1.
#[test]
fn code_1() {
    let part = drawn(|made| {
        if let Ok(answer) = &mut made.answer {
            let ones = made.packet.map.iter().filter(|&&byte| byte & 0x0F == 1).count();
            if ones > 0 && answer.stores > 64 {
                answer.stores -= 64;
            }
        }
    });
    assert_eq!(part, Part::Answer);
    let part = drawn(|made| {
        if made.answer.is_ok() && made.codes()[0] == 1 && made.found.1 == 0 {
            made.new[0] = made.found.0[0];
        }
    });
    assert!(matches!(part, Part::New(_)), "{part:?}");
}

/// Rows that are told as in 8-bit films: without those of code 1 alone.
#[test]
fn rows() {
    let part = checked(|_, packet, answer| {
        let rows = answer?;
        Ok(if packet.map.iter().all(|&byte| byte == 0x11) { None } else { rows })
    });
    assert_eq!(part, Part::Answer);
    let part = drawn(|made| {
        if let Ok(answer) = &mut made.answer {
            answer.rows = answer.rows.map(|Rows { last, .. }| Rows { first: last, last });
        }
    });
    // Rows are drawn on that are not told.
    assert!(matches!(part, Part::Kept(_)), "{part:?}");
}

/// Readings of the two parts: the offset counted from behind its word, one equal to the packet's length
/// refused, one below 2 taken, code 6 refused by 12, the odd byte allowed in the first part or not in
/// the second.
#[test]
fn parts() {
    let check = |form, packet: &Packet| {
        let Packet { columns, rows, map, data } = packet;
        reference::check_words_as(form, *columns, *rows, map, data).map(Some)
    };
    let behind = |form, packet: &Packet, answer: Checked| {
        let mut packet = packet.clone();
        if let [low, high, ..] = &mut packet.data[..] {
            let offset = u16::from_le_bytes([*low, *high]).saturating_add(2);
            [*low, *high] = offset.to_le_bytes();
            return check(form, &packet);
        }
        answer
    };
    assert_eq!(checked(behind), Part::Answer);
    let equal = |_: CallForm, packet: &Packet, answer: Checked| match &packet.data[..] {
        [low, high, ..] if [*low, *high] == (packet.data.len() as u16).to_le_bytes() => {
            answer.and(Err(Refusal::new(20)))
        }
        _ => answer,
    };
    assert_eq!(checked(equal), Part::Answer);
    let below = |form, packet: &Packet, answer: Checked| match &packet.data[..] {
        [0 | 1, 0, ..] => {
            let mut packet = packet.clone();
            packet.data[0] = 2;
            check(form, &packet)
        }
        _ => answer,
    };
    assert_eq!(checked(below), Part::Answer);
    let six = |_: CallForm, packet: &Packet, answer: Checked| {
        let codes: Vec<u8> = packet.map.iter().flat_map(|byte| [byte & 0x0F, byte >> 4]).collect();
        let count = packet.columns * packet.rows;
        match codes.iter().take(count).position(|&code| code == 6) {
            Some(block) if answer.is_ok() => Err(Refusal { number: 12, block }),
            _ => answer,
        }
    };
    assert_eq!(checked(six), Part::Answer);
    let left =
        |packet: &Packet| compare::words::left_over(packet).map(|left| (left.first, left.second));
    let first = |form: CallForm, packet: &Packet, answer: Checked| match left(packet) {
        Some((1, 0)) if form == CallForm::Default => {
            Ok(Some(Rows { first: 0, last: packet.rows - 1 }))
        }
        _ => answer,
    };
    assert_eq!(checked(first), Part::Answer);
    let none = |form: CallForm, packet: &Packet, answer: Checked| match left(packet) {
        Some((0, 1)) if form == CallForm::Default => Err(Refusal::new(15)),
        _ => answer,
    };
    assert_eq!(checked(none), Part::Answer);
    let both = |form: CallForm, packet: &Packet, answer: Checked| match left(packet) {
        Some((1, 1)) if form == CallForm::Default => {
            Ok(Some(Rows { first: 0, last: packet.rows - 1 }))
        }
        _ => answer,
    };
    assert_eq!(checked(both), Part::Answer);
}

/// Orders: 20 before 10, 11 behind 20, 15 before the blocks, the second part judged before the first.
#[test]
fn orders() {
    let is_unparted = |packet: &Packet| word_packet::parts(&packet.data).is_err();
    let early = |_: CallForm, packet: &Packet, answer: Checked| match answer {
        Err(Refusal { number: 10, .. }) if is_unparted(packet) => Err(Refusal::new(20)),
        _ => answer,
    };
    // No damage makes both, but hostile packets do.
    assert_eq!(checked(early), Part::Answer);
    let part = drawn(|made| {
        if let Err(Refusal { number: number @ 11, .. }) = &mut made.answer {
            let Packet { data, .. } = made.packet;
            *number = if data.len() > 2 { 20 } else { 11 };
        }
    });
    assert_eq!(part, Part::Answer);
    let blocks_last = |_: CallForm, _: &Packet, answer: Checked| match answer {
        Err(Refusal { number: 14, block }) if block > 0 => Err(Refusal::new(15)),
        _ => answer,
    };
    assert_eq!(checked(blocks_last), Part::Answer);
    let short = |_: CallForm, _: &Packet, answer: Checked| match answer {
        Err(Refusal { number: 13, block }) if block > 1 => {
            Err(Refusal { number: 13, block: block - 1 })
        }
        _ => answer,
    };
    assert_eq!(checked(short), Part::Answer);
}

/// Whether a step at a film with true colour is at an opcode of this type.
fn is_at(film: &[u8], found: &Start, kind: u8) -> bool {
    let State { position, chunk_end, true_colour, .. } = found.state;
    let head = opcode_head(film, position, chunk_end);
    true_colour && head.is_ok_and(|head| head.kind == kind)
}

/// Sending: turned without a finished frame, turned back, two pictures only, unsent still.
#[test]
fn sending() {
    let part = stepped(|film, found, left, answer| {
        if answer.is_ok() && is_at(film, found, opcode::SEND) && !found.state.unsent {
            left.state.front = (found.state.front + 1) % 3;
        }
    });
    assert_eq!(part, Part::State);
    let turns: [fn(usize) -> usize; 3] =
        [|front| (front + 2) % 3, |front| 1 - front.min(1), |front| front + 1];
    for turned in turns {
        let part = stepped(|film, found, left, answer| {
            if answer.is_ok() && is_at(film, found, opcode::SEND) && found.state.unsent {
                left.state.front = turned(found.state.front);
            }
        });
        assert_eq!(part, Part::State);
    }
    let part = stepped(|film, found, left, answer| {
        if answer.is_ok() && is_at(film, found, opcode::SEND) {
            left.state.unsent = found.state.unsent;
        }
    });
    assert_eq!(part, Part::State);
}

/// Refusals of a step: 16 for front 2, true colour without a size; 8 for pictures of the other kind; 5 not
/// met, or behind 9; 6 for the true-colour word; 20 for a body of 15 bytes.
#[test]
fn refusals_of_a_step() {
    let refused = |number: u8| Err(Refusal::new(number));
    let part = stepped(|_, found, left, answer| {
        if answer.is_ok() && found.state.front == 2 {
            (*left, *answer) = (found.clone(), refused(16));
        }
    });
    assert_eq!(part, Part::Answer);
    let part = stepped(|_, found, left, answer| {
        let pixels = found.state.pixels();
        let short = [&found.picture_a, &found.picture_b].iter().any(|a| a.len() < pixels);
        if answer.is_ok() && found.state.true_colour && short {
            (*left, *answer) = (found.clone(), refused(8));
        }
    });
    assert_eq!(part, Part::Answer);
    let part = stepped(|_, found, left, answer| {
        let pixels = found.state.pixels();
        let short = found.words.iter().any(|words| words.len() < pixels);
        if answer.is_ok() && !found.state.true_colour && short {
            (*left, *answer) = (found.clone(), refused(8));
        }
    });
    assert_eq!(part, Part::Answer);
    for (map, number) in [(true, 20), (false, 9)] {
        let part = stepped(|film, found, _, answer| {
            let five = answer.is_err_and(|refusal| refusal.number == 5);
            let body = packet_at(film, &found.state).is_some();
            let at = is_at(film, found, opcode::VIDEO) && found.state.map.is_some() == map;
            if five && at && (body || !map) {
                *answer = refused(number);
            }
        });
        assert_eq!(part, Part::Answer);
    }
    let part = stepped(|_, found, left, answer| {
        if answer.is_ok() && !found.state.true_colour && left.state.true_colour {
            (*left, *answer) = (found.clone(), refused(6));
        }
    });
    assert_eq!(part, Part::Answer);
    let part = stepped(|_, found, left, answer| {
        let none = found.state.true_colour && found.state.columns == 0;
        if none && answer.is_err_and(|refusal| refusal.number == 16) {
            (*left, *answer) = (found.clone(), refused(8));
        }
    });
    assert_eq!(part, Part::Answer);
}

/// What a step leaves: a word of a picture that is not drawn on, bytes in a film with true colour, words
/// in an 8-bit one; the kind of the film lost, or another picture drawn on.
#[test]
fn what_a_step_leaves() {
    let drew = |answer: &Walked| matches!(answer, Ok(Step::Whole(1.., _)));
    let part = stepped(|_, found, left, answer| {
        if drew(answer) && found.state.true_colour {
            left.words[found.state.front].iter_mut().take(1).for_each(|word| *word ^= 1);
        }
    });
    assert!(matches!(part, Part::KeptWords(_, 0)), "{part:?}");
    let part = stepped(|_, found, left, answer| {
        if drew(answer) && found.state.true_colour {
            left.picture_b.iter_mut().take(1).for_each(|byte| *byte ^= 1);
        }
    });
    assert!(matches!(part, Part::KeptB(0)), "{part:?}");
    let part = stepped(|_, found, left, answer| {
        if drew(answer) && !found.state.true_colour {
            left.words[1].iter_mut().take(1).for_each(|word| *word ^= 1);
        }
    });
    assert!(matches!(part, Part::KeptWords(1, 0)), "{part:?}");
    let part = stepped(|film, found, left, answer| {
        if answer.is_ok() && is_at(film, found, opcode::MAP) {
            left.state.true_colour = false;
        }
    });
    assert_eq!(part, Part::State);
    let part = stepped(|_, found, left, answer| {
        if drew(answer) && found.state.true_colour {
            let front = found.state.front;
            left.words.swap((front + 1) % 3, (front + 2) % 3);
        }
    });
    assert!(matches!(part, Part::KeptWords(..)), "{part:?}");
}
