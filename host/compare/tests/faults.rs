//! A difference would be found. The second decoder with a fault takes the proved library's place:
//! each fault is reported, as what it is, within the first cases that the other tests go through.
//! Several are those that 01 names ("Slips that look right", "These must not get through").

mod common;

use common::WRONG_ROWS;
use compare::forms::left_over;
use compare::{
    cases, Answer, Begun, Checked, Comparison, Decoder, Found, FromDefault, Kind, Opened, Part,
    Second, Walked,
};
use maker::states::Start;
use maker::{Form, Packet};
use reference::film::State;
use reference::frame::MAX_PIXELS;
use reference::{CallForm, Drawn, Refusal, Rows};

const SEED: u64 = 1;
const CASES: u64 = 2000;

/// The second decoder with a fault in checking and one in drawing.
#[derive(Clone, Copy)]
struct Faulty<C, D> {
    check: C,
    draw: D,
}

/// A check that was made without fault, for one to be put in.
#[derive(Clone, Copy)]
struct MadeCheck<'a> {
    form: CallForm,
    packet: &'a Packet,
    answer: Checked,
}

/// A drawing call that was made without fault, for one to be put in.
struct Made<'a> {
    form: CallForm,
    packet: &'a Packet,
    allowed: usize,
    /// The picture and the place that the call found.
    found: (Vec<u8>, usize),
    front: &'a mut [u8],
    back: &'a mut [u8],
    place: &'a mut usize,
    answer: Answer,
}

impl<C: Fn(MadeCheck<'_>) -> Checked, D: Fn(&mut Made<'_>)> Decoder for Faulty<C, D> {
    fn name(&self) -> &'static str {
        "faulty decoder"
    }

    fn check(&self, form: CallForm, packet: &Packet) -> Checked {
        (self.check)(MadeCheck { form, packet, answer: Second.check(form, packet) })
    }

    fn draw(
        &self,
        form: CallForm,
        packet: &Packet,
        front: &mut [u8],
        back: &mut [u8],
        place: &mut usize,
        allowed: usize,
    ) -> Answer {
        let found = (back.to_vec(), *place);
        let answer = Second.draw(form, packet, front, back, place, allowed);
        let mut made = Made { form, packet, allowed, found, front, back, place, answer };
        (self.draw)(&mut made);
        made.answer
    }

    fn open(&self, film: &[u8], stream: usize) -> Opened {
        Second.open(film, stream)
    }

    fn begin(&self, film: &[u8], stream: usize, palette: &mut [u8], place: &mut usize) -> Begun {
        Second.begin(film, stream, palette, place)
    }

    fn step(&self, form: CallForm, film: &[u8], walk: &mut Start) -> Walked {
        Second.step(form, film, walk)
    }

    fn shown<'a>(&self, state: &State, a: &'a [u8], b: &'a [u8]) -> &'a [u8] {
        Second.shown(state, a, b)
    }
}

/// The report on a fault in drawing.
fn reported(fault: impl Fn(&mut Made<'_>)) -> Option<Found> {
    let faulty = Faulty { check: unchanged, draw: fault };
    Comparison::new(faulty, Second).run(Kind::Lists, SEED, 0..CASES).err()
}

/// What a fault in drawing is reported as.
#[track_caller]
fn part(fault: impl Fn(&mut Made<'_>)) -> Part {
    reported(fault).expect("a difference").difference.part
}

/// A check without fault.
fn unchanged(made: MadeCheck<'_>) -> Checked {
    made.answer
}

/// What a fault in checking is reported as: the form in which it is met.
#[track_caller]
fn check_form(fault: impl Fn(MadeCheck<'_>) -> Checked) -> CallForm {
    let faulty = Faulty { check: fault, draw: |_: &mut Made<'_>| () };
    let compared = Comparison::new(faulty, Second).run(Kind::Packets, SEED, 0..CASES);
    let difference = compared.expect_err("a difference").difference;
    assert_eq!(difference.part, Part::Answer);
    difference.form
}

/// A fault in checking, of both forms, is found.
#[track_caller]
fn assert_check_found(fault: impl Fn(Checked) -> Checked) {
    check_form(|made| fault(made.answer));
}

/// The scaffold itself has no fault.
#[test]
fn no_fault() {
    assert_eq!(reported(|_| ()), None);
    let faulty = Faulty { check: unchanged, draw: |_: &mut Made<'_>| () };
    let compared = Comparison::new(faulty, Second).run(Kind::Packets, SEED, 0..CASES);
    assert_eq!(compared, Ok(()));
}

#[test]
fn checks() {
    assert_check_found(|_| Ok(None));
    assert_check_found(|_| Err(Refusal::new(6)));
    for number in [6, 10, 12, 13, 14, 15] {
        // This refusal alone is passed over, has another number, or names another block.
        let if_met = |other: fn(Refusal) -> Checked| {
            move |answer: Checked| match answer {
                Err(refusal) if refusal.number == number => other(refusal),
                _ => answer,
            }
        };
        assert_check_found(if_met(|_| Ok(None)));
        assert_check_found(if_met(|met| Err(Refusal { number: met.number + 1, ..met })));
        assert_check_found(if_met(|met| Err(Refusal { block: met.block + 1, ..met })));
    }
}

#[test]
fn answers() {
    let refuses_everything = |made: &mut Made<'_>| {
        made.back.copy_from_slice(&made.found.0);
        *made.place = made.found.1;
        made.answer = Err(Refusal::new(6));
    };
    assert_eq!(part(refuses_everything), Part::Answer);
    let changed = |change: fn(Answer) -> Answer| {
        assert_eq!(part(|made| made.answer = change(made.answer)), Part::Answer);
    };
    changed(|answer| answer.map(|drawn| Drawn { stores: drawn.stores + 1, ..drawn }));
    changed(|answer| answer.map(|drawn| Drawn { whole: true, ..drawn }));
    changed(|answer| answer.map(|drawn| Drawn { whole: false, ..drawn }));
    changed(|answer| answer.map_err(|met| Refusal { block: met.block + 1, ..met }));
    for number in [6, 8, 10, 11, 12, 13, 14, 15] {
        let fault = |made: &mut Made<'_>| match &mut made.answer {
            Err(refusal) if refusal.number == number => refusal.number += 1,
            _ => (),
        };
        assert_eq!(part(fault), Part::Answer, "{number}");
    }
}

#[test]
fn places() {
    // Kept, although blocks were finished.
    assert_eq!(part(|made| *made.place = made.found.1), Part::Place);
    // Set back to 0 when the frame is whole.
    let set_back = |made: &mut Made<'_>| {
        if made.answer.is_ok_and(|drawn| drawn.whole) {
            *made.place = 0;
        }
    };
    assert_eq!(part(set_back), Part::Place);
    // Stored a row of blocks at a time.
    let by_rows = |made: &mut Made<'_>| {
        if made.answer.is_ok() {
            *made.place -= *made.place % made.packet.columns;
        }
    };
    assert_eq!(part(by_rows), Part::Place);
}

#[test]
fn pictures() {
    // Nothing is stored, although the answer says so.
    assert!(matches!(part(|made| made.back.copy_from_slice(&made.found.0)), Part::Back(_)));
    // All is drawn in the first call, and later ones only move the place.
    let all_at_once = |made: &mut Made<'_>| {
        if made.answer.is_ok() {
            let mut place = made.found.1;
            let (form, packet) = (made.form, made.packet);
            let drawn = Second.draw(form, packet, made.front, made.back, &mut place, usize::MAX);
            assert_eq!(drawn.map(|drawn| drawn.whole), Ok(true));
        }
    };
    assert!(matches!(part(all_at_once), Part::Back(_)));
    assert_eq!(part(|made| made.front[0] ^= 1), Part::Front(0));
    // A refused call changes a byte.
    let refused_stores = |made: &mut Made<'_>| {
        if let (Err(_), Some(last)) = (made.answer, made.back.last_mut()) {
            *last ^= 1;
        }
    };
    assert!(matches!(part(refused_stores), Part::Kept(_)));
    // The first byte beyond the frame.
    let beyond = |made: &mut Made<'_>| {
        let pixels = made.packet.pixels();
        if let (Ok(_), Some(byte)) = (made.answer, made.back.get_mut(pixels)) {
            *byte ^= 1;
        }
    };
    assert!(matches!(part(beyond), Part::Kept(_)));
    // The last pixel of the largest frame.
    let last_pixel = |made: &mut Made<'_>| {
        let largest = (made.packet.columns, made.packet.rows) == (80, 60);
        if largest && made.answer.is_ok_and(|drawn| drawn.whole) {
            made.back[MAX_PIXELS - 1] ^= 1;
        }
    };
    let found = part(last_pixel);
    assert!(matches!(found, Part::Back(at) | Part::Kept(at) if at == MAX_PIXELS - 1), "{found:?}");
}

/// A wrong last pixel in the blocks of one form alone.
#[test]
fn forms() {
    for form in Form::ALL {
        let fault = |made: &mut Made<'_>| {
            let Packet { columns, rows, map, data } = made.packet;
            if made.answer.is_err() {
                return;
            }
            let blocks = reference::packet::blocks(*columns, *rows, map, data).expect("accepted");
            for block in &blocks[made.found.1..*made.place] {
                if Form::of(block.code, block.data) == Some(form) {
                    made.back[(block.y + 7) * 8 * columns + block.x + 7] ^= 1;
                }
            }
        };
        assert!(matches!(part(fault), Part::Back(_) | Part::Kept(_)), "{form:?}");
    }
}

/// The rule on what may be left over, changed for packets that leave so many bytes over in a call of
/// this form: what is refused by 15 is taken, or what is taken is refused.
fn check_turned(form: CallForm, over: usize) -> impl Fn(MadeCheck<'_>) -> Checked + Copy {
    move |made| match made.answer {
        answer if made.form != form || left_over(made.packet) != Some(over) => answer,
        Ok(_) => Err(Refusal::new(15)),
        Err(_) => Ok(None),
    }
}

/// The same of drawing calls. One that is refused for another reason stays so.
fn draw_turned(form: CallForm, over: usize) -> impl Fn(&mut Made<'_>) + Copy {
    move |made| {
        if made.form != form || left_over(made.packet) != Some(over) {
            return;
        }
        if made.answer.is_ok() {
            made.back.copy_from_slice(&made.found.0);
            *made.place = made.found.1;
            made.answer = Err(Refusal::new(15));
        } else if made.answer == Err(Refusal::new(15)) {
            let mut packet = made.packet.clone();
            packet.data.truncate(packet.data.len() - over);
            let Made { front, back, place, allowed, .. } = made;
            made.answer = Second.draw(form, &packet, front, back, place, *allowed);
        }
    }
}

/// Programs that take two bytes, or refuse one, in the default form; or that take one, or refuse none,
/// in the strict form.
#[test]
fn left_over_bytes() {
    let (default, strict) = (CallForm::Default, CallForm::Strict);
    for (form, over) in [(default, 2), (default, 1), (strict, 1), (strict, 0)] {
        assert_eq!(check_form(check_turned(form, over)), form, "{over} over");
        let found = reported(draw_turned(form, over)).expect("a difference");
        let told = found.to_string().contains(", strict form: ");
        assert_eq!(told, form == strict, "{found}");
        assert_eq!((found.difference.part, found.difference.form), (Part::Answer, form), "{over}");
    }
}

/// A program that draws the byte left over: as the last pixel of the frame.
#[test]
fn the_odd_byte_drawn() {
    let drawn = |made: &mut Made<'_>| {
        let whole = made.answer.is_ok_and(|drawn| drawn.whole && drawn.stores > 0);
        if whole && left_over(made.packet) == Some(1) {
            made.back[made.packet.pixels() - 1] = made.packet.data[made.packet.data.len() - 1];
        }
    };
    assert!(matches!(part(drawn), Part::Back(_) | Part::Kept(_)));
}

/// A program whose strict form takes one byte, or refuses none, does not agree with its default form:
/// that is found without the second decoder, too.
#[test]
fn forms_that_do_not_agree() {
    for over in [1, 0] {
        let check = check_turned(CallForm::Strict, over);
        let faulty = Faulty { check, draw: draw_turned(CallForm::Strict, over) };
        for kind in [Kind::Packets, Kind::Lists] {
            let compared = Comparison::new(faulty, FromDefault(faulty)).run(kind, SEED, 0..CASES);
            let difference = compared.expect_err("a difference").difference;
            assert_eq!((difference.part, difference.form), (Part::Answer, CallForm::Strict));
        }
    }
}

/// A fault that both decoders share is found by the book.
#[test]
fn shared_faults() {
    let faulty = || Faulty {
        check: unchanged,
        draw: |made: &mut Made<'_>| {
            // Inside the rows that are told: outside the picture found tells it.
            let in_row = |drawn: Drawn| drawn.rows.is_some_and(|rows| rows.first == 0);
            if made.answer.is_ok_and(|drawn| drawn.stores > 0 && in_row(drawn)) {
                made.back[0] ^= 1;
            }
        },
    };
    let compared = Comparison::new(faulty(), faulty()).run(Kind::Lists, SEED, 0..CASES);
    let difference = compared.expect_err("a difference").difference;
    assert_eq!(difference.part, Part::Back(0));
    assert_eq!(difference.accounts.map(|(by, _)| by), ["faulty decoder", "book"]);
}

/// Programs that tell other rows than the packet's, in a check or in a drawing call.
#[test]
fn wrong_rows() {
    for (name, wrong) in WRONG_ROWS {
        let drawing = |made: &mut Made<'_>| {
            let Made { packet, found: (_, place), answer, .. } = made;
            if let Ok(drawn) = answer {
                drawn.rows = wrong(packet, *place, drawn.rows);
            }
        };
        assert!(matches!(part(drawing), Part::Answer | Part::Kept(_)), "{name}");
        if !name.contains("still due") {
            check_form(|made| made.answer.map(|rows| wrong(made.packet, 0, rows)));
        }
    }
}

/// A fault that both decoders share: a call changes a byte outside the rows that it tells. Of these the
/// last one is missing, or the byte is the first of a picture whose first row is not touched.
#[test]
fn rows_outside() {
    let last_row_missing = |made: &mut Made<'_>| {
        let row = 64 * made.packet.columns;
        let Ok(Drawn { rows: Some(rows), .. }) = &mut made.answer else { return };
        let bytes = row * rows.last..row * (rows.last + 1);
        if rows.last > rows.first && made.back[bytes.clone()] != made.found.0[bytes] {
            rows.last -= 1;
        }
    };
    let first_byte = |made: &mut Made<'_>| {
        if let Ok(Drawn { rows: Some(Rows { first: 1.., .. }), .. }) = made.answer {
            made.back[0] ^= 1;
        }
    };
    for draw in [&last_row_missing as &dyn Fn(&mut Made<'_>), &first_byte] {
        let faulty = Faulty { check: unchanged, draw };
        let compared = Comparison::new(faulty, faulty).run(Kind::Lists, SEED, 0..CASES);
        let difference = compared.expect_err("a difference").difference;
        assert!(matches!(difference.part, Part::Kept(_)), "{difference}");
        assert_eq!(difference.accounts.map(|(by, _)| by), ["faulty decoder", "as found"]);
    }
}

/// A report names the seed and the case, and that case alone shows the difference again.
#[test]
fn reports() {
    let fault = |made: &mut Made<'_>| {
        if made.answer.is_ok_and(|drawn| drawn.whole && drawn.stores > 1000) {
            *made.place += 1;
        }
    };
    let found = reported(fault).expect("a difference");
    let Found { seed, number, difference, .. } = &found;
    assert!(*number > 0 && *seed == SEED);
    let text = found.to_string();
    let [(_, wrong), (_, right)] = &difference.accounts;
    let strict = if difference.form == CallForm::Strict { ", strict form" } else { "" };
    let expected = format!(
        "difference in lists, seed {SEED}, case {number}, call {}{strict}: place: \
         faulty decoder {wrong}, second decoder {right}",
        difference.call,
    );
    assert_eq!(text, expected);

    let faulty = Faulty { check: unchanged, draw: fault };
    let again = Comparison::new(faulty, Second).draw(&cases::list(*seed, *number));
    assert_eq!(again.as_ref(), Err(&**difference));
}
