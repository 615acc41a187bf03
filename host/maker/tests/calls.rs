//! Demand 3 on made lists of calls: drawing leaves and answers what the book says, for any
//! allowances, cuts and refused calls between; and what the lists reach.

use maker::calls::{self, CallList};
use maker::{Profile, Seeded, Size};
use reference::book::{Book, Call};
use reference::packet::left_over;
use reference::{draw, draw_as, Drawn, Refusal};
use std::collections::BTreeMap;

/// How often each thing must be reached at least.
const OFTEN: usize = 20;

/// What a list has reached, by name or number of refusal.
type Reached = BTreeMap<String, usize>;

fn note(reached: &mut Reached, what: impl Into<String>) {
    *reached.entry(what.into()).or_insert(0) += 1;
}

/// Makes the calls of a list, and enters them in the book; all must agree after each call.
fn hold_against_book(list: &CallList, reached: &mut Reached) {
    let mut book = Book::open(&list.back);
    let (mut back, mut place) = (list.back.clone(), 0);
    for (number, made) in list.calls.iter().enumerate() {
        let (packet, before) = (&made.packet, (back.clone(), place));
        let call = Call {
            form: made.form,
            columns: packet.columns,
            rows: packet.rows,
            map: &packet.map,
            data: &packet.data,
            front: &made.front,
            allowed: made.stores_fed(),
        };
        let answer = draw_as(
            call.form,
            call.columns,
            call.rows,
            call.map,
            call.data,
            call.front,
            &mut back,
            &mut place,
            call.allowed,
        );
        assert_eq!(answer, book.enter(&call), "call {number}");
        assert_eq!(place, book.place(), "call {number}");
        assert!(back == book.picture(), "call {number}: pictures differ");
        assert_eq!(answer.is_err(), made.refused, "call {number}: {answer:?}");
        if answer.is_err() {
            assert!((back.clone(), place) == before, "call {number}: a refused call stored");
        }
        note_answer(reached, answer, made.cut.is_some());
        if let Ok(over) = left_over(call.columns, call.rows, call.map, call.data) {
            let kind = if answer.is_ok() { "taken" } else { "refused" };
            note(reached, format!("{:?}, {} over, {kind}", call.form, over.min(3)));
        }
    }
}

fn note_answer(reached: &mut Reached, answer: Result<Drawn, Refusal>, cut: bool) {
    match answer {
        Err(refusal) => note(reached, refusal.number.to_string()),
        Ok(_) if cut => note(reached, "cut"),
        Ok(Drawn { whole: true, stores: 0, .. }) => note(reached, "whole at once"),
        Ok(Drawn { whole: true, .. }) => note(reached, "whole"),
        Ok(Drawn { stores: 0, .. }) => note(reached, "nothing allowed"),
        Ok(_) => note(reached, "unfinished"),
    }
}

#[test]
fn drawing_keeps_the_book() {
    let mut reached = Reached::new();
    for seed in 0..3000 {
        let mut rng = Seeded::new(seed);
        let (size, profile) = (Size::small(&mut rng), rng.pick(&Profile::MANY));
        hold_against_book(&calls::list(&mut rng, size, profile), &mut reached);
    }
    let answers = ["whole", "whole at once", "unfinished", "nothing allowed", "cut"];
    let numbers = ["6", "8", "10", "11", "12", "13", "14", "15"];
    let forms = [
        "Default, 0 over, taken",
        "Default, 1 over, taken",
        "Default, 2 over, refused",
        "Default, 3 over, refused",
        "Strict, 0 over, taken",
        "Strict, 1 over, refused",
        "Strict, 2 over, refused",
        "Strict, 3 over, refused",
    ];
    for wanted in answers.iter().chain(&numbers).chain(&forms) {
        let times = reached.get(*wanted).copied().unwrap_or(0);
        assert!(times >= OFTEN, "{wanted} reached {times} times, wanted {OFTEN}");
    }
}

/// The largest frame, and frames that read what they overwrite.
#[test]
fn large_frames_keep_the_book() {
    let mut reached = Reached::new();
    for seed in 0..6 {
        let mut rng = Seeded::new(seed);
        let size = if seed == 0 { Size::new(80, 60) } else { Size::any(&mut rng) };
        let profile = rng.pick(&[Profile::BackCopies, Profile::Mixed]);
        hold_against_book(&calls::list(&mut rng, size, profile), &mut reached);
    }
    assert!(reached.contains_key("whole"), "{reached:?}");
}

/// However a frame is cut up, it comes out as in one call, and the bytes behind it stay.
#[test]
fn pieces_make_the_frame_of_one_call() {
    let mut drawn = 0;
    for seed in 0..500 {
        let mut rng = Seeded::new(seed);
        let size = Size::small(&mut rng);
        let list = calls::list(&mut rng, size, Profile::BackCopies);
        // In a short list all calls may be strict ones for a padded packet.
        let Some(accepted) = list.calls.iter().find(|call| !call.refused) else { continue };
        drawn += 1;
        let packet = &accepted.packet;
        let draw_on = |back: &mut Vec<u8>, place: &mut usize, allowed| {
            draw(
                packet.columns,
                packet.rows,
                &packet.map,
                &packet.data,
                &accepted.front,
                back,
                place,
                allowed,
            )
            .expect("an accepted packet")
        };
        let (mut at_once, mut place) = (list.back.clone(), 0);
        assert!(draw_on(&mut at_once, &mut place, 312_000).whole);

        let (mut in_pieces, mut place) = (list.back.clone(), 0);
        while !draw_on(&mut in_pieces, &mut place, rng.between(60, 140)).whole {}
        assert!(in_pieces == at_once, "seed {seed}");
        assert_eq!(at_once[size.pixels()..], list.back[size.pixels()..], "seed {seed}");
    }
    assert!(drawn >= 400, "{drawn} frames");
}
