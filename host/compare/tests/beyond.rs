//! Bytes of a lent picture beyond the size are never touched (01, "Numbers of refusal"): neither
//! written nor read. So a case comes to the same on pictures of just the frame and on pictures with
//! a tail, whatever its bytes are, and leaves the tail as it was, in either form.

use compare::{Answer, Decoder, Proved, Second, Step, Walked};
use maker::packet_damage::{damaged, Damage};
use maker::states::{self, Start};
use maker::{calls, film, packet, Seeded, Size};
use reference::{CallForm, Refusal};

const CASES: u64 = 2000;
/// How often a frame must be drawn on, and a copy from outside be refused, at least.
const OFTEN: usize = 20;

/// No tail, and two that differ in every byte.
fn tails(number: u64) -> [Vec<u8>; 3] {
    let rng = &mut Seeded::new(number);
    let length = rng.between(1, 700);
    let tail = rng.bytes(length);
    let other = tail.iter().map(|byte| !byte).collect();
    [Vec::new(), tail, other]
}

/// The frame of a picture with a tail, which must not be written.
#[track_caller]
fn frame(number: u64, picture: &[u8], tail: &[u8]) -> Vec<u8> {
    let (frame, beyond) = picture.split_at(picture.len() - tail.len());
    assert!(beyond == tail, "case {number}: a byte beyond the size is written");
    frame.to_vec()
}

/// What a case comes to, which must be the same with any tail.
#[track_caller]
fn with_any_tail<T: PartialEq>(number: u64, case: impl Fn(&[u8]) -> T) -> T {
    let [without, one, other] = tails(number).map(|tail| case(&tail));
    assert!(without == one && without == other, "case {number}: a byte beyond the size is read");
    without
}

/// Two calls for one packet, valid or not: for some of its stores, then for all that are left.
fn draw(decoder: &dyn Decoder, number: u64) -> [Answer; 2] {
    let rng = &mut Seeded::new(number);
    let (draft, damage) = (packet::small(rng), rng.pick(&Damage::ALL));
    let packet = if rng.one_in(2) { damaged(rng, &draft, damage) } else { draft.packet() };
    let too_large = packet.columns > 80 || packet.rows > 60;
    let (columns, rows) = if too_large { (0, 0) } else { (packet.columns, packet.rows) };
    let size = Size::new(columns, rows);
    let (front, back) = (rng.bytes(size.pixels()), rng.bytes(size.pixels()));
    let allowances = [calls::allowance(rng, size.blocks()), 312_000];
    let form = rng.pick(&CallForm::ALL);
    let left = with_any_tail(number, |tail| {
        let (mut front, mut back) = ([&front, tail].concat(), [&back, tail].concat());
        let mut place = 0;
        allowances.map(|allowed| {
            let answer = decoder.draw(form, &packet, &mut front, &mut back, &mut place, allowed);
            (answer, place, frame(number, &front, tail), frame(number, &back, tail))
        })
    });
    left.map(|(answer, ..)| answer)
}

/// Some steps from the middle of a film, where bytes may be changed that the first step reads.
fn walk(decoder: &dyn Decoder, number: u64) -> Vec<Walked> {
    let rng = &mut Seeded::new(number);
    let film = film::with_frames(rng, 2);
    let pixels = film.size.pixels();
    let mut found = states::middle(rng, &film);
    found.picture_a.truncate(pixels);
    found.picture_b.truncate(pixels);
    let scratched = rng.one_in(2);
    let film = if scratched { states::scratched_ahead(rng, &film, &found) } else { film.bytes() };
    let form = rng.pick(&CallForm::ALL);
    let left = with_any_tail(number, |tail| {
        let mut walk = found.clone();
        walk.picture_a.extend(tail);
        walk.picture_b.extend(tail);
        let mut left = Vec::new();
        // A scratched 05 may give a larger frame, which a tail is not beyond.
        while left.len() < 10 && walk.state.pixels() <= pixels {
            let answer = decoder.step(form, &film, &mut walk);
            let [picture_a, picture_b] =
                [&walk.picture_a, &walk.picture_b].map(|picture| frame(number, picture, tail));
            left.push((answer, Start { picture_a, picture_b, ..walk.clone() }));
            if matches!(answer, Ok(Step::Ended) | Err(_)) {
                break;
            }
        }
        left
    });
    left.into_iter().map(|(answer, _)| answer).collect()
}

/// The cases were of use: there were stores, and copies from outside the frame.
#[track_caller]
fn assert_reached<T>(answers: &[Result<T, Refusal>], stored: impl Fn(&T) -> bool) {
    let drawn = answers.iter().flatten().filter(|answer| stored(answer)).count();
    let outside = |answer: &&Result<T, Refusal>| matches!(answer, Err(met) if met.number == 14);
    let refused = answers.iter().filter(outside).count();
    println!("{} calls, {drawn} that stored, {refused} refused by 14", answers.len());
    assert!(drawn >= OFTEN && refused >= OFTEN);
}

#[test]
fn drawing() {
    for decoder in [&Proved as &dyn Decoder, &Second] {
        let answers: Vec<_> = (0..CASES).flat_map(|number| draw(decoder, number)).collect();
        assert_reached(&answers, |drawn| drawn.stores > 0);
    }
}

#[test]
fn steps() {
    for decoder in [&Proved as &dyn Decoder, &Second] {
        let answers: Vec<_> = (0..CASES).flat_map(|number| walk(decoder, number)).collect();
        assert_reached(&answers, |step| {
            matches!(step, Step::Whole(1.., _) | Step::Unfinished(1.., _))
        });
    }
}
