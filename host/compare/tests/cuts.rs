//! Films played through cuts (02, W11). Each step of a small film is cut behind every one of its stores
//! and called again; each step of any film, and each call, at random ones. What the cuts leave is what the
//! list of stores says, the step called again comes to what the uncut one comes to, and the film sends
//! the same pictures with the same palettes, gives the same samples and ends alike.

use compare::{Comparison, CutFilm, Event, Proved, Second};
use maker::film::Film;
use maker::states::{self, Start};
use maker::{colours, film, film_damage, sound, sound_damage, true_colour, Seeded};
use reference::CallForm;

/// A film from its opening, in either form.
fn opened(rng: &mut Seeded, made: &Film) -> CutFilm {
    let start = states::opening(rng, made);
    CutFilm { film: made.bytes(), form: rng.pick(&CallForm::ALL), start }
}

/// A film from a state in its middle, also inside a drawing or a palette that was cut.
fn middle(rng: &mut Seeded, made: &Film) -> CutFilm {
    let mut start = states::middle(rng, made);
    start.room = vec![7; states::ENOUGH_ROOM];
    CutFilm { film: made.bytes(), form: CallForm::Default, start }
}

/// A small film, rich in palettes and maps, of either kind.
fn small(rng: &mut Seeded) -> Film {
    let frames = rng.below(3);
    match rng.below(3) {
        0 => true_colour::with_colours(rng, frames),
        _ => colours::film(rng, frames),
    }
}

/// A film with these bytes, which may be damaged; none where it cannot be opened.
fn damaged(rng: &mut Seeded, film: Vec<u8>, stream: usize) -> Option<CutFilm> {
    let state = reference::film::open(&film, stream).ok()?;
    let [picture_a, picture_b] = [(); 2].map(|()| rng.bytes(reference::frame::MAX_PIXELS));
    let (palette, room) = (rng.bytes(768), vec![0; states::ENOUGH_ROOM]);
    let words = [(); 3].map(|()| rng.words(reference::frame::MAX_PIXELS));
    let start = Start { state, palette, picture_a, picture_b, place: 0, room, words, allowed: 0 };
    Some(CutFilm { film, form: CallForm::Default, start })
}

#[track_caller]
fn assert_short(comparison: &Comparison<Proved, Second>, often: usize) {
    let tally = comparison.tally();
    println!("{tally}");
    for kind in [0x0B, 0x0C, 0x0D, 0x11] {
        let times = tally.times(Event::Short(kind));
        println!("cut in opcode {kind:02X}: {times} times");
        assert!(times >= often, "opcode {kind:02X}: {times}");
    }
    assert!(tally.times(Event::NoneAllowed(0x0F)) >= often / 10);
    for answer in ["taken", "whole", "unfinished"] {
        let times = tally.times(Event::Deep(answer));
        println!("with true colour, {answer}: {times} times");
        assert!(times >= 20, "with true colour, {answer}: {times}");
    }
}

#[test]
fn every_store() {
    let mut comparison = Comparison::new(Proved, Second);
    for seed in 0..60 {
        let rng = &mut Seeded::new(seed);
        let made = small(rng);
        let case = if seed % 3 == 2 { middle(rng, &made) } else { opened(rng, &made) };
        let compared = comparison.cut_each_step(&case, None);
        compared.unwrap_or_else(|difference| panic!("seed {seed}, step {difference}"));
    }
    assert_short(&comparison, 500);
}

#[test]
fn random_stores() {
    let mut comparison = Comparison::new(Proved, Second);
    for seed in 0..200 {
        let rng = &mut Seeded::new(seed);
        let stream = rng.below(16);
        let made = match seed % 4 {
            0 => sound::with_frames(rng, stream, 2),
            1 => colours::film(rng, 4),
            2 => true_colour::with_sound(rng, stream, 3),
            _ => film::with_frames(rng, 3),
        };
        let case = if seed % 8 < 6 { opened(rng, &made) } else { middle(rng, &made) };
        let chance = &mut Seeded::new(seed);
        let compared = comparison.cut_each_step(&case, Some((chance, 5)));
        compared.unwrap_or_else(|difference| panic!("seed {seed}, step {difference}"));
    }
    assert_short(&comparison, 50);
}

#[test]
fn whole_films() {
    let mut comparison = Comparison::new(Proved, Second);
    for seed in 0..400 {
        let rng = &mut Seeded::new(seed);
        let stream = rng.below(16);
        let made = match seed % 4 {
            0 => sound::with_frames(rng, stream, 3),
            1 => colours::film(rng, 6),
            2 => true_colour::with_colours(rng, 5),
            _ => film::with_frames(rng, 4),
        };
        let case = opened(rng, &made);
        // One call in two is cut, or one in ten.
        for often in [2, 10] {
            let compared = comparison.cut_at_random(&case, seed, often);
            compared.unwrap_or_else(|difference| panic!("seed {seed}, step {difference}"));
        }
    }
    assert_short(&comparison, 50);
    assert!(comparison.tally().sounds >= 100, "{}", comparison.tally());
}

/// Films that are refused: behind what they sent, by the same number, through cuts as without.
#[test]
fn refused_films() {
    let mut comparison = Comparison::new(Proved, Second);
    let mut refused = 0;
    for seed in 0..150 {
        let rng = &mut Seeded::new(seed);
        let damage = rng.pick(&film_damage::Damage::ALL);
        let sounds = rng.pick(&sound_damage::Damage::ALL);
        let deep = true_colour::Damage::any(rng);
        let films = [
            (true_colour::damaged(rng, deep), 16),
            (film_damage::damaged(rng, damage), 16),
            (film_damage::scratched(rng), 16),
            (sound_damage::damaged(rng, 3, sounds).bytes(), 3),
        ];
        for (film, stream) in films {
            let Some(case) = damaged(rng, film, stream) else { continue };
            let compared = comparison.cut_at_random(&case, seed, 3);
            compared.unwrap_or_else(|difference| panic!("seed {seed}, step {difference}"));
            refused += 1;
        }
    }
    let met = |number| comparison.tally().times(Event::Refused(number));
    let numbers: Vec<u8> = (1..=20).filter(|&number| met(number) > 0).collect();
    println!("{refused} films, refused by {numbers:?}, {}", comparison.tally());
    assert!(refused >= 400 && numbers.len() >= 12, "{numbers:?}");
}
