//! What the makers of films with true colour reach: that valid films are valid, every answer and number of
//! refusal, and what must hold of every step.

use maker::film::Film;
use maker::states::{self, Start};
use maker::true_colour::{self, Damage};
use maker::{film_damage, word_damage, Seeded};
use reference::cuts::{self, at_every_store, Memory};
use reference::film::{opcode_head, open, shown_words, State, Stepped};
use reference::frame::MAX_PIXELS;
use reference::sound::NO_STREAM;
use reference::{CallForm, Refusal};
use std::collections::BTreeMap;

/// How often each thing must be reached at least.
const OFTEN: usize = 20;

#[derive(Default)]
struct Counts(BTreeMap<String, usize>);

impl Counts {
    fn note(&mut self, what: impl ToString) {
        *self.0.entry(what.to_string()).or_insert(0) += 1;
    }

    #[track_caller]
    fn assert_often(&self, wanted: impl IntoIterator<Item = impl ToString>) {
        for key in wanted {
            let key = key.to_string();
            let times = self.0.get(&key).copied().unwrap_or(0);
            assert!(times >= OFTEN, "{key} reached {times} times, wanted {OFTEN}");
        }
    }
}

/// Steps a film from its opening on to its end or its refusal.
fn run(film: &[u8], mut each: impl FnMut(&State, &Stepped)) -> Result<State, Refusal> {
    let mut start = Start {
        state: open(film, NO_STREAM)?,
        palette: vec![0; 768],
        picture_a: vec![0; MAX_PIXELS],
        picture_b: vec![0; MAX_PIXELS],
        place: 0,
        room: Vec::new(),
        words: [(); 3].map(|()| vec![0xFFFF; MAX_PIXELS]),
        allowed: 312_000,
    };
    loop {
        let before = start.state;
        let stepped = start.step(film);
        each(&before, &stepped);
        match stepped {
            Stepped::Taken(state, ..) | Stepped::Whole(state, ..) => start.state = state,
            Stepped::Ended(state) => return Ok(state),
            Stepped::Refused(refusal) => return Err(refusal),
            Stepped::Unfinished(..) => panic!("312,000 stores draw any frame"),
        }
    }
}

/// Valid films run to their end, with three fronts, palettes, and what is passed over.
#[test]
fn valid_films() {
    let mut counts = Counts::default();
    for seed in 0..400 {
        let film = true_colour::valid(&mut Seeded::new(seed));
        let bytes = film.bytes();
        let ended = run(&bytes, |state, _| {
            counts.note(format!("front {}", state.front));
            match opcode_head(&bytes, state.position, state.chunk_end) {
                Ok(head) => counts.note(format!("type {}", head.kind)),
                Err(_) => counts.note("chunk head or end"),
            }
        });
        let ended = ended.unwrap_or_else(|refusal| panic!("seed {seed}: {refusal}"));
        assert_eq!(ended.position, bytes.len(), "seed {seed}");
        assert_eq!(ended.true_colour, film.is_true_colour(), "seed {seed}");
        counts.note(film.is_true_colour());
    }
    counts.assert_often(["front 0", "front 1", "front 2", "true"]);
    counts.assert_often([0, 1, 2, 4, 5, 7, 11, 12, 13, 15, 17].map(|kind| format!("type {kind}")));
}

/// So do those with sound, those rich in palettes, and large ones.
#[test]
fn other_valid_films() {
    for seed in 0..200 {
        let rng = &mut Seeded::new(seed);
        let stream = rng.below(16);
        let films: [Film; 3] = [
            true_colour::with_sound(rng, stream, 2),
            true_colour::with_colours(rng, 3),
            true_colour::with_frames(rng, 4),
        ];
        for film in films {
            let mut start = states::opening(rng, &film);
            assert!(film.is_true_colour());
            let bytes = film.bytes();
            let steps = (0..).find_map(|_| match start.step(&bytes) {
                Stepped::Taken(state, ..) | Stepped::Whole(state, ..) => {
                    start.state = state;
                    None
                }
                other => Some(other),
            });
            assert!(matches!(steps, Some(Stepped::Ended(_))), "seed {seed}: {steps:?}");
        }
    }
}

/// Damage that is made for one number meets it.
#[test]
fn damage_made_for_a_number() {
    use word_damage::Damage as Packet;
    let made_for = [
        (Damage::ShortVideo, 5),
        (Damage::ShortVideoNoMap, 5),
        (Damage::SecondSize, 6),
        (Damage::Film(film_damage::Damage::NoSize), 9),
        (Damage::Film(film_damage::Damage::NoMap), 9),
        (Damage::Film(film_damage::Damage::LeaveOver), 15),
        (Damage::Packet(Packet::NoWord), 5),
        (Damage::Packet(Packet::OffsetInWord), 20),
        (Damage::Packet(Packet::OffsetPastEnd), 20),
        (Damage::Packet(Packet::ShortMap), 10),
        (Damage::Packet(Packet::CopyOutside), 14),
        (Damage::Packet(Packet::LeaveFirst), 15),
        (Damage::Packet(Packet::LeaveSecond), 15),
    ];
    for (damage, number) in made_for {
        for seed in 0..30 {
            let film = true_colour::damaged(&mut Seeded::new(seed), damage);
            let met = run(&film, |_, _| ()).map_err(|refusal| refusal.number);
            assert_eq!(met, Err(number), "{damage:?}, seed {seed}");
        }
    }
}

/// Damaged films reach every number that does not come from the state or from what is lent.
#[test]
fn damaged_films() {
    let mut counts = Counts::default();
    for seed in 0..3000 {
        let rng = &mut Seeded::new(seed);
        let film = match seed % 4 {
            0 | 1 => {
                let damage = Damage::any(rng);
                true_colour::damaged(rng, damage)
            }
            2 => true_colour::scratched(rng),
            _ => true_colour::hostile(rng),
        };
        match run(&film, |_, _| ()) {
            Ok(_) => counts.note("ended"),
            Err(refusal) => counts.note(refusal.number),
        }
    }
    counts.assert_often([1, 2, 3, 4, 5, 6, 7, 9, 10, 13, 14, 15, 20]);
    counts.assert_often(["ended"]);
}

/// Steps in the middle of films, with good and with hostile states, and with bytes changed ahead: every
/// answer and every number is reached but 1. A step that is refused, and one at the end, leaves everything
/// lent as it was; no step touches the older pictures, those of bytes or words beyond the frame.
#[test]
fn steps_from_any_state() {
    let mut counts = Counts::default();
    for seed in 0..12_000 {
        let rng = &mut Seeded::new(seed);
        let film = true_colour::with_frames(rng, 2);
        let start = match seed % 2 {
            0 => states::middle(rng, &film),
            _ => states::hostile(rng, &film),
        };
        let bytes = match seed % 4 {
            0 | 1 => film.bytes(),
            _ => states::scratched_ahead(rng, &film, &start),
        };
        let mut after = start.clone();
        let stepped = after.step(&bytes);
        counts.note(match stepped {
            Stepped::Taken(..) => "taken".to_string(),
            Stepped::Whole(..) => "whole".to_string(),
            Stepped::Unfinished(..) => "unfinished".to_string(),
            Stepped::Ended(_) => "ended".to_string(),
            Stepped::Refused(refusal) => refusal.number.to_string(),
        });
        if matches!(stepped, Stepped::Refused(_) | Stepped::Ended(_)) {
            assert!(start == after, "seed {seed}: something changed");
        }
        let State { front, true_colour, .. } = start.state;
        for (number, (found, left)) in start.words.iter().zip(&after.words).enumerate() {
            let drawn_on = true_colour && number == (front % 3 + 1) % 3;
            let frame = if drawn_on { start.state.pixels() } else { 0 };
            assert_eq!(found.get(frame..), left.get(frame..), "seed {seed}");
        }
        if true_colour {
            assert_eq!((&start.picture_a, &start.picture_b), (&after.picture_a, &after.picture_b));
        }
    }
    counts.assert_often(["taken", "whole", "unfinished", "ended"]);
    counts.assert_often([2, 3, 4, 5, 6, 7, 8, 9, 10, 11, 13, 14, 15, 16, 20]);
}

/// A film stepped with small allowances shows the pictures that it shows with large ones, and so does one
/// that is cut at every store.
#[test]
fn films_in_pieces() {
    for seed in 0..60 {
        let rng = &mut Seeded::new(seed);
        let film = true_colour::with_colours(rng, 3);
        let bytes = film.bytes();
        let start = states::opening(rng, &film);
        let mut in_pieces = start.clone();
        let mut seen = Vec::new();
        loop {
            let before = in_pieces.state;
            in_pieces.allowed = if rng.one_in(4) { 1536 } else { rng.between(1, 300) };
            match in_pieces.step(&bytes) {
                Stepped::Taken(state, ..) | Stepped::Whole(state, ..) => in_pieces.state = state,
                Stepped::Unfinished(..) => continue,
                Stepped::Ended(_) => break,
                Stepped::Refused(refusal) => panic!("seed {seed}: {refusal}"),
            }
            if before.unsent && !in_pieces.state.unsent {
                let words = in_pieces.words.each_ref().map(Vec::as_slice);
                seen.push(shown_words(&in_pieces.state, words).to_vec());
            }
        }
        let Start { state, palette, picture_a, picture_b, place, words, .. } = start;
        let case = cuts::Film { bytes: &bytes, form: CallForm::Default, state, room: 0 };
        let memory = Memory { palette, pictures: [picture_a, picture_b], words, place };
        let played = cuts::play(&case, memory.clone(), |_, _| None);
        let sent: Vec<Vec<u16>> = played.sent.iter().map(|sent| sent.words.clone()).collect();
        assert_eq!(sent, seen, "seed {seed}");
        assert!(!seen.is_empty() && seen.iter().flatten().all(|&word| word < 0x8000));
        if seed % 10 == 0 {
            assert_eq!(cuts::play(&case, memory, at_every_store()), played, "seed {seed}");
        }
    }
}
