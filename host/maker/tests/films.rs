//! What the film makers reach: every opcode, every answer, every number of refusal; that valid
//! films are valid; and what must hold of every step.

use maker::film::{self, Film, ACTED_ON, PASSED_OVER};
use maker::film_damage::{self, Damage};
use maker::states::{self, Start};
use maker::{Seeded, Size};
use reference::film::{opcode, opcode_head, open, shown, State, Stepped};
use reference::frame::MAX_PIXELS;
use reference::packet::left_over;
use reference::sound::NO_STREAM;
use reference::{listing, Refusal};
use std::collections::BTreeMap;

/// How often each thing must be reached at least.
const OFTEN: usize = 20;

#[derive(Default)]
struct Counts(BTreeMap<String, usize>);

impl Counts {
    fn note(&mut self, what: impl ToString) {
        *self.0.entry(what.to_string()).or_insert(0) += 1;
    }

    #[track_caller]
    fn assert_often(&self, wanted: impl IntoIterator<Item = impl ToString>) {
        for key in wanted {
            let key = key.to_string();
            let times = self.0.get(&key).copied().unwrap_or(0);
            assert!(times >= OFTEN, "{key} reached {times} times, wanted {OFTEN}");
        }
    }
}

fn answer_of(stepped: &Stepped) -> String {
    match stepped {
        Stepped::Taken(..) => "taken".to_string(),
        Stepped::Whole(..) => "whole".to_string(),
        Stepped::Unfinished(..) => "unfinished".to_string(),
        Stepped::Ended(_) => "ended".to_string(),
        Stepped::Refused(refusal) => refusal.number.to_string(),
    }
}

/// Lent memory for a film that may be refused at its opening.
fn lend(pixels: usize, state: State) -> Start {
    Start {
        state,
        palette: vec![0; 768],
        picture_a: vec![0; pixels],
        picture_b: vec![0; pixels],
        place: 0,
        room: Vec::new(),
        words: Default::default(),
        allowed: 312_000,
    }
}

/// Steps a film from its opening on to its end or its refusal.
fn run(film: &[u8], mut each: impl FnMut(&State, &Stepped)) -> Result<State, Refusal> {
    let mut start = lend(MAX_PIXELS, open(film, NO_STREAM)?);
    loop {
        let before = start.state;
        let stepped = start.step(film);
        each(&before, &stepped);
        match stepped {
            Stepped::Taken(state, ..) | Stepped::Whole(state, ..) => start.state = state,
            Stepped::Ended(state) => return Ok(state),
            Stepped::Refused(refusal) => return Err(refusal),
            Stepped::Unfinished(..) => panic!("312,000 stores draw any frame"),
        }
    }
}

/// Valid films run to their end, and have every opcode, in every version that 05 and 07 take.
#[test]
fn valid_films() {
    let mut counts = Counts::default();
    for seed in 0..400 {
        let film = film::valid(&mut Seeded::new(seed)).bytes();
        let ended =
            run(&film, |state, _| match opcode_head(&film, state.position, state.chunk_end) {
                Ok(head) if ACTED_ON.contains(&head.kind) => {
                    counts.note(format!("type {} version {}", head.kind, head.version));
                }
                Ok(head) => counts.note(format!("type {}", head.kind)),
                Err(_) => counts.note("chunk head or end"),
            });
        let ended = ended.unwrap_or_else(|refusal| panic!("seed {seed}: {refusal}"));
        assert_eq!(ended.position, film.len(), "seed {seed}");
    }
    counts.assert_often(PASSED_OVER.map(|kind| format!("type {kind}")));
    counts.assert_often(ACTED_ON.map(|kind| format!("type {kind} version 0")));
    counts.assert_often(["type 5 version 1", "type 5 version 2", "type 7 version 1"]);
}

/// Bytes that the packet leaves over which a step at this state would draw, if it is there and its
/// blocks have no fault.
fn packet_over(film: &[u8], state: &State) -> Option<usize> {
    let head = opcode_head(film, state.position, state.chunk_end).ok()?;
    let packet = head.body.of(film)?.get(14..)?;
    let map = state.map?.of(film)?;
    let over = left_over(state.columns, state.rows, map, packet).ok()?;
    (head.kind == opcode::VIDEO).then_some(over)
}

/// In valid films some packets are padded, by one byte; in damaged ones two bytes are left over, three
/// and more.
#[test]
fn padded_packets() {
    let [mut valid, mut damaged] = [(); 2].map(|()| Counts::default());
    for seed in 0..400 {
        let film = film::valid(&mut Seeded::new(seed)).bytes();
        let ended = run(&film, |state, _| {
            if let Some(over) = packet_over(&film, state) {
                assert!(over <= 1, "seed {seed}");
                valid.note(over);
            }
        });
        assert!(ended.is_ok(), "seed {seed}");
        let film = film_damage::damaged(&mut Seeded::new(seed), Damage::LeaveOver);
        let mut last = None;
        let ended = run(&film, |state, _| last = packet_over(&film, state));
        assert_eq!(ended.map_err(|refusal| refusal.number), Err(15), "seed {seed}");
        damaged.note(last.expect("a packet").min(4));
    }
    valid.assert_often([0, 1]);
    damaged.assert_often([2, 3, 4]);
}

/// The shapes of films that a walk may stumble on: empty chunks, no 00, bytes behind its chunk.
#[test]
fn shapes_of_films() {
    let mut counts = Counts::default();
    for seed in 0..400 {
        let film = film::valid(&mut Seeded::new(seed));
        let kinds = film.chunks.iter().flat_map(|chunk| &chunk.opcodes).map(|opcode| opcode.kind);
        let kinds: Vec<u8> = kinds.collect();
        let has_end = kinds.contains(&0x00);
        counts.note(if has_end { "end opcode" } else { "no end opcode" });
        counts.note(if film.tail.is_empty() { "no tail" } else { "tail" });
        counts.note(if kinds.contains(&0x05) { "size" } else { "no size" });
        if film.chunks.iter().any(|chunk| chunk.opcodes.is_empty()) {
            counts.note("empty chunk");
        }
        assert!(has_end || film.tail.is_empty(), "bytes behind a film without 00");
    }
    let wanted =
        ["end opcode", "no end opcode", "tail", "no tail", "size", "no size", "empty chunk"];
    counts.assert_often(wanted);
}

/// Damage that is made for one number meets it, whatever the film.
#[test]
fn damage_made_for_a_number() {
    let made_for = [
        (Damage::HeaderByte, 1),
        (Damage::HeaderShort, 1),
        (Damage::LooseBytes, 3),
        (Damage::BehindEnd, 3),
        (Damage::Type, 4),
        (Damage::Version, 4),
        (Damage::BodyLength, 5),
        (Damage::FrameSize, 6),
        (Damage::TrueColour, 8), // no pictures of words are lent here
        (Damage::SecondSize, 6),
        (Damage::PaletteRange, 7),
        (Damage::Component, 7),
        (Damage::GradientRange, 7),
        (Damage::NoSize, 9),
        (Damage::NoMap, 9),
        (Damage::LeaveOver, 15),
    ];
    for (damage, number) in made_for {
        for seed in 0..30 {
            let film = film_damage::damaged(&mut Seeded::new(seed), damage);
            let met = run(&film, |_, _| ()).map_err(|refusal| refusal.number);
            assert_eq!(met, Err(number), "{damage:?}, seed {seed}");
        }
    }
}

/// Damaged, scratched and hostile films reach every number that does not come from the state or
/// from what is lent.
#[test]
fn damaged_films() {
    let mut counts = Counts::default();
    for seed in 0..150 {
        for damage in Damage::ALL {
            let film = film_damage::damaged(&mut Seeded::new(seed), damage);
            if let Err(refusal) = run(&film, |_, _| ()) {
                counts.note(refusal.number);
            }
        }
    }
    counts.assert_often([1, 2, 3, 4, 5, 6, 7, 8, 9, 10, 12, 13, 14, 15]);

    let mut counts = Counts::default();
    for seed in 0..1000 {
        let films =
            [film_damage::scratched(&mut Seeded::new(seed)), film::hostile(&mut Seeded::new(seed))];
        for film in films {
            match run(&film, |_, _| ()) {
                Ok(_) => counts.note("ended"),
                Err(refusal) => counts.note(refusal.number),
            }
        }
    }
    counts.assert_often(["2", "3", "4", "5", "ended"]);
}

/// Steps in the middle of films, with good and with hostile states, and with bytes changed ahead:
/// every answer and every number is reached but 1, which is met at the opening alone. A refused
/// step, and one at the end, leaves everything lent as it was; a step never touches the shown
/// picture nor bytes beyond the frame.
#[test]
fn steps_from_any_state() {
    let mut counts = Counts::default();
    for seed in 0..16_000 {
        let mut rng = Seeded::new(seed);
        let film = film::with_frames(&mut rng, 2);
        let start = match seed % 2 {
            0 => states::middle(&mut rng, &film),
            _ => states::hostile(&mut rng, &film),
        };
        let bytes = match seed % 4 {
            0 | 1 => film.bytes(),
            _ => states::scratched_ahead(&mut rng, &film, &start),
        };
        let mut after = start.clone();
        let stepped = after.step(&bytes);
        counts.note(answer_of(&stepped));
        assert_only_due_changes(&start, &after, &stepped);
    }
    counts.assert_often(["taken", "whole", "unfinished", "ended"]);
    counts.assert_often([2, 3, 4, 5, 6, 7, 8, 9, 10, 11, 12, 13, 14, 15, 16]);
}

fn assert_only_due_changes(before: &Start, after: &Start, stepped: &Stepped) {
    match stepped {
        Stepped::Refused(_) => assert!(before == after, "{stepped:?}: something changed"),
        Stepped::Ended(state) => {
            assert!(before == after, "{stepped:?}: something changed");
            assert_eq!(*state, before.state);
        }
        Stepped::Unfinished(state, stores, _) => {
            assert_eq!(*state, before.state);
            assert_eq!(*stores, before.allowed);
        }
        Stepped::Whole(_, stores, _) => assert!(*stores <= before.allowed),
        Stepped::Taken(_, stores, _) => {
            assert!(*stores <= before.allowed);
            assert!(before.picture_a == after.picture_a && before.picture_b == after.picture_b);
            assert!(before.words == after.words);
        }
    }
    if before.state.true_colour {
        assert!(before.picture_a == after.picture_a && before.picture_b == after.picture_b);
    } else {
        assert!(before.words == after.words, "{stepped:?}: a picture of words changed");
    }
    let shown_before = shown(&before.state, &before.picture_a, &before.picture_b);
    let shown_after = shown(&before.state, &after.picture_a, &after.picture_b);
    assert!(shown_before == shown_after, "{stepped:?}: the shown picture changed");
    let frame = before.state.pixels();
    for (old, new) in [(&before.picture_a, &after.picture_a), (&before.picture_b, &after.picture_b)]
    {
        assert_eq!(old.get(frame..), new.get(frame..), "{stepped:?}: beyond the frame");
    }
}

/// A film stepped with small allowances shows the pictures that it shows with large ones.
#[test]
fn films_in_pieces() {
    for seed in 0..200 {
        let mut rng = Seeded::new(seed);
        let film = film::with_frames(&mut rng, 3);
        let bytes = film.bytes();
        let start = states::opening(&mut rng, &film);
        let mut at_once = start.clone();
        let mut in_pieces = start;
        let sent_at_once = shown_pictures(&mut at_once, &bytes, |_| 312_000);
        // Now and then enough for any palette, which begins anew where it is cut (02, W11).
        let few = |rng: &mut Seeded| if rng.one_in(4) { 1536 } else { rng.between(1, 300) };
        let sent_in_pieces = shown_pictures(&mut in_pieces, &bytes, few);
        assert!(sent_at_once == sent_in_pieces, "seed {seed}");
        assert_eq!(at_once.palette, in_pieces.palette, "seed {seed}");
    }
}

/// The picture shown after each step that is not an unfinished one.
fn shown_pictures(
    start: &mut Start,
    film: &[u8],
    allowed: impl Fn(&mut Seeded) -> usize,
) -> Vec<Vec<u8>> {
    let mut rng = Seeded::new(1);
    let mut pictures = Vec::new();
    loop {
        start.allowed = allowed(&mut rng);
        match start.step(film) {
            Stepped::Taken(state, ..) | Stepped::Whole(state, ..) => start.state = state,
            Stepped::Unfinished(..) => continue,
            Stepped::Ended(_) => return pictures,
            Stepped::Refused(refusal) => panic!("{refusal}"),
        }
        pictures.push(shown(&start.state, &start.picture_a, &start.picture_b).to_vec());
    }
}

/// The listing tells of each film what stepping it tells, and nothing of too large ones.
#[test]
fn listings() {
    let mut counts = Counts::default();
    for seed in 0..400 {
        let mut rng = Seeded::new(seed);
        let film = match seed % 2 {
            0 => film::valid(&mut rng).bytes(),
            _ => film_damage::damaged(&mut rng, Damage::ALL[seed as usize / 2 % Damage::ALL.len()]),
        };
        let listed = listing::list(&film);
        let mut opcodes = 0;
        let mut last = 0;
        let ended = run(&film, |state, stepped| {
            let taken = matches!(stepped, Stepped::Taken(..) | Stepped::Whole(..));
            opcodes += usize::from(taken && state.position < state.chunk_end);
            last = state.position;
        });
        if listed.ends_with("too large\n") {
            counts.note("too large");
            continue;
        }
        let end = match ended {
            Ok(_) => format!("ended {}\n", film.len()),
            Err(refusal) => format!("refused {} {last}\n", refusal.number),
        };
        assert!(listed.ends_with(&end), "seed {seed}: {listed} does not end in {end}");
        assert_eq!(listed.lines().count(), opcodes + 2, "seed {seed}: {listed}");
        counts.note(if ended.is_ok() { "ended" } else { "refused" });
    }
    counts.assert_often(["ended", "refused"]);
}

/// Frames of every size, the largest included, fit an opcode.
#[test]
fn large_films() {
    let large = |film: &Film| film.size.blocks() > Size::new(6, 6).blocks();
    let films = (0..2000).map(|seed| film::with_frames(&mut Seeded::new(seed), 1));
    let mut count = 0;
    for film in films.filter(large) {
        assert!(run(&film.bytes(), |_, _| ()).is_ok());
        count += 1;
    }
    assert!(count >= OFTEN, "{count} large films");
}
