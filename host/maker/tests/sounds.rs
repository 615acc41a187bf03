//! What the makers of films with sound reach: every format, stream, kind of packet and number of
//! refusal; that valid films are valid; and what must hold of every step with sound.

use maker::film::{Film, Opcode, SOUND};
use maker::sound::{self, Format};
use maker::sound_damage::{self, Damage};
use maker::states::{self, Start, ENOUGH_ROOM};
use maker::Seeded;
use reference::film::{opcode_head, open, OpcodeHead, State, Stepped};
use reference::frame::MAX_PIXELS;
use reference::pictures::{play, Played};
use reference::sound::{Sound, NO_STREAM};
use reference::Refusal;
use std::collections::{BTreeMap, BTreeSet};

/// How often each thing must be reached at least.
const OFTEN: usize = 20;

#[derive(Default)]
struct Counts(BTreeMap<String, usize>);

impl Counts {
    fn note(&mut self, what: impl ToString) {
        *self.0.entry(what.to_string()).or_insert(0) += 1;
    }

    #[track_caller]
    fn assert_often(&self, wanted: impl IntoIterator<Item = impl ToString>) {
        for key in wanted {
            let key = key.to_string();
            let times = self.0.get(&key).copied().unwrap_or(0);
            assert!(times >= OFTEN, "{key} reached {times} times, wanted {OFTEN}");
        }
    }
}

/// The format of a state in words; none where none is known.
fn words(sound: &Sound) -> String {
    let Sound { has_format, stereo, wide, compressed, begun, .. } = *sound;
    if !has_format {
        return "no format".to_string();
    }
    let channels = if stereo { "stereo" } else { "mono" };
    match (wide, compressed, begun) {
        (false, ..) => format!("8-bit {channels}"),
        (true, false, _) => format!("16-bit {channels}"),
        (true, true, false) => format!("first compressed {channels}"),
        (true, true, true) => format!("later compressed {channels}"),
    }
}

const FORMATS: [&str; 8] = [
    "8-bit mono",
    "8-bit stereo",
    "16-bit mono",
    "16-bit stereo",
    "first compressed mono",
    "first compressed stereo",
    "later compressed mono",
    "later compressed stereo",
];

/// Steps a film from its opening on to its end or its refusal, with room enough, and shows each
/// opcode of sound with its head, the state before it and the answer.
fn run(
    film: &[u8],
    stream: usize,
    mut each: impl FnMut(OpcodeHead, &State, &Stepped),
) -> Result<State, Refusal> {
    let picture = vec![0; MAX_PIXELS];
    let mut start = Start {
        state: open(film, stream)?,
        palette: vec![0; 768],
        picture_a: picture.clone(),
        picture_b: picture,
        place: 0,
        room: vec![0; ENOUGH_ROOM],
        words: Default::default(),
        allowed: 312_000,
    };
    loop {
        let before = start.state;
        let stepped = start.step(film);
        if let Ok(head) = opcode_head(film, before.position, before.chunk_end) {
            if SOUND.contains(&head.kind) {
                each(head, &before, &stepped);
            }
        }
        match stepped {
            Stepped::Taken(state, ..) | Stepped::Whole(state, ..) => start.state = state,
            Stepped::Ended(state) => return Ok(state),
            Stepped::Refused(refusal) => return Err(refusal),
            Stepped::Unfinished(..) => panic!("312,000 stores draw any frame"),
        }
    }
}

/// Mask and count of a packet.
fn mask_and_count(film: &[u8], head: &OpcodeHead) -> (u16, usize) {
    let body = head.body.of(film).expect("a body");
    let word = |at: usize| u16::from_le_bytes([body[at], body[at + 1]]);
    (word(2), usize::from(word(4)))
}

/// Valid films run to their end, for every stream, and have every format in every version, every kind
/// of packet in it, packets of no samples, for other streams, and more than one 03.
#[test]
fn valid_films() {
    let (mut counts, mut streams) = (Counts::default(), BTreeMap::new());
    for seed in 0..800 {
        let stream = seed as usize % 16;
        let film = sound::valid(&mut Seeded::new(seed), stream);
        assert_eq!(film.stream, stream);
        let film = film.bytes();
        let mut formats = 0;
        let ended = run(&film, stream, |head, state, stepped| {
            let format = words(&state.sound);
            let Stepped::Taken(after, _, bytes) = stepped else { panic!("{stepped:?}") };
            if head.kind == 0x03 {
                formats += 1;
                counts.note(format!("03 version {}: {}", head.version, words(&after.sound)));
                return;
            }
            let (mask, count) = mask_and_count(&film, &head);
            let (kind, ours) = (head.kind, mask >> stream & 1 == 1);
            if !ours {
                counts.note(format!("{kind:02} for others: {format}"));
                assert_eq!(*bytes, 0);
                return;
            }
            *streams.entry(stream).or_insert(0) += 1;
            let size = if state.sound.wide { 2 } else { 1 };
            assert_eq!(*bytes, count * size, "seed {seed}");
            counts.note(format!("{kind:02}: {format}"));
            counts.note(match count {
                0 => format!("{kind:02} of no samples"),
                1000.. => format!("{kind:02} of many samples"),
                _ => format!("{kind:02} of some samples"),
            });
            counts.note(match (mask, mask.count_ones()) {
                (0xFFFF, _) => "mask for all",
                (_, 1) => "mask for one",
                _ => "mask for some",
            });
        });
        counts.note(format!("{} formats", formats.min(3)));
        let ended = ended.unwrap_or_else(|refusal| panic!("seed {seed}: {refusal}"));
        assert_eq!(ended.position, film.len(), "seed {seed}");
    }
    counts.assert_often(FORMATS.map(|format| format!("08: {format}")));
    counts.assert_often(FORMATS.map(|format| format!("09: {format}")));
    let unformatted = ["08 for others: no format", "09 for others: no format"];
    counts.assert_often(unformatted);
    counts.assert_often(FORMATS.map(|format| format!("08 for others: {format}")));
    counts.assert_often(FORMATS[..4].iter().map(|format| format!("03 version 0: {format}")));
    counts.assert_often(FORMATS[..6].iter().map(|format| format!("03 version 1: {format}")));
    counts.assert_often(["0 formats", "1 formats", "2 formats", "3 formats"]);
    for kind in ["08", "09"] {
        counts.assert_often(["no", "some", "many"].map(|many| format!("{kind} of {many} samples")));
    }
    counts.assert_often(["mask for all", "mask for one", "mask for some"]);
    assert!(streams.len() == 16 && streams.values().all(|&times| times >= OFTEN), "{streams:?}");
}

/// Version 0 has flags with bit 2, which it does not read, in 8-bit and in 16-bit films; and other
/// bits that no version reads.
#[test]
fn unread_flags() {
    let mut counts = Counts::default();
    for seed in 0..400 {
        let film = sound::valid(&mut Seeded::new(seed), 3);
        for opcode in film.chunks.iter().flat_map(|chunk| &chunk.opcodes) {
            if let Opcode { kind: 0x03, version, body, .. } = opcode {
                let flags = u16::from_le_bytes([body[2], body[3]]);
                counts.note(format!("version {version}, flags {}", flags & 0b111));
                counts.note(if flags > 0b111 { "other bits" } else { "no other bits" });
            }
        }
    }
    counts.assert_often((0..8).map(|flags| format!("version 0, flags {flags}")));
    counts.assert_often([0, 1, 2, 3, 6, 7].map(|flags| format!("version 1, flags {flags}")));
    counts.assert_often(["other bits"]);
    assert!(!["version 1, flags 4", "version 1, flags 5"]
        .iter()
        .any(|n| counts.0.contains_key(*n)));
}

/// The pictures of a film are the same whatever the stream, and where none is chosen its sound is
/// passed over; and what a stream hears does not hang on the pictures.
#[test]
fn sound_beside_pictures() {
    let (mut sent, mut heard) = (0, 0);
    for seed in 0..200 {
        let stream = seed as usize % 16;
        let film = sound::with_frames(&mut Seeded::new(seed), stream, 2);
        let bytes = film.bytes();
        let played = play(&bytes, stream);
        let Played { pictures, recordings, position, refusal } = play(&bytes, NO_STREAM);
        assert_eq!((&pictures, position, refusal), (&played.pictures, played.position, None));
        assert_eq!(recordings, []);
        sent += pictures.len();
        let mut only_sound = film.clone();
        for chunk in &mut only_sound.chunks {
            chunk.opcodes.retain(|opcode| SOUND.contains(&opcode.kind));
        }
        only_sound.tail.clear();
        assert_eq!(play(&only_sound.bytes(), stream).recordings, played.recordings);
        heard += played.recordings.iter().map(|recording| recording.samples.len()).sum::<usize>();
    }
    assert!(sent >= 200 && heard >= 10_000, "{sent} pictures, {heard} bytes of sound");
}

/// Each damage meets the number that it is made for, for any stream and with a room of any length,
/// in each of the ways that 02 names.
#[test]
fn damage_made_for_a_number() {
    let mut counts = Counts::default();
    for damage in Damage::ALL {
        for seed in 0..800 {
            let stream = seed as usize % 16;
            let film = sound_damage::damaged(&mut Seeded::new(seed), stream, damage).bytes();
            let mut last = None;
            let met = run(&film, stream, |head, state, _| last = Some((head, *state)));
            let number = met.map_err(|refusal| refusal.number);
            assert_eq!(number, Err(damage.number()), "{damage:?}, seed {seed}");
            let (head, state) = last.expect("sound");
            counts.note(format!("{damage:?} {:02}", head.kind));
            counts.note(format!("{damage:?} {:02}: {}", head.kind, words(&state.sound)));
            if [17, 18].contains(&damage.number()) {
                // Whatever the room is.
                let bytes = vec![0; MAX_PIXELS];
                let (palette, room) = (vec![0; 768], Vec::new());
                let (picture_a, picture_b) = (bytes.clone(), bytes);
                let (place, words, allowed) = (0, Default::default(), 0);
                let mut start =
                    Start { state, palette, picture_a, picture_b, place, room, words, allowed };
                let refused = Stepped::Refused(Refusal::new(damage.number()));
                assert_eq!(start.step(&film), refused, "{damage:?}, seed {seed}");
            }
        }
    }
    let of_each = |damage: &str, kind: &str, formats: &[&str]| -> Vec<String> {
        formats.iter().map(|format| format!("{damage} {kind}: {format}")).collect()
    };
    counts.assert_often(["Version 03", "Version 08", "Version 09"]);
    counts.assert_often(["BodyLength 03", "BodyLength 08", "BodyLength 09"]);
    counts.assert_often(["BeforeFormat 08: no format", "BeforeFormat 09: no format"]);
    counts.assert_often(["NarrowCompressed 03: no format", "NarrowCompressed 03"]);
    counts.assert_often(of_each("DataLength", "08", &FORMATS));
    let stereo = [FORMATS[1], FORMATS[3], FORMATS[5], FORMATS[7]];
    counts.assert_often(of_each("OddCount", "08", &stereo));
    counts.assert_often(of_each("OddCount", "09", &stereo));
    counts.assert_often(of_each("BelowChannels", "08", &FORMATS[4..6]));
}

/// Scratched and hostile films reach many numbers, those of sound among them.
#[test]
fn scratched_and_hostile_films() {
    let mut counts = Counts::default();
    for seed in 0..4000 {
        let stream = seed as usize % 16;
        let films = [
            sound::scratched(&mut Seeded::new(seed), stream),
            sound::hostile(&mut Seeded::new(seed)),
        ];
        for film in films {
            match run(&film, stream, |_, _, _| ()) {
                Ok(_) => counts.note("ended"),
                Err(refusal) => counts.note(refusal.number),
            }
        }
    }
    counts.assert_often(["ended", "2", "3", "4", "5", "17", "18"]);
}

/// Steps in the middle of films with sound, with good and with hostile states, and with bytes changed
/// ahead: every answer and every number is reached but 1. A refused step, and one at the end, leaves
/// everything lent as it was; the room behind what is written always stays.
#[test]
fn steps_from_any_state() {
    let mut counts = Counts::default();
    for seed in 0..36_000 {
        let rng = &mut Seeded::new(seed);
        let frames = 1 + seed as usize / 16 % 2;
        let film = sound::with_frames(rng, seed as usize % 16, frames);
        let start = match seed % 2 {
            0 => states::middle(rng, &film),
            _ => states::hostile(rng, &film),
        };
        let bytes = match seed % 4 {
            0 | 1 => film.bytes(),
            _ => states::scratched_ahead(rng, &film, &start),
        };
        let mut after = start.clone();
        let stepped = after.step(&bytes);
        counts.note(match &stepped {
            Stepped::Taken(..) => "taken".to_string(),
            Stepped::Whole(..) => "whole".to_string(),
            Stepped::Unfinished(..) => "unfinished".to_string(),
            Stepped::Ended(_) => "ended".to_string(),
            Stepped::Refused(refusal) => refusal.number.to_string(),
        });
        note_sound(&mut counts, &start, &stepped, &bytes);
        assert_only_due_changes(&start, &after, &stepped);
    }
    counts.assert_often(["taken", "whole", "unfinished", "ended"]);
    counts.assert_often([2, 3, 4, 5, 6, 7, 8, 9, 10, 11, 12, 13, 14, 15, 16, 17, 18, 19]);
    counts.assert_often(FORMATS.map(|format| format!("written: {format}")));
    counts.assert_often(["just enough room", "room to spare", "a byte short", "unread fields"]);
    counts.assert_often(["no stream", "16 with no stream"]);
}

/// What the room and the state of a step were like.
fn note_sound(counts: &mut Counts, start: &Start, stepped: &Stepped, film: &[u8]) {
    let (sound, room) = (&start.state.sound, start.room.len());
    if !sound.has_format && *sound != Sound::new(sound.stream) {
        counts.note("unread fields");
    }
    if !sound.chooses() {
        counts.note("no stream");
    }
    match stepped {
        Stepped::Taken(_, _, bytes) if *bytes > 0 => {
            counts.note(format!("written: {}", words(sound)));
            counts.note(if *bytes == room { "just enough room" } else { "room to spare" });
        }
        Stepped::Refused(Refusal { number: 19, .. }) if start.due(film) == room + 1 => {
            counts.note("a byte short");
        }
        Stepped::Refused(Refusal { number: 16, .. }) if !sound.chooses() => {
            counts.note("16 with no stream");
        }
        _ => (),
    }
}

fn assert_only_due_changes(before: &Start, after: &Start, stepped: &Stepped) {
    let written = match stepped {
        Stepped::Refused(_) => {
            assert!(before == after, "{stepped:?}: something changed");
            0
        }
        Stepped::Ended(state) | Stepped::Unfinished(state, ..) => {
            assert_eq!(*state, before.state);
            0
        }
        Stepped::Taken(_, _, bytes) => *bytes,
        Stepped::Whole(..) => 0,
    };
    assert!(before.room[written..] == after.room[written..], "{stepped:?}: the room's rest");
    if let Stepped::Taken(state, ..) | Stepped::Whole(state, ..) = stepped {
        let sound = state.sound;
        assert_eq!(sound.stream, before.state.sound.stream);
        assert!(sound.has_format || sound == Sound::new(sound.stream), "{sound:?}");
    }
    if written > 0 {
        let unlike = Start { room: after.room.clone(), ..before.clone() };
        assert!(unlike == *after, "{stepped:?}: more than the room changed");
    }
}

/// The data that no decoder wraps around on have just as many bytes as the count says, reach every
/// step, and never leave 16 bits.
#[test]
fn without_wrap() {
    let mut steps = BTreeSet::new();
    for seed in 0..100 {
        let rng = &mut Seeded::new(seed);
        let (channels, pairs) = (rng.between(1, 2), rng.between(1, 300));
        let count = 2 * pairs;
        let data = sound::without_wrap(rng, channels, count);
        assert_eq!(data.len(), 2 * channels + count - channels);
        let (words, bytes) = data.split_at(2 * channels);
        let mut last: Vec<i32> =
            words.chunks(2).map(|word| i32::from(i16::from_le_bytes([word[0], word[1]]))).collect();
        for (n, &byte) in bytes.iter().enumerate() {
            let last = &mut last[n % channels];
            *last += i32::from(reference::steps::STEPS[usize::from(byte)]);
            assert!((-32768..=32767).contains(last), "seed {seed}");
            steps.insert(byte);
        }
    }
    assert_eq!(steps.len(), 256);
}

/// Films for libavcodec's decoder are valid, every packet in them is a first compressed one, and both
/// numbers of channels are there.
#[test]
fn restarted() {
    for seed in 0..20 {
        let film = sound::restarted(&mut Seeded::new(seed), 5, 50);
        let mut counts = Counts::default();
        let ended = run(&film.bytes(), 5, |head, state, _| {
            counts.note(format!("{:02} {}", head.kind, state.sound.stereo));
            assert!(head.kind == 0x03 || words(&state.sound).starts_with("first compressed"));
        });
        assert!(ended.is_ok(), "seed {seed}: {ended:?}");
        let times = |kind: &str| counts.0.get(kind).copied().unwrap_or(0);
        assert_eq!(times("08 false") + times("08 true"), 50, "seed {seed}");
        assert!(times("08 false") > 0 && times("08 true") > 0, "seed {seed}");
    }
}

/// A film of packets of one format, each in a chunk of its own, is taken.
#[test]
fn every_format_alone() {
    for (number, format) in Format::ALL.into_iter().enumerate() {
        let rng = &mut Seeded::new(number as u64);
        let mut track = sound::Track::new(number);
        let mut opcodes = vec![track.start(rng, format)];
        for _ in 0..20 {
            opcodes.push(track.data(rng, format));
            opcodes.push(track.silence(rng, format));
        }
        let chunks = opcodes
            .into_iter()
            .map(|opcode| maker::film::Chunk { opcodes: vec![opcode], ..Default::default() })
            .collect();
        let size = maker::Size::new(1, 1);
        let film = Film { size, stream: number, chunks, tail: Vec::new() };
        let mut packets = 0;
        let ended = run(&film.bytes(), number, |head, _, _| packets += usize::from(head.kind != 3));
        assert!(ended.is_ok() && packets == 40, "{format:?}: {ended:?}");
    }
}
