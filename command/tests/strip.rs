//! `mve strip`: films with much to drop, whose rest is known by construction; what is told of them, what is
//! overwritten, and the exit status.

mod common;

use common::json::Json;
use common::{files, fresh, mve, names, with_film};
use maker::demo;
use maker::film::{Opcode, HEADER};
use maker::scratches::{self, Scratched};
use maker::strips::{self, Padded};
use maker::Seeded;
use std::collections::BTreeMap;
use std::fs;
use std::os::unix::fs::symlink;

const STRIP: [&str; 4] = ["strip", "film.mve", "-o", "new.mve"];

/// The words that choose a stream.
fn stream_words(stream: usize) -> Vec<String> {
    match stream {
        0 => Vec::new(), // the stream of `mve play`
        1..16 => vec!["--stream".into(), stream.to_string()],
        _ => vec!["--no-sound".into()],
    }
}

/// What is dropped, by how the film was made.
struct Expected {
    new: Vec<u8>,
    /// Count and bytes of each type.
    kinds: BTreeMap<u8, (usize, usize)>,
    empty: usize,
    behind: usize,
    /// Microseconds.
    timers: Vec<u64>,
}

fn expected(film: &Padded, stream: usize) -> Expected {
    let (mut kinds, mut timers) = (BTreeMap::new(), Vec::new());
    for Opcode { kind, body, .. } in film.dropped(stream) {
        let (count, bytes) = kinds.entry(*kind).or_insert((0, 0));
        (*count, *bytes) = (*count + 1, *bytes + 4 + body.len());
        if *kind == 0x02 && body.len() >= 6 {
            let rate = u32::from_le_bytes([body[0], body[1], body[2], body[3]]);
            let time = u64::from(rate) * u64::from(u16::from_le_bytes([body[4], body[5]]));
            let is_told = (1..=600_000_000).contains(&time) && timers.last() != Some(&time);
            timers.extend(is_told.then_some(time));
        }
    }
    let (empty, behind) = (film.dropped_chunks(stream), film.tail.len());
    Expected { new: film.left(stream), kinds, empty, behind, timers }
}

fn meaning(kind: u8, stream: usize) -> String {
    let others = if stream < 16 { " of other streams" } else { "" };
    match kind {
        0x02 => "timer".into(),
        0x03 => "format of the sound".into(),
        0x04 => "start of the sound".into(),
        0x08 => format!("sound{others}"),
        0x09 => format!("silence{others}"),
        0x0A => "display mode".into(),
        _ => "passed over, its use is not known".into(),
    }
}

impl Expected {
    fn lines(&self, stream: usize, bytes: usize) -> String {
        let plural = |count: usize| if count == 1 { "" } else { "s" };
        let mut text = format!("{:>12} header\n{:>12} kept\n", 26, self.new.len() - 26);
        for (kind, (count, bytes)) in &self.kinds {
            let (s, meaning) = (plural(*count), meaning(*kind, stream));
            text += &format!("{bytes:>12} dropped: {count} opcode{s} 0x{kind:02X}, {meaning}\n");
        }
        if self.empty > 0 {
            let (bytes, count, s) = (4 * self.empty, self.empty, plural(self.empty));
            text += &format!("{bytes:>12} dropped: heads of {count} chunk{s} without an opcode\n");
        }
        if self.behind > 0 {
            text += &format!("{:>12} dropped: behind the end of the film\n", self.behind);
        }
        text + &format!("{bytes:>12} bytes of film.mve\nnew.mve: {} bytes\n", self.new.len())
    }
}

/// Films with everything that can be dropped, for every stream and for none: the new film byte by byte,
/// and every line. The numbers of bytes add up.
#[test]
fn padded_films() {
    let (mut kinds, mut empty, mut behind, mut nothing) = (BTreeMap::new(), 0, 0, 0);
    for seed in 0..200 {
        let film = strips::make(&mut Seeded::new(seed));
        let stream = (seed % 17) as usize;
        let expected = expected(&film, stream);
        let folder = with_film("padded", &film.bytes());
        let words = stream_words(stream);
        let words: Vec<&str> = STRIP.into_iter().chain(words.iter().map(String::as_str)).collect();
        let ran = mve(&folder, &words);
        ran.assert_silent();
        let (lines, rate) = ran.text().trim_end().rsplit_once('\n').expect("lines");
        assert_eq!(format!("{lines}\n"), expected.lines(stream, film.bytes().len()), "seed {seed}");
        assert_eq!(rate == "frame rate: the film tells none", expected.timers.is_empty());
        let sum: usize = lines.lines().filter_map(first_number).sum();
        assert_eq!(sum, 2 * film.bytes().len(), "seed {seed}: the parts and the sum");
        let left = files(&folder);
        assert_eq!(left.len(), 2, "seed {seed}");
        assert!(left["new.mve"] == expected.new, "seed {seed}");
        assert!(left["film.mve"] == film.bytes(), "seed {seed}");
        expected.kinds.keys().for_each(|kind| *kinds.entry(*kind).or_insert(0) += 1);
        empty += usize::from(expected.empty > 0);
        behind += usize::from(expected.behind > 0);
        nothing += usize::from(expected.new == film.bytes());
    }
    assert_eq!(kinds.len(), 10, "{kinds:x?}");
    assert!(kinds.values().all(|&times| times >= 5) && empty >= 10 && behind >= 10, "{kinds:x?}");
    assert!(nothing < 20, "{nothing} films without anything to drop");
}

/// The number at the beginning of a line of bytes.
fn first_number(line: &str) -> Option<usize> {
    line.starts_with(' ').then(|| line.split_whitespace().next()?.parse().ok()).flatten()
}

/// The same as JSON.
#[test]
fn objects() {
    for seed in 0..40 {
        let film = strips::make(&mut Seeded::new(seed));
        let stream = 3 + (seed % 14) as usize;
        let expected = expected(&film, stream);
        let folder = with_film("padded_json", &film.bytes());
        let words = stream_words(stream);
        let words = STRIP.into_iter().chain(words.iter().map(String::as_str)).chain(["--json"]);
        let ran = mve(&folder, &words.collect::<Vec<_>>());
        ran.assert_silent();
        let told = Json::of(ran.text());
        let order = ["behind_end", "bytes", "dropped", "empty_chunks", "file", "header", "kept"];
        let more = ["stream", "stripped", "stripped_bytes", "timers_us"];
        assert_eq!(told.names(), [&order[..], &more].concat());
        assert_eq!(told["file"], Json::String("film.mve".into()));
        assert_eq!(told["stripped"], Json::String("new.mve".into()));
        let chosen = if stream < 16 { Json::number(stream) } else { Json::Null };
        assert_eq!(told["stream"], chosen);
        for (name, number) in [
            ("bytes", film.bytes().len()),
            ("stripped_bytes", expected.new.len()),
            ("header", 26),
            ("kept", expected.new.len() - 26),
            ("behind_end", expected.behind),
        ] {
            assert_eq!(told[name], Json::number(number), "seed {seed}, {name}");
        }
        assert_eq!(told["empty_chunks"]["count"], Json::number(expected.empty));
        assert_eq!(told["empty_chunks"]["bytes"], Json::number(4 * expected.empty));
        let timers: Vec<_> =
            expected.timers.iter().map(|&time| Json::number(time as usize)).collect();
        assert_eq!(told["timers_us"].items(), timers, "seed {seed}");
        let dropped = told["dropped"].items();
        assert_eq!(dropped.len(), expected.kinds.len(), "seed {seed}");
        for (one, (kind, (count, bytes))) in dropped.iter().zip(&expected.kinds) {
            assert_eq!(one["opcode"], Json::number(usize::from(*kind)));
            assert_eq!(one["words"], Json::String(meaning(*kind, stream)));
            assert_eq!(one["count"], Json::number(*count));
            assert_eq!(one["bytes"], Json::number(*bytes));
        }
    }
}

/// The film of the demonstration plays as before, but for its times: 0.1 s a picture by its timer.
#[test]
fn stripped_film_plays() {
    let film = demo::beginning(8);
    let folder = with_film("plays_stripped", &film.bytes());
    let ran = mve(&folder, &STRIP);
    ran.assert_silent();
    let rate = "frame rate: 10.000 pictures a second, which the new film does not tell\n";
    assert!(ran.text().ends_with(rate), "{}", ran.text());
    for name in ["film", "new"] {
        let (input, folder_of, sound) =
            (format!("{name}.mve"), format!("{name}/"), format!("{name}.wav"));
        mve(&folder, &["play", &input, "-o", &folder_of, "--sound", &sound]).assert_silent();
    }
    let of = |name: &str| {
        let pictures = files(&folder.join(name));
        assert_eq!(pictures.len(), 8);
        pictures
    };
    assert!(of("film") == of("new"), "the pictures");
    let left = files(&folder);
    assert!(left["film.wav"] == left["new.wav"] && left["film.wav"].len() > 1000, "the sound");

    mve(&folder, &["strip", "new.mve", "-o", "again.mve"]).assert_silent();
    assert!(files(&folder)["again.mve"] == left["new.mve"], "stripped again");

    let ran = mve(&folder, &["strip", "film.mve", "-o", "silent.mve", "--no-sound"]);
    ran.assert_silent();
    let ran = mve(&folder, &["info", "silent.mve"]);
    assert!(ran.code == Some(0) && ran.text().contains("sound     none"), "{}", ran.text());
}

/// Timers that change: the first four rates are told, and how many more.
#[test]
fn frame_rates() {
    let timer = |rate: u32, subdivision: u16| {
        let body = [&rate.to_le_bytes()[..], &subdivision.to_le_bytes()].concat();
        [&[10, 0, 3, 0, 6, 0, 0x02, 0][..], &body].concat()
    };
    // 0 and more than ten minutes tell nothing
    let nothing = [timer(0, 8), timer(600_000_001, 1)].concat();
    let usual = [timer(8341, 8), nothing.clone(), timer(66_728, 1)].concat();
    let two = [usual.clone(), timer(1_000_000, 3)].concat();
    let six: Vec<u8> = (1..7).flat_map(|time| timer(100_000 * time, 1)).collect();
    for (timers, told) in [
        (Vec::new(), "the film tells none"),
        (nothing, "the film tells none"),
        (usual, "14.986 pictures a second, which the new film does not tell"),
        (two, "14.986, then 0.333 pictures a second, which the new film does not tell"),
        (
            six,
            "10.000, then 5.000, then 3.333, then 2.500, and 2 more pictures a second, which the new \
             film does not tell",
        ),
    ] {
        let folder = with_film("frame_rates", &[&HEADER[..], &timers].concat());
        let ran = mve(&folder, &STRIP);
        ran.assert_silent();
        assert_eq!(ran.text().lines().last(), Some(&*format!("frame rate: {told}")));
        assert_eq!(files(&folder)["new.mve"], HEADER);
    }
}

/// Where a scratched film is first refused: the byte where its chunk begins, and the number.
fn scratch(film: &Scratched) -> Option<(usize, u8)> {
    let walked = film.walked();
    let first = walked.iter().find_map(|(at, made)| Some((*at, made.scratch?.number())));
    let ends = walked.last().is_some_and(|(_, made)| made.ends);
    let end = film.bytes().len() - film.tail.len();
    first.or((!film.tail.is_empty() && !ends).then_some((end, 2)))
}

/// Scratched films are told with the place, status 1, and nothing is written.
#[test]
fn scratched_films() {
    let (mut numbers, mut sane) = ([0; 6], 0);
    for seed in 0..300 {
        let film = scratches::make(&mut Seeded::new(seed));
        let folder = with_film("strip_scratched", &film.bytes());
        let ran = mve(&folder, &STRIP);
        let Some((byte, number)) = scratch(&film) else {
            ran.assert_silent();
            sane += 1;
            continue;
        };
        assert_eq!((ran.code, ran.text()), (Some(1), ""), "seed {seed}");
        assert_eq!(names(&folder), ["film.mve"], "seed {seed}");
        let begin = format!("mve: film.mve: refusal {number} at byte ");
        let rest = ran.err.strip_prefix(&begin).unwrap_or_else(|| panic!("{seed}: {}", ran.err));
        let (told, _) = rest.split_once(": ").expect("a place");
        let told: usize = told.parse().expect("a byte");
        // of a chunk its head, of an opcode its own, which stands inside the chunk
        let length = film.bytes().get(byte..byte + 2).map(|word| [word[0], word[1]]);
        let inside = byte + 4..byte + 4 + usize::from(length.map_or(0, u16::from_le_bytes));
        assert!(if number == 2 { told == byte } else { inside.contains(&told) }, "seed {seed}");
        let end = " Nothing is written; mve salvage saves what is left of it.\n";
        assert!(ran.err.ends_with(end), "{}", ran.err);
        numbers[usize::from(number)] += 1;
    }
    assert!(numbers[2..].iter().all(|&times| times >= 10) && sane >= 10, "{numbers:?}, {sane}");
}

/// The opcode itself is named, and its fault; also where a player would be stopped before.
#[test]
fn places() {
    let chunk = |opcodes: &[u8]| {
        let length = (opcodes.len() as u16).to_le_bytes();
        [&length[..], &[3, 0], opcodes].concat()
    };
    // a size of 0 blocks is refused where it is played, and not here
    let size = [4, 0, 0x05, 0, 0, 0, 0, 0];
    let cases: [(Vec<u8>, &str); 6] = [
        (chunk(&[&size[..], &[0, 0, 0x06, 0]].concat()),
            "refusal 4 at byte 50: opcode 0x06 is not one that the player takes."),
        (chunk(&[&size[..], &[1, 0, 0x03, 0, 9]].concat()),
            "refusal 5 at byte 50: opcode 0x03, version 0, cannot have 1 bytes."),
        (chunk(&[0, 0, 0x01, 0, 7]),
            "refusal 3 at byte 42: opcode 0x01 must be the last of its chunk, and 1 bytes follow."),
        (chunk(&[9, 0, 0x02, 0, 7]),
            "refusal 3 at byte 42: opcode 0x02 passes the end of its chunk: it has 9 bytes, and 1 are left."),
        (vec![1, 2, 3], "refusal 2 at byte 38: the film breaks off inside the head of this chunk."),
        (chunk(&[4, 0, 0x0C, 0, 0, 0, 1, 0]),
            "refusal 5 at byte 42: opcode 0x0C does not fill its 4 bytes exactly."),
    ];
    for (bad, message) in cases {
        let film = [&HEADER[..], &chunk(&size), &bad, &chunk(&[0, 0, 0x06, 0])].concat();
        let film = if message.starts_with("refusal 2") { film[..41].to_vec() } else { film };
        let folder = with_film("strip_places", &film);
        let ran = mve(&folder, &STRIP);
        let salvage = "Nothing is written; mve salvage saves what is left of it.";
        assert_eq!(ran.err, format!("mve: film.mve: {message} {salvage}\n"));
        assert_eq!((ran.code, names(&folder)), (Some(1), vec!["film.mve".into()]));
    }
}

/// The film is never overwritten, by whatever name; another file is with --force alone.
#[test]
fn overwriting() {
    let film = demo::beginning(1).bytes();
    let folder = with_film("strip_overwriting", &film);
    symlink("film.mve", folder.join("link.mve")).expect("a link");
    fs::hard_link(folder.join("film.mve"), folder.join("hard.mve")).expect("a link");
    let before = names(&folder);
    for (input, output) in [
        ("film.mve", "film.mve"),
        ("film.mve", "./film.mve"),
        ("film.mve", "link.mve"),
        ("film.mve", "hard.mve"),
        ("link.mve", "film.mve"),
    ] {
        for force in [&[][..], &["--force"]] {
            let words = [&["strip", input, "-o", output], force].concat();
            let ran = mve(&folder, &words);
            let message = format!("mve: {output}: is the film itself: give another name\n");
            assert_eq!((ran.code, ran.err), (Some(2), message), "{words:?}");
            assert!(ran.out.is_empty(), "{words:?}");
            assert!(files(&folder)["film.mve"] == film && names(&folder) == before, "{words:?}");
        }
    }
    fs::write(folder.join("new.mve"), "old").expect("a file");
    let ran = mve(&folder, &STRIP);
    let message = "mve: new.mve: exists already: give another name, or --force\n";
    assert_eq!((ran.code, &*ran.err), (Some(2), message));
    assert_eq!(files(&folder)["new.mve"], b"old");
    mve(&folder, &[&STRIP[..], &["--force"]].concat()).assert_silent();
    assert!(files(&folder)["new.mve"].starts_with(HEADER));
}

/// A file that is not there: status 2. One that is no film: status 1. Nothing is written.
#[test]
fn not_read() {
    let folder = fresh("strip_not_read");
    let ran = mve(&folder, &STRIP);
    let message = "mve: film.mve: cannot be read: No such file or directory\n";
    assert_eq!((ran.code, &*ran.err, ran.text()), (Some(2), message, ""));
    for text in [&HEADER[..25], b"", b"Interplay MVE Film\x1A\0\x1A\0\0\x01\x33\x11"] {
        fs::write(folder.join("film.mve"), text).expect("a file");
        let ran = mve(&folder, &STRIP);
        let message =
            "mve: film.mve: refusal 1 at byte 0: the film does not begin with the header \
                       of an MVE film. Nothing is written.\n";
        assert_eq!((ran.code, &*ran.err, ran.text()), (Some(1), message, ""));
        assert_eq!(names(&folder), ["film.mve"]);
    }
}
