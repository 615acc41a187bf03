//! `mve salvage`: scratched films whose rest is known by construction, what is told of them, what is
//! overwritten, and the exit status.

mod common;

use common::json::Json;
use common::{files, fresh, mve, names, with_film};
use maker::demo;
use maker::film::{Opcode, HEADER};
use maker::scratches::{self, Made, Scratched};
use maker::Seeded;
use std::fs;
use std::os::unix::fs::symlink;

const END_CHUNK: [u8; 8] = [4, 0, 5, 0, 0, 0, 0, 0];
const SALVAGE: [&str; 4] = ["salvage", "film.mve", "-o", "saved.mve"];

/// What is left of a film, and what is told of it, by how it was made.
struct Expected {
    new: Vec<u8>,
    /// Position, length and number of each chunk left out.
    losses: Vec<(usize, usize, u8)>,
    stop: &'static str,
    /// Header, kept, lost, rest.
    sums: [usize; 4],
}

fn expected(film: &Scratched) -> Expected {
    let walked = film.walked();
    let is_kept = |made: &Made| made.scratch.is_none();
    let kept: Vec<u8> = walked
        .iter()
        .filter(|(_, made)| is_kept(made))
        .flat_map(|(_, made)| made.bytes.clone())
        .collect();
    let losses: Vec<_> = walked
        .iter()
        .filter_map(|(at, made)| Some((*at, made.bytes.len() - 4, made.scratch?.number())))
        .collect();
    let lost = losses.iter().map(|(_, length, _)| length + 4).sum();
    let ends = walked.last().is_some_and(|(_, made)| is_kept(made) && made.ends);
    let stop = match (ends, film.tail.is_empty()) {
        (true, _) => "behind_end",
        (false, true) => "film_end",
        (false, false) => "past_end",
    };
    let mut new = [&HEADER[..], &kept].concat();
    if !ends {
        new.extend(END_CHUNK);
    }
    let rest = film.bytes().len() - HEADER.len() - kept.len() - lost;
    Expected { new, losses, stop, sums: [HEADER.len(), kept.len(), lost, rest] }
}

impl Expected {
    fn status(&self) -> i32 {
        i32::from(!self.losses.is_empty() || self.stop == "past_end")
    }

    fn lines(&self) -> String {
        let mut text = String::new();
        for (position, length, number) in &self.losses {
            let why = match number {
                3 => "an opcode or its head passes its chunk, or bytes follow the chunk's last opcode",
                4 => "this type or version of opcode is not one that the player takes",
                _ => "the opcode's body has a wrong length",
            };
            let chunk = format!("chunk at byte {position}, length {length}");
            text += &format!("left out: {chunk}: {why} (refusal {number})\n");
        }
        text += match self.stop {
            "film_end" => "stopped: at the end of the film\n",
            "behind_end" => "stopped: behind the chunk that ends the film\n",
            _ => "stopped: where the film breaks off: a chunk or its head passes the end (refusal 2)\n",
        };
        let [header, kept, lost, rest] = self.sums;
        text += &format!("{header:>12} header\n{kept:>12} chunks kept, with their heads\n");
        text += &format!("{lost:>12} chunks left out, with their heads\n{rest:>12} not walked\n");
        let all: usize = self.sums.iter().sum();
        text + &format!("{all:>12} bytes of film.mve\nsaved.mve: {} bytes\n", self.new.len())
    }
}

/// Films with every kind of scratch: the new film byte by byte, and every line.
#[test]
fn scratched_films() {
    let (mut stops, mut losses) = (Vec::new(), [0; 6]);
    for seed in 0..200 {
        let film = scratches::make(&mut Seeded::new(seed));
        let expected = expected(&film);
        let folder = with_film("scratched", &film.bytes());
        let ran = mve(&folder, &SALVAGE);
        assert_eq!((ran.code, &*ran.err), (Some(expected.status()), ""), "seed {seed}");
        assert_eq!(ran.text(), expected.lines(), "seed {seed}");
        let left = files(&folder);
        assert_eq!(left.len(), 2, "seed {seed}");
        assert!(left["saved.mve"] == expected.new, "seed {seed}");
        assert!(left["film.mve"] == film.bytes(), "seed {seed}");
        stops.push(expected.stop);
        expected.losses.iter().for_each(|(_, _, number)| losses[usize::from(*number)] += 1);
    }
    for stop in ["film_end", "behind_end", "past_end"] {
        assert!(stops.iter().filter(|found| **found == stop).count() >= 10, "{stop}");
    }
    assert!(losses[3..].iter().all(|&times| times >= 10), "{losses:?}");
}

/// The same as JSON.
#[test]
fn objects() {
    for seed in 0..40 {
        let film = scratches::make(&mut Seeded::new(seed));
        let expected = expected(&film);
        let folder = with_film("scratched_json", &film.bytes());
        let ran = mve(&folder, &[&SALVAGE[..], &["--json"]].concat());
        assert_eq!((ran.code, &*ran.err), (Some(expected.status()), ""), "seed {seed}");
        let told = Json::of(ran.text());
        let order = ["bytes", "file", "header", "kept", "left_out", "lost", "rest", "saved"];
        assert_eq!(told.names(), [&order[..], &["saved_bytes", "stop"]].concat());
        assert_eq!(told["file"], Json::String("film.mve".into()));
        assert_eq!(told["saved"], Json::String("saved.mve".into()));
        assert_eq!(told["stop"], Json::String(expected.stop.into()));
        assert_eq!(told["bytes"], Json::number(film.bytes().len()));
        assert_eq!(told["saved_bytes"], Json::number(expected.new.len()));
        for (name, sum) in ["header", "kept", "lost", "rest"].into_iter().zip(expected.sums) {
            assert_eq!(told[name], Json::number(sum), "seed {seed}, {name}");
        }
        let losses = told["left_out"].items();
        assert_eq!(losses.len(), expected.losses.len());
        for (loss, &(position, length, number)) in losses.iter().zip(&expected.losses) {
            assert_eq!(loss["byte"], Json::number(position));
            assert_eq!(loss["length"], Json::number(length));
            assert_eq!(loss["number"], Json::number(number.into()));
            assert!(matches!(&loss["words"], Json::String(words) if words.contains("opcode")));
        }
    }
}

/// A chunk of a film that plays is scratched: the scratched film is refused, the saved one plays, without
/// the picture of that chunk. Saved again it is the same, and nothing is left out.
#[test]
fn saved_film_plays() {
    let mut film = demo::beginning(6);
    let without = {
        let mut without = film.clone();
        without.chunks.remove(5);
        without.bytes()
    };
    film.chunks[5].opcodes.push(Opcode::new(0x06, 0, Vec::new()));
    let folder = with_film("plays", &film.bytes());
    assert_eq!(mve(&folder, &["info", "film.mve"]).code, Some(1));
    let ran = mve(&folder, &SALVAGE);
    assert_eq!((ran.code, &*ran.err), (Some(1), ""));
    let saved = files(&folder)["saved.mve"].clone();
    assert!(saved == without, "the other chunks, whose last one ends the film");

    mve(&folder, &["play", "saved.mve", "-o", "saved.y4m"]).assert_silent();
    fs::write(folder.join("without.mve"), &without).expect("a film");
    mve(&folder, &["play", "without.mve", "-o", "without.y4m"]).assert_silent();
    let left = files(&folder);
    assert!(left["saved.y4m"] == left["without.y4m"] && left["saved.y4m"].len() > 1000);

    mve(&folder, &["salvage", "saved.mve", "-o", "again.mve"]).assert_silent();
    assert!(files(&folder)["again.mve"] == saved);
}

/// A saved film plays as far as its packets go: a chunk with a packet that does not fit is kept, and the
/// pictures before it are played, also those behind the chunk left out.
#[test]
fn plays_as_far_as_its_packets_go() {
    let mut film = demo::beginning(6);
    film.chunks[3].opcodes.insert(0, Opcode::new(0x06, 0, Vec::new())); // of the second picture
    film.chunks[6].opcodes[0].body[0] = 0x16; // code 6 in the first block of the fifth
    let folder = with_film("as_far", &film.bytes());
    let play = |film: &str, end: &str| {
        let ran = mve(&folder, &["play", film, "-o", "out.gif", "--partial", "--force"]);
        assert_eq!(ran.code, Some(1), "{film}");
        assert!(ran.err.ends_with(end), "{}", ran.err);
        ran.err
    };
    let message = play("film.mve", " The picture before it is written.\n");
    assert!(message.starts_with("mve: film.mve: refusal 4 "), "{message}");
    let ran = mve(&folder, &SALVAGE);
    assert_eq!((ran.code, &*ran.err), (Some(1), ""));
    assert_eq!(ran.text().lines().filter(|line| line.starts_with("left out: ")).count(), 1);
    let message = play("saved.mve", " The 3 pictures before it are written.\n");
    assert!(message.starts_with("mve: saved.mve: refusal 12 "), "{message}");
}

/// More chunks are left out than the list has room for at first.
#[test]
fn many_chunks() {
    let chunks = [1, 0, 0, 0, 0xAA].repeat(3000);
    let folder = with_film("many", &[&HEADER[..], &chunks].concat());
    let ran = mve(&folder, &SALVAGE);
    assert_eq!((ran.code, &*ran.err), (Some(1), ""));
    let left_out: Vec<_> =
        ran.text().lines().filter(|line| line.starts_with("left out: ")).collect();
    assert_eq!(left_out.len(), 3000);
    let last = format!("left out: chunk at byte {}, length 1: ", HEADER.len() + 5 * 2999);
    assert!(left_out[2999].starts_with(&last), "{}", left_out[2999]);
    assert!(files(&folder)["saved.mve"] == [&HEADER[..], &END_CHUNK].concat());
}

/// The scratched film is never overwritten, by whatever name; another file is with --force alone.
#[test]
fn overwriting() {
    let film = demo::beginning(1).bytes();
    let folder = with_film("overwriting", &film);
    symlink("film.mve", folder.join("link.mve")).expect("a link");
    fs::hard_link(folder.join("film.mve"), folder.join("hard.mve")).expect("a link");
    fs::create_dir(folder.join("empty")).expect("a folder");
    let before = names(&folder);
    for (input, output) in [
        ("film.mve", "film.mve"),
        ("film.mve", "./film.mve"),
        ("film.mve", "empty/../film.mve"),
        ("film.mve", "link.mve"),
        ("film.mve", "hard.mve"),
        ("link.mve", "film.mve"),
    ] {
        for force in [&[][..], &["--force"]] {
            let words = [&["salvage", input, "-o", output], force].concat();
            let ran = mve(&folder, &words);
            let message = format!("mve: {output}: is the film itself: give another name\n");
            assert_eq!((ran.code, ran.err), (Some(2), message), "{words:?}");
            assert!(ran.out.is_empty(), "{words:?}");
            assert!(files(&folder)["film.mve"] == film && names(&folder) == before, "{words:?}");
        }
    }
    fs::write(folder.join("saved.mve"), "old").expect("a file");
    let ran = mve(&folder, &SALVAGE);
    let message = "mve: saved.mve: exists already: give another name, or --force\n";
    assert_eq!((ran.code, &*ran.err), (Some(2), message));
    assert_eq!(files(&folder)["saved.mve"], b"old");
    mve(&folder, &[&SALVAGE[..], &["--force"]].concat()).assert_silent();
    assert!(files(&folder)["saved.mve"].starts_with(HEADER));
}

/// A file that is not there, or is no film: status 2, and nothing is written.
#[test]
fn not_read() {
    let folder = fresh("not_read");
    let ran = mve(&folder, &SALVAGE);
    let message = "mve: film.mve: cannot be read: No such file or directory\n";
    assert_eq!((ran.code, &*ran.err, ran.text()), (Some(2), message, ""));
    for text in [&HEADER[..25], b"", b"Interplay MVE Film\x1A\0\x1A\0\0\x01\x33\x11"] {
        fs::write(folder.join("film.mve"), text).expect("a file");
        let ran = mve(&folder, &SALVAGE);
        let message =
            "mve: film.mve: refusal 1 at byte 0: the film does not begin with the header \
                       of an MVE film. Nothing is written.\n";
        assert_eq!((ran.code, &*ran.err, ran.text()), (Some(2), message, ""));
        assert_eq!(names(&folder), ["film.mve"]);
    }
}
