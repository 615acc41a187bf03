//! `mve list`: the same opcodes as the second decoder's listing, and films of any size.

mod common;

use common::{mve, with_film};
use maker::{demo, film, film_damage, Seeded};
use reference::listing;

/// A line with its hex and its words taken away: "at type version length". The words behind differ.
fn plain(line: &str) -> String {
    let words: Vec<_> = line.split_whitespace().collect();
    let [at, hex, kind, version, length, ..] = words[..] else { panic!("{line}") };
    let number: u8 = kind.parse().expect("a type in decimal");
    assert_eq!(hex, format!("0x{number:02X}"), "{line}");
    assert!(line.len() > 42 || !matches!(number, 0..=5 | 7..=13 | 15 | 17..=21), "{line}");
    format!("{at} {kind} {version} {length}\n")
}

/// What is listed of a film, as the proved listing program would write it, and the exit status.
fn listed(folder: &str, film: &[u8]) -> (String, Option<i32>) {
    let ran = mve(&with_film(folder, film), &["list", "film.mve"]);
    assert_eq!(ran.err, "");
    let lines: Vec<_> = ran.text().lines().collect();
    let [heads, opcodes @ .., end] = &lines[..] else { panic!("{lines:?}") };
    assert_eq!(*heads, "      AT  TYPE       VERSION  LENGTH  WHAT");
    let opcodes: String = opcodes.iter().map(|line| plain(line)).collect();
    let end = match end.strip_prefix("ended at byte ") {
        Some(length) => format!("ended {length}\n"),
        None => refusal(end),
    };
    (format!("at type version length\n{opcodes}{end}"), ran.code)
}

/// "refused NUMBER POSITION", of "refusal NUMBER at byte POSITION, block N: words."
fn refusal(line: &str) -> String {
    let place =
        line.strip_prefix("refusal ").and_then(|rest| rest.split_once(": ")).expect("words").0;
    let place = place.split(", block ").next().unwrap_or_default();
    let (number, position) = place.split_once(" at byte ").expect("a place");
    format!("refused {number} {position}\n")
}

#[test]
fn as_the_second_decoder() {
    let rng = &mut Seeded::new(70);
    let mut films: Vec<Vec<u8>> = (0..30).map(|_| film::valid(rng).bytes()).collect();
    for damage in film_damage::Damage::ALL {
        films.push(film_damage::damaged(rng, damage));
    }
    films.extend([film::HEADER.to_vec(), film::HEADER[..].repeat(2)]);
    let (mut ended, mut refused) = (0, 0);
    for film in films {
        let expected = listing::list(&film);
        if expected.ends_with("too large\n") || film.len() < film::HEADER.len() {
            continue;
        }
        let is_refused = expected.contains("refused ");
        if expected.ends_with("refused 1 0\n") {
            continue; // such a film is not opened, which is tested below
        }
        let listed = listed("listed", &film);
        if let Some((size, _)) = expected.split_once("refused 8 ") {
            // With true colour: the command lends pictures of words, and goes on.
            assert!(listed.0.starts_with(size) && !listed.0.contains("refused 8 "));
            continue;
        }
        assert_eq!(listed, (expected, Some(i32::from(is_refused))));
        *(if is_refused { &mut refused } else { &mut ended }) += 1;
    }
    assert!(ended >= 20 && refused >= 10, "{ended} {refused}");
}

/// The demonstration is larger than what the proved program lists.
#[test]
fn large() {
    let film = demo::film();
    let (text, code) = listed("listed_large", &film.bytes());
    let opcodes: usize = film.chunks.iter().map(|chunk| chunk.opcodes.len()).sum();
    assert_eq!((text.lines().count(), code), (opcodes + 2, Some(0)));
    assert!(text.ends_with(&format!("ended {}\n", film.bytes().len())));
    assert!(film.bytes().len() > listing::MAX_FILM);
}

#[test]
fn no_film() {
    let ran = mve(&with_film("listed_no_film", b"RIFF....AVI LIST"), &["list", "film.mve"]);
    let message =
        "mve: film.mve: refusal 1 at byte 0: the film does not begin with the header of an \
                   MVE film. No picture comes before it.\n";
    assert_eq!((ran.code, &*ran.err, ran.text()), (Some(1), message, ""));
}
