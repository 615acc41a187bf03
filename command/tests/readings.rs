//! What `mve info` counts for the owner of a catalogue: readings of the sound that other players have,
//! bytes left over, pictures that are never sent, and streams that a film lacks.

mod common;

use common::json::Json;
use common::{mve, with_film};
use maker::film::{self, Chunk, Film, Opcode};
use maker::Size;

fn film(opcodes: Vec<Opcode>) -> Vec<u8> {
    let chunks = vec![Chunk { kind: 3, opcodes, ..Chunk::default() }];
    Film { size: Size::new(1, 1), stream: 16, chunks, tail: Vec::new() }.bytes()
}

/// The text of a film in a folder of this name, and what its JSON counts.
fn told(folder: &str, film: &[u8]) -> (String, Json) {
    let folder = with_film(folder, film);
    let text = mve(&folder, &["info", "film.mve"]).text().to_string();
    let json = Json::of(mve(&folder, &["info", "--json", "film.mve"]).text());
    (text, json.items()[0]["readings"].clone())
}

/// A stereo format, 16-bit and compressed.
fn format() -> Opcode {
    Opcode::new(0x03, 1, vec![0, 0, 7, 0, 0x22, 0x56, 0, 0, 0, 0])
}

/// A packet of this stream with this length and so many bytes of data.
fn sound(stream: u16, length: u16, data: usize) -> Opcode {
    let words = [0, 1 << stream, length].map(u16::to_le_bytes).concat();
    Opcode::new(0x08, 0, [words, vec![0; data]].concat())
}

/// By hand, stereo: 10 samples are 12 bytes of data where start words come in front, else 10. Read as
/// bytes, a length of 20 is 10 samples.
#[test]
fn sounds() {
    let size = film::init_video(Size::new(1, 1));
    let cases = [
        // Start words in every packet: the second is refused.
        (vec![sound(0, 10, 12), sound(0, 10, 12), sound(0, 10, 12)], 3, [1, 3, 0, 0]),
        // The length in bytes, start words in every packet: the first is refused.
        (vec![sound(0, 20, 12), sound(0, 20, 12)], 2, [0, 0, 1, 2]),
        // The length in bytes, start words in the first.
        (vec![sound(0, 20, 12), sound(0, 20, 10), sound(0, 8, 4)], 3, [0, 0, 3, 1]),
        // Only the last is wrong; another stream and an odd count fit nothing and are not of it.
        (vec![sound(0, 10, 12), sound(5, 1, 1), sound(0, 10, 10), sound(0, 9, 9)], 3, [2, 1, 0, 0]),
    ];
    for (sounds, packets, fits) in cases {
        let opcodes = [vec![size.clone(), format()], sounds].concat();
        let (text, counted) = told("readings_sounds", &film(opcodes));
        let names = ["first_samples", "every_samples", "first_bytes", "every_bytes"];
        let found = names.map(|name| counted["sound"][name].clone());
        assert_eq!(found, fits.map(Json::number), "{text}");
        assert_eq!(counted["sound_packets"], Json::number(packets));
        let [a, b, c, d] = fits;
        let expected = format!(
            "  readings  of {packets} packets of sound in stream 0\n\
             {a:>19} fit start words in the first packet, length in samples: this library\n\
             {b:>19} fit start words in every packet, length in samples\n\
             {c:>19} fit start words in the first packet, length in bytes\n\
             {d:>19} fit start words in every packet, length in bytes\n"
        );
        assert!(text.contains("refusal 18 at byte ") && text.ends_with(&expected), "{text}");
    }
}

/// Uncompressed sound of 16 bits: samples or bytes. Where it is right, no reading is told.
#[test]
fn uncompressed() {
    let mono = Opcode::new(0x03, 0, vec![0, 0, 2, 0, 0x22, 0x56, 0, 0]);
    let size = film::init_video(Size::new(1, 1));
    let (text, counted) = told(
        "readings_uncompressed",
        &film(vec![size.clone(), mono.clone(), sound(0, 8, 8), sound(0, 6, 12)]),
    );
    assert_eq!(counted["sound"]["every_bytes"], Json::number(1));
    assert_eq!(counted["sound"]["first_samples"], Json::number(1));
    assert!(text.contains("\n  readings  of 2 packets of sound in stream 0\n"), "{text}");
    let (text, _) = told("readings_uncompressed", &film(vec![size, mono, sound(0, 6, 12)]));
    assert!(!text.contains("readings"), "{text}");
}

/// A picture of one colour with so many bytes behind it.
fn picture(left: usize) -> [Opcode; 2] {
    let video = [vec![0; 14], vec![5; 1 + left]].concat();
    [Opcode::new(0x0F, 0, vec![0x0E]), Opcode::new(0x11, 0, video)]
}

fn send() -> Opcode {
    Opcode::new(0x07, 0, vec![0; 4])
}

/// Bytes left over are counted in all pictures, also behind the one that is refused.
#[test]
fn left_over() {
    let mut opcodes = vec![film::init_video(Size::new(1, 1))];
    for left in [0, 1, 0, 9, 1, 1, 300] {
        opcodes.extend(picture(left));
        opcodes.push(send());
    }
    let (text, counted) = told("readings_left_over", &film(opcodes));
    let numbers = [("none", 2), ("one", 3), ("more", 2), ("most", 300)];
    for (name, number) in numbers {
        assert_eq!(counted["left_over"][name], Json::number(number), "{name}");
    }
    let line =
        "  padding   3 pictures leave a byte over, 2 leave more, 300 at most; 2 leave none\n";
    assert!(text.contains(line) && text.contains("refusal 15 at byte "), "{text}");
}

/// Pictures that are drawn over before they are sent, and one at the end.
#[test]
fn never_sent() {
    let mut opcodes = vec![film::init_video(Size::new(1, 1)), send()];
    for sends in [1, 0, 0, 2, 1, 0] {
        opcodes.extend(picture(0));
        opcodes.extend((0..sends).map(|_| send()));
    }
    let (text, counted) = told("readings_never_sent", &film(opcodes));
    assert_eq!(counted["not_sent"], Json::number(3));
    assert!(text.ends_with("  not sent  3 pictures are drawn and never sent\n"), "{text}");
    let one = [vec![film::init_video(Size::new(1, 1))], picture(0).to_vec()].concat();
    let (text, _) = told("readings_never_sent", &film(one));
    assert!(text.ends_with("  not sent  1 picture is drawn and never sent\n"), "{text}");
}

/// A stream that the film lacks is said where it is asked for.
#[test]
fn lacking_streams() {
    let size = film::init_video(Size::new(1, 1));
    let mono = Opcode::new(0x03, 0, vec![0, 0, 2, 0, 0x22, 0x56, 0, 0]);
    let silent = film(vec![size.clone()]);
    let sounding = film(vec![size, mono, sound(2, 6, 12), sound(3, 6, 12), sound(9, 6, 12)]);
    let folder = with_film("lacking", &sounding);
    std::fs::write(folder.join("silent.mve"), silent).expect("a film");
    let end =
        |words: &[&str]| mve(&folder, words).text().lines().last().unwrap_or_default().to_string();
    assert_eq!(end(&["info", "film.mve"]), "  result    plays to its end");
    assert_eq!(end(&["info", "--stream", "3", "film.mve"]), "  result    plays to its end");
    let lacks = "film.mve: there is no stream 5: the film has 2-3,9";
    assert_eq!(end(&["info", "--stream", "5", "film.mve"]), lacks);
    // Also behind a refusal: a film that breaks off before its sound does not lack it.
    let refused = [vec![Opcode::new(0x07, 9, Vec::new())], vec![sound(2, 6, 12)]].concat();
    std::fs::write(folder.join("refused.mve"), film(refused)).expect("a film");
    let of_refused =
        |stream| mve(&folder, &["info", "--stream", stream, "refused.mve"]).text().to_string();
    assert!(!of_refused("2").contains("no stream 2"), "{}", of_refused("2"));
    assert!(
        of_refused("5").ends_with("there is no stream 5: the film has 2\n"),
        "{}",
        of_refused("5")
    );
    let silent = "silent.mve: there is no stream 0: the film has no sound";
    assert_eq!(end(&["info", "--stream", "0", "film.mve", "silent.mve"]), silent);
}
