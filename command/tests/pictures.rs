//! `mve play` to pictures: every pixel, colour and time, compared with the second decoder.

mod common;

use ::gif::{ColorOutput, DecodeOptions};
use common::second::{Second, Sent};
use common::{ffmpeg, files, mve, names, program, run, with_film};
use maker::film::{Film, Opcode};
use maker::{demo, film, Profile, Seeded, Size};
use std::collections::BTreeMap;
use std::fs::{self, File};
use std::path::Path;
use std::process::Command;

/// Films of all kinds of blocks, with palettes in between: the demonstration's beginning, one of each
/// extreme size, and seeded ones.
fn films() -> Vec<Vec<u8>> {
    let rng = &mut Seeded::new(30);
    let mut films = vec![demo::beginning(12).bytes()];
    for (columns, rows) in [(80, 60), (1, 1), (80, 1), (1, 60)] {
        films.push(coloured(rng, Size::new(columns, rows)).bytes());
    }
    films.extend((0..30).map(|_| film::with_frames(rng, 4).bytes()));
    films.retain(|film| !Second::of(film, 16).sent.is_empty());
    assert!(films.len() > 30);
    films
}

/// A film with a whole palette of its own for each picture, and the usual timer.
fn coloured(rng: &mut Seeded, size: Size) -> Film {
    let mut film = film::plain(rng, size, Profile::Light, 6);
    for chunk in &mut film.chunks[1..7] {
        let components: Vec<u8> = rng.bytes(768).into_iter().map(|byte| byte % 64).collect();
        let body = [vec![0, 0, 0, 1], components].concat();
        chunk.opcodes.insert(0, Opcode::new(0x0C, 0, body));
        chunk.opcodes.insert(0, Opcode::new(0x02, 0, vec![0x95, 0x20, 0, 0, 8, 0]));
    }
    film
}

fn play(folder: &Path, output: &str, more: &[&str]) {
    let ran = mve(folder, &[&["play", "film.mve", "-o", output], more].concat());
    ran.assert_silent();
    assert!(ran.out.is_empty());
}

fn concat(sent: &[Sent]) -> Vec<u8> {
    sent.iter().flat_map(Sent::rgb).collect()
}

/// The picture of a PNG file: size, indices, palette.
fn png(path: &Path) -> (u32, u32, Vec<u8>, Vec<u8>) {
    let decoder = ::png::Decoder::new(File::open(path).expect("a picture"));
    let mut reader = decoder.read_info().expect("a PNG file");
    let mut pixels = vec![0; reader.output_buffer_size()];
    reader.next_frame(&mut pixels).expect("a PNG picture");
    let info = reader.info();
    assert_eq!(info.color_type, ::png::ColorType::Indexed);
    let palette = info.palette.as_ref().expect("a palette").to_vec();
    (info.width, info.height, pixels, palette)
}

#[test]
fn png_pictures() {
    for (number, film) in films().iter().enumerate() {
        let folder = with_film("png", film);
        let second = Second::of(film, 16);
        play(&folder, "out/", &[]);
        let expected = (0..second.sent.len()).map(|number| format!("out/{number:06}.png"));
        let expected: Vec<_> =
            ["film.mve".into(), "out/".into()].into_iter().chain(expected).collect();
        assert_eq!(names(&folder), expected, "film {number}");
        for (sent, name) in second.sent.iter().zip(&expected[2..]) {
            let (width, height, pixels, palette) = png(&folder.join(name));
            assert_eq!((width as usize, height as usize), (sent.width, sent.height));
            assert!(pixels == sent.pixels && palette == sent.colours(), "film {number}: {name}");
        }
        let decoded = ffmpeg(&folder, &["-i", "out/%06d.png"]);
        let is_same = decoded.is_none_or(|decoded| decoded == concat(&second.sent));
        assert!(is_same, "film {number}: ffmpeg reads other pictures");
    }
}

/// The pictures of a GIF file, which repeats for ever: red, green and blue, and the delays.
fn gif(path: &Path) -> (Vec<Vec<u8>>, Vec<u16>) {
    let repeats = b"\x21\xFF\x0BNETSCAPE2.0\x03\x01\0\0\0";
    let file = fs::read(path).expect("a file");
    assert!(file.windows(repeats.len()).any(|part| part == repeats));
    let mut options = DecodeOptions::new();
    options.set_color_output(ColorOutput::RGBA);
    let mut decoder = options.read_info(File::open(path).expect("a file")).expect("a GIF file");
    let (mut pictures, mut delays) = (Vec::new(), Vec::new());
    while let Some(frame) = decoder.read_next_frame().expect("a GIF picture") {
        assert!(frame.buffer.chunks(4).all(|pixel| pixel[3] == 255), "a pixel is transparent");
        pictures.push(frame.buffer.chunks(4).flat_map(|pixel| pixel[..3].to_vec()).collect());
        delays.push(frame.delay);
    }
    (pictures, delays)
}

#[test]
fn gif_pictures() {
    for (number, film) in films().iter().enumerate() {
        let folder = with_film("gif", film);
        let second = Second::of(film, 16);
        play(&folder, "out.GIF", &[]);
        assert_eq!(names(&folder), ["film.mve", "out.GIF"]);
        let (pictures, delays) = gif(&folder.join("out.GIF"));
        let expected: Vec<_> = second.sent.iter().map(Sent::rgb).collect();
        assert!(pictures == expected, "film {number}");
        let hundredths = |time: u64| ((time as f64) / 10_000.0).round() as u16;
        let delay = |sent: &Sent| hundredths(sent.start + sent.interval) - hundredths(sent.start);
        assert_eq!(delays, second.sent.iter().map(delay).collect::<Vec<_>>(), "film {number}");
        let Some(decoded) = ffmpeg(&folder, &["-ignore_loop", "1", "-i", "out.GIF"]) else {
            return;
        };
        assert!(decoded == concat(&second.sent), "film {number}: ffmpeg reads other pictures");
    }
}

/// By hand: 66,728 us are 6.67 hundredths of a second, so six pictures end at 7, 13, 20, 27, 33, 40.
#[test]
fn gif_delays() {
    let film = coloured(&mut Seeded::new(31), Size::new(2, 2)).bytes();
    let folder = with_film("delays", &film);
    play(&folder, "out.gif", &[]);
    assert_eq!(gif(&folder.join("out.gif")).1, [7, 6, 7, 7, 6, 7]);
    play(&folder, "from.gif", &["--from", "1"]);
    assert_eq!(gif(&folder.join("from.gif")).1, [7, 6, 7, 7, 6]);
}

/// A Y4M file as ITU-R BT.601 says, worked out in thousandths.
fn y4m(sent: &[Sent], rate: &str) -> Vec<u8> {
    let weights: [(f64, [f64; 3]); 3] = [
        (16.0, [65.481, 128.553, 24.966]),
        (128.0, [-37.797, -74.203, 112.0]),
        (128.0, [112.0, -93.786, -18.214]),
    ];
    let Sent { width, height, .. } = sent[0];
    let head = format!("YUV4MPEG2 W{width} H{height} F{rate} Ip A1:1 C444 XCOLORRANGE=LIMITED\n");
    let mut file = head.into_bytes();
    for sent in sent {
        file.extend(b"FRAME\n");
        let rgb = sent.rgb();
        for (offset, weights) in weights {
            file.extend(rgb.chunks(3).map(|colour| {
                let parts =
                    colour.iter().zip(weights).map(|(&part, weight)| f64::from(part) * weight);
                (offset + parts.sum::<f64>() / 255.0).round() as u8
            }));
        }
    }
    file
}

/// A rate by hand: a million over the microseconds, in lowest terms.
fn rate(interval: u64) -> String {
    let divisor = (1..=1_000_000).rev().find(|d| interval % d == 0 && 1_000_000 % d == 0);
    let divisor = divisor.expect("1 divides all");
    format!("{}:{}", 1_000_000 / divisor, interval / divisor)
}

/// Times of all pictures are the same.
fn is_even(second: &Second) -> bool {
    second.sent.iter().all(|sent| sent.interval == second.sent[0].interval)
}

#[test]
fn y4m_pictures() {
    for (number, film) in films().iter().enumerate() {
        let second = Second::of(film, 16);
        if !is_even(&second) {
            continue;
        }
        let folder = with_film("y4m", film);
        play(&folder, "out.y4m", &[]);
        assert_eq!(names(&folder), ["film.mve", "out.y4m"]);
        let expected = y4m(&second.sent, &rate(second.sent[0].interval));
        let found = fs::read(folder.join("out.y4m")).expect("a file");
        assert!(found == expected, "film {number}");
        let ran = mve(&folder, &["play", "film.mve", "-o", "-"]);
        ran.assert_silent();
        assert!(ran.out == expected, "film {number}: standard output");
        assert_eq!(names(&folder), ["film.mve", "out.y4m"]);
    }
}

/// The rates of the demonstration, 100,000 us, and of the usual timer, 66,728 us.
#[test]
fn y4m_rates() {
    let rng = &mut Seeded::new(32);
    let usual = coloured(rng, Size::new(1, 1)).bytes();
    for (film, expected) in [(demo::beginning(2).bytes(), "F10:1"), (usual, "F125000:8341")] {
        let ran = mve(&with_film("rates", &film), &["play", "film.mve", "-o", "-"]);
        let head = ran.out.split(|&byte| byte == b'\n').next().expect("a line");
        let head = String::from_utf8_lossy(head);
        assert_eq!(head.split(' ').nth(3), Some(expected), "{head}");
    }
}

/// A timer that changes cannot be told by Y4M, which is said.
#[test]
fn y4m_with_two_timers() {
    let mut film = coloured(&mut Seeded::new(33), Size::new(1, 1));
    film.chunks[4].opcodes[0].body = vec![0xA0, 0x86, 1, 0, 1, 0]; // 100,000 us
    let film = film.bytes();
    let folder = with_film("two_timers", &film);
    let ran = mve(&folder, &["play", "film.mve", "-o", "out.y4m"]);
    let note = "the film's timer changes, but Y4M keeps the first picture's time\n";
    assert_eq!((ran.code, &*ran.err), (Some(0), &*format!("mve: out.y4m: {note}")));
    let ran = mve(&folder, &["play", "film.mve", "-o", "-"]);
    assert_eq!((ran.code, &*ran.err), (Some(0), &*format!("mve: Y4M: {note}")));
    let second = Second::of(&film, 16);
    let found = fs::read(folder.join("out.y4m")).expect("a file");
    assert!(ran.out == found && found == y4m(&second.sent, "125000:8341"));
    let ran = mve(&folder, &["play", "film.mve", "-o", "out.gif"]);
    ran.assert_silent();
    // The ends are at 7, 13, 20, 30, 37 and 43 hundredths: the fourth picture alone has 100,000 us.
    assert_eq!(gif(&folder.join("out.gif")).1, [7, 6, 7, 10, 7, 6]);
}

/// What a player would see of it: ffmpeg reads the size, the rate and all pictures.
#[test]
fn y4m_read_by_another() {
    let film = demo::beginning(5).bytes();
    let folder = with_film("y4m_read", &film);
    play(&folder, "out.y4m", &[]);
    let Some(decoded) = ffmpeg(&folder, &["-i", "out.y4m"]) else { return };
    let expected = concat(&Second::of(&film, 16).sent);
    assert_eq!(decoded.len(), expected.len());
    // Both conversions round to 8 bits.
    let furthest = decoded.iter().zip(&expected).map(|(&a, &b)| a.abs_diff(b)).max();
    assert!(furthest <= Some(3), "{furthest:?}");
}

/// Pictures from a number on, and so many, under their numbers in the film.
#[test]
fn chosen_pictures() {
    let film = demo::beginning(9).bytes();
    let second = Second::of(&film, 16);
    let cases: [(&[&str], std::ops::Range<usize>); 5] = [
        (&["--from", "3"], 3..9),
        (&["--pictures", "2"], 0..2),
        (&["--from", "3", "--pictures", "4"], 3..7),
        (&["--from", "8", "--pictures", "4"], 8..9),
        (&["--from", "0", "--pictures", "9"], 0..9),
    ];
    for (options, range) in cases {
        let folder = with_film("chosen", &film);
        play(&folder, "out", options);
        let expected: Vec<_> = range.clone().map(|number| format!("{number:06}.png")).collect();
        assert_eq!(names(&folder.join("out")), expected, "{options:?}");
        for (number, name) in range.clone().zip(&expected) {
            let found = png(&folder.join("out").join(name));
            assert!(found.2 == second.sent[number].pixels, "{options:?}: {name}");
        }
        play(&folder, "out.gif", options);
        let expected: Vec<_> = second.sent[range.clone()].iter().map(Sent::rgb).collect();
        assert!(gif(&folder.join("out.gif")).0 == expected, "{options:?}");
        play(&folder, "out.y4m", options);
        let found = fs::read(folder.join("out.y4m")).expect("a file");
        assert!(found == y4m(&second.sent[range], "10:1"), "{options:?}");
    }
}

/// Pictures that the film does not have, and a film without any.
#[test]
fn missing_pictures() {
    let folder = with_film("missing", &demo::beginning(9).bytes());
    let ran = mve(&folder, &["play", "film.mve", "-o", "out.gif", "--from", "9"]);
    let message = "mve: film.mve: the film sends pictures 0 to 8 only: give a lower --from\n";
    assert_eq!((ran.code, &*ran.err), (Some(1), message));
    assert_eq!(names(&folder), ["film.mve"]);

    let folder = with_film("no_picture", &demo::beginning(0).bytes());
    for output in ["out.gif", "out.y4m", "out/", "-"] {
        let ran = mve(&folder, &["play", "film.mve", "-o", output]);
        let message = "mve: film.mve: the film sends no picture\n";
        assert_eq!((ran.code, &*ran.err, ran.text()), (Some(1), message, ""), "{output}");
        assert_eq!(names(&folder), ["film.mve"], "{output}");
    }
}

/// However often a step is stopped, everything that is written is the same.
#[test]
fn stops() {
    let rng = &mut Seeded::new(34);
    let films = [demo::beginning(4).bytes(), coloured(rng, Size::new(9, 7)).bytes()];
    for film in films {
        let folder = with_film("stops", &film);
        let outputs = ["out/", "out.gif", "out.y4m"];
        for output in outputs {
            play(&folder, output, &[]);
        }
        let whole = without_film(&folder);
        let mut last = usize::MAX;
        for allowance in ["65", "66", "200", "4000"] {
            let folder = with_film("stopped", &film);
            let mut stops = Vec::new();
            for output in outputs {
                let ran = mve(&folder, &["play", "film.mve", "-o", output, "--stops", allowance]);
                assert_eq!(ran.code, Some(0), "{ran:?}");
                stops.push(number_of_stops(&ran.err));
            }
            assert!(without_film(&folder) == whole, "{allowance}");
            assert!(stops[0] <= last && stops.iter().all(|count| *count == stops[0]), "{stops:?}");
            last = stops[0];
        }
        let folder = with_film("stopped", &film);
        let ran = mve(&folder, &["play", "film.mve", "-o", "out.gif", "--stops", "312000"]);
        assert_eq!((ran.code, &*ran.err), (Some(0), "mve: stopped 0 times, and went on\n"));
    }
}

fn number_of_stops(message: &str) -> usize {
    let number = message
        .strip_prefix("mve: stopped ")
        .and_then(|rest| rest.strip_suffix(" times, and went on\n"));
    number.and_then(|number| number.parse().ok()).unwrap_or_else(|| panic!("{message}"))
}

fn without_film(folder: &Path) -> BTreeMap<String, Vec<u8>> {
    let mut files = files(folder);
    files.remove("film.mve");
    files
}

/// How often a film is stopped, by hand: two blocks of 65 stores, one of them a picture; with 65 stores
/// a step the first is done, the second not.
#[test]
fn counted_stops() {
    let size = Size::new(2, 1);
    let mut film = film::plain(&mut Seeded::new(35), size, Profile::Light, 1);
    film.chunks[1].opcodes[0] = Opcode::new(0x0F, 0, vec![0xEE]);
    film.chunks[1].opcodes[1] = Opcode::new(0x11, 0, [vec![0; 14], vec![1, 2]].concat());
    let folder = with_film("counted", &film.bytes());
    for (allowance, stops) in [("65", 1), ("129", 1), ("130", 0)] {
        let ran =
            mve(&folder, &["play", "film.mve", "-o", "out.gif", "--force", "--stops", allowance]);
        assert_eq!((ran.code, number_of_stops(&ran.err)), (Some(0), stops), "{allowance}");
    }
}

/// Whoever reads the pictures may go: nothing is said. 30 pictures are more than a pipe holds.
#[test]
fn closed_output() {
    let folder = with_film("closed_pictures", &demo::beginning(30).bytes());
    let mut command = Command::new("sh");
    let script =
        "{ \"$0\" play film.mve -o -; echo $? >status; } | head -c 9 >head; cat status head";
    command.args(["-c", script]).arg(program());
    let ran = run(&folder, command);
    assert_eq!((ran.text(), &*ran.err), ("141\nYUV4MPEG2", ""));
}
