//! Films with true colour (02, W7): what is told of them, their pictures in all formats, compared with the second
//! decoder, the subcommands that are for 8-bit films alone, and the words of their refusals.

mod common;

use ::gif::{ColorOutput, DecodeOptions};
use common::json::Json;
use common::second::{Second, Sent};
use common::{ffmpeg, files, fresh, mve, names, with_film};
use maker::film::{Film, Opcode};
use maker::{demo, true_colour, Packet, Seeded, Size};
use reference::listing;
use std::collections::BTreeSet;
use std::fs::{self, File};
use std::path::Path;

/// Films that send pictures.
fn films() -> Vec<Vec<u8>> {
    let rng = &mut Seeded::new(300);
    let frames = |frames| move |rng: &mut Seeded| true_colour::with_frames(rng, frames).bytes();
    let mut films: Vec<_> = (0..24).map(|_| frames(5)(rng)).collect();
    films.extend((0..4).map(|_| true_colour::with_sound(rng, 0, 4).bytes()));
    films.retain(|film| !Second::of(film, 16).sent.is_empty());
    assert!(films.len() >= 20);
    films
}

/// A packet of these parts.
fn packet(map: &[u8], first: &[u8], second: &[u8]) -> Packet {
    let offset = (2 + first.len() as u16).to_le_bytes();
    let data = [&offset[..], first, second].concat();
    Packet { columns: 2, rows: 1, map: map.to_vec(), data }
}

/// A film of one frame of two blocks, red and blue.
fn two_blocks() -> Film {
    let packet = packet(&[0xEE], &[0x00, 0x7C, 0x1F, 0x80], &[]);
    true_colour::of_packet(&mut Seeded::new(0), Size::new(2, 1), packet)
}

fn video(film: &mut Film) -> &mut Opcode {
    let mut opcodes = film.chunks.iter_mut().flat_map(|chunk| &mut chunk.opcodes);
    opcodes.find(|opcode| opcode.kind == 0x11).expect("a frame")
}

#[test]
fn png_pictures() {
    for (number, film) in films().iter().enumerate() {
        let (folder, second) = (with_film("deep_png", film), Second::of(film, 16));
        mve(&folder, &["play", "film.mve", "-o", "out/"]).assert_silent();
        for (count, sent) in second.sent.iter().enumerate() {
            let path = folder.join(format!("out/{count:06}.png"));
            let mut reader =
                ::png::Decoder::new(File::open(path).expect("a picture")).read_info().expect("PNG");
            let mut colours = vec![0; reader.output_buffer_size()];
            reader.next_frame(&mut colours).expect("a PNG picture");
            let info = reader.info();
            assert_eq!(info.color_type, ::png::ColorType::Rgb);
            assert_eq!((info.width as usize, info.height as usize), (sent.width, sent.height));
            assert!(colours == sent.rgb(), "film {number}, picture {count}");
        }
        let expected: Vec<u8> = second.sent.iter().flat_map(Sent::rgb).collect();
        let decoded = ffmpeg(&folder, &["-i", "out/%06d.png"]);
        assert!(decoded.is_none_or(|decoded| decoded == expected), "film {number}: ffmpeg");
    }
}

/// The colours that a GIF has of a picture: its own where they are 256 at most; else of red and green the high
/// three bits, of blue the high two, from 0 to 255 in even steps. And whether they are its own.
fn in_gif(sent: &Sent) -> (Vec<u8>, bool) {
    let colours: BTreeSet<u16> = sent.words.iter().copied().collect();
    if colours.len() <= 256 {
        return (sent.rgb(), true);
    }
    let reduced = |&word: &u16| {
        let [red, green, blue] = [word / 1024 % 32, word / 32 % 32, word % 32].map(u32::from);
        [red / 4 * 255 / 7, green / 4 * 255 / 7, blue / 8 * 255 / 3].map(|part| part as u8)
    };
    (sent.words.iter().flat_map(reduced).collect(), false)
}

fn gif(path: &Path) -> Vec<Vec<u8>> {
    let mut options = DecodeOptions::new();
    options.set_color_output(ColorOutput::RGBA);
    let mut decoder = options.read_info(File::open(path).expect("a file")).expect("a GIF file");
    let mut pictures = Vec::new();
    while let Some(frame) = decoder.read_next_frame().expect("a GIF picture") {
        pictures.push(frame.buffer.chunks(4).flat_map(|pixel| pixel[..3].to_vec()).collect());
    }
    pictures
}

/// Pictures of more colours than a GIF has are told.
#[test]
fn gif_pictures() {
    let (mut exact, mut reduced) = (0, 0);
    for (number, film) in films().iter().enumerate() {
        let (folder, second) = (with_film("deep_gif", film), Second::of(film, 16));
        let ran = mve(&folder, &["play", "film.mve", "-o", "out.gif"]);
        let (expected, own): (Vec<_>, Vec<_>) = second.sent.iter().map(in_gif).unzip();
        assert!(gif(&folder.join("out.gif")) == expected, "film {number}");
        let others = own.iter().filter(|own| !**own).count();
        let have = if others == 1 { "picture has" } else { "pictures have" };
        let words = "more than 256 colours, of which GIF keeps the high bits";
        let note = if others == 0 {
            String::new()
        } else {
            format!("mve: out.gif: {others} {have} {words}\n")
        };
        assert_eq!((ran.code, ran.err), (Some(0), note), "film {number}");
        exact += own.len() - others;
        reduced += others;
    }
    println!("{exact} pictures with their own colours, {reduced} with fewer");
    assert!(exact >= 10 && reduced >= 10);
}

/// Luma and differences by ITU-R BT.601, worked out in thousandths.
#[test]
fn y4m_pictures() {
    let weights: [(f64, [f64; 3]); 3] = [
        (16.0, [65.481, 128.553, 24.966]),
        (128.0, [-37.797, -74.203, 112.0]),
        (128.0, [112.0, -93.786, -18.214]),
    ];
    for (number, film) in films().iter().enumerate() {
        let (folder, second) = (with_film("deep_y4m", film), Second::of(film, 16));
        let ran = mve(&folder, &["play", "film.mve", "-o", "-"]);
        assert_eq!(ran.code, Some(0));
        let mut expected = Vec::new();
        for rgb in second.sent.iter().map(Sent::rgb) {
            expected.extend(b"FRAME\n");
            for (offset, weights) in weights {
                expected.extend(rgb.chunks(3).map(|colour| {
                    let parts = colour.iter().zip(weights).map(|(&part, of)| f64::from(part) * of);
                    (offset + parts.sum::<f64>() / 255.0).round() as u8
                }));
            }
        }
        let head = ran.out.iter().position(|&byte| byte == b'\n').expect("a line") + 1;
        assert!(ran.out[head..] == expected, "film {number}");
    }
}

/// Stops do not change a picture, and a part of the pictures is a part.
#[test]
fn stops_and_parts() {
    let film = &films()[0];
    let folder = with_film("deep_stops", film);
    mve(&folder, &["play", "film.mve", "-o", "all/"]).assert_silent();
    let ran = mve(&folder, &["play", "film.mve", "-o", "stopped/", "--stops", "65"]);
    assert_eq!(ran.code, Some(0), "{}", ran.err);
    mve(&folder, &["play", "film.mve", "-o", "part/", "--from", "1", "--pictures", "1"])
        .assert_silent();
    let files = files(&folder);
    let count = Second::of(film, 16).sent.len();
    for number in 0..count {
        let [all, stopped] =
            ["all", "stopped"].map(|name| &files[&format!("{name}/{number:06}.png")]);
        assert!(all == stopped, "picture {number}");
    }
    assert!(files["part/000001.png"] == files["all/000001.png"]);
}

/// One film in lines, and beside an 8-bit film in the table.
#[test]
fn info() {
    let film = two_blocks().bytes();
    let folder = with_film("deep_info", &film);
    fs::write(folder.join("eight.mve"), demo::beginning(2).bytes()).expect("a film");
    let ran = mve(&folder, &["info", "film.mve"]);
    ran.assert_silent();
    let lines: Vec<_> = ran.text().lines().collect();
    assert_eq!(lines[1], "  size      16x8 pixels, 2x1 blocks");
    let palette = lines.iter().find(|line| line.starts_with("  palette")).expect("a line");
    let words = "none: true colour, 15 bits a pixel (";
    assert!(palette["  palette   ".len()..].starts_with(words), "{palette}");
    let ran = mve(&folder, &["info", "film.mve", "eight.mve"]);
    let rows: Vec<Vec<_>> =
        ran.text().lines().map(|line| line.split_whitespace().collect()).collect();
    assert!(rows[1].contains(&"15-bit") && !rows[2].contains(&"15-bit"), "{rows:?}");
    let ran = mve(&folder, &["info", "--json", "film.mve", "eight.mve"]);
    let found = Json::of(ran.text());
    for (object, is_deep) in found.items().iter().zip([true, false]) {
        assert_eq!(object["true_colour"], Json::Bool(is_deep));
        assert_eq!(object["plays"], Json::Bool(true));
    }
}

/// A byte that pads the second part is counted; one in the first part is refused by 15.
#[test]
fn left_over() {
    for (at_end, code, one) in [(true, 0, 1), (false, 1, 0)] {
        let mut film = two_blocks();
        let body = &mut video(&mut film).body;
        body.push(9);
        body[14] += u8::from(!at_end); // the offset
        let ran = mve(&with_film("deep_left_over", &film.bytes()), &["info", "--json", "film.mve"]);
        assert_eq!(ran.code, Some(code));
        let found = &Json::of(ran.text()).items()[0].clone();
        assert_eq!(found["readings"]["left_over"]["one"], Json::number(one));
        if code == 1 {
            assert_eq!(found["refused"]["number"], Json::number(15));
        }
    }
}

#[test]
fn list() {
    let rng = &mut Seeded::new(301);
    for _ in 0..10 {
        let film = true_colour::valid(rng).bytes();
        let ran = mve(&with_film("deep_list", &film), &["list", "film.mve"]);
        let opcodes = ran.text().lines().count() - 2;
        assert_eq!(ran.text().lines().last(), Some(&*format!("ended at byte {}", film.len())));
        // The listing program lends no words, so it stops behind the size.
        let listed = listing::list(&film);
        assert!(opcodes > 0 && (film.len() > 24_576 || listed.lines().count() > 1));
        assert_eq!(ran.code, Some(0));
    }
}

/// Subcommands for 8-bit films say so, and write nothing.
#[test]
fn for_8_bit_films() {
    let folder = with_film("deep_why", &two_blocks().bytes());
    for (name, words) in [
        ("why", &["why", "film.mve", "0", "0", "0"][..]),
        ("why", &["why", "film.mve", "0", "--page", "out.html"]),
        ("blocks", &["blocks", "film.mve", "0", "-o", "out.png"]),
    ] {
        let ran = mve(&folder, words);
        let message = format!(
            "mve: film.mve: has true colour, and mve {name} is for 8-bit films: mve play shows its \
             pictures\n"
        );
        assert_eq!((ran.code, ran.err, ran.out), (Some(2), message, Vec::new()));
        assert_eq!(names(&folder), ["film.mve"]);
    }
}

/// A stripped film and a salvaged one play as the film does.
#[test]
fn new_films() {
    let rng = &mut Seeded::new(302);
    let mut pictures = 0;
    for seed in 0..12 {
        let film = true_colour::with_sound(rng, 0, 3).bytes();
        let folder = with_film("deep_new", &film);
        assert_eq!(mve(&folder, &["strip", "film.mve", "-o", "stripped.mve"]).code, Some(0));
        assert_eq!(mve(&folder, &["salvage", "film.mve", "-o", "saved.mve"]).code, Some(0));
        let before = Second::of(&film, 0);
        for name in ["stripped.mve", "saved.mve"] {
            let after = Second::of(&fs::read(folder.join(name)).expect("a film"), 0);
            let words = |second: &Second| -> Vec<_> {
                second.sent.iter().map(|sent| sent.words.clone()).collect()
            };
            assert!(words(&after) == words(&before), "seed {seed}: {name}");
            assert_eq!(after.sounds, before.sounds, "seed {seed}: {name}");
        }
        pictures += before.sent.len();
    }
    assert!(pictures >= 12);
}

/// What is wrong with a packet of such a film, in words.
#[test]
fn refusals() {
    let folder = fresh("deep_refusals");
    let told = |body: Vec<u8>| {
        let mut film = two_blocks();
        video(&mut film).body = body;
        fs::write(folder.join("film.mve"), film.bytes()).expect("a film");
        let ran = mve(&folder, &["info", "film.mve"]);
        assert_eq!(ran.code, Some(1));
        let lines: Vec<_> = ran.text().lines().map(str::trim).map(String::from).collect();
        let at = lines.iter().position(|line| line.starts_with("result")).expect("a result");
        let number = lines[at].split_whitespace().nth(5).expect("a number").to_string();
        format!("{number}: {}", lines[at + 1])
    };
    let front = [0; 14];
    for (packet, expected) in [
        (&[4][..], "5: opcode 0x11 of a film with true colour cannot have 15 bytes"),
        (
            &[1, 0, 0],
            "20: the second part of the packet is said to begin at byte 1: 2 to 3 are possible",
        ),
        (
            &[4, 1, 0],
            "20: the second part of the packet is said to begin at byte 260: 2 to 3 are possible",
        ),
        (&[4, 0, 0, 0], "13: the packet's data ends before the block's"),
        (&[7, 0, 0, 0, 0, 0, 0], "15: too many data bytes are left over behind the last block"),
    ] {
        assert_eq!(told([&front[..], packet].concat()), expected);
    }
}
