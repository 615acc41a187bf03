//! `mve blocks`: each block in the colour of its code, as bright as the picture is; the legend below.

mod common;

use common::drawings::drawings;
use common::{fresh, mve, names, with_film};
use maker::film::Opcode;
use maker::{demo, film, Profile, Seeded, Size};
use std::collections::{BTreeMap, BTreeSet};
use std::fs::{self, File};
use std::path::Path;

/// Width, height, and red, green and blue of each pixel of a PNG file.
fn png(path: &Path) -> (usize, usize, Vec<[u8; 3]>) {
    let decoder = ::png::Decoder::new(File::open(path).expect("a picture"));
    let mut reader = decoder.read_info().expect("a PNG file");
    let mut bytes = vec![0; reader.output_buffer_size()];
    reader.next_frame(&mut bytes).expect("a PNG picture");
    assert_eq!(reader.info().color_type, ::png::ColorType::Rgb);
    let (width, height) = (reader.info().width as usize, reader.info().height as usize);
    let pixels = bytes.chunks(3).map(|pixel| [pixel[0], pixel[1], pixel[2]]).collect();
    (width, height, pixels)
}

/// The colour of each code, by the legend: the upper left corner of its swatch.
fn swatches((width, height, pixels): &(usize, usize, Vec<[u8; 3]>)) -> BTreeMap<u8, [u8; 3]> {
    let corner = |cell: usize| (height - 60 + cell / 5 * 20 + 2) * width + cell % 5 * 60 + 2;
    let codes = (0..16).filter(|code| *code != 6);
    codes.enumerate().map(|(cell, code)| (code, pixels[corner(cell)])).collect()
}

/// Whether a colour is that of a code, by luma (BT.601) from a quarter of it to all of it.
fn is_tinted(found: [u8; 3], tint: [u8; 3], picture: [u8; 3]) -> bool {
    let [red, green, blue] = picture.map(f64::from);
    let brightness = 0.25 + 0.75 * (0.299 * red + 0.587 * green + 0.114 * blue) / 255.0;
    (0..3).all(|part| (f64::from(tint[part]) * brightness - f64::from(found[part])).abs() < 2.0)
}

#[test]
fn tints() {
    let rng = &mut Seeded::new(92);
    let films = [
        ((1, 1), Profile::Patterns),
        ((12, 5), Profile::Raw),
        ((2, 3), Profile::Patterns),
        ((10, 2), Profile::Mixed),
        ((9, 7), Profile::Copies),
        ((80, 60), Profile::Light),
        ((80, 1), Profile::Mixed),
    ];
    let mut reached = [0; 16];
    for ((columns, rows), profile) in films {
        let mut film = film::plain(rng, Size::new(columns, rows), profile, 3);
        let colours: Vec<u8> = rng.bytes(768).into_iter().map(|byte| byte % 64).collect();
        let palette = Opcode::new(0x0C, 0, [vec![0, 0, 0, 1], colours].concat());
        film.chunks[1].opcodes.insert(0, palette);
        let film = film.bytes();
        let folder = with_film("blocks", &film);
        let ran = mve(&folder, &["blocks", "film.mve", "2", "-o", "out.png"]);
        ran.assert_silent();
        let (all, sent) = drawings(&film);
        let (drawing, picture) = (&all[sent[2].drawings - 1], &sent[2]);
        let result = png(&folder.join("out.png"));
        let (width, height, pixels) = &result;
        let scale = (640 / picture.width).clamp(1, 8);
        let expected = (300.max(scale * picture.width), scale * picture.height + 60);
        assert_eq!((*width, *height), expected);
        let tints = swatches(&result);
        let mut counts = [0; 16];
        for block in 0..columns * rows {
            let code = drawing.map[block / 2] >> (block % 2 * 4) & 0x0F;
            counts[usize::from(code)] += 1;
            let (x, y) = (block % columns * 8, block / columns * 8);
            for (x, y) in (0..64).map(|i| (x + i % 8, y + i / 8)) {
                let entry = usize::from(picture.pixels[y * picture.width + x]);
                let under = &picture.palette[3 * entry..][..3];
                let under = [under[0], under[1], under[2]].map(|part| part * 4 + part / 16);
                for part in 0..scale * scale {
                    let at = (y * scale + part / scale) * width + x * scale + part % scale;
                    assert!(is_tinted(pixels[at], tints[&code], under), "{columns}: {x}, {y}");
                }
            }
        }
        let lines = counts.iter().enumerate().filter(|(_, count)| **count > 0);
        let lines: Vec<String> = lines.map(|(code, n)| format!("{code:>4X} {n:>7}  ")).collect();
        let told: Vec<&str> = ran.text().lines().collect();
        assert_eq!(told[0], "CODE  BLOCKS  MEANING");
        assert_eq!(told.len() - 1, lines.len());
        assert!(told[1..].iter().zip(&lines).all(|(line, begin)| line.starts_with(begin)));
        for (code, count) in counts.iter().enumerate() {
            reached[code] += count;
        }
    }
    assert!((0..16).all(|code| reached[code] > 0 || code == 6), "{reached:?}");
}

/// The legend has a swatch for each code, the same in every picture.
#[test]
fn legend() {
    let film = demo::beginning(4).bytes();
    let folder = with_film("blocks_legend", &film);
    let of = |number: &str| {
        mve(&folder, &["blocks", "film.mve", number, "-o", "out.png", "--force"]).assert_silent();
        swatches(&png(&folder.join("out.png")))
    };
    let first = of("0");
    assert_eq!(first.values().collect::<BTreeSet<_>>().len(), 15);
    assert_eq!(of("3"), first);
}

/// Nothing is overwritten, and nothing is left where it fails.
#[test]
fn files() {
    let folder = with_film("blocks_files", &demo::beginning(2).bytes());
    let blocks = |words: &[&str]| mve(&folder, &[&["blocks", "film.mve"], words].concat());
    let ran = blocks(&["2", "-o", "out.png"]);
    let message = "mve: film.mve: the film sends pictures 0 to 1 only: give one of these\n";
    assert_eq!((ran.code, &*ran.err), (Some(1), message));
    assert_eq!(names(&folder), ["film.mve"]);
    for words in [&["0"][..], &["0", "-o", "out.gif"], &["-o", "out.png"]] {
        assert_eq!(blocks(words).code, Some(2), "{words:?}");
        assert_eq!(names(&folder), ["film.mve"]);
    }
    fs::write(folder.join("out.png"), b"mine").expect("a file");
    let ran = blocks(&["1", "-o", "out.png"]);
    let message = "mve: out.png: exists already: give another name, or --force\n";
    assert_eq!((ran.code, &*ran.err), (Some(2), message));
    assert_eq!(fs::read(folder.join("out.png")).expect("a file"), b"mine");
    blocks(&["1", "-o", "out.png", "--force"]).assert_silent();
    assert!(fs::read(folder.join("out.png")).expect("a file").starts_with(b"\x89PNG"));

    let folder = fresh("blocks_unread");
    let ran = mve(&folder, &["blocks", "no.mve", "0", "-o", "out.png"]);
    let message = "mve: no.mve: cannot be read: No such file or directory\n";
    assert_eq!((ran.code, &*ran.err), (Some(2), message));
    assert_eq!(names(&folder), Vec::<String>::new());
}
