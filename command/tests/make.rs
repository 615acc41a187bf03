//! `mve make`: what the film shows and sounds like, by the second decoder and by ffmpeg; what is told;
//! what is refused.

mod common;

use common::json::Json;
use common::second::{Second, Sent};
use common::{ffmpeg, files, fresh, mve, names, program, run, Ran};
use gif::{DisposalMethod, Encoder, Frame};
use maker::film::{Film, Opcode};
use maker::{demo, film, Profile, Seeded, Size};
use png::{BitDepth, ColorType};
use std::fs::{self, File};
use std::os::unix::fs::symlink;
use std::path::Path;
use std::process::Command;

type Colour = [u8; 3];

fn make(folder: &Path, words: &[&str]) -> Ran {
    mve(folder, &[&["make"], words, &["-o", "new.mve"]].concat())
}

/// The film that was made, as the second decoder plays it.
#[track_caller]
fn made(folder: &Path, words: &[&str]) -> Second {
    let ran = make(folder, words);
    assert_eq!((ran.code, &*ran.err), (Some(0), ""), "{words:?}");
    let second = Second::of(&fs::read(folder.join("new.mve")).expect("a film"), 0);
    assert_eq!(second.refused, None, "{words:?}");
    second
}

fn rgb(second: &Second) -> Vec<u8> {
    second.sent.iter().flat_map(Sent::rgb).collect()
}

/// ffmpeg shows what the second decoder shows.
#[track_caller]
fn assert_alike_in_ffmpeg(folder: &Path, second: &Second) {
    let Some(shown) = ffmpeg(folder, &["-i", "new.mve"]) else { return };
    assert!(shown == rgb(second), "ffmpeg shows other pictures");
}

/// The samples of all sound, by ffmpeg; as a film has them.
fn heard_by_ffmpeg(folder: &Path, format: &str) -> Option<Vec<u8>> {
    let mut command = Command::new("ffmpeg");
    command.args(["-v", "error", "-nostdin", "-i", "new.mve", "-vn", "-f", format, "-"]);
    let output = command.current_dir(folder).output().ok()?; // it is said elsewhere that it is missing
    let told = String::from_utf8_lossy(&output.stderr);
    assert!(output.status.success() && told.is_empty(), "{told}");
    Some(output.stdout)
}

/// Writes a PNG file.
fn write_png(path: &Path, size: (usize, usize), kind: (ColorType, BitDepth), data: &[u8]) {
    let file = File::create(path).expect("a file");
    let mut encoder = png::Encoder::new(file, size.0 as u32, size.1 as u32);
    encoder.set_color(kind.0);
    encoder.set_depth(kind.1);
    if kind.0 == ColorType::Indexed {
        encoder.set_palette(vec![0, 0, 0, 255, 255, 255, 130, 65, 4, 8, 12, 16]);
    }
    let mut writer = encoder.write_header().expect("a header");
    writer.write_image_data(data).expect("a picture");
    writer.finish().expect("a PNG file");
}

const RGB: (ColorType, BitDepth) = (ColorType::Rgb, BitDepth::Eight);

fn write_rgb(folder: &Path, name: &str, size: (usize, usize), pixels: &[Colour]) {
    write_png(&folder.join(name), size, RGB, pixels.as_flattened());
}

/// A component of a film's colours as 8 bits: 4 times as much, and a 16th more.
fn wide(component: u8) -> u8 {
    component * 4 + component / 16
}

/// Pictures of a film's colours, so many.
fn coloured(rng: &mut Seeded, count: usize, pixels: usize) -> Vec<Colour> {
    let colours: Vec<_> = (0..count).map(|_| [(); 3].map(|()| wide(rng.byte() % 64))).collect();
    (0..pixels).map(|_| rng.pick(&colours)).collect()
}

/// A film with one palette for all of its pictures, at the usual timer.
fn one_palette(rng: &mut Seeded, size: Size) -> Film {
    let mut film = film::plain(rng, size, Profile::Light, 5);
    let components: Vec<u8> = rng.bytes(768).into_iter().map(|byte| byte % 64).collect();
    let body = [vec![0, 0, 0, 1], components].concat();
    film.chunks[1].opcodes.insert(0, Opcode::new(0x0C, 0, body));
    film.chunks[1].opcodes.insert(0, Opcode::new(0x02, 0, vec![0x95, 0x20, 0, 0, 8, 0]));
    film
}

/// What `mve play` writes of a film comes back pixel by pixel, from each kind of file, and with the same
/// times; in ffmpeg, too.
#[test]
fn played_pictures_come_back() {
    let rng = &mut Seeded::new(40);
    let mut films = vec![demo::beginning(12).bytes()];
    for (columns, rows) in [(1, 1), (3, 2), (80, 1), (1, 60), (20, 15)] {
        films.push(one_palette(rng, Size::new(columns, rows)).bytes());
    }
    for (number, film) in films.iter().enumerate() {
        let old = Second::of(film, 16);
        let fps = if number == 0 { "10" } else { "15625000/1042625" }; // 66,728 us
        for output in ["out/", "out.gif", "out.y4m"] {
            let folder = common::with_film("come_back", film);
            mve(&folder, &["play", "film.mve", "-o", output]).assert_silent();
            let new = made(&folder, &[output, "--fps", fps]);
            assert_eq!(new.sent.len(), old.sent.len(), "film {number}, {output}");
            assert!(rgb(&new) == rgb(&old), "film {number}, {output}");
            let interval = old.sent[0].interval;
            assert!(new.sent.iter().all(|sent| sent.interval == interval), "film {number}");
            assert_alike_in_ffmpeg(&folder, &new);
        }
    }
}

/// Without --fps a GIF file and Y4M keep their times, and PNG pictures have the usual one. The films with
/// sound sound alike.
#[test]
fn times_and_sound() {
    let film = demo::beginning(7).bytes();
    let folder = common::with_film("times", &film);
    let old = Second::of(&film, 0);
    let words = ["play", "film.mve", "-o", "out.gif", "--sound", "out.wav"];
    mve(&folder, &words).assert_silent();
    mve(&folder, &["play", "film.mve", "-o", "out.y4m"]).assert_silent();
    mve(&folder, &["play", "film.mve", "-o", "out/"]).assert_silent();
    for (input, interval) in [("out.gif", 100_000), ("out.y4m", 100_000), ("out", 66_728)] {
        let new = made(&folder, &[input, "--sound", "out.wav", "--force"]);
        assert!(new.sent.iter().all(|sent| sent.interval == interval), "{input}");
        let [sound] = &new.sounds[..] else { panic!("one sound") };
        let samples = &old.sounds[0].samples;
        let end = samples.len().min(2 * (7 * interval as usize * 22_050 / 1_000_000));
        assert_eq!((sound.rate, sound.stereo, sound.wide), (22_050, false, true));
        assert!(sound.samples == samples[..end], "{input}");
        let heard = heard_by_ffmpeg(&folder, "s16le");
        assert!(heard.is_none_or(|heard| heard == sound.samples), "{input}");
        assert_alike_in_ffmpeg(&folder, &new);
    }
}

/// The film of the demonstration, as `./demo` has it made, shows the maker's pictures and has its samples;
/// the listing program takes its beginning.
#[test]
fn demonstration() {
    let folder = fresh("demonstration");
    demo::write_pictures(&folder.join("frames")).expect("the pictures are written");
    let new = made(&folder, &["frames", "--fps", "10", "--sound", "frames/sound.wav"]);
    let old = Second::of(&demo::film().bytes(), 0);
    assert!(new.sent.len() == demo::FRAMES && rgb(&new) == rgb(&old));
    assert!(new.sounds == old.sounds && new.duration == old.duration);
    assert_alike_in_ffmpeg(&folder, &new);

    let first = (0..demo::LISTED).map(|frame| format!("frames/{frame:06}.png"));
    let first: Vec<_> = first.collect();
    let mut words: Vec<_> = first.iter().map(String::as_str).collect();
    words.extend(["--fps", "10", "--sound", "frames/sound.wav", "--force"]);
    let beginning = made(&folder, &words);
    assert!(rgb(&beginning) == rgb(&old)[..rgb(&beginning).len()]);
    let film = fs::read(folder.join("new.mve")).expect("a film");
    assert!(film.len() <= reference::listing::MAX_FILM, "{}", film.len());
    let listing = reference::listing::list(&film);
    assert!(listing.ends_with(&format!("\nended {}\n", film.len())), "{listing}");
}

/// A WAV file of these samples.
fn wav(kind: u16, rate: u32, channels: u16, bits: u16, samples: &[u8]) -> Vec<u8> {
    let frame = channels * bits / 8;
    let words = |words: [u16; 2]| words.map(u16::to_le_bytes).concat();
    let format = [
        &words([kind, channels])[..],
        &rate.to_le_bytes(),
        &(rate * u32::from(frame)).to_le_bytes(),
        &words([frame, bits]),
    ]
    .concat();
    let chunk = maker::avi::chunk;
    let odd = chunk(b"note", b"odd"); // a chunk that is passed over, with a byte behind it
    let parts = [&b"WAVE"[..], &odd, &chunk(b"fmt ", &format), &chunk(b"data", samples)].concat();
    chunk(b"RIFF", &parts)
}

/// Sound of every format, so much of it for a picture that it has several opcodes; each in a chunk of its
/// own, or libavformat would play the last one alone. 62,000 bytes are more than one opcode gets, and less
/// than a chunk holds.
#[test]
fn long_sound() {
    let rng = &mut Seeded::new(41);
    for (channels, bits, rate, name) in [
        (1, 8, 62_000, "u8"),
        (2, 8, 44_100, "u8"),
        (1, 16, 31_000, "s16le"),
        (2, 16, 44_100, "s16le"),
    ] {
        let folder = fresh("long_sound");
        let samples = rng.bytes(rate * 3 * usize::from(channels * bits / 8));
        let wav = wav(1, rate as u32, channels, bits, &samples);
        fs::write(folder.join("s.wav"), wav).expect("a file");
        for name in ["1.png", "2.png", "10.png"] {
            write_rgb(&folder, name, (8, 8), &coloured(rng, 3, 64));
        }
        let new = made(&folder, &["2.png", "10.png", "1.png", "--fps", "1", "--sound", "s.wav"]);
        let [sound] = &new.sounds[..] else { panic!("one sound") };
        assert_eq!((sound.stereo, sound.wide), (channels == 2, bits == 16));
        assert!(sound.samples == samples && new.formats.len() == 1);
        let heard = heard_by_ffmpeg(&folder, name);
        assert!(heard.is_none_or(|heard| heard == samples), "{channels} {bits}");
        assert_alike_in_ffmpeg(&folder, &new);
    }
}

/// Sound that is longer is cut, which is told; one that is shorter ends earlier.
#[test]
fn cut_sound() {
    let folder = fresh("cut_sound");
    write_rgb(&folder, "a.png", (8, 8), &[[0; 3]; 64]);
    for (seconds, told) in [(3, "; 2.000 s behind the pictures are left out"), (1, "")] {
        let samples = vec![9; 8000 * seconds];
        fs::write(folder.join("s.wav"), wav(1, 8000, 1, 8, &samples)).expect("a file");
        let ran = make(&folder, &["a.png", "--fps", "1", "--sound", "s.wav", "--force"]);
        let line = format!("  sound     8000 Hz mono 8-bit uncompressed, 1.000 s{told}\n");
        assert!(ran.code == Some(0) && ran.text().contains(&line), "{}", ran.text());
        let film = fs::read(folder.join("new.mve")).expect("a film");
        assert_eq!(Second::of(&film, 0).sounds[0].samples.len(), 8000);
    }
}

/// The pictures of a folder come by name, numbers by their value; other files are passed over.
#[test]
fn order_in_a_folder() {
    let folder = fresh("order");
    fs::create_dir_all(folder.join("in/2.png.d")).expect("a folder");
    for (name, red) in [("in/10.png", 130), ("in/9.PNG", 65), ("in/b.png", 255), ("in/2.png", 4)] {
        write_rgb(&folder, name, (8, 8), &[[red, 0, 0]; 64]);
    }
    fs::write(folder.join("in/notes.txt"), "no picture").expect("a file");
    let new = made(&folder, &["in"]);
    let reds: Vec<_> = new.sent.iter().map(|sent| sent.rgb()[0]).collect();
    assert_eq!(reds, [4, 65, 130, 255]);
}

/// A size that is no multiple of 8: the last column and the last row are repeated.
#[test]
fn padded() {
    let rng = &mut Seeded::new(42);
    for (width, height) in [(1, 1), (5, 3), (13, 9), (8, 15), (639, 2), (3, 479)] {
        let folder = fresh("padded");
        let pixels = coloured(rng, 200, width * height);
        write_rgb(&folder, "a.png", (width, height), &pixels);
        let new = made(&folder, &["a.png"]);
        let (wide, high) = (width.next_multiple_of(8), height.next_multiple_of(8));
        let Sent { width: found_width, height: found_height, .. } = new.sent[0];
        assert_eq!((found_width, found_height), (wide, high));
        let place = |x: usize, y: usize| y.min(height - 1) * width + x.min(width - 1);
        let expected = (0..high).flat_map(|y| (0..wide).map(move |x| (x, y)));
        let expected: Vec<u8> = expected.flat_map(|(x, y)| pixels[place(x, y)]).collect();
        assert!(rgb(&new) == expected, "{width}x{height}");
        let ran = make(&folder, &["a.png", "--force"]);
        let line =
            format!("  padded    from {width}x{height} pixels: the last column and the last ");
        assert!(ran.text().contains(&line), "{}", ran.text());
        let told = Json::of(make(&folder, &["a.png", "--force", "--json"]).text());
        assert_eq!(told["padded_from"]["width"], Json::number(width));
        assert_eq!(told["size"]["width"], Json::number(wide));
    }
}

/// PNG pictures of all kinds, by hand: 8 pixels each, the last of them repeated.
#[test]
fn kinds_of_png() {
    let grey = |greys: [u8; 8]| greys.map(|grey| [grey; 3]).to_vec();
    let black_to_white = grey([0, 4, 8, 12, 65, 130, 251, 255]);
    let cases: [(ColorType, BitDepth, Vec<u8>, Vec<Colour>, &str); 8] = [
        (
            ColorType::Grayscale,
            BitDepth::Eight,
            vec![0, 4, 8, 12, 65, 130, 251, 255],
            black_to_white.clone(),
            "",
        ),
        (
            ColorType::Grayscale,
            BitDepth::One,
            vec![0b1001_0110],
            grey([255, 0, 0, 255, 0, 255, 255, 0]),
            "",
        ),
        (
            ColorType::Grayscale,
            BitDepth::Sixteen,
            [0, 4, 8, 12, 65, 130, 251, 255].map(|byte| [byte; 2]).concat(),
            black_to_white,
            "",
        ),
        (
            ColorType::Indexed,
            BitDepth::Two,
            vec![0b0001_1011, 0b1110_0100],
            [0, 1, 2, 3, 3, 2, 1, 0]
                .map(|i| [[0; 3], [255; 3], [130, 65, 4], [8, 12, 16]][i])
                .to_vec(),
            "",
        ),
        (
            ColorType::Rgb,
            BitDepth::Eight,
            // 2 is as far from 0 as from 4; 3 is nearer to 4; 62 is nearer to 60 than to 65, 63 not.
            [[2, 3, 5], [62, 63, 64], [253, 254, 255]].concat().repeat(3)[..24].to_vec(),
            [[0, 4, 4], [60, 65, 65], [251, 255, 255]].repeat(3)[..8].to_vec(),
            "rounded",
        ),
        (
            ColorType::Rgb,
            BitDepth::Sixteen,
            [255, 254, 0, 1, 130, 130].repeat(8),
            vec![[255, 0, 130]; 8],
            "rounded",
        ),
        (
            ColorType::Rgba,
            BitDepth::Eight,
            [255, 0, 65, 255, 255, 255, 255, 0].repeat(4),
            [[255, 0, 65], [0; 3]].repeat(4),
            "transparent",
        ),
        (
            ColorType::GrayscaleAlpha,
            BitDepth::Eight,
            [255, 255, 255, 0].repeat(4),
            [[255; 3], [0; 3]].repeat(4),
            "transparent",
        ),
    ];
    for (colours, depth, data, expected, told) in cases {
        let folder = fresh("kinds");
        write_png(&folder.join("a.png"), (8, 1), (colours, depth), &data);
        let new = made(&folder, &["a.png"]);
        assert!(rgb(&new) == expected.concat().repeat(8), "{colours:?} {depth:?}: {:?}", rgb(&new));
        let ran = make(&folder, &["a.png", "--force", "--json"]);
        let object = Json::of(ran.text());
        for name in ["rounded", "transparent"] {
            assert_eq!(object[name], Json::Bool(name == told), "{colours:?} {depth:?}: {name}");
        }
        let text = make(&folder, &["a.png", "--force"]).out;
        let text = String::from_utf8(text).expect("text");
        assert_eq!(text.contains("\n  rounded   to 6 bits a component: "), told == "rounded");
        assert_eq!(text.contains("transparent pixels are shown on black"), told == "transparent");
    }
}

/// A GIF file whose frames cover parts of the screen and are disposed of in all ways, by hand. 12x2 pixels:
/// each letter is a pixel, `.` black.
#[test]
fn frames_of_gif() {
    let folder = fresh("frames_of_gif");
    let palette = [0, 0, 0, 255, 0, 0, 0, 255, 0, 0, 0, 255];
    let mut encoder =
        Encoder::new(File::create(folder.join("a.gif")).expect("a file"), 12, 2, &palette)
            .expect("a GIF file");
    let frames = [
        (0, 0, 12, 2, 1, DisposalMethod::Keep, 10),     // all red
        (2, 0, 3, 1, 2, DisposalMethod::Background, 7), // green, then nothing
        (6, 1, 2, 1, 3, DisposalMethod::Previous, 0),   // blue, then red again
        (11, 1, 9, 9, 2, DisposalMethod::Any, 3),       // one pixel of it is inside
        (0, 0, 1, 1, 0, DisposalMethod::Keep, 1),       // transparent
    ];
    for (left, top, width, height, entry, dispose, delay) in frames {
        let frame = Frame {
            left,
            top,
            width,
            height,
            dispose,
            delay,
            transparent: Some(0),
            buffer: vec![entry; usize::from(width * height)].into(),
            ..Frame::default()
        };
        encoder.write_frame(&frame).expect("a frame");
    }
    drop(encoder);
    let expected = [
        ["RRRRRRRRRRRR", "RRRRRRRRRRRR"],
        ["RRGGGRRRRRRR", "RRRRRRRRRRRR"],
        ["RR...RRRRRRR", "RRRRRRBBRRRR"],
        ["RR...RRRRRRR", "RRRRRRRRRRRG"],
        ["RR...RRRRRRR", "RRRRRRRRRRRG"],
    ];
    let new = made(&folder, &["a.gif"]);
    let intervals: Vec<_> = new.sent.iter().map(|sent| sent.interval).collect();
    assert_eq!(intervals, [100_000, 70_000, 100_000, 30_000, 10_000]);
    for (number, (sent, [above, below])) in new.sent.iter().zip(expected).enumerate() {
        let colour = |letter: char| match letter {
            'R' => [255, 0, 0],
            'G' => [0, 255, 0],
            'B' => [0, 0, 255],
            _ => [0; 3],
        };
        let row = |y: usize| -> Vec<Colour> {
            let row: Vec<_> = [above, below][y.min(1)].chars().map(colour).collect();
            (0..16).map(|x| row[x.min(11)]).collect()
        };
        let pixels: Vec<u8> = (0..8).flat_map(row).collect::<Vec<_>>().concat();
        assert!(sent.rgb() == pixels, "frame {number}");
    }
    assert_eq!(new.sent.len(), 5);
    assert_alike_in_ffmpeg(&folder, &new);
}

/// A GIF picture that stays for more than ten minutes stays for ten: no player follows a longer timer.
#[test]
fn longest_time() {
    let folder = fresh("longest_time");
    let file = File::create(folder.join("a.gif")).expect("a file");
    let mut encoder = Encoder::new(file, 8, 8, &[0; 6]).expect("a GIF file");
    let frame = Frame { width: 8, height: 8, buffer: vec![0; 64].into(), ..Frame::default() };
    for delay in [65_535, 60_000] {
        encoder.write_frame(&Frame { delay, ..frame.clone() }).expect("a frame");
    }
    drop(encoder);
    let new = made(&folder, &["a.gif"]);
    assert!(new.sent.iter().all(|sent| sent.interval == 600_000_000));
}

/// From a pipe: what the film before wrote, and what ffmpeg writes, with shared colour differences.
#[test]
fn standard_input() {
    let film = demo::beginning(6).bytes();
    let folder = common::with_film("standard_input", &film);
    let mut command = Command::new("sh");
    let script = "\"$0\" play film.mve -o - | \"$0\" make - -o new.mve";
    command.args(["-c", script]).arg(program());
    let ran = run(&folder, command);
    assert_eq!((ran.code, &*ran.err), (Some(0), ""));
    assert_eq!(names(&folder), ["film.mve", "new.mve"]);
    let new = Second::of(&fs::read(folder.join("new.mve")).expect("a film"), 16);
    assert!(rgb(&new) == rgb(&Second::of(&film, 16)));
    assert!(!ran.text().contains("rounded"), "{}", ran.text());

    let mut command = Command::new("sh");
    let script = "ffmpeg -v error -nostdin -i new.mve -pix_fmt yuv420p -f yuv4mpegpipe - | \
                  \"$0\" make - -o shared.mve --json";
    command.args(["-c", script]).arg(program());
    if Command::new("ffmpeg").arg("-version").output().is_err() {
        return; // it is said elsewhere that it is missing
    }
    let ran = run(&folder, command);
    assert_eq!((ran.code, &*ran.err), (Some(0), ""));
    assert_eq!(Json::of(ran.text())["rounded"], Json::Bool(true));
    let shared = Second::of(&fs::read(folder.join("shared.mve")).expect("a film"), 16);
    let (one, other) = (rgb(&shared), rgb(&new));
    assert_eq!(one.len(), other.len());
    let far: u64 = one.iter().zip(&other).map(|(a, b)| u64::from(a.abs_diff(*b))).sum();
    assert!(far < 6 * one.len() as u64, "{far} of {}", one.len()); // of 255, on average
}

/// 256 colours together are kept, 257 are not, which is told; then each pixel has the nearest entry.
#[test]
fn many_colours() {
    let rng = &mut Seeded::new(43);
    let colour = |n: usize| [wide((n / 8) as u8), wide((n % 8) as u8), wide(n as u8 % 64)];
    for (count, quantized) in [(255, false), (256, false), (257, true), (500, true)] {
        let folder = fresh("many_colours");
        let (mut one, mut two) = (vec![[0; 3]; 32 * 16], vec![colour(0); 32 * 16]);
        (0..512).for_each(|i| one[i] = colour(i % (count - 1)));
        two[17] = colour(count - 1);
        write_rgb(&folder, "1.png", (32, 16), &one);
        write_rgb(&folder, "2.png", (32, 16), &two);
        let new = made(&folder, &["."]);
        let ran = make(&folder, &["1.png", "2.png", "--force", "--json"]);
        let told = Json::of(ran.text());
        assert_eq!(told["quantized"], Json::Bool(quantized), "{count}");
        assert_eq!(told["colours_of_pictures"], Json::number(count));
        let text = make(&folder, &["1.png", "2.png", "--force"]).out;
        let text = String::from_utf8(text).expect("text");
        let words = format!(", chosen by a quantizer: the pictures have {count}\n");
        assert_eq!(text.contains(&words), quantized, "{text}");
        let wanted = [one, two].concat().concat();
        if !quantized {
            assert!(rgb(&new) == wanted && text.contains(", those of the pictures\n"), "{count}");
            continue;
        }
        assert_nearest(&new, &wanted);
        assert_alike_in_ffmpeg(&folder, &new);
    }
    let photograph: Vec<_> = (0..64 * 48).map(|_| [(); 3].map(|()| rng.byte())).collect();
    let folder = fresh("photograph");
    write_rgb(&folder, "a.png", (64, 48), &photograph);
    let new = made(&folder, &["a.png"]);
    let rounded = photograph.concat().iter().map(|&byte| nearest(byte)).collect::<Vec<_>>();
    assert_nearest(&new, &rounded);
}

/// The widened component that is nearest to a byte, of two the lower.
fn nearest(byte: u8) -> u8 {
    (0..64).map(wide).min_by_key(|component| component.abs_diff(byte)).expect("64")
}

/// No entry of the film's palette is nearer to a wanted colour than the one that it has.
#[track_caller]
fn assert_nearest(new: &Second, wanted: &[u8]) {
    let far = |one: &[u8], other: &[u8]| -> i32 {
        let six = |byte: u8| i32::from(byte >> 2);
        one.iter().zip(other).map(|(&one, &other)| (six(one) - six(other)).pow(2)).sum()
    };
    let colours = new.sent[0].colours();
    let used =
        3 * (1 + new.sent.iter().flat_map(|sent| &sent.pixels).max().map_or(0, |&n| n as usize));
    for (shown, wanted) in rgb(new).chunks(3).zip(wanted.chunks(3)) {
        let least = colours[..used].chunks(3).map(|entry| far(entry, wanted)).min();
        assert_eq!(Some(far(shown, wanted)), least, "{wanted:?}");
    }
}

/// A picture that needs just as many bytes as a chunk holds, and one that needs one more: of the second
/// picture 1,023 blocks are raw, and one each has 16, 10, 2 and 1 bytes.
#[test]
fn largest_picture() {
    let one = vec![[0; 3]; 640 * 480];
    let mut two = one.clone();
    let white = [255; 3];
    let mut put = |block: usize, colour: &dyn Fn(usize, usize) -> Colour| {
        for (x, y) in (0..64).map(|i| (i % 8, i / 8)) {
            two[(block / 80 * 8 + y) * 640 + block % 80 * 8 + x] = colour(x, y);
        }
    };
    (0..1023).for_each(|block| put(block, &|x, y| [wide((8 * y + x) as u8), 0, 0]));
    put(1023, &|x, y| [wide((4 * (y / 2) + x / 2) as u8), 0, 0]);
    put(1024, &|x, y| if x == 3 && y == 5 { white } else { [0; 3] });
    put(1025, &|x, y| if (x + y) % 2 == 0 { white } else { [0; 3] });
    put(1026, &|_, _| white);
    let folder = fresh("largest");
    write_rgb(&folder, "1.png", (640, 480), &one);
    write_rgb(&folder, "2.png", (640, 480), &two);
    let samples = vec![7; 44_100 * 4];
    fs::write(folder.join("s.wav"), wav(1, 44_100, 2, 16, &samples)).expect("a file");
    let new = made(&folder, &["1.png", "2.png", "1.png", "--fps", "3", "--sound", "s.wav"]);
    assert!(rgb(&new) == [one.concat(), two.concat(), one.concat()].concat());
    let due = &samples[..4 * 44_099]; // three times 333,333 us are one too few for a second
    assert!(new.sounds[0].samples == due);
    assert_alike_in_ffmpeg(&folder, &new);
    let heard = heard_by_ffmpeg(&folder, "s16le");
    assert!(heard.is_none_or(|heard| heard == due));

    for y in 0..8 {
        two[(12 * 8 + y) * 640 + 70 * 8..][..8].fill(white); // block 1,030
    }
    write_rgb(&folder, "2.png", (640, 480), &two);
    let before = names(&folder);
    let ran = make(&folder, &["1.png", "2.png", "--force"]);
    let message =
        "mve: 2.png: picture 1 is too large for a film (refusal 23): give smaller pictures, \
                   or pictures of larger areas of one colour\n";
    assert_eq!((ran.code, &*ran.err, ran.text()), (Some(1), message, ""));
    assert_eq!(names(&folder), before);
}

/// The first picture copies nothing, and the second nothing from back: what they hold is the player's. Even
/// where the pictures are of entry 0 alone, as our players lend them. Later ones copy from both.
#[test]
fn first_pictures() {
    let folder = fresh("first_pictures");
    write_rgb(&folder, "black.png", (16, 8), &[[0; 3]; 128]); // entry 0
    write_rgb(&folder, "white.png", (16, 8), &[[255; 3]; 128]);
    let all: [(&[&str], &[u8]); 2] = [
        (&["black.png", "black.png", "black.png"], &[0xEE, 0x00, 0x00]),
        (&["white.png", "black.png", "white.png", "white.png"], &[0xEE, 0xEE, 0x11, 0x00]),
    ];
    let mut film = Vec::new();
    for (pictures, expected) in all {
        made(&folder, &[pictures, &["--force"]].concat());
        film = fs::read(folder.join("new.mve")).expect("a film");
        let (drawings, sent) = common::drawings::drawings(&film);
        let maps: Vec<_> = drawings.iter().flat_map(|drawing| drawing.map.clone()).collect();
        assert_eq!((&maps[..], sent.len()), (expected, expected.len()));
    }
    let (drawings, _) = common::drawings::drawings(&film);
    // Bit 0 of byte 12 is set in each packet's front bytes, of which the others are 0.
    for drawing in drawings {
        let front = &film[drawing.packet.start - 14..drawing.packet.start];
        assert_eq!(front, [0, 0, 0, 0, 0, 0, 0, 0, 0, 0, 0, 0, 1, 0]);
    }
}

/// The help tells what it must, in lines that fit.
#[test]
fn help() {
    let folder = fresh("make_help");
    assert!(mve(&folder, &["--help"]).text().contains("\n  make "));
    let ran = mve(&folder, &["help", "make"]);
    ran.assert_silent();
    let parts = ["PICTURES", "--fps", "--sound", "--json", "--force", "byte 12", "65515", "66728"];
    assert!(parts.iter().all(|part| ran.text().contains(part)), "{}", ran.text());
    assert!(ran.text().lines().all(|line| line.chars().count() <= 100));
    let rate = "give pictures a second, 0.1 to 1000, as in 15, 12.5 or 30000/1001";
    for (words, message) in [
        (&["make", "a.png"][..], "--output <FILM.mve>"),
        (&["make", "-o", "x.mve"], "<PICTURES>..."),
        (&["make", "a.png", "-o", "x.mve", "--fps", "0"], rate),
        (&["make", "a.png", "-o", "x.mve", "--fps", "fast"], rate),
    ] {
        let ran = mve(&folder, words);
        assert!(ran.code == Some(2) && ran.err.contains(message), "{words:?}: {}", ran.err);
    }
}

/// The lines and the object, by hand.
#[test]
fn told() {
    let folder = fresh("told");
    write_rgb(&folder, "a.png", (8, 8), &[[255; 3]; 64]);
    let ran = make(&folder, &["a.png", "a.png", "--fps", "12.5"]);
    ran.assert_silent();
    let bytes = fs::metadata(folder.join("new.mve")).expect("a film").len();
    let expected = format!(
        "new.mve\n  size      8x8 pixels, 1x1 blocks\n  pictures  2\n  duration  0.160 s\n  sound     \
         none\n  bytes     {bytes}\n  players   bit 0 of byte 12 of each opcode 0x11 is set, as some \
         ask\n  colours   1, those of the pictures\n"
    );
    assert_eq!(ran.text(), expected);
    let told = Json::of(make(&folder, &["a.png", "--json", "--force"]).text());
    let names = [
        "bytes",
        "colours",
        "colours_of_pictures",
        "duration_us",
        "file",
        "padded_from",
        "pictures",
        "quantized",
        "rounded",
        "size",
        "sound",
        "swap_bit",
        "transparent",
    ];
    assert_eq!(told.names(), names);
    assert_eq!((&told["file"], &told["sound"]), (&Json::String("new.mve".into()), &Json::Null));
    assert_eq!(told["duration_us"], Json::number(66_728));
}

/// Nothing that is read is overwritten, by whatever name; another file is with --force alone.
#[test]
fn overwriting() {
    let folder = fresh("make_overwriting");
    fs::create_dir(folder.join("in")).expect("a folder");
    write_rgb(&folder, "in/a.png", (8, 8), &[[9; 3]; 64]);
    fs::write(folder.join("s.wav"), wav(1, 8000, 1, 8, &[1; 99])).expect("a file");
    symlink("in/a.png", folder.join("link.mve")).expect("a link");
    fs::hard_link(folder.join("s.wav"), folder.join("hard.mve")).expect("a link");
    let before = files(&folder);
    let words = ["--sound", "s.wav", "--force", "-o"];
    for (input, output) in [
        ("in/a.png", "in/a.png"),
        ("in", "in/a.png"),
        ("in", "link.mve"),
        ("in", "s.wav"),
        ("in", "hard.mve"),
    ] {
        let ran = mve(&folder, &[&["make", input], &words[..], &[output]].concat());
        let message = format!("mve: {output}: is read for the film: give another name\n");
        assert_eq!((ran.code, ran.err), (Some(2), message), "{input} {output}");
        assert!(files(&folder) == before);
    }
    fs::write(folder.join("new.mve"), "old").expect("a file");
    let ran = make(&folder, &["in"]);
    let message = "mve: new.mve: exists already: give another name, or --force\n";
    assert_eq!((ran.code, &*ran.err), (Some(2), message));
    assert_eq!(files(&folder)["new.mve"], b"old");
    make(&folder, &["in", "--force"]).assert_silent();
    assert!(files(&folder)["new.mve"].starts_with(b"Interplay MVE File"));
}

/// What cannot be read: status 2, a message, and nothing is left.
#[test]
fn not_read() {
    let folder = fresh("make_not_read");
    let write = |name: &str, bytes: &[u8]| fs::write(folder.join(name), bytes).expect("a file");
    write_rgb(&folder, "a.png", (8, 8), &[[9; 3]; 64]);
    write_rgb(&folder, "b.png", (8, 9), &[[9; 3]; 72]);
    write_rgb(&folder, "large.png", (641, 8), &vec![[9; 3]; 641 * 8]);
    fs::create_dir(folder.join("empty")).expect("a folder");
    write("text.png", b"not a picture");
    let png = fs::read(folder.join("a.png")).expect("a file");
    write("cut.png", &png[..png.len() - 30]);
    write("cut.gif", b"GIF89a\x08\0");
    write("cut.y4m", b"YUV4MPEG2 W8 H8 F1:1 C444\nFRAME\n\x10");
    write("deep.y4m", b"YUV4MPEG2 W8 H8 F1:1 C420p10\nFRAME\n\x10");
    write("none.y4m", b"YUV4MPEG2 W8 H8 F1:1 C444\n");
    write("s.mp3", b"ID3 and so on");
    write("cut.wav", &wav(1, 8000, 1, 8, &[0; 99])[..70]);
    write("deep.wav", &wav(1, 48_000, 2, 24, &[0; 6]));
    write("fast.wav", &wav(1, 96_000, 2, 16, &[0; 4]));
    write("packed.wav", &wav(2, 44_100, 2, 16, &[0; 4]));
    write("many.wav", &wav(1, 44_100, 6, 16, &[0; 12]));
    let before = names(&folder);
    let cases: [(&[&str], &str); 18] = [
        (&["no.png"], "no.png: cannot be read: No such file or directory"),
        (&["empty"], "empty: has no PNG picture"),
        (&["text.png"], "text.png: is no PNG, GIF or Y4M file"),
        (&["cut.png"], "cut.png: cannot be read as a PNG picture: "),
        (&["cut.gif"], "cut.gif: cannot be read as a GIF file: "),
        (&["cut.y4m"], "cut.y4m: breaks off inside a picture"),
        (&["deep.y4m"], "deep.y4m: has pictures of a kind that is not read: give 8-bit 4:4:4, "),
        (&["none.y4m"], "there is no picture to make a film from"),
        (&["large.png"], "large.png: is 641x8 pixels: a film has at most 640x480"),
        (
            &["a.png", "b.png"],
            "b.png: picture 1 is 8x9 pixels, but picture 0 is 8x8: give pictures of one size",
        ),
        (&["-"], "standard input: is no Y4M file"),
        (&["a.png", "--sound", "no.wav"], "no.wav: cannot be read: No such file or directory"),
        (&["a.png", "--sound", "s.mp3"], "s.mp3: is no WAV file"),
        (&["a.png", "--sound", "cut.wav"], "cut.wav: breaks off: it is shorter than it says"),
        (
            &["a.png", "--sound", "deep.wav"],
            "deep.wav: the sound has 24 bits a sample: a film has 8 or 16",
        ),
        (
            &["a.png", "--sound", "fast.wav"],
            "fast.wav: the sound has 96000 samples a second: a film has 1 to 65535",
        ),
        (
            &["a.png", "--sound", "packed.wav"],
            "packed.wav: the sound is compressed, or of another kind than plain samples (format 2)",
        ),
        (
            &["a.png", "--sound", "many.wav"],
            "many.wav: the sound has 6 channels: a film has 1 or 2",
        ),
    ];
    for (words, message) in cases {
        let ran = make(&folder, words);
        assert_eq!((ran.code, ran.text()), (Some(2), ""), "{words:?}: {ran:?}");
        assert!(ran.err.starts_with(&format!("mve: {message}")), "{words:?}: {}", ran.err);
        assert_eq!(ran.err.lines().count(), 1, "{words:?}: {}", ran.err);
        assert_eq!(names(&folder), before, "{words:?}");
    }
    let ran = mve(&folder, &["make", "a.png", "-o", "no/new.mve"]);
    let message = "mve: no/new.mve: cannot be written: No such file or directory\n";
    assert_eq!((ran.code, &*ran.err), (Some(2), message));
}
