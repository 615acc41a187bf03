//! `mve import`: the pictures and the sound of AVI files of Microsoft Video 1 whose content is known by
//! construction, and as ffmpeg reads them; what is told; what is refused.

mod common;

use common::json::Json;
use common::second::Second;
use common::{ffmpeg, files, fresh, mve, names, Ran};
use maker::avi::{self, Avi, Item, Sound};
use maker::Seeded;
use std::fs;
use std::os::unix::fs::symlink;
use std::path::{Path, PathBuf};
use std::process::Command;

type Colour = [u8; 3];

/// An AVI file, and what the film is to have.
struct Trailer {
    avi: Avi,
    /// Of each frame: the entries, row by row, and the palette.
    pictures: Vec<(Vec<u8>, Vec<Colour>)>,
    samples: Vec<u8>,
}

/// Colours that a film has, as 8 bits.
fn colours(rng: &mut Seeded, count: usize) -> Vec<Colour> {
    let component = |byte: u8| byte % 64 * 4 + byte % 64 / 16;
    (0..count).map(|_| [(); 3].map(|()| component(rng.byte()))).collect()
}

/// A trailer of all kinds of codes, with palette changes and sound, in records now and then.
fn trailer(rng: &mut Seeded, width: usize, height: usize, frames: usize) -> Trailer {
    let (channels, bits) = (rng.between(1, 2) as u16, rng.pick(&[8, 16]));
    let mut avi = Avi::new(width, height);
    (avi.rate, avi.scale) = rng.pick(&[(15, 1), (30_000, 1001), (12, 1), (25, 2)]);
    avi.codec = rng.pick(&[*b"CRAM", *b"MSVC", *b"cram", *b"WHAM"]);
    avi.palette = colours(rng, 256);
    avi.sounds = vec![Sound { kind: 1, rate: 11_025, channels, bits }];
    let (mut picture, mut palette) = (vec![0; width * height], avi.palette.clone());
    let (mut pictures, mut samples) = (Vec::new(), Vec::new());
    for number in 0..frames {
        let mut items = Vec::new();
        if rng.one_in(3) {
            let (first, count) = if rng.one_in(4) { (0, 256) } else { (rng.below(200), 56) };
            let change = colours(rng, count);
            palette[first..first + count].copy_from_slice(&change);
            items.push(Item::Colours(first as u8, change));
        }
        items.push(Item::Frame(avi::frame(rng, width, height, &mut picture)));
        pictures.push((picture.clone(), palette.clone()));
        let length = 4 * rng.between(0, 400);
        let heard = rng.bytes(length);
        samples.extend(&heard);
        items.push(Item::Samples(heard));
        if number % 4 == 3 {
            items.push(Item::Other(*b"JUNK", rng.bytes(5)));
            avi.items.push(Item::Record(items));
        } else {
            avi.items.extend(items);
        }
    }
    Trailer { avi, pictures, samples }
}

fn with_avi(name: &str, avi: &Avi) -> PathBuf {
    let folder = fresh(name);
    fs::write(folder.join("t.avi"), avi.bytes()).expect("a file");
    folder
}

fn import(folder: &Path, words: &[&str]) -> Ran {
    mve(folder, &[&["import", "t.avi", "-o", "new.mve"], words].concat())
}

fn film(folder: &Path) -> Second {
    let second = Second::of(&fs::read(folder.join("new.mve")).expect("a film"), 0);
    assert_eq!(second.refused, None);
    second
}

/// Red, green and blue of a picture, with its last column and row repeated up to whole blocks.
fn padded(pixels: &[u8], palette: &[Colour], width: usize) -> Vec<u8> {
    let height = pixels.len() / width;
    let (wide, high) = (width.next_multiple_of(8), height.next_multiple_of(8));
    let place = |x: usize, y: usize| y.min(height - 1) * width + x.min(width - 1);
    let places = (0..high).flat_map(|y| (0..wide).map(move |x| (x, y)));
    places.flat_map(|(x, y)| palette[usize::from(pixels[place(x, y)])]).collect()
}

/// Every picture, colour, time and sample, of sizes that are multiples of 8 and of others; and ffmpeg reads
/// the AVI file and the film alike.
#[test]
fn carried_over() {
    let rng = &mut Seeded::new(50);
    let sizes =
        [(8, 8), (4, 4), (4, 8), (8, 4), (16, 24), (12, 20), (100, 44), (36, 64), (160, 120)];
    for (number, (width, height)) in sizes.into_iter().cycle().take(27).enumerate() {
        let made = trailer(rng, width, height, 8);
        let folder = with_avi("carried_over", &made.avi);
        import(&folder, &[]).assert_silent();
        assert_eq!(names(&folder), ["new.mve", "t.avi"]);
        let film = film(&folder);
        assert_eq!(film.sent.len(), made.pictures.len(), "file {number}");
        let interval = 1e6 * f64::from(made.avi.scale) / f64::from(made.avi.rate);
        for (at, (sent, (pixels, palette))) in film.sent.iter().zip(&made.pictures).enumerate() {
            assert_eq!(sent.interval, interval.round() as u64, "file {number}");
            assert!(sent.rgb() == padded(pixels, palette, width), "file {number}, picture {at}");
        }
        let rate = 11_025 * film.duration / 1_000_000;
        let sound = made.avi.sounds[0];
        let frame = usize::from(sound.channels * sound.bits / 8);
        let heard = made.samples.len().min(rate as usize * frame) / frame * frame;
        let found: Vec<u8> = film.sounds.iter().flat_map(|sound| sound.samples.clone()).collect();
        assert!(found == made.samples[..heard], "file {number}: sound");
        assert_eq!(film.formats, [(11_025, sound.channels.into(), sound.bits.into(), false)]);
        assert_alike_in_ffmpeg(&folder, &made, &film);
    }
}

/// ffmpeg's pictures of the AVI file are those of the film, but for what is repeated; and its pictures of
/// the film are all of those.
fn assert_alike_in_ffmpeg(folder: &Path, made: &Trailer, film: &Second) {
    let Some(shown) = ffmpeg(folder, &["-i", "t.avi"]) else { return };
    let Avi { width, height, .. } = made.avi;
    assert_eq!(shown.len(), 3 * width * height * film.sent.len(), "{width}x{height}");
    for (number, (shown, sent)) in shown.chunks(3 * width * height).zip(&film.sent).enumerate() {
        let rgb = sent.rgb();
        let row = |y: usize| &rgb[3 * sent.width * y..][..3 * width];
        let film: Vec<u8> = (0..height).flat_map(row).copied().collect();
        assert!(shown == film, "{width}x{height}: picture {number}");
    }
    let shown = ffmpeg(folder, &["-i", "new.mve"]).expect("it is there");
    let rgb: Vec<u8> = film.sent.iter().flat_map(|sent| sent.rgb()).collect();
    assert!(shown == rgb, "{width}x{height}: the film in ffmpeg");
}

/// libavformat opens the AVI file and tells its codec, size, rate and sound.
#[test]
fn probed() {
    let mut made = trailer(&mut Seeded::new(51), 20, 12, 4);
    (made.avi.rate, made.avi.scale) = (25, 2);
    let folder = with_avi("probed", &made.avi);
    let mut command = Command::new("ffprobe");
    let entries = "stream=codec_name,width,height,r_frame_rate,sample_rate";
    command.args(["-v", "error", "-of", "compact", "-show_entries", entries, "t.avi"]);
    let Ok(output) = command.current_dir(&folder).output() else {
        return common::say("ffprobe is not there (Debian: ffmpeg): it opens no AVI file");
    };
    let text = String::from_utf8(output.stdout).expect("text");
    let lines: Vec<_> = text.lines().collect();
    assert_eq!(lines.len(), 2, "{text}");
    assert_eq!(lines[0], "stream|codec_name=msvideo1|width=20|height=12|r_frame_rate=25/2");
    assert!(lines[1].contains("sample_rate=11025"), "{text}");
}

/// Colours between those of a film are rounded to the nearest, which is told.
#[test]
fn rounded() {
    let mut made = trailer(&mut Seeded::new(52), 8, 8, 3);
    made.avi.items.retain(|item| !matches!(item, Item::Colours(..)));
    for (exact, line) in [(true, false), (false, true)] {
        if !exact {
            made.avi.palette = (0..=255).map(|grey| [grey, 255 - grey, grey / 2]).collect();
        }
        let folder = with_avi("rounded", &made.avi);
        let ran = import(&folder, &[]);
        ran.assert_silent();
        assert_eq!(ran.text().contains("  rounded   to 6 bits a component: "), line);
        let told = Json::of(import(&folder, &["--force", "--json"]).text());
        assert_eq!(told["rounded"], Json::Bool(!exact));
        let wide = |component: u8| component * 4 + component / 16;
        let nearest = |byte: u8| (0..64).min_by_key(|&six| wide(six).abs_diff(byte)).expect("64");
        let palette: Vec<u8> = made.avi.palette.concat().into_iter().map(nearest).collect();
        assert!(film(&folder).sent[0].palette == palette);
    }
}

/// A palette of few entries: the others are black.
#[test]
fn few_colours() {
    let mut avi = Avi::new(8, 4);
    avi.palette = vec![[255, 0, 0], [0, 255, 0], [0, 0, 255]];
    avi.items = vec![Item::Frame(vec![2, 0x80, 9, 0x80, 0, 0])];
    let folder = with_avi("few_colours", &avi);
    import(&folder, &[]).assert_silent();
    let row = [[0, 0, 255].repeat(4), [0; 3].repeat(4)].concat();
    assert!(film(&folder).sent[0].rgb() == row.repeat(8));
}

/// Frames that are refused are told by their numbers, and the film has the picture before them once more;
/// so it has for empty frames, which are not refused. The status is 1.
#[test]
fn refused_frames() {
    for (width, height) in [(8, 8), (12, 4)] {
        let blocks = width * height / 16;
        let solid = |colour: u8| [[colour, 0x80].repeat(blocks), vec![0, 0]].concat();
        let mut avi = Avi::new(width, height);
        let frames = [
            vec![7, 0x80],                                   // 0: too short
            solid(1),                                        // 1
            [&solid(2)[..], &[0]].concat(),                  // 2: a byte behind the end mark
            vec![],                                          // 3: empty
            vec![blocks as u8 + 1, 0x84, 0, 0],              // 4: a skip too far
            [[3, 0x80].repeat(blocks), vec![0, 1]].concat(), // 5: another mark
            solid(4),                                        // 6
            [solid(5)[..2 * blocks - 1].to_vec()].concat(),  // 7: too short by a byte
            vec![blocks as u8, 0x84, 0, 0],                  // 8: all blocks stay
        ];
        avi.items = frames.map(Item::Frame).to_vec();
        avi.palette = (0..64).map(|n| [n * 4 + n / 16; 3]).collect();
        let folder = with_avi("refused", &avi);
        let ran = import(&folder, &[]);
        assert_eq!((ran.code, &*ran.err), (Some(1), ""), "{}", ran.text());
        let refused: Vec<_> = ran.text().lines().filter(|line| line.contains("refused")).collect();
        let expected = [
            "  refused   frame 0: the frame's data ends before all blocks are passed (refusal 24)",
            "  refused   frame 2: the end mark does not stand alone behind the frame's last block \
             (refusal 26)",
            "  refused   frame 4: a skip passes the frame's last block (refusal 25)",
            "  refused   frame 5: the end mark does not stand alone behind the frame's last block \
             (refusal 26)",
            "  refused   frame 7: the frame's data ends before all blocks are passed (refusal 24)",
        ];
        assert_eq!(refused, expected);
        let film = film(&folder);
        let entries: Vec<_> = film.sent.iter().map(|sent| sent.pixels[0]).collect();
        assert_eq!(entries, [0, 1, 1, 1, 1, 1, 4, 4, 4]);
        assert!(film.sent.iter().all(|sent| sent.pixels.iter().all(|&p| p == sent.pixels[0])));

        let ran = import(&folder, &["--json", "--force"]);
        assert_eq!((ran.code, &*ran.err), (Some(1), ""));
        let told = Json::of(ran.text());
        let numbers: Vec<_> = told["refused"].items().iter().map(|one| &one["frame"]).collect();
        assert_eq!(numbers, [0, 2, 4, 5, 7].map(Json::number).each_ref());
        assert_eq!(told["refused"].items()[2]["number"], Json::number(25));
    }
}

/// A frame that Video 1 has and a film cannot: eight colours in every block of 640x480 pixels.
#[test]
fn too_large() {
    let rng = &mut Seeded::new(53);
    let (blocks, mut avi) = (160 * 120, Avi::new(640, 480));
    let code = |rng: &mut Seeded| [&[rng.byte(), 0xB6][..], &rng.bytes(8)].concat();
    let noise: Vec<u8> = (0..blocks).flat_map(|_| code(rng)).chain([0, 0]).collect();
    let flat = |colour: u8| [[colour, 0x80].repeat(blocks), vec![0, 0]].concat();
    avi.items = [flat(5), noise, flat(6)].map(Item::Frame).to_vec();
    let folder = with_avi("too_large", &avi);
    let ran = import(&folder, &[]);
    assert_eq!((ran.code, &*ran.err), (Some(1), ""));
    let line = "  refused   frame 1: the picture needs a packet longer than an opcode can be (refusal 23)\n";
    assert!(ran.text().ends_with(line), "{}", ran.text());
    let entries: Vec<_> = film(&folder).sent.iter().map(|sent| sent.pixels[77]).collect();
    assert_eq!(entries, [5, 5, 6]);
}

/// A file cut anywhere, and one in which any length is too large: a message, and nothing is left.
#[test]
fn truncated() {
    let made = trailer(&mut Seeded::new(54), 16, 8, 3);
    let bytes = made.avi.bytes();
    let folder = fresh("truncated");
    for length in (12..bytes.len()).step_by(97).chain([bytes.len() - 1]) {
        fs::write(folder.join("t.avi"), &bytes[..length]).expect("a file");
        let ran = import(&folder, &[]);
        let message = "mve: t.avi: breaks off: it is shorter than it says\n";
        assert_eq!((ran.code, &*ran.err, ran.text()), (Some(2), message, ""), "{length}");
        assert_eq!(names(&folder), ["t.avi"], "{length}");
    }
    for name in [&b"LIST"[..], b"strf", b"00dc"] {
        let mut wrong = bytes.clone();
        let at = wrong.windows(4).position(|part| part == name).expect("a chunk");
        wrong[at + 6] = 0x7F;
        fs::write(folder.join("t.avi"), &wrong).expect("a file");
        let ran = import(&folder, &[]);
        assert_eq!((ran.code, ran.text()), (Some(2), ""), "{name:?}");
        assert_eq!(ran.err, "mve: t.avi: breaks off: it is shorter than it says\n");
        assert_eq!(names(&folder), ["t.avi"], "{name:?}");
    }
}

/// Other files, codecs, sizes, rates: a message each, and nothing is left.
#[test]
fn not_taken() {
    let folder = fresh("not_taken");
    let good = trailer(&mut Seeded::new(55), 16, 8, 2).avi;
    let wrong = |change: &dyn Fn(&mut Avi)| {
        let mut avi = good.clone();
        change(&mut avi);
        avi.bytes()
    };
    let mut wave = good.bytes();
    wave[8..12].copy_from_slice(b"WAVE");
    let cases: [(Vec<u8>, &str); 13] = [
        (b"".to_vec(), "is no AVI file"),
        (b"Interplay MVE File\x1A\0\x1A\0\0\x01\x33\x11".to_vec(), "is no AVI file"),
        (wave, "is no AVI file"),
        (
            wrong(&|avi| avi.codec = *b"DX\x1B0"),
            "has pictures of the codec 'DX\\x1b0': give Microsoft Video 1 (CRAM)",
        ),
        (
            wrong(&|avi| avi.codec = *b"\0\0\0\0"),
            "has pictures of the codec '\\x00\\x00\\x00\\x00': give Microsoft Video 1 (CRAM)",
        ),
        (
            wrong(&|avi| avi.bits = 16),
            "has pictures of 16 bits: give Microsoft Video 1 of 8 bits",
        ),
        (
            wrong(&|avi| avi.width = 644),
            "has pictures of 644x8 pixels: a film has at most 640x480, Video 1 multiples of 4",
        ),
        (
            wrong(&|avi| avi.height = 6),
            "has pictures of 16x6 pixels: a film has at most 640x480, Video 1 multiples of 4",
        ),
        (wrong(&|avi| avi.rate = 0), "has 0/SCALE pictures a second, which no film can have"),
        (
            wrong(&|avi| avi.items.retain(|item| matches!(item, Item::Samples(_)))),
            "has no pictures",
        ),
        (
            wrong(&|avi| avi.items.insert(0, Item::Colours(255, vec![[0; 3]; 2]))),
            "has a palette change that cannot be read",
        ),
        (
            wrong(&|avi| avi.sounds[0].kind = 2),
            "its sound is compressed, or of another kind than plain samples (format 2): give --silent \
             to leave it out",
        ),
        (
            wrong(&|avi| avi.sounds[0].bits = 24),
            "its sound has 24 bits a sample: a film has 8 or 16: give --silent to leave it out",
        ),
    ];
    for (bytes, message) in cases {
        fs::write(folder.join("t.avi"), bytes).expect("a file");
        let ran = import(&folder, &[]);
        let message = message.replace("SCALE", &good.scale.to_string());
        assert_eq!((ran.code, ran.text()), (Some(2), ""), "{message}");
        assert_eq!(ran.err, format!("mve: t.avi: {message}\n"));
        assert_eq!(names(&folder), ["t.avi"]);
    }
    let ran = mve(&folder, &["import", "no.avi", "-o", "new.mve"]);
    let message = "mve: no.avi: cannot be read: No such file or directory\n";
    assert_eq!((ran.code, &*ran.err), (Some(2), message));
}

/// --silent leaves out a sound, also one that a film cannot have; a second sound is left out, and told.
#[test]
fn sounds() {
    let mut made = trailer(&mut Seeded::new(56), 8, 8, 3);
    let second = Sound { kind: 1, rate: 8000, channels: 1, bits: 8 };
    made.avi.sounds.push(second);
    made.avi.items.insert(1, Item::Other(*b"02wb", vec![1; 99]));
    let folder = with_avi("two_sounds", &made.avi);
    let ran = import(&folder, &[]);
    ran.assert_silent();
    assert!(ran.text().ends_with("\n  left out  1 more sounds\n"), "{}", ran.text());
    let found = film(&folder);
    assert!(found.formats.len() == 1 && made.samples.starts_with(&found.sounds[0].samples));

    made.avi.sounds[0].kind = 0x55;
    let folder = with_avi("silent", &made.avi);
    let ran = import(&folder, &["--silent"]);
    ran.assert_silent();
    assert!(ran.text().contains("  sound     none\n"), "{}", ran.text());
    assert!(film(&folder).formats.is_empty());
}

/// A long file goes on in parts of another kind; a file may have no rate in the header of its pictures.
#[test]
fn other_forms() {
    let rng = &mut Seeded::new(58);
    let made = trailer(rng, 8, 8, 3);
    let mut picture = made.pictures[2].0.clone();
    let more = avi::frame(rng, 8, 8, &mut picture);
    let list = [&b"movi"[..], &avi::chunk(b"00dc", &more)].concat();
    let part = [&b"AVIX"[..], &avi::chunk(b"LIST", &list)].concat();
    let bytes = [made.avi.bytes(), avi::chunk(b"RIFF", &part)].concat();
    let folder = fresh("other_forms");
    fs::write(folder.join("t.avi"), bytes).expect("a file");
    import(&folder, &[]).assert_silent();
    let film = film(&folder);
    assert_eq!(film.sent.len(), 4);
    assert!(film.sent[3].rgb() == padded(&picture, &made.pictures[2].1, 8));

    let mut avi = made.avi;
    (avi.rate, avi.scale) = (20, 1);
    let mut bytes = avi.bytes();
    let at = bytes.windows(4).position(|part| part == b"strh").expect("a header") + 8 + 20;
    bytes[at..at + 8].fill(0);
    fs::write(folder.join("t.avi"), bytes).expect("a file");
    import(&folder, &["--force"]).assert_silent();
    assert_eq!(self::film(&folder).sent[0].interval, 50_000);
}

/// The AVI file is never overwritten, by whatever name; another file is with --force alone.
#[test]
fn overwriting() {
    let made = trailer(&mut Seeded::new(57), 8, 8, 2);
    let folder = with_avi("import_overwriting", &made.avi);
    symlink("t.avi", folder.join("link.mve")).expect("a link");
    let before = files(&folder);
    for output in ["t.avi", "./t.avi", "link.mve"] {
        let ran = mve(&folder, &["import", "t.avi", "-o", output, "--force"]);
        let message = format!("mve: {output}: is read for the film: give another name\n");
        assert_eq!((ran.code, ran.err), (Some(2), message));
        assert!(files(&folder) == before);
    }
    fs::write(folder.join("new.mve"), "old").expect("a file");
    let ran = import(&folder, &[]);
    let message = "mve: new.mve: exists already: give another name, or --force\n";
    assert_eq!((ran.code, &*ran.err), (Some(2), message));
    assert_eq!(files(&folder)["new.mve"], b"old");
    import(&folder, &["--force"]).assert_silent();
}

/// The help tells what it must, in lines that fit.
#[test]
fn help() {
    let folder = fresh("import_help");
    assert!(mve(&folder, &["--help"]).text().contains("\n  import "));
    let ran = mve(&folder, &["help", "import"]);
    ran.assert_silent();
    let parts = ["TRAILER.avi", "--silent", "--json", "--force", "byte 12", "once more", "never"];
    assert!(parts.iter().all(|part| ran.text().contains(part)), "{}", ran.text());
    assert!(ran.text().lines().all(|line| line.chars().count() <= 100));
    for (words, message) in
        [(&["import", "t.avi"][..], "--output <FILM.mve>"), (&["import"], "<TRAILER.avi>")]
    {
        let ran = mve(&folder, words);
        assert!(ran.code == Some(2) && ran.err.contains(message), "{words:?}: {}", ran.err);
    }
}

/// The lines and the names of the object, by hand.
#[test]
fn told() {
    let mut avi = Avi::new(12, 8);
    avi.palette = vec![[0; 3], [255; 3]];
    (avi.rate, avi.scale) = (10, 1);
    avi.items = vec![Item::Frame([[1, 0x80].repeat(6), vec![0, 0]].concat()); 3];
    let folder = with_avi("import_told", &avi);
    let ran = import(&folder, &[]);
    ran.assert_silent();
    let bytes = fs::metadata(folder.join("new.mve")).expect("a film").len();
    let expected = format!(
        "new.mve\n  size      16x8 pixels, 2x1 blocks\n  padded    from 12x8 pixels: the last column and \
         the last row are repeated\n  pictures  3\n  duration  0.300 s\n  sound     none\n  bytes     \
         {bytes}\n  players   bit 0 of byte 12 of each opcode 0x11 is set, as some ask\n"
    );
    assert_eq!(ran.text(), expected);
    let told = Json::of(import(&folder, &["--json", "--force"]).text());
    let names = [
        "bytes",
        "duration_us",
        "file",
        "from",
        "padded_from",
        "pictures",
        "refused",
        "rounded",
        "size",
        "sound",
        "sounds_left_out",
        "swap_bit",
    ];
    assert_eq!(told.names(), names);
    assert_eq!(told["from"], Json::String("t.avi".into()));
}
