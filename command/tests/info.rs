//! `mve info`: what it tells, compared with the second decoder.

mod common;

use common::json::Json;
use common::second::{Format, Second};
use common::{fresh, mve, run, with_film, Ran};
use maker::film::{Chunk, Film, Opcode};
use maker::film_damage::{self, Damage};
use maker::sound_damage::{self, Damage as SoundDamage};
use maker::{demo, film, sound, Seeded, Size};
use reference::Refusal;
use std::collections::BTreeSet;
use std::fs::{self, File};
use std::process::{Command, Stdio};

/// By hand: 16x12 blocks; 40 pictures of 100,000 us; palette opcodes 0B and four 0D, a 0C behind each.
const DEMO: &str = "\
film.mve
  size      128x96 pixels, 16x12 blocks
  pictures  40 sent
  duration  4.000 s by the timer, 10.000 pictures a second
  sound     22050 Hz mono 16-bit uncompressed; stream 0
  palette   10 changes
  bytes     194987
  result    plays to its end
";

#[test]
fn one_film() {
    let film = demo::film().bytes();
    let ran = mve(&with_film("one", &film), &["info", "film.mve"]);
    ran.assert_silent();
    assert_eq!(ran.text(), DEMO.replace("194987", &film.len().to_string()));
}

/// One film that plays, one that is cut inside a chunk, one that is none, one that is not there.
#[test]
fn many_films() {
    let film = demo::beginning(3).bytes();
    let folder = with_film("many", &film);
    let (length, name) = (film.len(), format!("{}.mve", "long".repeat(20)));
    fs::write(folder.join(&name), &film[..length - 6]).expect("a film");
    fs::write(folder.join("text.mve"), "Interplay").expect("a file");
    let ran = mve(&folder, &["info", "film.mve", &name, "text.mve", "no.mve"]);
    assert_eq!(ran.code, Some(2));
    assert_eq!(ran.err, "mve: no.mve: cannot be read: No such file or directory\n");
    let lines: Vec<_> = ran.text().lines().collect();
    let [heads, plays, refused, text, no, "", below @ ..] = &lines[..] else { panic!("{lines:?}") };
    for line in [heads, plays, refused, text, no] {
        assert_eq!(line.chars().count(), refused.chars().count(), "{line}");
    }
    let words =
        |line: &str| line.split_whitespace().map(String::from).collect::<Vec<_>>().join(" ");
    assert_eq!(words(heads), "FILM SIZE BLOCKS SENT SECONDS SOUND PALETTE BYTES RESULT");
    assert_eq!(words(plays), format!("film.mve 128x96 16x12 3 0.30 22050 1x16 0 4 {length} plays"));
    assert!(refused.starts_with(&name) && refused.ends_with("  refusal 2"), "{refused}");
    assert_eq!(words(text), "text.mve - - 0 0.00 - 0 9 refusal 1");
    assert_eq!(words(no), "no.mve - - - - - - - not read");
    // The last chunk is 8 bytes: a head, and a 00.
    let at = length - 8;
    let expected = [
        format!("{name}: refusal 2 at byte {at}"),
        "    the film breaks off inside the head of this chunk".into(),
        "text.mve: refusal 1 at byte 0".into(),
        "    the film does not begin with the header of an MVE film".into(),
    ];
    assert_eq!(below, expected);
}

/// The worst status of all films is that of the command.
#[test]
fn statuses() {
    let film = demo::beginning(1).bytes();
    let folder = with_film("statuses", &film);
    fs::write(folder.join("cut.mve"), &film[..film.len() - 1]).expect("a film");
    let cases: [(&[&str], i32); 6] = [
        (&["film.mve"], 0),
        (&["cut.mve"], 1),
        (&["cut.mve", "film.mve"], 1),
        (&["no.mve"], 2),
        (&["no.mve", "cut.mve"], 2),
        (&["film.mve", "no.mve", "film.mve"], 2),
    ];
    for (films, status) in cases {
        for options in [&["info"][..], &["info", "--json"]] {
            let ran = mve(&folder, &[options, films].concat());
            assert_eq!(ran.code, Some(status), "{options:?} {films:?}: {ran:?}");
        }
    }
}

fn json(ran: &Ran) -> Json {
    Json::of(ran.text())
}

#[test]
fn json_of_the_demonstration() {
    let film = demo::film().bytes();
    let folder = with_film("json", &film);
    let ran = mve(&folder, &["info", "--json", "film.mve", "n\"o"]);
    assert_eq!(ran.code, Some(2));
    let expected = format!(
        r#"[{{"file": "film.mve", "bytes": {}, "size": {{"width": 128, "height": 96, "columns": 16,
        "rows": 12}}, "true_colour": false, "pictures": 40, "duration_us": 4000000, "pictures_a_second": 10.0,
        "timer_assumed": false, "sound":
        [{{"rate": 22050, "channels": 1, "bits": 16, "compressed": false}}], "streams": [0], "stream":
        0, "palette_changes": 10, "plays": true, "refused": null, "readings": {{"sound_packets": 40,
        "left_over": {{"none": 40, "one": 0, "more": 0, "most": 0}}, "not_sent": 0, "sound":
        {{"first_samples": 40, "every_samples": 40, "first_bytes": 0, "every_bytes": 0}}}}}},
        {{"file": "n\"o", "error": "No such file or directory"}}]"#,
        film.len()
    );
    assert_eq!(json(&ran), Json::of(&expected));
}

/// A film in JSON as the second decoder finds it. The words of a refusal are the command's own.
fn assert_found(found: &Json, film: &[u8], stream: usize, case: &str) -> Option<u8> {
    let second = Second::of(film, stream);
    let number = |name: &str| found[name].clone();
    assert_eq!(number("bytes"), Json::number(film.len()), "{case}");
    assert_eq!(number("pictures"), Json::number(second.sent.len()), "{case}");
    assert_eq!(number("duration_us"), Json::number(second.duration as usize), "{case}");
    assert_eq!(number("palette_changes"), Json::number(second.palette_changes), "{case}");
    assert_eq!(found["timer_assumed"], Json::Bool(second.assumed), "{case}");
    assert_eq!(found["true_colour"], Json::Bool(second.true_colour), "{case}");
    let unsized_film = (Refusal { number: 21, block: 0 }, film.len());
    let refused = second.refused.or(second.size.is_none().then_some(unsized_film));
    assert_eq!(found["plays"], Json::Bool(refused.is_none()), "{case}");
    let streams: Vec<_> = second.streams.iter().map(|&stream| Json::number(stream)).collect();
    assert_eq!(found["streams"], Json::Array(streams), "{case}");
    assert_size(&found["size"], second.size, case);
    assert_formats(&found["sound"], &second.formats, case);
    let Some((refusal, position)) = refused else {
        assert_eq!(found["refused"], Json::Null, "{case}");
        return None;
    };
    let refused = &found["refused"];
    assert_eq!(refused["number"], Json::number(refusal.number.into()), "{case}");
    assert_eq!(refused["byte"], Json::number(position), "{case}");
    let block = Json::number(refusal.block);
    let block = if matches!(refusal.number, 12..=14) { block } else { Json::Null };
    assert_eq!(refused["block"], block, "{case}");
    Some(refusal.number)
}

fn assert_size(found: &Json, size: Option<(usize, usize)>, case: &str) {
    let Some((columns, rows)) = size else { return assert_eq!(*found, Json::Null, "{case}") };
    let numbers =
        [("columns", columns), ("height", 8 * rows), ("rows", rows), ("width", 8 * columns)];
    assert_eq!(found.names(), numbers.map(|(name, _)| name), "{case}");
    for (name, number) in numbers {
        assert_eq!(found[name], Json::number(number), "{case}: {name}");
    }
}

fn assert_formats(found: &Json, formats: &[Format], case: &str) {
    assert_eq!(found.items().len(), formats.len(), "{case}");
    for (found, &(rate, channels, bits, compressed)) in found.items().iter().zip(formats) {
        assert_eq!(found["rate"], Json::number(rate.into()), "{case}");
        assert_eq!(found["channels"], Json::number(channels), "{case}");
        assert_eq!(found["bits"], Json::number(bits), "{case}");
        assert_eq!(found["compressed"], Json::Bool(compressed), "{case}");
    }
}

/// All films are told by one command; the numbers that were met.
fn assert_films(folder: &str, stream: usize, films: &[Vec<u8>]) -> BTreeSet<u8> {
    let folder = fresh(folder);
    let names: Vec<_> = (0..films.len()).map(|number| format!("{number}.mve")).collect();
    for (name, film) in names.iter().zip(films) {
        fs::write(folder.join(name), film).expect("a film");
    }
    let stream_word = stream.to_string();
    let options = ["info", "--json", "--stream", &stream_word];
    let words: Vec<_> = options.into_iter().chain(names.iter().map(String::as_str)).collect();
    let ran = mve(&folder, &words);
    let found = json(&ran);
    assert_eq!(found.items().len(), films.len());
    let told = found.items().iter().zip(films).zip(&names);
    let numbers: BTreeSet<_> =
        told.filter_map(|((found, film), name)| assert_found(found, film, stream, name)).collect();
    assert_eq!((ran.code, &*ran.err), (Some(i32::from(!numbers.is_empty())), ""));
    numbers
}

/// Films that the second decoder refuses by 15 are left out: how many bytes may be left over is tested
/// by hand, below.
fn is_clear(film: &[u8], stream: usize) -> bool {
    Second::of(film, stream).refused.is_none_or(|(refusal, _)| refusal.number != 15)
}

#[test]
fn good_films() {
    let rng = &mut Seeded::new(20);
    let films: Vec<_> = (0..150).map(|_| sound::valid(rng, 3).bytes()).collect();
    // Some have no size, and so none that plays.
    assert!(assert_films("good", 3, &films).iter().all(|&number| number == 21));
}

#[test]
fn damaged_films() {
    let rng = &mut Seeded::new(21);
    let mut films = Vec::new();
    for _ in 0..12 {
        films.extend(Damage::ALL.map(|damage| film_damage::damaged(rng, damage)));
        films.extend(SoundDamage::ALL.map(|damage| sound_damage::damaged(rng, 3, damage).bytes()));
        films.extend([film::hostile(rng), sound::scratched(rng, 3)]);
        films.extend((0..5).map(|_| film_damage::damaged(rng, Damage::Packet)));
    }
    films.retain(|film| is_clear(film, 3));
    let numbers = assert_films("damaged", 3, &films);
    assert_eq!(numbers, [1, 2, 3, 4, 5, 6, 7, 9, 10, 12, 13, 14, 17, 18, 20, 21].into());
}

/// Rate and subdivision of a timer.
type Timer = Option<(u32, u16)>;

/// A film with a picture behind each of these timers.
fn timed(timers: &[Timer]) -> Vec<u8> {
    let rng = &mut Seeded::new(22);
    let mut film = film::plain(rng, Size::new(1, 1), maker::Profile::Light, timers.len());
    for (chunk, timer) in film.chunks[1..].iter_mut().zip(timers) {
        if let Some((rate, subdivision)) = timer {
            let body = [&rate.to_le_bytes()[..], &subdivision.to_le_bytes()].concat();
            chunk.opcodes.insert(0, Opcode::new(0x02, 0, body));
        }
    }
    film.bytes()
}

/// Durations by hand. A timer holds until the next; one of 0 or above ten minutes is passed over;
/// before the first it is 66,728 us.
#[test]
fn durations() {
    let (usual, tenth) = (Some((8341, 8)), Some((50_000, 2)));
    let cases: [(&[Timer], &str); 7] = [
        (&[], "0.000 s by the timer"),
        (&[usual], "0.067 s by the timer, 14.986 pictures a second"),
        (&[usual, None, None], "0.200 s by the timer, 14.986 pictures a second"), // 200,184 us
        (&[tenth, usual, None], "0.233 s by the timer, 12.850 pictures a second"), // 233,456 us
        (
            &[tenth, Some((0, 9)), Some((600_000_001, 1))],
            "0.300 s by the timer, 10.000 pictures a second",
        ),
        (&[Some((60_000_000, 10)), None], "1200.000 s by the timer, 0.002 pictures a second"),
        // 166,728 us
        (
            &[None, tenth],
            "0.167 s by the usual timer, as it has none at first, 11.996 pictures a second",
        ),
    ];
    for (timers, duration) in cases {
        let folder = with_film("durations", &timed(timers));
        let ran = mve(&folder, &["info", "film.mve"]);
        ran.assert_silent();
        assert!(
            ran.text().contains(&format!("\n  duration  {duration}\n")),
            "{timers:?}: {}",
            ran.text()
        );
    }
    let folder = with_film("durations", &timed(&[None, tenth]));
    let ran = mve(&folder, &["info", "film.mve", "film.mve"]);
    ran.assert_silent();
    let star = "\n* pictures before the first timer: 66728 us each, as is usual\n";
    assert!(ran.text().contains(" 0.17* ") && ran.text().ends_with(star), "{}", ran.text());
}

/// 64 GiB of zeros behind 26 wrong bytes: they are not read. Nor is what a pipe may still bring.
#[test]
fn header_first() {
    let folder = fresh("header_first");
    let length = 64 << 30;
    let file = File::create(folder.join("large")).expect("a file");
    file.set_len(length).expect("a sparse file");
    let ran = mve(&folder, &["info", "--json", "large"]);
    assert_eq!((ran.code, &*ran.err), (Some(1), ""));
    let found = json(&ran).items()[0].clone();
    assert_eq!(found["bytes"], Json::number(length as usize));
    assert_eq!(found["refused"]["number"], Json::number(1));

    let made = Command::new("mkfifo").arg(folder.join("pipe")).status().expect("mkfifo runs");
    assert!(made.success());
    let mut writer = Command::new("sh");
    writer.args(["-c", "{ printf 'Interplay MVE Film........'; cat; } >pipe"]);
    let mut writer = writer.current_dir(&folder).stdin(Stdio::piped()).spawn().expect("sh runs");
    let ran = mve(&folder, &["info", "pipe"]);
    assert_eq!((ran.code, &*ran.err), (Some(1), ""));
    drop(writer.stdin.take()); // only now the pipe ends
    writer.wait().expect("sh ends");
}

/// A film may come from a pipe.
#[test]
fn piped() {
    let film = demo::beginning(2).bytes();
    let folder = with_film("piped", &film);
    let mut command = Command::new("sh");
    let program = common::program();
    command.args(["-c", "cat film.mve | \"$0\" info --json -"]).arg(program);
    let ran = run(&folder, command);
    ran.assert_silent();
    assert_eq!(assert_found(&json(&ran).items()[0], &film, 0, "piped"), None);

    let mut command = Command::new("sh");
    command.args(["-c", "\"$0\" info - <film.mve"]).arg(common::program());
    let ran = run(&folder, command);
    ran.assert_silent();
    assert!(ran.text().starts_with("standard input\n  size      128x96 pixels"), "{}", ran.text());
}

/// Whoever reads the output may go: nothing is said. 400 films are more text than a pipe holds.
#[test]
fn closed_output() {
    let folder = with_film("closed", &demo::beginning(1).bytes());
    let films = vec!["film.mve"; 400].join(" ");
    let script = format!("{{ \"$0\" info --json {films}; echo $? >status; }} | true; cat status");
    let mut command = Command::new("sh");
    command.args(["-c", &script]).arg(common::program());
    let ran = run(&folder, command);
    assert_eq!((ran.text(), &*ran.err), ("141\n", ""));
}

/// A film of one block of one colour, with so many bytes behind it.
fn left_over(bytes: usize) -> Vec<u8> {
    let size = Size::new(1, 1);
    let video = [vec![0; 14], vec![5; 1 + bytes]].concat();
    let opcodes = vec![
        film::init_video(size),
        Opcode::new(0x0F, 0, vec![0x0E]),
        Opcode::new(0x11, 0, video),
        Opcode::new(0x07, 0, vec![0; 4]),
    ];
    let chunks = vec![Chunk { kind: 3, opcodes, ..Chunk::default() }];
    Film { size, stream: 16, chunks, tail: Vec::new() }.bytes()
}

/// Document 02, W6: one byte may be left over, in strict form none. The opcode 11 is at byte 26 + 4 +
/// 8 + 5 = 43.
#[test]
fn strict() {
    let cases = [(0, None, None), (1, None, Some(15)), (2, Some(15), Some(15))];
    for (bytes, plain, strict) in cases {
        let folder = with_film("strict", &left_over(bytes));
        for (options, number) in
            [(&["info", "film.mve"][..], plain), (&["info", "film.mve", "--strict"], strict)]
        {
            let ran = mve(&folder, options);
            assert_eq!((ran.code, &*ran.err), (Some(i32::from(number.is_some())), ""), "{bytes}");
            let result = match number {
                None => "  pictures  1 sent\n",
                Some(_) => "  result    does not play: refusal 15 at byte 43\n",
            };
            assert!(ran.text().contains(result), "{bytes} {options:?}: {}", ran.text());
        }
    }
}

/// The block of a refusal is told, in words: code 6 in the second of two blocks.
#[test]
fn blocks() {
    let size = Size::new(2, 1);
    let opcodes = vec![
        film::init_video(size),
        Opcode::new(0x0F, 0, vec![0x61]),
        Opcode::new(0x11, 0, vec![0; 14]),
    ];
    let chunks = vec![Chunk { kind: 3, opcodes, ..Chunk::default() }];
    let film = Film { size, stream: 16, chunks, tail: Vec::new() }.bytes();
    let ran = mve(&with_film("blocks", &film), &["info", "film.mve"]);
    let result = "  result    does not play: refusal 12 at byte 43, block 1\n            \
                  the block has code 6, which 8-bit films do not have\n";
    assert_eq!((ran.code, &*ran.err), (Some(1), ""));
    assert!(ran.text().contains(result), "{}", ran.text());
}

/// A film of no picture and no size, but one change of the palette: it does not play.
#[test]
fn one_change() {
    let opcodes = vec![Opcode::new(0x0C, 0, vec![0; 4])];
    let chunks = vec![Chunk { kind: 2, opcodes, ..Chunk::default() }];
    let film = Film { size: Size::new(1, 1), stream: 16, chunks, tail: Vec::new() }.bytes();
    let ran = mve(&with_film("one_change", &film), &["info", "film.mve"]);
    assert_eq!((ran.code, &*ran.err), (Some(1), ""));
    let expected =
        "film.mve\n  size      not told\n  pictures  0 sent\n  duration  0.000 s by the timer\n  \
                    sound     none\n  palette   1 change\n  bytes     38\n  \
                    result    does not play: refusal 21 at byte 38\n            \
                    the film ends without a frame size\n";
    assert_eq!(ran.text(), expected);
}

/// A full disk: status 2.
#[test]
fn full() {
    let folder = with_film("full", &demo::beginning(1).bytes());
    let mut command = Command::new("sh");
    command.args(["-c", "\"$0\" info film.mve >/dev/full"]).arg(common::program());
    let ran = run(&folder, command);
    let message = "mve: standard output: cannot be written: No space left on device\n";
    assert_eq!((ran.code, &*ran.err), (Some(2), message));
}
