//! The demonstration film as other players see it: ffprobe tells its size and its sound, ffmpeg plays
//! it to its end (Debian: ffmpeg), and libavcodec gives its pictures, colours and samples. Where they
//! are not on the machine, the tests say so and pass.

mod common;

use maker::demo::{self, FRAMES, RATE, SAMPLES, SIZE};
use peer::comparison::compare;
use peer::played::Picture;
use peer::{libav, ours};
use std::fs;
use std::io::{self, ErrorKind, Write};
use std::path::{Path, PathBuf};
use std::process::Command;

/// The film in a file of this name.
fn written(name: &str) -> PathBuf {
    let path = Path::new(env!("CARGO_TARGET_TMPDIR")).join(name);
    fs::write(&path, demo::film().bytes()).expect("the film is written");
    path
}

/// What a program of ffmpeg writes; none where it is not there. It must succeed and tell of no error.
fn said(program: &str, arguments: &[&str], film: &Path, behind: &[&str]) -> Option<Vec<u8>> {
    let mut command = Command::new(program);
    command.args(["-v", "error"]).args(arguments).arg(film).args(behind);
    let output = match command.output() {
        Err(error) if error.kind() == ErrorKind::NotFound => {
            // Not by a macro: the harness would keep it to itself.
            let missing = format!("{program} is not there (Debian: ffmpeg): it plays nothing\n");
            io::stderr().write_all(missing.as_bytes()).expect("standard error");
            return None;
        }
        other => other.expect("the program runs"),
    };
    let told = String::from_utf8_lossy(&output.stderr);
    assert!(output.status.success() && told.is_empty(), "{program}: {told}");
    Some(output.stdout)
}

#[test]
fn ffprobe_tells_size_and_sound() {
    let entries = "stream=codec_name,width,height,sample_rate,channels,nb_read_frames";
    let arguments = ["-count_frames", "-of", "compact", "-show_entries", entries];
    let film = written("probed.mve");
    let Some(text) = said("ffprobe", &arguments, &film, &[]) else { return };
    let text = String::from_utf8(text).expect("text");
    let (width, height) = (SIZE.width(), SIZE.height());
    let pictures = format!(
        "stream|codec_name=interplayvideo|width={width}|height={height}|nb_read_frames={FRAMES}"
    );
    let sound = format!(
        "stream|codec_name=pcm_s16le|sample_rate={RATE}|channels=1|nb_read_frames={FRAMES}"
    );
    assert_eq!(text.lines().collect::<Vec<_>>(), [pictures, sound]);
}

#[test]
fn ffmpeg_plays_to_the_end() {
    let film = written("played.mve");
    let arguments = ["-nostdin", "-progress", "-", "-i"];
    let Some(text) = said("ffmpeg", &arguments, &film, &["-f", "null", "-"]) else { return };
    let text = String::from_utf8(text).expect("text");
    let last = |key: &str| text.lines().rev().find_map(|line| line.strip_prefix(key));
    assert_eq!(last("progress="), Some("end"), "{text}");
    assert_eq!(last("frame="), Some(FRAMES.to_string().as_str()), "{text}");
    // Ten pictures a second.
    let microseconds = FRAMES * 1_000_000 * SAMPLES / RATE;
    assert_eq!(last("out_time_us="), Some(microseconds.to_string().as_str()), "{text}");
}

#[test]
fn ffmpeg_gives_the_samples() {
    let film = written("heard.mve");
    let behind = ["-f", "s16le", "-"];
    let Some(samples) = said("ffmpeg", &["-nostdin", "-i"], &film, &behind) else { return };
    let expected: Vec<u8> = (0..FRAMES).flat_map(demo::samples).collect();
    assert!(samples == expected, "{} bytes of {}", samples.len(), expected.len());
}

/// What ffplay shows: each colour is the library's, widened to 8 bits as libavformat does it.
#[test]
fn ffmpeg_gives_the_colours() {
    let film = written("seen.mve");
    let behind = ["-an", "-f", "rawvideo", "-pix_fmt", "rgb24", "-"];
    let Some(seen) = said("ffmpeg", &["-nostdin", "-i"], &film, &behind) else { return };
    let ours = ours::play(&demo::film().bytes(), demo::STREAM);
    assert_eq!(ours.refusal, None);
    let colours = |picture: &Picture| -> Vec<u8> {
        let entry = |&pixel: &u8| &picture.colours[3 * usize::from(pixel)..][..3];
        let components = picture.pixels.iter().flat_map(entry);
        components.map(|component| component << 2 | component >> 4).collect()
    };
    let shown: Vec<u8> = ours.played.pictures.iter().flat_map(colours).collect();
    assert_eq!(seen.len(), 3 * FRAMES * SIZE.pixels());
    assert!(
        seen == shown,
        "byte {:?}",
        seen.iter().zip(&shown).position(|(one, other)| one != other)
    );
}

/// By libavformat and libavcodec every picture, colour and sample is the library's; the pictures and
/// the samples are those that the film is made from.
#[test]
fn libav_gives_pictures_colours_and_samples() {
    if !common::is_there() {
        return;
    }
    let film = demo::film().bytes();
    let account = libav::play(&film).expect("libavformat opens the film");
    compare(&ours::play(&film, demo::STREAM), &account).unwrap_or_else(|why| panic!("{why}"));
    assert_eq!((&account.faults[..], account.error), (&[][..], None));
    let pictures = &account.played.pictures;
    assert_eq!(pictures.len(), FRAMES);
    for (number, picture) in pictures.iter().enumerate() {
        assert_eq!((picture.width, picture.height), (SIZE.width(), SIZE.height()), "{number}");
        assert!(picture.pixels == demo::picture(number), "picture {number}");
    }
    let [sound] = &account.played.sound[..] else { panic!("one format") };
    let samples: Vec<u8> = (0..FRAMES).flat_map(demo::samples).collect();
    assert_eq!((sound.channels, sound.sample_bytes), (1, 2));
    assert!(sound.samples == samples);
}
