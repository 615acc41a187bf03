//! Both players where the command line or a file is not as it must be.

mod common;

use common::{fresh, play, players, run, Left, Options};
use maker::demo;
use std::collections::BTreeMap;
use std::fs;
use std::os::unix::fs::symlink;
use std::path::Path;
use std::sync::LazyLock;

/// Runs both players, each in a fresh folder that is prepared so, and gives what they left.
fn both(name: &str, arguments: &[&str], prepare: impl Fn(&Path)) -> [Left; 2] {
    players().map(|(_, program)| {
        let folder = fresh(name);
        prepare(&folder);
        run(&program, &folder, arguments)
    })
}

/// Made once.
static FILM: LazyLock<Vec<u8>> = LazyLock::new(|| demo::film().bytes());

fn with_film(folder: &Path) {
    fs::write(folder.join("film.mve"), &*FILM).expect("the film is written");
}

#[test]
fn usage() {
    let too_many = ["a", "b", "65", "0", "2", "f"];
    for arguments in [&[][..], &["film.mve"], &["film.mve", "pictures"], &too_many] {
        for left in both("usage", arguments, with_film) {
            assert_eq!(left.code, Some(2), "{arguments:?}");
            assert_eq!(left.messages, "usage: play FILM FOLDER ALLOWANCE [STREAM [EVERY]]\n");
        }
    }
}

/// A stream is any number; how often to stop is 2 or more.
#[test]
fn streams_and_stops() {
    for stream in ["-1", "+1", " 1", "1 ", "1x", "", "none", "99999999999999999999"] {
        for left in both("streams", &["film.mve", "pictures", "65", stream], with_film) {
            assert_eq!((left.code, left.files.len()), (Some(2), 0), "{stream}");
            let message =
                format!("play: stream {stream}: give a number, 0 to 15, or more for no sound\n");
            assert_eq!(left.messages, message);
        }
    }
    for every in ["0", "1", "-2", "2x", "", "many"] {
        for left in both("streams", &["film.mve", "pictures", "65", "0", every], with_film) {
            assert_eq!((left.code, left.files.len()), (Some(2), 0), "{every}");
            let message = format!(
                "play: every {every}: give a number of opcodes, 2 or more, \
                 or the first one is never saved\n"
            );
            assert_eq!(left.messages, message);
        }
    }
    // The film has stream 0 alone; other streams have the format of every 03.
    for (stream, files) in [("0", 1), ("00", 1), ("15", 1), ("16", 0), ("18446744073709551615", 0)]
    {
        for left in both("streams", &["film.mve", "pictures", "312000", stream], with_film) {
            assert_eq!((left.code, left.files.len()), (Some(0), demo::FRAMES + files), "{stream}");
        }
    }
}

/// An allowance of no store is refused, as is one that is no number.
#[test]
fn allowances() {
    let wrong = ["0", "00", "-1", "-70", "+70", " 70", "70 ", "70x", "0x70", "", "many", "1e3"];
    for allowance in wrong.into_iter().chain(["99999999999999999999"]) {
        for left in both("allowances", &["film.mve", "pictures", allowance], with_film) {
            assert_eq!((left.code, left.files.len()), (Some(2), 0), "{allowance}");
            let message =
                format!("play: allowance {allowance}: give a number of stores, 1 or more\n");
            assert_eq!(left.messages, message);
        }
    }
    for allowance in ["1", "65", "065", "18446744073709551615"] {
        for left in both("allowances", &["film.mve", "pictures", allowance], with_film) {
            assert_eq!((left.code, left.files.len()), (Some(0), demo::FRAMES + 1), "{allowance}");
        }
    }
}

#[test]
fn film_that_cannot_be_read() {
    let is_folder = |folder: &Path| fs::create_dir(folder.join("film.mve")).expect("a folder");
    let missing = both("unread", &["film.mve", "pictures", "65"], |_| ());
    for left in
        missing.into_iter().chain(both("unread", &["film.mve", "pictures", "65"], is_folder))
    {
        assert_eq!((left.code, left.files.len()), (Some(1), 0));
        let begin = "\rfilm.mve: cannot read the film: ";
        assert!(left.messages.starts_with(begin), "{}", left.messages);
    }
}

/// A folder that is not there, and a file in its place.
#[test]
fn folder_that_cannot_be_read() {
    let cases = [
        ("nowhere", "No such file or directory"),
        ("", "No such file or directory"),
        ("film.mve", "Not a directory"),
    ];
    for (folder, reason) in cases {
        for left in both("unread_folder", &["film.mve", folder, "65"], with_film) {
            assert_eq!((left.code, left.files.len()), (Some(1), 0), "{folder}");
            let begin = format!("\rfilm.mve: cannot read the folder {folder}: {reason}");
            assert!(left.messages.starts_with(&begin), "{}", left.messages);
            assert_eq!(left.messages.lines().count(), 1, "{}", left.messages);
        }
    }
}

/// The picture's file cannot be opened, or takes no bytes.
#[test]
fn picture_that_cannot_be_written() {
    for file in ["nowhere/picture", "/dev/full"] {
        let prepare = |folder: &Path| {
            with_film(folder);
            symlink(file, folder.join("pictures/picture.part")).expect("a link");
        };
        for left in both("unwritten", &["film.mve", "pictures", "65", "16"], prepare) {
            assert_eq!((left.code, left.files.len()), (Some(1), 0), "{file}");
            let begin = "\rfilm.mve: cannot write pictures/000000.ppm: ";
            assert!(left.messages.starts_with(begin), "{}", left.messages);
        }
    }
}

/// A sound file that takes no more bytes than a limit lets it have.
#[test]
fn sound_that_cannot_be_written() {
    // 16-bit mono, and 65,535 samples of silence.
    let format = [8, 0, 0x03, 0, 0, 0, 0b10, 0, 0x22, 0x56, 0, 0];
    let silence = [6, 0, 0x09, 0, 0, 0, 1, 0, 0xFF, 0xFF];
    let head = [22, 0, 0, 0];
    let header = b"Interplay MVE File\x1A\0\x1A\0\0\x01\x33\x11";
    let film = [&header[..], &head, &format, &silence].concat();
    for (name, program) in players() {
        let folder = fresh("unwritten_sound");
        fs::write(folder.join("film.mve"), &film).expect("the film is written");
        // Half of what it needs; the signal for it is ignored, so that the writing fails.
        let limited = "trap '' XFSZ; ulimit -f 128; exec \"$0\" \"$@\"";
        let program = program.to_str().expect("a name in UTF-8");
        let arguments = ["-c", limited, program, "film.mve", "pictures", "65"];
        let left = run(Path::new("/bin/sh"), &folder, &arguments);
        assert_eq!(left.code, Some(1), "{name}: {}", left.messages);
        let begin = "\rfilm.mve: cannot write pictures/000000.wav: ";
        assert!(left.messages.starts_with(begin), "{name}: {}", left.messages);
        assert_eq!(left.messages.lines().count(), 1, "{name}: {}", left.messages);
    }
}

/// A picture or a sound file that was there is not counted as the player's, whatever its number:
/// nothing is written over it, and nothing beside it.
#[test]
fn folder_with_pictures_or_sound() {
    let pictures = ["000000.ppm", "000016.ppm", "1000000.ppm", "other.ppm", ".ppm"];
    for name in pictures.into_iter().chain(["000000.wav", "000001.wav", "other.wav"]) {
        let prepare = |folder: &Path| {
            with_film(folder);
            fs::write(folder.join("pictures").join(name), "mine").expect("a picture");
        };
        for left in both("with_pictures", &["film.mve", "pictures", "65"], prepare) {
            assert_eq!(left.code, Some(1), "{name}");
            let message =
                "\rfilm.mve: pictures has pictures or sound already: give a folder without\n";
            assert_eq!(left.messages, message, "{name}");
            assert_eq!(left.files, BTreeMap::from([(name.to_string(), b"mine".to_vec())]));
        }
    }
}

/// Files of other names stay, and are not counted.
#[test]
fn folder_with_other_files() {
    let others = ["ppm", "000000.ppm.txt", "000000.PPM", "wav", "000000.WAV", "notes"];
    let prepare = |folder: &Path| {
        with_film(folder);
        for name in others {
            fs::write(folder.join("pictures").join(name), "mine").expect("a file");
        }
    };
    for left in both("with_others", &["film.mve", "pictures", "312000"], prepare) {
        assert_eq!((left.code, left.files.len()), (Some(0), demo::FRAMES + 1 + others.len()));
        let ended = format!("pictures: {}, sound files: 1, stops: 0\n", demo::FRAMES);
        assert!(left.messages.ends_with(&ended), "{}", left.messages);
        assert!(others.iter().all(|&name| left.files[name] == b"mine"));
    }
}

/// A film without pictures and sound leaves an empty folder.
#[test]
fn film_without_pictures() {
    for (name, program) in players() {
        let header = b"Interplay MVE File\x1A\0\x1A\0\0\x01\x33\x11";
        let options = Options { allowance: 65, stream: 0, every: None };
        let left = play(&program, "without_pictures", header, &options);
        assert_eq!((left.code, left.files.len()), (Some(0), 0), "{name}");
        let ended = "\rfilm.mve: ended at byte 26, pictures: 0, sound files: 0, stops: 0\n";
        assert_eq!(left.messages, ended);
    }
}
