//! `include/mve.h`: C programs that use it are compiled, as C and as C++, with all warnings as errors,
//! and run; and the wrapper's names, constants and texts are those of the header.

use mve::numbers::{kind, STATE_NUMBERS, STEPPED_NUMBERS};
use mve::{Error, Form, Refusal, LOSS_NUMBERS};
use std::env;
use std::fs;
use std::path::{Path, PathBuf};
use std::process::Command;

/// C99 is the oldest C that has the header's inline functions.
const LANGUAGES: [(&str, &str, &str); 4] =
    [("cc", "c", "c99"), ("cc", "c", "c11"), ("c++", "c++", "c++11"), ("c++", "c++", "c++17")];

fn root() -> PathBuf {
    Path::new(env!("CARGO_MANIFEST_DIR")).join("../..")
}

fn library() -> PathBuf {
    let folder = env::var_os("MVE_LIB_DIR").map(PathBuf::from);
    folder.unwrap_or_else(|| root().join("target/staticlib")).join("libmve.a")
}

fn header() -> String {
    fs::read_to_string(root().join("include/mve.h")).expect("the header")
}

/// A program that steps over document 01's film, and tests every answer.
#[test]
fn c_program() {
    let source = Path::new(env!("CARGO_MANIFEST_DIR")).join("tests/c/header.c");
    for (compiler, language, standard) in LANGUAGES {
        let program = Path::new(env!("CARGO_TARGET_TMPDIR")).join(format!("header_{standard}"));
        let compiled = Command::new(compiler)
            .args(["-x", language, &format!("-std={standard}")])
            .args(["-Wall", "-Wextra", "-pedantic", "-Werror", "-I"])
            .arg(root().join("include"))
            .arg(&source)
            .args(["-x", "none"])
            .arg(library())
            .arg("-o")
            .arg(&program)
            .output()
            .unwrap_or_else(|error| panic!("{compiler} does not run: {error}"));
        let messages = String::from_utf8_lossy(&compiled.stderr);
        assert!(compiled.status.success(), "{standard}: {messages}");
        let ran = Command::new(&program).output().expect("the program runs");
        assert!(ran.status.success(), "{standard}: {}", String::from_utf8_lossy(&ran.stderr));
    }
}

/// The value of a constant of the header.
fn constant(header: &str, name: &str) -> usize {
    let start = format!("#define {name} ");
    let found = header.lines().find_map(|line| line.strip_prefix(&start));
    found.and_then(|value| value.parse().ok()).unwrap_or_else(|| panic!("no {name} in the header"))
}

#[test]
fn constants() {
    let header = header();
    for (name, value) in [
        ("MVE_VERSION", mve::VERSION),
        ("MVE_PALETTE_BYTES", mve::PALETTE_BYTES),
        ("MVE_PICTURE_BYTES", mve::PICTURE_BYTES),
        ("MVE_PICTURE_WORDS", mve::PICTURE_WORDS),
        ("MVE_ROOM_BYTES", mve::ROOM_BYTES),
        ("MVE_MAP_BYTES", mve::MAP_BYTES),
        ("MVE_BODY_BYTES", mve::BODY_BYTES),
        ("MVE_ALL_STORES", mve::ALL_STORES),
        ("MVE_BLOCK_STORES", mve::BLOCK_STORES),
        ("MVE_PALETTE_STORES", mve::PALETTE_STORES),
        ("MVE_NO_STREAM", mve::NO_STREAM),
    ] {
        assert_eq!(constant(&header, name), value, "{name}");
    }
    let defined = header
        .lines()
        .filter(|line| line.starts_with("#define MVE_") && line.contains(char::is_numeric));
    assert_eq!(defined.count(), 11, "a constant that the wrapper lacks");
}

/// Each table of the codes of blocks has the heading of its columns, right above its first code; the size of the code stands
/// once, among the figures of the archive.
#[test]
fn tables_of_codes() {
    let header = header();
    for (heading, first) in [
        ("    code     bytes           pixels", "    0        0               the same block of front"),
        (
            "    code     first part       second part   pixels",
            "    0        0                0             the same block of last",
        ),
    ] {
        assert_eq!(header.matches(&format!("\n{heading}\n{first}\n")).count(), 1, "{heading}");
    }
    let starts = header.lines().filter(|line| line.starts_with("    code "));
    assert_eq!(starts.filter(|line| line.ends_with(" bytes")).count(), 1, "the size of the code");
}

/// The numbers of the enums: of states and answers, of the forms and of the kinds.
#[test]
fn enums() {
    let header = header();
    for (name, value) in [
        ("MVE_STATE_NUMBERS", STATE_NUMBERS),
        ("MVE_STEPPED_NUMBERS", STEPPED_NUMBERS),
        ("MVE_LOSS_NUMBERS", LOSS_NUMBERS),
        ("MVE_DEFAULT", Form::Default.number()),
        ("MVE_STRICT", Form::Strict.number()),
        ("MVE_TAKEN", kind::TAKEN),
        ("MVE_WHOLE", kind::WHOLE),
        ("MVE_UNFINISHED", kind::UNFINISHED),
        ("MVE_ENDED", kind::ENDED),
        ("MVE_REFUSED", kind::REFUSED),
    ] {
        let behind = header.split_once(&format!("{name} = ")).map(|(_, behind)| behind);
        let behind = behind.unwrap_or_else(|| panic!("no {name} in the header"));
        let digits: String = behind.chars().take_while(char::is_ascii_digit).collect();
        assert_eq!(digits.parse(), Ok(value), "{name}");
    }
}

/// `DataLeft` is `MVE_ERROR_DATA_LEFT`, `Code6` is `MVE_ERROR_CODE_6`.
fn c_name(error: Error) -> String {
    let mut name = String::from("MVE_ERROR");
    for letter in format!("{error:?}").chars() {
        if letter.is_ascii_uppercase() || letter.is_ascii_digit() {
            name.push('_');
        }
        name.push(letter.to_ascii_uppercase());
    }
    name
}

/// Each number has the header's name and text.
#[test]
fn numbers() {
    let header = header();
    let values: Vec<(String, u8)> = header
        .lines()
        .filter_map(|line| line.trim_start().strip_prefix("MVE_ERROR_")?.split_once(" = "))
        .map(|(name, rest)| {
            let digits: String = rest.chars().take_while(char::is_ascii_digit).collect();
            (format!("MVE_ERROR_{name}"), digits.parse().expect("a number"))
        })
        .collect();
    assert_eq!(values.len(), Error::ALL.len());
    for &error in Error::ALL {
        let name = c_name(error);
        assert!(values.contains(&(name.clone(), error.number())), "{name}");
        let arm = format!("case {name}: return \"{error}\";");
        assert!(header.contains(&arm), "{arm}");
    }
}

/// The header's inline function says of the same numbers that they name a block.
#[test]
fn blocks() {
    for &error in Error::ALL {
        let refusal = Refusal { error, block: 3 };
        let expected = (12..=14).contains(&error.number());
        assert_eq!(refusal.to_string().contains(" in block 3: "), expected, "{refusal}");
    }
}
