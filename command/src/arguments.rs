//! Arguments that more than one subcommand takes.

use clap::{value_parser, Arg, ArgMatches};
use std::path::{Path, PathBuf};

/// The film or films.
pub fn film() -> Arg {
    Arg::new("film")
        .value_name("FILM")
        .required(true)
        .value_parser(value_parser!(PathBuf))
        .help("An Interplay MVE film; - is standard input")
}

/// The number of a picture that is sent.
pub fn picture() -> Arg {
    Arg::new("picture")
        .value_name("PICTURE")
        .required(true)
        .value_parser(value_parser!(usize))
        .help("The number of a picture that the film sends, counted from 0")
}

/// The stream of the sound.
pub fn stream() -> Arg {
    let range = value_parser!(u8).range(0..=15);
    Arg::new("stream").long("stream").value_name("N").value_parser(range)
}

/// The stream that was given.
pub fn given_stream(matches: &ArgMatches) -> Option<usize> {
    matches.get_one::<u8>("stream").map(|&stream| stream.into())
}

/// The film that was given, where one is asked for.
pub fn film_path(matches: &ArgMatches) -> &Path {
    path(matches, "film").unwrap_or(Path::new(""))
}

/// A path that was given.
pub fn path<'a>(matches: &'a ArgMatches, name: &str) -> Option<&'a Path> {
    matches.get_one::<PathBuf>(name).map(PathBuf::as_path)
}
