//! `mve info`: what is in films, and whether they play.

use crate::film::{self, Unread};
use crate::messages::{name, why, Failure, FAILED, REFUSED};
use crate::progress::Progress;
use crate::refusals::Refused;
use crate::report::{stream_numbers, Report};
use crate::terminal::{output_width, tail};
use crate::walk::Rules;
use crate::{arguments, listing, table, tell, Subcommand};
use clap::parser::ValueSource;
use clap::{Arg, ArgAction, ArgMatches, Command};
use mve::{Form, ALL_STORES};
use serde_json::json;
use std::io::{self, Write};
use std::path::{Path, PathBuf};

pub const SUBCOMMAND: Subcommand = Subcommand { name: "info", describe, run };

const ABOUT: &str = "Tell what is in films, and whether they play to their end";

const MORE: &str = "\
Tell what is in films, and whether they play to their end.

Each film is decoded to its end, or to where it is refused. One film is told in lines, more
than one in a table:

  SIZE, BLOCKS   of the pictures: in pixels, and in blocks of 8x8 pixels
  SENT           pictures that the film sends to the display
  SECONDS        the sum of their times. A picture stays for the microseconds that the last
                 timer (opcode 0x02) before it says: its rate times its subdivision. A timer
                 of 0 or above ten minutes is passed over. A picture before the first timer
                 stays for the usual 66728 microseconds, and the number has a star
  SOUND          samples a second, channels x bits, c where the film has it compressed, + where
                 another format follows; then the streams that have sound
  PALETTE        opcodes that change the palette; 15-bit of a film with true colour, which has
                 15 bits a pixel and no palette
  RESULT         plays, or the number of the refusal; below the table in words

Of one film it is also told what players differ in: pictures that are drawn and never sent,
bytes that pictures leave over and, where sound is refused by 18, how many of its packets fit
the readings that players have of their length. These are counted over the whole film, also
behind a refusal. --json has them of every film.

Exit status: 0 if all films play, 1 if one is refused, 2 if a file cannot be read or the
command is used wrongly.";

/// A film, and what was found in it if it could be read.
type Found<'a> = (&'a Path, Result<Report, io::Error>);

fn describe(command: Command) -> Command {
    let stream =
        arguments::stream().default_value("0").help("Decode stream N of the sound, 0 to 15");
    let json = Arg::new("json").long("json").action(ArgAction::SetTrue);
    let strict = Arg::new("strict").long("strict").action(ArgAction::SetTrue);
    command
        .about(ABOUT)
        .long_about(MORE)
        .arg(arguments::film().num_args(1..).help("Interplay MVE films; - is standard input"))
        .arg(json.help("Write JSON: an array with an object for each film"))
        .arg(strict.help("Refuse pictures with a left-over byte, as for mastering"))
        .arg(stream)
}

fn run(matches: &ArgMatches) -> Result<u8, Failure> {
    let stream = arguments::given_stream(matches).unwrap_or(0);
    let form = if matches.get_flag("strict") { Form::Strict } else { Form::Default };
    let rules = Rules { stream, form, allowance: ALL_STORES };
    let paths: Vec<&PathBuf> = matches.get_many("film").unwrap_or_default().collect();
    let mut progress = Progress::new();
    let mut films = Vec::new();
    for (number, path) in paths.iter().enumerate() {
        let word = || format!("film {} of {}: {}", number + 1, paths.len(), short(path));
        films.push((path.as_path(), look(path, rules, &mut progress, &word)));
    }
    drop(progress);
    let text = match matches.get_flag("json") {
        true => json_of(&films, stream),
        false => {
            text(&films, matches.value_source("stream") == Some(ValueSource::CommandLine), stream)
        }
    };
    io::stdout().write_all(text.as_bytes()).map_err(Failure::standard_output)?;
    Ok(status(films))
}

/// Looks into a film.
fn look(
    path: &Path,
    rules: Rules,
    progress: &mut Progress,
    word: &dyn Fn() -> String,
) -> Result<Report, io::Error> {
    match film::read(path) {
        Ok(film) => {
            let watch = |position| progress.show(position, film.len(), word);
            Ok(Report::of(&film, rules, watch))
        }
        Err(Unread::Refused(refusal, bytes)) => {
            Ok(Report::refused(Refused::at_header(refusal), bytes))
        }
        Err(Unread::Failed(error)) => Err(error),
    }
}

/// The end of a film's name, behind a bar of progress.
fn short(path: &Path) -> String {
    tail(&name(path), 40)
}

/// Lines for one film, a table for more. Of a single file that cannot be read there is nothing to list.
fn text(films: &[Found<'_>], is_stream_asked: bool, stream: usize) -> String {
    let text = match films {
        [(path, Ok(report))] => listing::lines(&name(path), stream, report),
        [_] => String::new(),
        _ => table_of(films),
    };
    let lacks = |(path, found): &Found<'_>| {
        let report = found.as_ref().ok()?;
        let streams = stream_numbers(report.readings.streams);
        (!streams.contains(&stream)).then(|| listing::lacking(&name(path), stream, &streams))
    };
    let lacking: String = films.iter().filter(|_| is_stream_asked).filter_map(lacks).collect();
    text + &lacking
}

fn table_of(films: &[Found<'_>]) -> String {
    let rows = films.iter().map(|(path, found)| match found {
        Ok(report) => listing::row(&name(path), report),
        Err(_) => listing::unreadable(&name(path)),
    });
    let rows: Vec<_> = Some(listing::HEADS.map(String::from)).into_iter().chain(rows).collect();
    let reports: Vec<_> = films.iter().filter_map(|(_, found)| found.as_ref().ok()).collect();
    let refusals = films.iter().filter_map(|(path, found)| {
        let refused = found.as_ref().ok()?.refused.as_ref()?;
        Some(format!("{}: {}\n    {}\n", name(path), refused.place(), refused.words))
    });
    let refusals: String = refusals.collect();
    let footnote = listing::footnote(&reports).unwrap_or_default();
    let gap = if refusals.is_empty() { "" } else { "\n" };
    format!("{}{footnote}{gap}{refusals}", table::table(&rows, output_width()))
}

fn json_of(films: &[Found<'_>], stream: usize) -> String {
    let objects = films.iter().map(|(path, found)| match found {
        Ok(report) => listing::object(&path.to_string_lossy(), stream, report).to_string(),
        Err(error) => json!({"file": path.to_string_lossy(), "error": why(error)}).to_string(),
    });
    format!("[\n  {}\n]\n", objects.collect::<Vec<_>>().join(",\n  "))
}

/// Says which files cannot be read. The exit status of all films.
fn status(films: Vec<Found<'_>>) -> u8 {
    let mut status = 0;
    for (path, found) in films {
        let of_film = match found {
            Ok(report) => report.refused.map_or(0, |_| REFUSED),
            Err(error) => {
                tell(Failure::Read(path.into(), error));
                FAILED
            }
        };
        status = status.max(of_film);
    }
    status
}
